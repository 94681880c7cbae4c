//! The smallest list that still shows a difference, as far as found: items are dropped, then made simpler.

use crate::alarms::Alarm;
use crate::compare::{Difference, Pair, Stop};
use crate::items::*;
use crate::layout::{profile_of, state_of, tally_of, STATE_BYTES, TALLY_BYTES};
use rules::check::general_frame;
use rules::master::{RESET_ADDRESS_CALL, RESET_CALL};
use rules::model::*;
use rules::sums::{crc16_right, crc8_right, push_crc16, push_crc8};
use rules::tally::Tally as Counters;
use std::time::{Duration, Instant};

const LONGEST: Duration = Duration::from_secs(30);

pub struct Smallest {
    pub items: Vec<Item>,
    pub difference: Difference,
    pub tries: u64,
}

struct Search {
    best: Smallest,
    end: Instant,
}

/// Where the list differs first.
pub fn first_difference(items: &[Item]) -> Option<(usize, Difference)> {
    let mut pair = Pair::new();
    for (k, item) in items.iter().enumerate() {
        match pair.step(item) {
            Ok(()) => {}
            Err(Stop::Differs(difference)) => return Some((k, difference)),
            Err(Stop::Unfit) => return None,
        }
    }
    None
}

/// None if the list shows no difference.
pub fn smallest(items: &[Item]) -> Option<Smallest> {
    let (k, difference) = first_difference(items)?;
    let best = Smallest { items: items[..=k].to_vec(), difference, tries: 1 };
    let mut search = Search { best, end: Instant::now() + LONGEST };
    while search.plain_last()
        | search.drop_items()
        | search.plain_addresses()
        | search.without_tally()
        | search.simplify_items()
    {}
    Some(search.best)
}

impl Search {
    /// Takes the list if it differs too, up to its first difference.
    fn takes(&mut self, items: Vec<Item>) -> bool {
        if Instant::now() > self.end {
            return false;
        }
        self.best.tries += 1;
        match first_difference(&items) {
            Some((k, difference)) => {
                self.best.items = items;
                self.best.items.truncate(k + 1);
                self.best.difference = difference;
                true
            }
            None => false,
        }
    }

    /// Puts lines that `second answer` reads in place of a `#!` line, and a call on what must not be missed in place of the frame that
    /// it followed and all before it.
    fn plain_last(&mut self) -> bool {
        if let (Some(alarm), false) = (&self.best.difference.alarm, matches!(self.best.items.last(), Some(Item::Alarm(_)))) {
            let alone = vec![Item::Alarm((**alarm).clone())];
            if self.takes(alone) {
                return true;
            }
        }
        let Some(lines) = self.best.items.last().and_then(plain) else {
            return false;
        };
        let mut items = self.best.items.clone();
        items.pop();
        items.extend(lines);
        self.takes(items)
    }

    /// Drops parts of the list: halves, quarters, and so on to single items.
    fn drop_items(&mut self) -> bool {
        let mut changed = false;
        let mut part = self.best.items.len().div_ceil(2);
        while part > 0 {
            let mut at = 0;
            while at < self.best.items.len() {
                let mut items = self.best.items.clone();
                let end = (at + part).min(items.len());
                items.drain(at..end);
                if self.takes(items) {
                    changed = true;
                } else {
                    at += part;
                }
            }
            part /= 2;
        }
        changed
    }

    /// Sends everything to address 8 and drops what sets an address.
    fn plain_addresses(&mut self) -> bool {
        let mut bus = None;
        let mut items = Vec::new();
        for item in &self.best.items {
            if let Item::Profile(p) = item {
                bus = Some(p.bus);
            }
            match (item, bus) {
                (Item::Board(call), Some(bus)) => items.extend(to_eight(call, bus).map(Item::Board)),
                _ => items.push(item.clone()),
            }
        }
        let length = |items: &[Item]| items.iter().map(|item| cost(item).0 + 1).sum::<usize>();
        length(&items) < length(&self.best.items) && self.takes(items)
    }

    /// Puts frames that are not counted in place of counted ones: all, else one after the other.
    fn without_tally(&mut self) -> bool {
        let counted = |item: &Item| not_counted(item).is_some();
        if !self.best.items.iter().any(counted) {
            return false;
        }
        let all = self.best.items.iter().map(|item| not_counted(item).unwrap_or_else(|| item.clone())).collect();
        if self.takes(all) {
            return true;
        }
        let mut changed = false;
        for k in 0..self.best.items.len() {
            let Some(plain) = self.best.items.get(k).and_then(not_counted) else {
                continue;
            };
            let mut items = self.best.items.clone();
            items[k] = plain;
            changed |= self.takes(items);
        }
        changed
    }

    fn simplify_items(&mut self) -> bool {
        let mut changed = false;
        let mut k = 0;
        while k < self.best.items.len() {
            while self.simplify(k) {
                changed = true;
            }
            k += 1;
        }
        changed
    }

    /// Puts a simpler item in place of one.
    fn simplify(&mut self, k: usize) -> bool {
        let Some(item) = self.best.items.get(k) else {
            return false;
        };
        let profile = self.best.items[..=k].iter().rev().find_map(|item| match item {
            Item::Profile(p) => Some(p.clone()),
            _ => None,
        });
        let cost = cost(item);
        for simpler in simpler(item, profile.as_ref()) {
            if self::cost(&simpler) < cost {
                let mut items = self.best.items.clone();
                items[k] = simpler;
                if self.takes(items) {
                    return true;
                }
            }
        }
        false
    }
}

/// Shorter lines first, then lines with more zeros, then with smaller digits.
fn cost(item: &Item) -> (usize, usize, usize) {
    let text = item.text();
    let sum = text.bytes().map(usize::from).sum();
    (text.len(), text.bytes().filter(|&c| c != b'0').count(), sum)
}

/// A counted frame by the call that takes no tally.
fn not_counted(item: &Item) -> Option<Item> {
    match item {
        Item::Board(call) if call.is_counted() => Some(Item::Board(without_tally(call))),
        Item::Aside(call, buffers) if call.is_counted() => {
            Some(Item::Aside(without_tally(call), Buffers { tally: None, ..buffers.clone() }))
        }
        _ => None,
    }
}

fn without_tally(call: &BoardCall) -> BoardCall {
    match call {
        BoardCall::Receive { address, frame, .. } => {
            BoardCall::Receive { address: *address, frame: frame.clone(), counted: false }
        }
        BoardCall::Read { address } => BoardCall::Read { address: *address },
    }
}

/// A `#!` line as lines of the case-file format, where it has them.
fn plain(item: &Item) -> Option<Vec<Item>> {
    match item {
        Item::Aside(call, buffers) => plain_board_call(call, buffers),
        Item::AsideEncode(e, room) if e.bus < 2 && e.code != RESET_ADDRESS_CALL && e.code != RESET_CALL => {
            Some(vec![Item::Room(*room), Item::Encode(e.clone())])
        }
        Item::General { bus, m, reset, room } if *bus < 2 => {
            let code = if *reset == 0 { RESET_ADDRESS_CALL } else { RESET_CALL };
            let encode = Encode { bus: *bus, m: *m, code, to: 0, a: 0, b: 0, data: Vec::new() };
            Some(vec![Item::Room(*room), Item::Encode(encode)])
        }
        Item::AsideDecode(d) if d.bus < 2 && d.address < 256 => Some(vec![Item::Decode(d.clone())]),
        Item::AsideVersion { major, minor } if *major < 256 && *minor < 256 => {
            Some(vec![Item::Version { major: *major, minor: *minor }])
        }
        Item::AsideResetRunning(a, room) if a.bus < 2 && a.major < 256 && a.minor < 256 => {
            Some(vec![Item::Room(*room), Item::ResetRunning(a.clone())])
        }
        // the board's part of it
        Item::ResetRunning(ResetRunning { bus, major: 0, minor: 0, .. }) => {
            let frame = general_frame(if *bus == 0 { Bus::I2c } else { Bus::Rs485 }, 6);
            Some(vec![Item::Board(BoardCall::Receive { address: 0, frame, counted: false })])
        }
        _ => None,
    }
}

fn plain_board_call(call: &BoardCall, buffers: &Buffers) -> Option<Vec<Item>> {
    let address = match call {
        BoardCall::Receive { address, .. } | BoardCall::Read { address } => *address,
    };
    if address > 255 {
        return None;
    }
    let mut lines = Vec::new();
    if let Some(bytes) = &buffers.profile {
        let profile = profile_of(bytes).filter(|p| p.serial.len() <= 40)?;
        lines.push(Item::Profile(profile));
    }
    if let Some(len) = buffers.flash {
        lines.push(Item::Flash { len: len as u32, a: 0, b: 255 });
    }
    if let Some(bytes) = &buffers.state {
        lines.push(Item::State(Box::new(state_of(bytes)?)));
    }
    lines.extend(buffers.room.map(Item::Room));
    if let Some(bytes) = &buffers.tally {
        lines.push(Item::Tally(tally_of(bytes)?));
    }
    lines.push(Item::Board(call.clone()));
    Some(lines)
}

fn simpler(item: &Item, profile: Option<&Profile>) -> Vec<Item> {
    let bus = profile.map(|p| p.bus);
    match item {
        Item::Profile(p) => profiles(p),
        Item::Flash { len, a, b } => flashes(*len, *a, *b, profile),
        Item::State(s) => states(s),
        Item::Tally(tally) => tallies(tally),
        Item::Room(_) => profile.iter().map(|p| Item::Room(p.m.min(MOST_ROOM as u32) as usize)).collect(),
        Item::Board(call) => board_calls(call, bus).into_iter().map(Item::Board).collect(),
        Item::Aside(call, buffers) => asides(call, buffers, bus),
        Item::Encode(e) => encodes(e).into_iter().map(Item::Encode).collect(),
        Item::AsideEncode(e, room) => encodes(e).into_iter().map(|e| Item::AsideEncode(e, *room)).collect(),
        Item::Decode(d) => decodes(d).into_iter().map(Item::Decode).collect(),
        Item::AsideDecode(d) => decodes(d).into_iter().map(Item::AsideDecode).collect(),
        Item::TwoReads { code, asked, first, second } => {
            let bus = Some(Bus::I2c);
            let with = |first, second| Item::TwoReads { code: *code, asked: *asked, first, second };
            let firsts = frames(first, bus).into_iter().map(|bytes| with(bytes, second.clone()));
            firsts.chain(frames(second, bus).into_iter().map(|bytes| with(first.clone(), bytes))).collect()
        }
        Item::AsideVersion { major, .. } => {
            [0, 3, 255, 256].iter().map(|&minor| Item::AsideVersion { major: *major, minor }).collect()
        }
        Item::ResetRunning(a) => resets(a).into_iter().map(Item::ResetRunning).collect(),
        Item::AsideResetRunning(a, room) => {
            let simpler = resets(a).into_iter().map(|other| Item::AsideResetRunning(other, *room));
            simpler.chain([0, 1, 3, 4].map(|room| Item::AsideResetRunning(a.clone(), room))).collect()
        }
        Item::Noise(_) => (0..3).map(Item::Noise).collect(),
        Item::Alarm(alarm) => alarms(alarm),
        _ => Vec::new(),
    }
}

/// Smaller numbers, and shorter buffers and such with more zeros, one at a time.
fn alarms(alarm: &Alarm) -> Vec<Item> {
    let mut list = Vec::new();
    let mut copy = alarm.clone();
    for k in 0..copy.numbers_mut().len() {
        for number in [0, 1] {
            let mut other = alarm.clone();
            *other.numbers_mut()[k] = number;
            list.push(Item::Alarm(other));
        }
    }
    for (k, bytes) in alarm.buffers().iter().enumerate() {
        for simpler in shorter(bytes).into_iter().chain(zeroed(bytes)) {
            let mut other = alarm.clone();
            *other.buffers_mut()[k] = simpler;
            list.push(Item::Alarm(other));
        }
    }
    list
}

fn profiles(p: &Profile) -> Vec<Item> {
    let mut list = Vec::new();
    let mut with = |change: &dyn Fn(&mut Profile)| {
        let mut other = p.clone();
        change(&mut other);
        list.push(Item::Profile(other));
    };
    for s in [64, 128, 256, 1024] {
        with(&|p| p.s = s);
    }
    with(&|p| p.o = 0);
    with(&|p| p.o = 64);
    with(&|p| p.page = 0);
    with(&|p| p.page = 64);
    with(&|p| p.m = 32);
    with(&|p| p.m = 64);
    with(&|p| p.serial.clear());
    with(&|p| p.hardware = 1);
    with(&|p| p.compatible = 0);
    with(&|p| p.actual = 0);
    with(&|p| p.version = 0);
    list
}

fn flashes(len: u32, a: u32, b: u32, profile: Option<&Profile>) -> Vec<Item> {
    let mut list = Vec::new();
    if let Some(p) = profile {
        let need = p.o.wrapping_add(p.s);
        if need < len {
            list.push(Item::Flash { len: need, a, b });
        }
    }
    list.push(Item::Flash { len, a: 0, b });
    list.push(Item::Flash { len, a, b: 0 });
    list
}

fn states(s: &State) -> Vec<Item> {
    let mut list = vec![Item::Fresh];
    let mut with = |change: &dyn Fn(&mut State)| {
        let mut other = s.clone();
        change(&mut other);
        list.push(Item::State(Box::new(other)));
    };
    with(&|s| s.own = Own::DefaultRange);
    with(&|s| s.running = false);
    with(&|s| s.next = 0);
    with(&|s| s.w = 0);
    with(&|s| s.count = 0);
    with(&|s| s.reply_len = 0);
    with(&|s| s.waiting = [0; MOST_PAGE]);
    with(&|s| s.reply = [0; 256]);
    for other in zeroed(&s.waiting) {
        with(&|s| s.waiting.copy_from_slice(&other));
    }
    list
}

fn tallies(tally: &Counters) -> Vec<Item> {
    let mut list = vec![Counters::default()];
    for k in 0..5 {
        for simpler in [0, 1, 255, 65_534, 65_535] {
            let mut counters = tally.counters();
            counters[k] = simpler;
            list.push(Counters::of(counters));
        }
    }
    list.into_iter().map(Item::Tally).collect()
}

/// The call to address 8; none for set address.
fn to_eight(call: &BoardCall, bus: Bus) -> Option<BoardCall> {
    let eight = |address: u32| if address == 0 { 0 } else { 8 };
    match (call, bus) {
        (BoardCall::Read { address }, _) => Some(BoardCall::Read { address: eight(*address) }),
        (BoardCall::Receive { frame, .. }, Bus::I2c) if frame.first() == Some(&SET_ADDRESS) => None,
        (BoardCall::Receive { frame, .. }, Bus::Rs485) if frame.get(1) == Some(&SET_ADDRESS) => None,
        (BoardCall::Receive { address, frame, counted }, bus) => {
            let mut frame = frame.clone();
            if bus == Bus::Rs485 && crc16_right(&frame) && frame[0] != 0 {
                frame.truncate(frame.len() - 2);
                frame[0] = 8;
                push_crc16(&mut frame);
            }
            Some(BoardCall::Receive { address: eight(*address), frame, counted: *counted })
        }
    }
}

fn board_calls(call: &BoardCall, bus: Option<Bus>) -> Vec<BoardCall> {
    match call {
        BoardCall::Receive { address, frame, counted } => {
            let with = |frame| BoardCall::Receive { address: *address, frame, counted: *counted };
            frames(frame, bus).into_iter().map(with).collect()
        }
        BoardCall::Read { .. } => Vec::new(),
    }
}

fn asides(call: &BoardCall, buffers: &Buffers, bus: Option<Bus>) -> Vec<Item> {
    let mut list = Vec::new();
    let mut with = |change: &dyn Fn(&mut Buffers)| {
        let mut other = buffers.clone();
        change(&mut other);
        list.push(Item::Aside(call.clone(), other));
    };
    with(&|b| b.profile = None);
    with(&|b| b.state = None);
    with(&|b| b.flash = None);
    with(&|b| b.room = None);
    with(&|b| b.tally = None);
    if let Some(bytes) = &buffers.profile {
        for other in shorter(bytes).into_iter().chain(zeroed(bytes)) {
            with(&|b| b.profile = Some(other.clone()));
        }
    }
    if let Some(bytes) = &buffers.state {
        let whole: Vec<u8> = bytes.iter().take(STATE_BYTES).copied().collect();
        for other in [whole].into_iter().chain(zeroed(bytes)) {
            with(&|b| b.state = Some(other.clone()));
        }
    }
    if let Some(bytes) = &buffers.tally {
        let whole: Vec<u8> = bytes.iter().take(TALLY_BYTES).copied().collect();
        for other in [whole].into_iter().chain(shorter(bytes)).chain(zeroed(bytes)) {
            with(&|b| b.tally = Some(other.clone()));
        }
    }
    list.extend(board_calls(call, bus).into_iter().map(|call| Item::Aside(call, buffers.clone())));
    list
}

fn encodes(e: &Encode) -> Vec<Encode> {
    let mut list: Vec<Encode> = Vec::new();
    let mut with = |change: &dyn Fn(&mut Encode)| {
        let mut other = e.clone();
        change(&mut other);
        list.push(other);
    };
    with(&|e| e.a = 0);
    with(&|e| e.b = 0);
    with(&|e| e.m = 32);
    with(&|e| e.to = 8);
    for data in shorter(&e.data).into_iter().chain(zeroed(&e.data)) {
        with(&|e| e.data = data.clone());
    }
    list
}

fn resets(a: &ResetRunning) -> Vec<ResetRunning> {
    let mut list: Vec<ResetRunning> = Vec::new();
    let mut with = |change: &dyn Fn(&mut ResetRunning)| {
        let mut other = a.clone();
        change(&mut other);
        list.push(other);
    };
    for bus in [0, 1, 2] {
        with(&|a| a.bus = bus);
    }
    for m in [0, 32, 31, 256, 257] {
        with(&|a| a.m = m);
    }
    for number in [0, 1, 3, 255, 256] {
        with(&|a| a.major = number);
        with(&|a| a.minor = number);
    }
    list
}

fn decodes(d: &Decode) -> Vec<Decode> {
    let bus = match d.bus {
        0 => Some(Bus::I2c),
        1 => Some(Bus::Rs485),
        _ => None,
    };
    let mut list = vec![Decode { asked: 0, ..d.clone() }];
    list.extend(frames(&d.reply, bus).into_iter().map(|reply| Decode { reply, ..d.clone() }));
    list
}

/// Simpler frames. Where the check sum is right it is made right again.
fn frames(frame: &[u8], bus: Option<Bus>) -> Vec<Vec<u8>> {
    let tail = match bus {
        Some(Bus::I2c) if crc8_right(frame) => 1,
        Some(Bus::Rs485) if crc16_right(frame) => 2,
        _ => 0,
    };
    let body = &frame[..frame.len() - tail];
    let mut list: Vec<Vec<u8>> = shorter(body).into_iter().chain(zeroed(body)).collect();
    // a result less, with its length byte
    let at = if bus == Some(Bus::Rs485) { 2 } else { 1 };
    if let Some(&count @ 1..) = body.get(at) {
        for less in [count / 2, count - 1] {
            let mut other: Vec<u8> = body.iter().take(at + 1 + usize::from(less)).copied().collect();
            other[at] = less;
            list.insert(0, other);
        }
    }
    for frame in &mut list {
        match tail {
            1 => push_crc8(frame),
            2 => push_crc16(frame),
            _ => {}
        }
    }
    if tail > 0 {
        list.extend(shorter(frame));
    }
    list
}

/// The bytes without a half, a quarter, and so on to one byte.
fn shorter(bytes: &[u8]) -> Vec<Vec<u8>> {
    parts(bytes.len()).map(|(at, end)| [&bytes[..at], &bytes[end..]].concat()).collect()
}

/// The bytes with zeros in a half, a quarter, and so on to one byte.
fn zeroed(bytes: &[u8]) -> Vec<Vec<u8>> {
    let all = parts(bytes.len()).filter(|&(at, end)| bytes[at..end].iter().any(|&byte| byte != 0));
    all.map(|(at, end)| {
        let mut other = bytes.to_vec();
        other[at..end].fill(0);
        other
    })
    .collect()
}

/// Parts of a length, the longest first and the last first.
fn parts(len: usize) -> impl Iterator<Item = (usize, usize)> {
    let sizes = std::iter::successors(Some(len), |&size| if size > 1 { Some(size.div_ceil(2)) } else { None });
    sizes
        .filter(|&size| size > 0)
        .flat_map(move |size| (0..len.div_ceil(size)).rev().map(move |k| (k * size, ((k + 1) * size).min(len))))
}
