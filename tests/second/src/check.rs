//! Board against ledger: demand 3 over lists of calls from the fresh board.
//!
//! After each call: the flash equals the ledger's copy, the state is well
//! formed and (while not running) its upload is the ledger's. At each answered
//! finalize: the count told is the ledger's; it is at most the whole pages of
//! the profile's size plus f, at most n, and at least the number of pages that changed; the accepted
//! bytes stand in flash; every other byte is as just before; the same bytes
//! accepted again since an earlier finalize give count 0.
//!
//! Of numbers and tally (request W3), after each frame: the number is the one
//! that `silences` judges, and each counter is what its start and the numbers
//! since make it.
//!
//! Of addresses (request W1), after each call: no reserved address is the own
//! one; the own address changes by an OK to set address and by general calls
//! only; on I2C a reply is read at the address that its frame went to, the OK
//! to set address at the new one.

use crate::board;
use crate::half_bytes;
use crate::ledger::{Event, Ledger, Seen};
use crate::master::{self, Request};
use crate::model::*;
use crate::pages;
use crate::rng::Rng;
use crate::running;
use crate::silences::{self, judged, Watched};
use crate::sums::{push_crc16, push_crc8};
use crate::tally::Tally;
use crate::total;
use crate::walks;

#[derive(Clone, Debug)]
pub enum Call {
    Frame { address: u8, frame: Vec<u8>, room: usize },
    Read { address: u8, room: usize },
}

/// An answered finalize, and the accepted writes since.
#[derive(Clone)]
struct Upload {
    bytes: Vec<u8>,
    writes: Vec<(usize, Vec<u8>)>,
}

/// Board and ledger side by side.
#[derive(Clone)]
pub struct Pair {
    profile: Profile,
    state: State,
    flash: Vec<u8>,
    ledger: Ledger,
    watched: Watched,
    finished: Vec<Upload>,
    pub commits: u64,
    pub finalizes: u64,
    pub repeats: u64,
    /// Finalizes whose count is the most that whole pages and f allow.
    pub at_bound: u64,
    /// Set addresses answered OK, and with INVALID_ARGUMENTS for their address.
    pub moves: u64,
    pub reserved: u64,
}

pub fn demand(holds: bool, what: &str) -> Result<(), String> {
    if holds {
        return Ok(());
    }
    Err(what.to_string())
}

impl Pair {
    pub fn new(profile: Profile, flash: Vec<u8>) -> Pair {
        let ledger = Ledger::new(&flash);
        Pair {
            profile,
            state: State::fresh(),
            flash,
            ledger,
            watched: Watched::new(Tally::default()),
            finished: Vec::new(),
            commits: 0,
            finalizes: 0,
            repeats: 0,
            at_bound: 0,
            moves: 0,
            reserved: 0,
        }
    }

    /// One call on the board, entered in the ledger, with all demands tested.
    pub fn call(&mut self, call: &Call) -> Result<(), String> {
        let before = (self.state.clone(), self.ledger.count, fingerprint(&self.flash));
        let tally = self.watched.tally;
        let (seen, answer, out) = self.run(call);
        self.numbers(&before.0, tally, seen, answer.number, out.len())?;
        let reply = out.get(..answer.len).unwrap_or(&[]);
        let event = self.ledger.enter(&self.profile, seen, answer.number, reply);
        demand(self.flash == self.ledger.copy, "flash differs from the ledger's copy")?;
        if answer.number > 1 {
            let same = self.state == before.0 && fingerprint(&self.flash) == before.2;
            return demand(same && event == Event::Other, "a refused call changed something");
        }
        demand(!state_malformed(&self.profile, &self.state), "the state became malformed")?;
        self.same_upload()?;
        self.addresses(before.0.own, seen, answer.number, reply)?;
        self.commits += u64::from(self.ledger.count > before.1);
        self.follow(event)
    }

    fn run<'a>(&mut self, call: &'a Call) -> (Seen<'a>, Answer, Vec<u8>) {
        match call {
            Call::Frame { address, frame, room } => {
                let mut out = vec![0; *room];
                let (p, s, flash) = (&self.profile, &mut self.state, &mut self.flash);
                let tally = &mut self.watched.tally;
                let answer = board::receive_tally(p, s, flash, &mut out, *address, frame, tally);
                (Seen::Frame { address: *address, frame }, answer, out)
            }
            Call::Read { address, room } => {
                let mut out = vec![0; *room];
                let answer = board::read(&self.profile, &self.state, &self.flash, &mut out, *address);
                (Seen::Read { address: *address }, answer, out)
            }
        }
    }

    /// The number of a frame is the judged one, and the tally what the numbers make it. A read counts nothing.
    fn numbers(&mut self, before: &State, tally: Tally, seen: Seen, number: u8, room: usize) -> Result<(), String> {
        let Seen::Frame { address, frame } = seen else {
            return demand(self.watched.tally == tally, "a read was counted");
        };
        let refused = refusal(&self.profile, before, self.flash.len(), room);
        let due = refused.unwrap_or_else(|| judged(&self.profile, before, address, frame));
        demand(number == due, &format!("number {number}, judged {due}"))?;
        self.watched.after(self.profile.bus, tally, number)
    }

    /// While not running the state's upload is the ledger's.
    fn same_upload(&self) -> Result<(), String> {
        if self.state.running {
            return Ok(());
        }
        let ledger = &self.ledger;
        demand(self.state.next as usize == ledger.accepted.len(), "next is not the number accepted")?;
        demand(u64::from(self.state.count) == ledger.count, "the counts differ")?;
        let uncommitted = &ledger.accepted[ledger.committed..];
        demand(self.state.waiting_bytes() == uncommitted, "waiting bytes are not the uncommitted ones")
    }

    fn addresses(&mut self, before: Own, seen: Seen, number: u8, reply: &[u8]) -> Result<(), String> {
        demand(own_is_free(self.profile.bus, self.state.own), "a reserved address became the own one")?;
        let Seen::Frame { address, frame } = seen else {
            return demand(self.state.own == before, "a read changed the own address");
        };
        let set = new_address_of(self.profile.bus, frame);
        let answered = |status: u8| number == 0 && reply.get(self.status_place()) == Some(&status);
        match set {
            Some(new) if answered(OK) => {
                demand(self.state.own == Own::Address(new), "an OK to set address did not set it")?;
                self.moves += 1;
                return self.is_read(new, reply);
            }
            Some(_) if answered(INVALID_ARGUMENTS) => self.reserved += 1,
            _ => {}
        }
        let to_default = number == 1 && self.state.own == Own::DefaultRange;
        demand(self.state.own == before || to_default, "the own address changed without an OK")?;
        if number == 0 {
            return self.is_read(address, reply);
        }
        Ok(())
    }

    fn status_place(&self) -> usize {
        match self.profile.bus {
            Bus::I2c => 0,
            Bus::Rs485 => 1,
        }
    }

    /// On I2C the reply is read at the address.
    fn is_read(&self, address: u8, reply: &[u8]) -> Result<(), String> {
        if self.profile.bus == Bus::Rs485 {
            return Ok(());
        }
        let mut out = vec![0; MOST_M as usize];
        let answer = board::read(&self.profile, &self.state, &self.flash, &mut out, address);
        let same = answer.number == 0 && out.get(..answer.len) == Some(reply);
        demand(same, "a reply is not read where it must be")
    }

    fn follow(&mut self, event: Event) -> Result<(), String> {
        match event {
            Event::Write { address, data } => {
                for upload in &mut self.finished {
                    upload.writes.push((address, data.clone()));
                }
                Ok(())
            }
            Event::Finalize { told } => self.at_finalize(told),
            Event::Reset | Event::Other => Ok(()),
        }
    }

    fn at_finalize(&mut self, told: u64) -> Result<(), String> {
        self.finalizes += 1;
        let ledger = &self.ledger;
        let n = ledger.accepted.len();
        demand(told == ledger.count, "the count told is not the ledger's")?;
        let bound = self.bound();
        demand(told <= bound, "count over whole pages plus f")?;
        self.at_bound += u64::from(told == bound && told > 0);
        demand(told <= n as u64, "count over the bytes accepted")?;
        demand(told >= self.changed_pages(), "count under the pages that changed")?;
        let first = self.profile.o as usize;
        let end = first + n;
        let stand = self.flash.get(first..end) == Some(&ledger.accepted[..]);
        demand(stand, "accepted bytes don't stand in flash")?;
        let others = self.flash.get(..first) == ledger.earlier.get(..first)
            && self.flash.get(end..) == ledger.earlier.get(end..);
        demand(others, "another byte changed")?;
        self.repeated(told)?;
        self.finished.push(Upload { bytes: self.ledger.accepted.clone(), writes: Vec::new() });
        Ok(())
    }

    fn page(&self) -> usize {
        self.profile.page as usize
    }

    /// Demand 3's bound on the erase count: the whole pages of the accepted bytes, and f.
    fn bound(&self) -> u64 {
        let whole = self.ledger.accepted.len() / self.page();
        whole as u64 + self.ledger.f
    }

    /// Pages that differ from the earlier copy.
    fn changed_pages(&self) -> u64 {
        let now = self.flash.chunks(self.page());
        let earlier = self.ledger.earlier.chunks(self.page());
        now.zip(earlier).filter(|(a, b)| a != b).count() as u64
    }

    /// Bytes accepted again since an earlier finalize: the count is 0.
    fn repeated(&mut self, told: u64) -> Result<(), String> {
        for upload in &self.finished {
            if joined(&upload.writes).as_ref() == Some(&upload.bytes) {
                self.repeats += 1;
                demand(told == 0, "the same bytes accepted again, count not 0")?;
            }
        }
        Ok(())
    }
}

/// The default range, or an address that set address may give; written apart from `reserved`.
fn own_is_free(bus: Bus, own: Own) -> bool {
    match (bus, own) {
        (_, Own::DefaultRange) => true,
        (Bus::I2c, Own::Address(address)) => (8..120).contains(&address),
        (Bus::Rs485, Own::Address(address)) => (1..248).contains(&address),
    }
}

/// The new address in a set address of the right length, on I2C without its top bit.
fn new_address_of(bus: Bus, frame: &[u8]) -> Option<u8> {
    match (bus, frame) {
        (Bus::I2c, [0x01, new, _, _]) => Some(new % 128),
        (Bus::Rs485, [_, 0x01, new, _, _, _]) => Some(*new),
        _ => None,
    }
}

/// The data of writes that begin at 0, each next at the previous end.
fn joined(writes: &[(usize, Vec<u8>)]) -> Option<Vec<u8>> {
    let mut data = Vec::new();
    if writes.is_empty() {
        return None;
    }
    for (address, bytes) in writes {
        if *address != data.len() {
            return None;
        }
        data.extend_from_slice(bytes);
    }
    Some(data)
}

fn fingerprint(bytes: &[u8]) -> u64 {
    bytes.iter().fold(17u64, |sum, &byte| sum.wrapping_mul(1_000_003).wrapping_add(u64::from(byte)))
}

/// A frame with the bus's address and CRC.
pub fn framed(bus: Bus, address: u8, code: u8, args: &[u8]) -> Vec<u8> {
    let mut frame = Vec::new();
    if bus == Bus::Rs485 {
        frame.push(address);
    }
    frame.push(code);
    frame.extend_from_slice(args);
    match bus {
        Bus::I2c => push_crc8(&mut frame),
        Bus::Rs485 => push_crc16(&mut frame),
    }
    frame
}

pub fn write_frame(bus: Bus, address: u8, at: u64, data: &[u8]) -> Vec<u8> {
    let mut args = vec![(at >> 8) as u8, at as u8];
    args.extend_from_slice(data);
    framed(bus, address, WRITE, &args)
}

/// A general call in its exact form; code 4 or 6.
pub fn general_frame(bus: Bus, code: u8) -> Vec<u8> {
    match bus {
        Bus::I2c => vec![code],
        Bus::Rs485 => framed(bus, 0, code.wrapping_add(0x40), &[]),
    }
}

/// Pages of 64 bytes.
pub fn plain_profile(bus: Bus, m: u32, s: u32, o: u32) -> Profile {
    paged_profile(bus, m, 64, s, o)
}

pub fn paged_profile(bus: Bus, m: u32, page: u32, s: u32, o: u32) -> Profile {
    Profile {
        bus,
        m,
        page,
        s,
        o,
        hardware: 7,
        compatible: 0x10,
        actual: 0x13,
        version: 3,
        serial: vec![0x51, 0x52, 0x53],
    }
}

fn frame_call(address: u8, frame: Vec<u8>) -> Call {
    Call::Frame { address, frame, room: 256 }
}

/// The calls of the exhaustive part, where S is two pages.
fn chosen(bus: Bus, page: u32) -> Vec<Call> {
    let size = page as usize;
    let (one, two) = (u64::from(page), 2 * u64::from(page));
    let write = |at: u64, data: &[u8]| frame_call(8, write_frame(bus, 8, at, data));
    let plain = |code: u8| frame_call(8, framed(bus, 8, code, &[]));
    let mut short = write(0, &[0x33; 3]);
    if let Call::Frame { room, .. } = &mut short {
        *room = 255;
    }
    vec![
        write(0, &vec![0x11; size + 6]),
        write(one + 6, &[0x22]),
        write(0, &[]),
        write(0, &vec![0xff; size]),
        write(one, &vec![0x11; size]),
        write(two, &[0x44]),
        plain(FINALIZE),
        plain(START),
        frame_call(0, general_frame(bus, 6)),
        frame_call(0, general_frame(bus, 4)),
        frame_call(8, framed(bus, 8, SET_ADDRESS, &[8, 0])),
        frame_call(8, framed(bus, 8, SET_ADDRESS, &[0, 0])),
        Call::Read { address: 8, room: 256 },
        frame_call(20, vec![0x06]),
        short,
    ]
}

/// All lists of up to `depth` more calls.
fn all_lists(pair: &Pair, calls: &[Call], depth: u32, done: &mut u64) -> Result<(), String> {
    if depth == 0 {
        return Ok(());
    }
    for call in calls {
        let mut next = pair.clone();
        next.call(call).map_err(|e| format!("{e} at {call:?}"))?;
        *done += 1;
        all_lists(&next, calls, depth - 1, done)?;
    }
    Ok(())
}

/// The ledger's numbers after each call of lists worked by hand, one for each page:
/// n, committed, count, f, the bound on the count.
pub fn ledger_by_hand() -> Result<u64, String> {
    let write = |at: u64, data: &[u8]| write_frame(Bus::I2c, 8, at, data);
    let finalize = || framed(Bus::I2c, 8, FINALIZE, &[]);
    let of_64 = [
        (write(0, &[0x11; 70]), [70, 64, 1, 0, 1]),
        (finalize(), [70, 70, 2, 1, 2]),
        (finalize(), [70, 70, 2, 1, 2]),
        (write(70, &[0x22]), [71, 70, 2, 1, 2]),
        (finalize(), [71, 71, 3, 2, 3]),
        (write(5, &[0x33]), [71, 71, 3, 2, 3]),
        (write(0, &[0x11; 70]), [70, 64, 0, 0, 1]),
        (finalize(), [70, 70, 0, 1, 2]),
        (write(0, &[]), [0, 0, 0, 0, 0]),
        (finalize(), [0, 0, 0, 0, 0]),
    ];
    let of_128 = [
        (write(0, &[0x11; 70]), [70, 0, 0, 0, 0]),
        (finalize(), [70, 70, 1, 1, 1]),
        (write(70, &[0x22; 57]), [127, 70, 1, 1, 1]),
        (write(127, &[0x22]), [128, 128, 2, 1, 2]),
        (finalize(), [128, 128, 2, 1, 2]),
        (write(128, &[0x33; 127]), [255, 128, 2, 1, 2]),
        (finalize(), [255, 255, 3, 2, 3]),
        (write(0, &[0x11; 70]), [70, 0, 0, 0, 0]),
        (write(70, &[0x22; 122]), [192, 128, 0, 0, 1]),
        (finalize(), [192, 192, 1, 1, 2]),
    ];
    by_hand(64, &of_64)?;
    by_hand(128, &of_128)?;
    Ok((of_64.len() + of_128.len()) as u64)
}

fn by_hand(page: u32, list: &[(Vec<u8>, [u64; 5])]) -> Result<(), String> {
    let mut pair = Pair::new(paged_profile(Bus::I2c, 256, page, 256, 0), vec![0xff; 256]);
    for (k, (frame, numbers)) in list.iter().enumerate() {
        pair.call(&frame_call(8, frame.clone()))?;
        let l = &pair.ledger;
        let got = [l.accepted.len() as u64, l.committed as u64, l.count, l.f, pair.bound()];
        demand(got == *numbers, &format!("ledger by hand, page {page}, call {k}: {got:?}, not {numbers:?}"))?;
    }
    Ok(())
}

/// On both buses and with both pages.
pub fn exhaustive(depth: u32) -> Result<u64, String> {
    let mut done = 0;
    for (bus, page) in [Bus::I2c, Bus::Rs485].into_iter().flat_map(|bus| PAGES.map(|page| (bus, page))) {
        let profile = paged_profile(bus, 256, page, 2 * page, page);
        let pair = Pair::new(profile, vec![0xff; 4 * page as usize]);
        all_lists(&pair, &chosen(bus, page), depth, &mut done)?;
    }
    Ok(done)
}

fn random_profile(rng: &mut Rng) -> Profile {
    let bus = if rng.percent(50) { Bus::I2c } else { Bus::Rs485 };
    let m = rng.of(&[32, 33, 40, 64, 70, 100, 255, 256, 256]) as u32;
    let page = rng.of(&PAGES.map(u64::from)) as u32;
    let s = page * rng.of(&[1, 2, 3, 4, 5, 10]) as u32;
    let o = page * rng.below(3) as u32;
    paged_profile(bus, m, page, s, o)
}

/// Mostly bytes of one image, so that uploads repeat.
fn piece(rng: &mut Rng, image: &[u8], at: usize, most: usize) -> Vec<u8> {
    let left = image.len().saturating_sub(at);
    let len = match rng.below(4) {
        0 => most.min(left),
        1 => rng.below(4) as usize,
        _ => rng.below(most as u64 + 1) as usize,
    };
    let len = if rng.percent(90) { len.min(left) } else { len };
    let mut data: Vec<u8> = image.iter().copied().skip(at).take(len).collect();
    data.resize(len.min(most), 0x5a);
    if rng.percent(6) {
        let k = rng.below(data.len() as u64) as usize;
        if let Some(byte) = data.get_mut(k) {
            *byte ^= 1 << rng.below(8);
        }
    }
    data
}

/// A new address: most of them near the reserved ones of either bus.
pub fn some_new_address(rng: &mut Rng, bus: Bus) -> u8 {
    let near: &[u64] = match bus {
        Bus::I2c => &[0, 7, 8, 119, 120, 127, 128, 135, 136, 247, 248, 255],
        Bus::Rs485 => &[0, 1, 247, 248, 255, 7, 120, 127, 128],
    };
    match rng.below(10) {
        0..=5 => rng.of(near) as u8,
        6..=8 => 8 + rng.below(112) as u8,
        _ => rng.byte(),
    }
}

fn random_call(rng: &mut Rng, pair: &Pair, image: &[u8]) -> Call {
    let bus = pair.profile.bus;
    let m = pair.profile.m as usize;
    let own = match pair.state.own {
        Own::DefaultRange => 8 + rng.below(8) as u8,
        Own::Address(address) => address,
    };
    let most = m - if bus == Bus::I2c { 4 } else { 6 };
    let room = if rng.percent(3) { m - 1 } else { m };
    let mut address = own;
    let mut frame = match rng.below(100) {
        0..=49 => {
            let at = if rng.percent(10) { 0 } else { pair.state.next as usize };
            let at = if rng.percent(4) { at + 1 } else { at };
            let data = piece(rng, image, at, most);
            write_frame(bus, own, at as u64, &data)
        }
        50..=57 => write_frame(bus, own, 0, &piece(rng, image, 0, most)),
        58..=75 => framed(bus, own, FINALIZE, &[]),
        76..=78 => framed(bus, own, READ, &[0, rng.byte(), rng.byte() % 32]),
        79..=81 => {
            let hardware = rng.of(&[0, 0, u64::from(pair.profile.hardware), 77]) as u8;
            framed(bus, own, SET_ADDRESS, &[some_new_address(rng, bus), hardware])
        }
        82 => framed(bus, own, START, &[]),
        83..=85 => {
            address = 0;
            general_frame(bus, if rng.percent(60) { 6 } else { 4 })
        }
        86..=90 => return Call::Read { address: own, room },
        91..=94 => {
            let len = rng.below(9) as usize;
            rng.bytes(len)
        }
        _ => framed(bus, own, rng.byte() % 16, &[]),
    };
    if rng.percent(5) {
        let k = rng.below(frame.len() as u64) as usize;
        if let Some(byte) = frame.get_mut(k) {
            *byte ^= 1 << rng.below(8);
        }
    }
    if pair.state.running && rng.percent(40) {
        return frame_call_with(0, general_frame(bus, 6), room);
    }
    Call::Frame { address, frame, room }
}

fn frame_call_with(address: u8, frame: Vec<u8>, room: usize) -> Call {
    Call::Frame { address, frame, room }
}

/// What random lists came to under one page: calls, commits, finalizes, finalizes at their bound, repeated uploads, moves and
/// refused reserved addresses.
type Sums = [u64; 7];

/// Random lists; what they came to under each page.
pub fn random(seed: u64, lists: u64) -> Result<[Sums; 2], String> {
    let mut all = [[0; 7]; 2];
    for list in 0..lists {
        let mut rng = Rng::new(seed.wrapping_mul(0x1_0000_0001).wrapping_add(list));
        let profile = random_profile(&mut rng);
        let sums = &mut all[usize::from(profile.page == 128)];
        let extra = rng.of(&[0, 1, 64]);
        let len = (u64::from(profile.o) + u64::from(profile.s) + extra) as usize;
        let flash = if rng.percent(50) { vec![0xff; len] } else { rng.bytes(len) };
        let size = profile.s as usize;
        let image = if rng.percent(40) { vec![0xff; size] } else { rng.bytes(size) };
        let mut pair = Pair::new(profile, flash);
        pair.watched = Watched::new(silences::any_tally(&mut rng));
        for step in 0..10 + rng.below(50) {
            let call = random_call(&mut rng, &pair, &image);
            pair.call(&call).map_err(|e| format!("{e}; list {list}, call {step}: {call:?}"))?;
            sums[0] += 1;
        }
        let counts =
            [pair.commits, pair.finalizes, pair.at_bound, pair.repeats, pair.moves, pair.reserved];
        for (sum, count) in sums[1..].iter_mut().zip(counts) {
            *sum += count;
        }
    }
    Ok(all)
}

/// Master against board: each encoded request is answered, and the answer decodes.
pub fn round_trip() -> Result<u64, String> {
    let mut done = 0;
    for bus in [Bus::I2c, Bus::Rs485] {
        for code in 0..15u32 {
            for m in 32..=256u32 {
                done += one_trip(bus, code, m).map_err(|e| format!("{e}: code {code}, M {m}"))?;
            }
        }
    }
    Ok(done)
}

fn one_trip(bus: Bus, code: u32, m: u32) -> Result<u64, String> {
    let most = m - reply_frame_bytes(bus) as u32;
    let data = vec![0x11; most as usize - 1];
    let a = if code == u32::from(SET_ADDRESS) { 9 } else { 0 };
    let request = Request { code, destination: 8, a, b: if code == 8 { most } else { 7 }, data: &data };
    let mut out = [0; 256];
    let made = master::encode(bus, m, &request, &mut out);
    if served(code).is_none() {
        demand(made.number == 7, "an unserved command was encoded")?;
        return Ok(1);
    }
    demand(made.number == 0, "a served command was not encoded")?;
    let profile = plain_profile(bus, m, 256, 0);
    let mut state = State::fresh();
    let mut flash = vec![0xff; 256];
    let mut reply = [0; 256];
    let frame = &out[..made.len];
    let answer = board::receive(&profile, &mut state, &mut flash, &mut reply, 8, frame);
    if code == u32::from(START) {
        demand(answer.number == 1 && state.running, "start was not carried out")?;
        return Ok(1);
    }
    demand(answer.number == 0, "a request got no reply")?;
    let asked = if code == 8 { most } else { 0 };
    let decoded = master::decode(bus, code, 8, asked, &reply[..answer.len]);
    demand(matches!(decoded, Ok(d) if d.status == OK), "a reply did not decode as OK")?;
    Ok(1)
}

/// Set address, every new address: the board takes exactly the free ones; what the encoder makes the board takes, what it
/// refuses the board refuses if the address fits the bus.
pub fn new_addresses() -> Result<u64, String> {
    let mut done = 0;
    for bus in [Bus::I2c, Bus::Rs485] {
        for new in 0..=255u8 {
            one_new_address(bus, new).map_err(|e| format!("{e}: {bus:?}, new address {new}"))?;
            done += 1;
        }
    }
    Ok(done)
}

fn one_new_address(bus: Bus, new: u8) -> Result<(), String> {
    let request = Request { code: u32::from(SET_ADDRESS), destination: 8, a: u32::from(new), b: 7, data: &[] };
    let mut out = [0; 32];
    let made = master::encode(bus, 32, &request, &mut out);
    let frame = framed(bus, 8, SET_ADDRESS, &[new, 7]);
    let mut pair = Pair::new(plain_profile(bus, 32, 64, 0), vec![0xff; 64]);
    pair.call(&frame_call(8, frame.clone()))?;
    let taken = if bus == Bus::I2c { new % 128 } else { new };
    let free = own_is_free(bus, Own::Address(taken));
    demand((pair.moves, pair.reserved) == (u64::from(free), u64::from(!free)), "not taken exactly if free")?;
    if made.number == 0 {
        demand(out[..made.len] == frame[..], "the request is not the frame")?;
        return demand(pair.moves == 1, "made by the encoder, refused by the board");
    }
    demand(made.number == 7, "neither made nor refused by the encoder")?;
    let fits = bus == Bus::Rs485 || new < 128;
    demand(!fits || pair.reserved == 1, "refused by the encoder, taken by the board")
}

/// All checks; a report line for each.
pub fn all(lists: u64, depth: u32) -> Result<Vec<String>, String> {
    let mut report = vec![half_bytes::compare()?];
    report.push(format!("any input: {} rounds", total::any_input(5, 10 * lists)?));
    report.push(format!("ledger by hand: {} calls", ledger_by_hand()?));
    report.push(format!("master against board: {} requests", round_trip()?));
    report.push(format!("new addresses, encoder against board: {}", new_addresses()?));
    report.push(running::compare(4, lists)?);
    report.push(silences::compare(6, lists / 2)?);
    report.push(format!("all lists of up to {depth} calls: {} calls", exhaustive(depth)?));
    report.push(pages::compare(7, lists / 4)?);
    report.push(walks::compare(8, lists / 10)?);
    for (page, sums) in PAGES.iter().zip(random(1, lists)?) {
        let [calls, commits, finalizes, at_bound, repeats, moves, reserved] = sums;
        report.push(format!(
            "random lists with pages of {page}: {calls} calls, {commits} calls with commits, \
             {finalizes} answered finalizes, {at_bound} of them at their bound, {repeats} repeated uploads, \
             {moves} addresses set, {reserved} refused as reserved"
        ));
        demand(lists < 200 || sums.iter().all(|&n| n > 0), &format!("something never happened with pages of {page}"))?;
    }
    Ok(report)
}

#[cfg(test)]
mod tests {
    #[test]
    fn board_and_ledger_agree() {
        super::all(300, 2).unwrap();
    }
}
