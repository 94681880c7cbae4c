//! The second program's rules and the library side by side: one item at a time, everything compared.

use crate::alarm_edges::{follow, Frame, Upload};
use crate::alarms::Alarm;
use crate::dead::Compared;
use crate::items::*;
use crate::layout::*;
use crate::library::{self, Lent};
use crate::pages::Called;
use crate::silences;
use crate::tally::{Kind, Tally};
use rules::board;
use rules::ledger::{event, Event, Seen};
use rules::master::{self, Request, RESET_ADDRESS_CALL, RESET_CALL};
use rules::model::*;
use rules::rng::Rng;
use rules::script::{fnv, hex, tally_text, UNTOUCHED};
use rules::tally::Tally as Counters;

/// What differs, and both answers as output lines of the case-file format.
pub struct Difference {
    pub what: String,
    pub second: String,
    pub library: String,
    /// The call on what must not be missed that differs.
    pub alarm: Option<Box<Alarm>>,
}

pub enum Stop {
    Differs(Difference),
    /// A board call before a profile and a flash are set.
    Unfit,
}

impl From<Difference> for Stop {
    fn from(difference: Difference) -> Stop {
        Stop::Differs(difference)
    }
}

/// One board on both sides. No profile, no state or no tally: the bytes say none.
struct Board {
    profile: Option<Profile>,
    state: Option<State>,
    flash: Vec<u8>,
    counters: Option<Counters>,
    profile_bytes: Vec<u8>,
    lent_profile: Lent,
    lent_state: Lent,
    lent_flash: Lent,
    lent_tally: Lent,
    room: usize,
    /// The page under which a call last left this state; none if it was given, or is fresh.
    made_under: Option<u32>,
}

/// What the second program's board was before a call, and the library's state buffer.
struct Before {
    state: Option<State>,
    state_bytes: Vec<u8>,
    counters: Option<Counters>,
}

pub struct Pair {
    board: Board,
    has_profile: bool,
    has_flash: bool,
    /// The upload since the standing board's last write at 0.
    upload: Option<Upload>,
    pub tally: Tally,
}

impl Pair {
    /// As a case file starts: fresh state, room for 256 bytes, all counters 0.
    pub fn new() -> Pair {
        let state = State::fresh();
        let counters = Counters::default();
        let board = Board {
            profile: None,
            profile_bytes: Vec::new(),
            lent_profile: Lent::new(&[]),
            lent_state: Lent::new(&state_bytes(&state)),
            state: Some(state),
            flash: Vec::new(),
            lent_flash: Lent::new(&[]),
            lent_tally: Lent::new(&tally_bytes(&counters)),
            counters: Some(counters),
            room: 256,
            made_under: None,
        };
        Pair { board, has_profile: false, has_flash: false, upload: None, tally: Tally::default() }
    }

    /// Sets what the item sets, or runs its call on both sides.
    pub fn step(&mut self, item: &Item) -> Result<(), Stop> {
        if matches!(item, Item::Profile(_) | Item::Flash { .. } | Item::Fresh | Item::State(_)) {
            self.upload = None;
        }
        match item {
            Item::Profile(p) => {
                let bytes = profile_bytes(p);
                self.board.profile = profile_of(&bytes);
                self.board.lent_profile = Lent::new(&bytes);
                self.board.profile_bytes = bytes;
                self.has_profile = true;
            }
            Item::Flash { len, a, b } => self.set_flash(*len, *a, *b),
            Item::Fresh => self.set_fresh()?,
            Item::State(s) => {
                self.board.lent_state = Lent::new(&state_bytes(s));
                self.board.state = Some((**s).clone());
                self.board.made_under = None;
            }
            Item::Room(n) => self.board.room = *n,
            Item::Tally(counters) => {
                self.board.lent_tally = Lent::new(&tally_bytes(counters));
                self.board.counters = Some(*counters);
            }
            Item::Board(call) => self.standing(call)?,
            Item::Alarm(alarm) => self.tally.alarms.line(alarm)?,
            Item::Aside(call, buffers) => self.aside(call, buffers)?,
            Item::Encode(e) => self.encode(e)?,
            Item::AsideEncode(e, room) => self.encode_any(e, *room)?,
            Item::General { bus, m, reset, room } => self.general(*bus, *m, *reset, *room)?,
            Item::Decode(d) | Item::AsideDecode(d) => self.decode(d)?,
            Item::TwoReads { code, asked, first, second } => self.two_reads(*code, *asked, first, second)?,
            Item::Version { major, minor } | Item::AsideVersion { major, minor } => {
                self.version(*major, *minor)?;
            }
            Item::ResetRunning(a) => self.reset_running(a, self.board.room)?,
            Item::AsideResetRunning(a, room) => self.reset_running(a, *room)?,
            Item::AsideFresh(len) => self.fresh(&vec![UNTOUCHED; *len]).map(|_| ())?,
            Item::Noise(seed) => self.board.noise(*seed),
        }
        Ok(())
    }

    fn set_flash(&mut self, len: u32, a: u32, b: u32) {
        let byte = |i: u32| (u64::from(a) * u64::from(i) + u64::from(b)) as u8;
        self.board.flash = (0..len).map(byte).collect();
        self.board.lent_flash = Lent::new(&self.board.flash);
        self.has_flash = true;
    }

    /// The library makes its fresh state itself, over bytes that say something else.
    fn set_fresh(&mut self) -> Result<(), Difference> {
        let given = vec![0xeb; STATE_BYTES + self.board.flash.len() % 3];
        self.board.lent_state = self.fresh(&given)?;
        self.board.state = Some(State::fresh());
        self.board.made_under = None;
        Ok(())
    }

    fn fresh(&mut self, given: &[u8]) -> Result<Lent, Difference> {
        let mut lent = Lent::new(given);
        let number = library::fresh(&mut lent);
        let wanted = if given.len() < STATE_BYTES { 4 } else { 0 };
        let mut due = given.to_vec();
        if wanted == 0 {
            due[..STATE_BYTES].fill(0);
        }
        let now = lent.bytes();
        if number != wanted || now != due || !lent.guarded() {
            let what = if number != wanted { "the number" } else { "the state buffer" };
            let (second, library) = (format!("Z {wanted} {}", hex(&due)), format!("Z {number} {}", hex(now)));
            return Err(Difference::of(what, second, library));
        }
        self.tally.call(Kind::Fresh, number);
        Ok(lent)
    }

    fn standing(&mut self, call: &BoardCall) -> Result<(), Stop> {
        if !self.has_profile || !self.has_flash {
            return Err(Stop::Unfit);
        }
        let (before, flash) = (self.board.before(), self.board.flash_before(call));
        let (number, reply) = self.board.call(call)?;
        self.board.count(&mut self.tally, &before, call, number, &reply);
        self.board.made(call, number);
        let (Some(p), Some(state), Some(after)) = (&self.board.profile, &before.state, &self.board.state) else {
            return self.alarms(call, &before, flash, number, &reply, &Event::Other);
        };
        let event = match call {
            BoardCall::Receive { address, frame, .. } => {
                let seen = Seen::Frame { address: (*address).min(255) as u8, frame };
                let event = event(p.bus, seen, number as u8, &reply);
                self.tally.frame(p, state, after, number, &reply, &event);
                event
            }
            BoardCall::Read { .. } => Event::Other,
        };
        self.alarms(call, &before, flash, number, &reply, &event)
    }

    /// The calls on what must not be missed after a received frame. Those on the upload follow frames that may end it, and some others.
    fn alarms(
        &mut self,
        call: &BoardCall,
        before: &Before,
        flash: Option<Vec<u8>>,
        number: u32,
        reply: &[u8],
        event: &Event,
    ) -> Result<(), Stop> {
        self.upload = match (self.upload.take(), event, &flash) {
            (_, Event::Write { address: 0, data }, Some(flash)) => {
                Some(Upload { earlier: flash.clone(), image: data.clone() })
            }
            (_, Event::Write { address: 0, .. }, None) => None,
            (Some(mut upload), Event::Write { data, .. }, _) => {
                upload.image.extend_from_slice(data);
                Some(upload)
            }
            (upload, _, _) => upload,
        };
        let Some(frame) = self.board.told(call, before, flash.as_deref(), number, reply) else {
            return Ok(());
        };
        self.tally.alarms.after_frame(&frame)?;
        let ends = number == 1 || matches!(event, Event::Finalize { .. }) || fnv(frame.frame) % 4 == 0;
        match &self.upload {
            Some(upload) if ends => Ok(self.tally.alarms.after_upload(&frame, upload)?),
            _ => Ok(()),
        }
    }

    /// On copies: whatever the call does, the standing board stays as it was.
    fn aside(&mut self, call: &BoardCall, buffers: &Buffers) -> Result<(), Stop> {
        if !self.has_profile || !self.has_flash {
            return Err(Stop::Unfit);
        }
        let mut board = self.board.copy(buffers);
        let (before, flash) = (board.before(), board.flash_before(call));
        let (number, reply) = board.call(call)?;
        board.count(&mut self.tally, &before, call, number, &reply);
        self.tally.aside += 1;
        match board.told(call, &before, flash.as_deref(), number, &reply) {
            Some(frame) => Ok(self.tally.alarms.after_frame(&frame)?),
            None => Ok(()),
        }
    }

    fn encode(&mut self, e: &Encode) -> Result<(), Difference> {
        let room = self.board.room;
        match e.code {
            RESET_ADDRESS_CALL => self.general(e.bus, e.m, 0, room),
            RESET_CALL => self.general(e.bus, e.m, 1, room),
            _ => self.encode_any(e, room),
        }
    }

    fn encode_any(&mut self, e: &Encode, room: usize) -> Result<(), Difference> {
        let (data, mut lent) = (Lent::new(&e.data), Lent::new(&vec![UNTOUCHED; room]));
        let got = library::encode(e.bus, e.m, e.code, e.to, e.a, e.b, &data, &mut lent);
        // the second program's codes of general calls are no commands of childbus_encode
        let code = if e.code == RESET_ADDRESS_CALL || e.code == RESET_CALL { u32::MAX } else { e.code };
        let request = Request { code, destination: e.to, a: e.a, b: e.b, data: &e.data };
        if data.bytes() != e.data || !data.guarded() {
            return Err(Difference::only("the data was changed"));
        }
        let number = request_same(e.bus, e.m, &request, room, got, &lent)?;
        self.tally.call(Kind::Encode, number);
        self.tally.address_edges.encoded(e, room, number);
        if let (0, Some(bus)) = (number, bus_of(e.bus)) {
            self.tally.half_bytes.request(bus, &lent.bytes()[..got.1]);
        }
        Ok(())
    }

    fn general(&mut self, bus: u32, m: u32, reset: u32, room: usize) -> Result<(), Difference> {
        let mut lent = Lent::new(&vec![UNTOUCHED; room]);
        let got = library::general(bus, m, reset, &mut lent);
        let code = if reset == 0 { RESET_ADDRESS_CALL } else { RESET_CALL };
        let request = Request { code, destination: 0, a: 0, b: 0, data: &[] };
        self.tally.call(Kind::General, request_same(bus, m, &request, room, got, &lent)?);
        Ok(())
    }

    fn decode(&mut self, d: &Decode) -> Result<(), Difference> {
        let reply = Lent::new(&d.reply);
        let got = library::decode(d.bus, d.code, d.address, d.asked, &reply);
        let wanted = match bus_of(d.bus) {
            None => (7, 0, 0, 0),
            Some(bus) => match master::decode(bus, d.code, d.address, d.asked, &d.reply) {
                Ok(is) => (0, u32::from(is.status), is.start, is.length),
                Err(number) => (u32::from(number), 0, 0, 0),
            },
        };
        let line = |(number, status, start, len)| format!("D {number} {status} {start} {len}");
        if got != wanted {
            return Err(Difference::of("the answer", line(wanted), line(got)));
        }
        if reply.bytes() != d.reply || !reply.guarded() {
            return Err(Difference::only("the reply was changed"));
        }
        self.tally.call(Kind::Decode, got.0);
        if let (0, Some(bus)) = (got.0, bus_of(d.bus)) {
            self.tally.decoded[got.1 as usize] += 1;
            self.tally.half_bytes.decoded(bus, &d.reply, got.2 + got.3);
        }
        Ok(())
    }

    fn two_reads(&mut self, code: u32, asked: u32, first: &[u8], second: &[u8]) -> Result<(), Difference> {
        let lent = (Lent::new(first), Lent::new(second));
        let got = library::two_reads(code, asked, &lent.0, &lent.1);
        let (which, results) = master::two_reads(code, asked, first, second);
        let start = if which == 0 { 0 } else { 2 };
        let wanted = (u32::from(which), start, results.len());
        if got != wanted {
            let part = match got.0 {
                1 => first.get(got.1..got.1.wrapping_add(got.2)),
                2 => second.get(got.1..got.1.wrapping_add(got.2)),
                _ => None,
            };
            let library = format!("T {} {} (start {}, length {})", got.0, hex(part.unwrap_or(&[])), got.1, got.2);
            let second = format!("T {which} {} (start {start}, length {})", hex(results), results.len());
            return Err(Difference::of("the answer", second, library));
        }
        let same = lent.0.bytes() == first && lent.1.bytes() == second;
        if !same || !lent.0.guarded() || !lent.1.guarded() {
            return Err(Difference::only("a read was changed"));
        }
        self.tally.call(Kind::TwoReads, got.0);
        Ok(())
    }

    fn version(&mut self, major: u32, minor: u32) -> Result<(), Difference> {
        let got = library::version(major, minor);
        let known = master::version(version_byte(major), version_byte(minor));
        let wanted = match known {
            Ok((major, minor)) => (0, u32::from(major), u32::from(minor)),
            Err(number) => (u32::from(number), 0, 0),
        };
        let line = |(number, major, minor)| format!("V {number} {major} {minor}");
        if got != wanted {
            return Err(Difference::of("the answer", line(wanted), line(got)));
        }
        self.tally.call(Kind::Version, got.0);
        self.tally.running.version(major, minor, got.0);
        Ok(())
    }

    fn reset_running(&mut self, a: &ResetRunning, room: usize) -> Result<(), Difference> {
        let mut lent = Lent::new(&vec![UNTOUCHED; room]);
        let got = library::reset_running(a.bus, a.m, a.major, a.minor, &mut lent);
        let mut out = vec![UNTOUCHED; room];
        let answer = match bus_of(a.bus) {
            Some(bus) => master::reset_running(bus, a.m, version_byte(a.major), version_byte(a.minor), &mut out),
            None => Answer::only(2),
        };
        let number = output_same('A', answer, &out, got, &lent)?;
        self.tally.call(Kind::ResetRunning, number);
        self.tally.running.called(a, room, number);
        match (number, bus_of(a.bus)) {
            (0, Some(bus)) if self.has_profile && self.has_flash => self.send_reset(bus, &lent.bytes()[..got.1]),
            _ => Ok(()),
        }
    }

    /// What the library wrote for a bus, as a general call to a copy of the standing board and, if that doesn't run, to one
    /// that does.
    fn send_reset(&mut self, bus: Bus, frame: &[u8]) -> Result<(), Difference> {
        self.send_reset_to(Buffers::default(), bus, frame)?;
        match &self.board.state {
            Some(s) if !s.running => {
                let state = Some(state_bytes(&State { running: true, ..s.clone() }));
                self.send_reset_to(Buffers { state, ..Buffers::default() }, bus, frame)
            }
            _ => Ok(()),
        }
    }

    fn send_reset_to(&mut self, buffers: Buffers, bus: Bus, frame: &[u8]) -> Result<(), Difference> {
        let made_to_run = buffers.state.is_some();
        let call = BoardCall::Receive { address: 0, frame: frame.to_vec(), counted: made_to_run };
        let mut board = self.board.copy(&buffers);
        let before = board.before();
        let name = if made_to_run { "the board made to run" } else { "the board" };
        let sent = |what: &str| format!("the reset, sent to {name}: {what}");
        let (number, reply) = board.call(&call).map_err(|d| Difference { what: sent(&d.what), ..d })?;
        board.count(&mut self.tally, &before, &call, number, &reply);
        if let (Some(p), Some(before), 0 | 1) = (&board.profile, &before.state, number) {
            // request W4 itself, whatever the second program's board says
            let fresh = state_of(board.lent_state.bytes()).is_some_and(|s| same_state(&s, &State::fresh()));
            let reset = number == 1 && fresh && board.lent_flash.bytes() == self.board.lent_flash.bytes();
            if p.bus == bus && !reset {
                return Err(Difference::only(&sent("it is not reset")));
            }
            self.tally.running.sent(bus, p, before, made_to_run);
        }
        Ok(())
    }
}

impl Difference {
    fn of(what: &str, second: String, library: String) -> Difference {
        Difference { what: what.to_string(), second, library, alarm: None }
    }

    fn only(what: &str) -> Difference {
        Difference::of(what, "-".to_string(), "-".to_string())
    }
}

fn bus_of(bus: u32) -> Option<Bus> {
    match bus {
        0 => Some(Bus::I2c),
        1 => Some(Bus::Rs485),
        _ => None,
    }
}

/// 255 stands for all numbers above it: no such major is known, every such minor counts as the highest.
fn version_byte(number: u32) -> u8 {
    number.min(255) as u8
}

/// A request of both sides; the number, if they are the same.
fn request_same(
    bus: u32,
    m: u32,
    request: &Request,
    room: usize,
    got: (u32, usize),
    lent: &Lent,
) -> Result<u32, Difference> {
    let mut out = vec![UNTOUCHED; room];
    let answer = match bus_of(bus) {
        Some(bus) => master::encode(bus, m, request, &mut out),
        None => Answer::only(2),
    };
    output_same('E', answer, &out, got, lent)
}

/// The number, if number, length made and every byte of the output are the same.
fn output_same(letter: char, answer: Answer, out: &[u8], got: (u32, usize), lent: &Lent) -> Result<u32, Difference> {
    let Some(what) = output_fault(answer, out, got, lent) else {
        return Ok(got.0);
    };
    let second = format!("{letter} {} {} 1", answer.number, hex(&out[..answer.len]));
    Err(Difference::of(&what, second, format!("{letter} {}", output_text(got, lent))))
}

/// What differs in number, length made and output bytes.
fn output_fault(answer: Answer, out: &[u8], got: (u32, usize), lent: &Lent) -> Option<String> {
    if got.0 != u32::from(answer.number) {
        return Some("the number".to_string());
    }
    if got.1 != answer.len {
        return Some(format!("the length made: second {}, library {}", answer.len, got.1));
    }
    if let Some(text) = bytes_fault("output", out, lent.bytes()) {
        return Some(text);
    }
    if !lent.guarded() {
        return Some("bytes outside the output were written".to_string());
    }
    None
}

fn bytes_fault(name: &str, second: &[u8], library: &[u8]) -> Option<String> {
    if second == library {
        return None;
    }
    let k = second.iter().zip(library).position(|(a, b)| a != b)?;
    Some(format!("{name} byte {k}: second {:02x}, library {:02x}", second[k], library[k]))
}

/// Number, bytes made, and 1 if the rest of the output is untouched.
fn output_text(got: (u32, usize), lent: &Lent) -> String {
    let (made, rest) = lent.bytes().split_at(got.1.min(lent.bytes().len()));
    let untouched = lent.guarded() && rest.iter().all(|&byte| byte == UNTOUCHED);
    format!("{} {} {}", got.0, hex(made), u8::from(untouched))
}

impl Board {
    /// A copy on both sides, with buffers of its own where they are given.
    fn copy(&self, buffers: &Buffers) -> Board {
        let profile = buffers.profile.as_deref().unwrap_or(&self.profile_bytes);
        let state = buffers.state.as_deref().unwrap_or(self.lent_state.bytes());
        let flash_len = buffers.flash.unwrap_or(self.flash.len()).min(self.flash.len());
        let flash = &self.flash[..flash_len];
        let tally = buffers.tally.as_deref().unwrap_or(self.lent_tally.bytes());
        Board {
            profile: profile_of(profile),
            state: state_of(state),
            flash: flash.to_vec(),
            counters: tally_of(tally),
            profile_bytes: profile.to_vec(),
            lent_profile: Lent::new(profile),
            lent_state: Lent::new(state),
            lent_flash: Lent::new(flash),
            lent_tally: Lent::new(tally),
            room: buffers.room.unwrap_or(self.room),
            made_under: self.made_under.filter(|_| buffers.state.is_none()),
        }
    }

    /// Random bytes in the library's state where it means nothing.
    fn noise(&mut self, seed: u32) {
        let mut bytes = self.lent_state.bytes().to_vec();
        let noise = Rng::new(u64::from(seed)).bytes(bytes.len());
        for place in self.state.iter().flat_map(|s| dead(s, noise.len())) {
            bytes[place.clone()].copy_from_slice(&noise[place]);
        }
        self.lent_state = Lent::new(&bytes);
    }

    /// After a received frame that was answered 0 or 1 the state is this page's.
    fn made(&mut self, call: &BoardCall, number: u32) {
        if let (Some(p), BoardCall::Receive { .. }, 0 | 1) = (&self.profile, call, number) {
            self.made_under = Some(p.page);
        }
    }

    /// A copy of the flash, if the call is a frame that the calls on what must not be missed follow.
    fn flash_before(&self, call: &BoardCall) -> Option<Vec<u8>> {
        match call {
            BoardCall::Receive { frame, .. } if follow(frame, self.flash.len()) => Some(self.lent_flash.bytes().to_vec()),
            _ => None,
        }
    }

    /// A received frame as the library left it.
    fn told<'a>(
        &'a self,
        call: &'a BoardCall,
        before: &'a Before,
        flash_before: Option<&'a [u8]>,
        number: u32,
        reply: &'a [u8],
    ) -> Option<Frame<'a>> {
        let (BoardCall::Receive { address, frame, .. }, Some(flash_before)) = (call, flash_before) else {
            return None;
        };
        let (profile, before) = (&self.profile_bytes, &before.state_bytes);
        let (after, flash) = (self.lent_state.bytes(), self.lent_flash.bytes());
        Some(Frame { profile, before, after, flash_before, flash, address: *address, frame, number, reply })
    }

    fn before(&self) -> Before {
        let state_bytes = self.lent_state.bytes().to_vec();
        Before { state: self.state.clone(), state_bytes, counters: self.counters }
    }

    fn count(&self, tally: &mut Tally, before: &Before, call: &BoardCall, number: u32, reply: &[u8]) {
        let rs485 = self.profile_bytes.first() == Some(&1);
        let kind = match (call, rs485) {
            (BoardCall::Receive { counted: false, .. }, false) => Kind::FrameI2c,
            (BoardCall::Receive { counted: false, .. }, true) => Kind::FrameRs485,
            (BoardCall::Receive { counted: true, .. }, false) => Kind::CountedI2c,
            (BoardCall::Receive { counted: true, .. }, true) => Kind::CountedRs485,
            (BoardCall::Read { .. }, _) => Kind::Read,
        };
        tally.call(kind, number);
        tally.most_flash = tally.most_flash.max(self.flash.len());
        let (Some(p), Some(s)) = (&self.profile, &before.state) else {
            return;
        };
        if let Some(after) = &self.state {
            let (page_byte, made_under) = (self.profile_bytes[PAGE_BYTE], self.made_under);
            tally.pages.called(&Called { p, page_byte, made_under, before: s, after, call, number, reply });
            tally.dead.compared(&Compared { p, before: s, after, given: &before.state_bytes, call, number });
        }
        if let BoardCall::Receive { address, frame, counted } = call {
            tally.address_edges.received(p, s, *address, frame, number, reply);
            tally.half_bytes.received(p.bus, frame, number, reply);
            let lent = silences::Lent { counters: before.counters, len: self.lent_tally.bytes().len() };
            let received = silences::Received { p, s, address: *address, frame, number };
            tally.silences.received(&received, if *counted { Some(&lent) } else { None });
        }
    }

    /// The call on both sides; number and reply, if everything is the same.
    fn call(&mut self, call: &BoardCall) -> Result<(u32, Vec<u8>), Difference> {
        let given = self.lent_state.bytes().to_vec();
        let given_tally = self.lent_tally.bytes().to_vec();
        let mut out = vec![UNTOUCHED; self.room];
        let mut lent_out = Lent::new(&out);
        let answer = self.second(call, &mut out);
        let got = self.library(call, &mut lent_out)?;
        let only_read = matches!(call, BoardCall::Read { .. });
        let what = output_fault(answer, &out, got, &lent_out)
            .or_else(|| bytes_fault("flash", &self.flash, self.lent_flash.bytes()))
            .or_else(|| self.state_fault(&given, only_read || got.0 > 1))
            .or_else(|| self.tally_fault(&given_tally))
            .or_else(|| self.guard_fault());
        let Some(what) = what else {
            out.truncate(answer.len);
            return Ok((got.0, out));
        };
        let letter = call.letter();
        let mut second = format!(
            "{letter} {} {} {} {:016x} 1",
            answer.number,
            hex(&out[..answer.len]),
            state_text(self.state.as_ref()),
            fnv(&self.flash)
        );
        let output = output_text(got, &lent_out);
        let (front, ok) = output.rsplit_once(' ').unwrap_or((&output, "0"));
        let state = state_text(state_of(self.lent_state.bytes()).as_ref());
        let mut library = format!("{letter} {front} {state} {:016x} {ok}", fnv(self.lent_flash.bytes()));
        if call.is_counted() {
            second = format!("{second} {}", counters_text(self.counters));
            library = format!("{library} {}", counters_text(tally_of(self.lent_tally.bytes())));
        }
        Err(Difference::of(&what, second, library))
    }

    /// childbus.h: a profile that the bytes don't say is number 2, such a state 4, in the order of the tests.
    fn second(&mut self, call: &BoardCall, out: &mut [u8]) -> Answer {
        let Some(p) = &self.profile else {
            return Answer::only(2);
        };
        let Some(s) = &mut self.state else {
            let number = refusal(p, &State::fresh(), self.flash.len(), out.len());
            return Answer::only(number.filter(|&n| n < 4).unwrap_or(4));
        };
        match call {
            // 128 and above are foreign, so that 255 stands for all numbers above it
            BoardCall::Receive { address, frame, counted } => {
                let address = (*address).min(255) as u8;
                match &mut self.counters {
                    Some(counters) if *counted => {
                        board::receive_tally(p, s, &mut self.flash, out, address, frame, counters)
                    }
                    _ => board::receive(p, s, &mut self.flash, out, address, frame),
                }
            }
            BoardCall::Read { address } => board::read(p, s, &self.flash, out, (*address).min(255) as u8),
        }
    }

    fn library(&mut self, call: &BoardCall, out: &mut Lent) -> Result<(u32, usize), Difference> {
        match call {
            BoardCall::Receive { address, frame, counted } => {
                let lent = Lent::new(frame);
                let (p, s, flash) = (&self.lent_profile, &mut self.lent_state, &mut self.lent_flash);
                let got = if *counted {
                    library::receive_tally(p, s, *address, &lent, flash, out, &mut self.lent_tally)
                } else {
                    library::receive(p, s, *address, &lent, flash, out)
                };
                if lent.bytes() != frame || !lent.guarded() {
                    return Err(Difference::only("the frame was changed"));
                }
                Ok(got)
            }
            BoardCall::Read { address } => {
                Ok(library::read(&self.lent_profile, &self.lent_state, *address, &self.lent_flash, out))
            }
        }
    }

    /// Every byte: as it was given where the state may not change, else the second program's state laid over what was given.
    fn state_fault(&self, given: &[u8], kept: bool) -> Option<String> {
        let now = self.lent_state.bytes();
        let Some(second) = self.state.as_ref().filter(|_| !kept) else {
            let k = given.iter().zip(now).position(|(a, b)| a != b)?;
            return Some(format!(
                "state byte {k}, which may not change: {:02x} before the call, library {:02x}",
                given[k], now[k]
            ));
        };
        let mut due = given.to_vec();
        lay(&mut due, second);
        let k = due.iter().zip(now).position(|(a, b)| a != b)?;
        match dead_name(second, k) {
            None => bytes_fault("state", &due, now),
            Some(name) => Some(format!(
                "state byte {k}, which means nothing ({name}): {:02x} before the call, library {:02x}",
                due[k], now[k]
            )),
        }
    }

    /// The counters where there is a tally; every other byte as it was given.
    fn tally_fault(&self, given: &[u8]) -> Option<String> {
        let mut due = given.to_vec();
        if let Some(counters) = &self.counters {
            due[..TALLY_BYTES].copy_from_slice(&tally_bytes(counters)[..TALLY_BYTES]);
        }
        bytes_fault("tally", &due, self.lent_tally.bytes())
    }

    fn guard_fault(&self) -> Option<String> {
        let lent = [&self.lent_flash, &self.lent_state, &self.lent_profile, &self.lent_tally];
        if !lent.iter().all(|buffer| buffer.guarded()) {
            return Some("bytes outside a buffer were written".to_string());
        }
        bytes_fault("profile", &self.profile_bytes, self.lent_profile.bytes())
    }
}

fn counters_text(counters: Option<Counters>) -> String {
    counters.map_or("(bytes that say no tally)".to_string(), |counters| tally_text(&counters))
}

fn state_text(state: Option<&State>) -> String {
    let Some(s) = state else {
        return "(bytes that say no state)".to_string();
    };
    let (own, running) = (own_number(s), u8::from(s.running));
    let (waiting, last) = (hex(s.waiting_bytes()), hex(s.last_reply()));
    format!("{own} {running} {} {} {} {waiting} {last}", s.next, s.w, s.count)
}
