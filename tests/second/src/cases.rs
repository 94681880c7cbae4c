//! Case generation: the sheet that cases are written on, and random lists.

use rules::check::{framed, general_frame, paged_profile, plain_profile, some_new_address, write_frame};
use rules::model::*;
use rules::pages::WRONG;
use rules::rng::Rng;
use rules::script::{hex, tally_text, Runner};
use rules::silences::{any_tally, judged, silent_frame};
use rules::tally::Tally;

pub const BUSES: [Bus; 2] = [Bus::I2c, Bus::Rs485];

/// Case lines and their expected output, kept in step.
#[derive(Default)]
pub struct Sheet {
    pub cases: String,
    pub expected: String,
    pub runner: Runner,
    /// If there is one, it decides which received frames are counted in the tally. It draws for nothing else that is already
    /// there, so that the rest of a seed's list doesn't depend on it.
    pub counting: Option<Rng>,
}

pub fn bus_number(bus: Bus) -> u8 {
    match bus {
        Bus::I2c => 0,
        Bus::Rs485 => 1,
    }
}

/// Most data bytes of a write, most results of a reply.
pub fn most_data(bus: Bus, m: u32) -> usize {
    (m as usize).saturating_sub(if bus == Bus::I2c { 4 } else { 6 })
}

pub fn most_results(bus: Bus, m: u32) -> usize {
    (m as usize).saturating_sub(if bus == Bus::I2c { 3 } else { 5 })
}

impl Sheet {
    pub fn line(&mut self, text: &str) {
        let output = self.runner.line(text).expect("the generator writes good lines");
        self.cases.push_str(text);
        self.cases.push('\n');
        if let Some(output) = output {
            self.expected.push_str(&output);
            self.expected.push('\n');
        }
    }

    pub fn note(&mut self, name: &str) {
        self.line(&format!("# {name}"));
    }

    pub fn profile(&mut self, p: &Profile) {
        self.line(&format!(
            "P {} {} {} {} {} {} {} {} {} {}",
            bus_number(p.bus),
            p.m,
            p.page,
            p.s,
            p.o,
            p.hardware,
            p.compatible,
            p.actual,
            p.version,
            hex(&p.serial),
        ));
    }

    pub fn flash(&mut self, len: u64, a: u64, b: u64) {
        self.line(&format!("F {len} {a} {b}"));
    }

    pub fn fresh(&mut self) {
        self.line("Z");
    }

    pub fn state(&mut self, s: &State) {
        let own = match s.own {
            Own::DefaultRange => 256,
            Own::Address(address) => u32::from(address),
        };
        self.line(&format!(
            "S {own} {} {} {} {} {} {} {}",
            u8::from(s.running),
            s.next,
            s.w,
            s.count,
            s.reply_len,
            hex(&s.waiting),
            hex(&s.reply),
        ));
    }

    pub fn room(&mut self, n: usize) {
        self.line(&format!("B {n}"));
    }

    pub fn tally(&mut self, tally: &Tally) {
        self.line(&format!("K {}", tally_text(tally)));
    }

    pub fn frame(&mut self, address: u8, frame: &[u8]) {
        if self.counting.as_mut().is_some_and(|rng| rng.percent(50)) {
            return self.counted(address, frame);
        }
        self.line(&format!("R {address} {}", hex(frame)));
    }

    /// A received frame, counted in the tally.
    pub fn counted(&mut self, address: u8, frame: &[u8]) {
        self.line(&format!("C {address} {}", hex(frame)));
    }

    pub fn read(&mut self, address: u8) {
        self.line(&format!("I {address}"));
    }

    /// Profile with pages of 64, flash of 0xFF with 64 bytes after the working
    /// flash, fresh state, room for M bytes.
    pub fn board(&mut self, bus: Bus, m: u32, s: u32, o: u32) {
        self.paged_board(bus, m, 64, s, o);
    }

    pub fn paged_board(&mut self, bus: Bus, m: u32, page: u32, s: u32, o: u32) {
        self.profile(&paged_profile(bus, m, page, s, o));
        self.flash(u64::from(o) + u64::from(s) + 64, 0, 255);
        self.fresh();
        self.room(m as usize);
    }

    pub fn bus(&self) -> Bus {
        self.runner.profile.as_ref().map_or(Bus::I2c, |p| p.bus)
    }

    pub fn next(&self) -> u64 {
        u64::from(self.runner.state.next)
    }

    /// An address that the board hears.
    pub fn own(&self) -> u8 {
        match self.runner.state.own {
            Own::DefaultRange => 8,
            Own::Address(address) => address,
        }
    }

    /// A command to the board in a right frame.
    pub fn send(&mut self, code: u8, args: &[u8]) {
        let own = self.own();
        let frame = framed(self.bus(), own, code, args);
        self.frame(own, &frame);
    }

    pub fn write(&mut self, at: u64, data: &[u8]) {
        let own = self.own();
        let frame = write_frame(self.bus(), own, at, data);
        self.frame(own, &frame);
    }

    pub fn finalize(&mut self) {
        self.send(FINALIZE, &[]);
    }

    pub fn read_flash(&mut self, at: u64, length: u8) {
        self.send(READ, &[(at >> 8) as u8, at as u8, length]);
    }

    /// Code 4 reset address, 6 reset.
    pub fn general(&mut self, code: u8) {
        let frame = general_frame(self.bus(), code);
        self.frame(0, &frame);
    }

    /// The image in pieces from address 0.
    pub fn upload(&mut self, image: &[u8], piece: usize) {
        let mut at = 0;
        for data in image.chunks(piece.max(1)) {
            self.write(at as u64, data);
            at += data.len();
        }
    }

    /// The whole working flash by read commands.
    pub fn read_back(&mut self, size: u64, piece: u8) {
        let mut at = 0;
        while at < size {
            let length = (size - at).min(u64::from(piece)) as u8;
            self.read_flash(at, length);
            at += u64::from(length);
        }
    }

    #[allow(clippy::too_many_arguments)]
    pub fn encode(&mut self, bus: Bus, m: u32, code: u32, to: u32, a: u32, b: u32, data: &[u8]) {
        self.line(&format!("E {} {m} {code} {to} {a} {b} {}", bus_number(bus), hex(data)));
    }

    pub fn decode(&mut self, bus: Bus, code: u32, address: u8, asked: u32, reply: &[u8]) {
        self.line(&format!("D {} {code} {address} {asked} {}", bus_number(bus), hex(reply)));
    }

    pub fn two_reads(&mut self, code: u32, asked: u32, first: &[u8], second: &[u8]) {
        self.line(&format!("T {code} {asked} {} {}", hex(first), hex(second)));
    }

    pub fn version(&mut self, major: u8, minor: u8) {
        self.line(&format!("V {major} {minor}"));
    }

    pub fn reset_running(&mut self, bus: Bus, m: u32, major: u8, minor: u8) {
        self.line(&format!("A {} {m} {major} {minor}", bus_number(bus)));
    }

    /// The reply or request in the last output line.
    pub fn made(&self) -> String {
        let line = self.expected.lines().last().unwrap_or("");
        line.split(' ').nth(2).unwrap_or("-").to_string()
    }
}

/// A reply in its frame.
pub fn reply(bus: Bus, address: u8, status: u8, results: &[u8]) -> Vec<u8> {
    let mut args = vec![results.len() as u8];
    args.extend_from_slice(results);
    framed(bus, address, status, &args)
}

/// `lists` random lists of calls, with both pages.
pub fn random(seed: u64, lists: u64) -> Sheet {
    random_with(seed, lists, &PAGES)
}

/// With these pages only; with more than one the page changes amid a list too.
pub fn random_with(seed: u64, lists: u64, pages: &[u32]) -> Sheet {
    let mut sheet = Sheet::default();
    for list in 0..lists {
        let seed_of_list = seed.wrapping_mul(0x0100_0000_01b3) ^ (list << 20);
        sheet.note(&format!("random list {list} of seed {seed}"));
        sheet.counting = Some(Rng::new(!seed_of_list));
        let mut paging = Paging { rng: Rng::new(seed_of_list.rotate_left(32)), pages: pages.to_vec() };
        random_list(&mut sheet, &mut Rng::new(seed_of_list), &mut paging);
    }
    sheet
}

/// Draws pages. Its numbers are its own, so that the rest of a seed's list depends on them only by the page.
struct Paging {
    rng: Rng,
    pages: Vec<u32>,
}

impl Paging {
    /// Another page, with S and O made multiples of it.
    fn choose(&mut self, p: &mut Profile) {
        let pages: Vec<u64> = self.pages.iter().map(|&page| u64::from(page)).collect();
        p.page = self.rng.of(&pages) as u32;
        p.s = (p.s / p.page * p.page).max(p.page);
        p.o = p.o / p.page * p.page;
    }

    /// Now and then the profile gets another page: for good if S and O are multiples of it, else for one call, and for one call
    /// a wrong one.
    fn change(&mut self, sheet: &mut Sheet, p: &mut Profile, image: &[u8]) {
        if self.pages.len() < 2 || !self.rng.percent(8) {
            return;
        }
        let old = p.clone();
        if self.rng.percent(30) {
            p.page = self.rng.of(&WRONG.map(u64::from)) as u32;
            sheet.profile(p);
            let mut calls = Rng::new(self.rng.number());
            random_board_call(sheet, &mut calls, &old, image);
            *p = old;
            return sheet.profile(p);
        }
        p.page = if p.page == 64 { 128 } else { 64 };
        sheet.profile(p);
        if p.s % p.page != 0 || p.o % p.page != 0 || self.rng.percent(20) {
            let mut calls = Rng::new(self.rng.number());
            random_board_call(sheet, &mut calls, &old, image);
            *p = old;
            return sheet.profile(p);
        }
        if self.rng.percent(40) {
            sheet.finalize();
        }
    }
}

fn random_list(sheet: &mut Sheet, rng: &mut Rng, paging: &mut Paging) {
    let mut p = random_profile(rng);
    paging.choose(&mut p);
    let image = random_image(rng, p.s as usize);
    random_setup(sheet, rng, &p);
    let calls = if p.s > 10_000 { 12 } else { 15 + rng.below(60) };
    for _ in 0..calls {
        paging.change(sheet, &mut p, &image);
        random_silence(sheet, &p);
        match rng.below(100) {
            0..=85 => random_board_call(sheet, rng, &p, &image),
            86..=89 => random_encode(sheet, rng),
            90..=94 => random_decode(sheet, rng),
            95..=96 => random_two_reads(sheet, rng),
            97 => random_version(sheet, rng),
            _ => random_change(sheet, rng, &p),
        }
    }
}

/// Now and then a tally near its ends, and an RS485 frame that gets silence: it changes nothing for the calls after it.
fn random_silence(sheet: &mut Sheet, p: &Profile) {
    let Some(rng) = sheet.counting.as_mut() else {
        return;
    };
    let tally = if rng.percent(2) { Some(any_tally(rng)) } else { None };
    let own = match sheet.runner.state.own {
        Own::DefaultRange => 8 + rng.byte() % 8,
        Own::Address(address) => address,
    };
    let frame = silent_frame(rng, p, own);
    let wanted = rng.percent(12) && p.bus == Bus::Rs485;
    if let Some(tally) = tally {
        sheet.tally(&tally);
    }
    if wanted && judged(p, &sheet.runner.state, own, &frame) >= 15 {
        sheet.frame(own, &frame);
    }
}

fn random_profile(rng: &mut Rng) -> Profile {
    let bus = BUSES[rng.below(2) as usize];
    let m = match rng.below(3) {
        0 => 32 + rng.below(225),
        _ => rng.of(&[32, 33, 40, 64, 72, 128, 255, 256, 256]),
    };
    let s = rng.of(&[64, 128, 128, 192, 256, 320, 512, 1024, 4096]);
    let s = if rng.percent(1) { MOST_S } else { s };
    let o = rng.of(&[0, 0, 64, 128, 1024]);
    let o = if rng.percent(1) { MOST_O } else { o };
    let mut p = plain_profile(bus, m as u32, s as u32, o as u32);
    p.hardware = 1 + rng.below(255) as u8;
    p.compatible = rng.byte();
    p.actual = rng.byte();
    p.version = rng.byte();
    let length = rng.of(&[0, 1, 3, 8, 15, 16]) as usize;
    p.serial = rng.bytes(length);
    p
}

fn random_image(rng: &mut Rng, size: usize) -> Vec<u8> {
    match rng.below(4) {
        0 => vec![rng.byte(); size],
        1 => (0..size).map(|k| (k / 64 * 17) as u8).collect(),
        _ => rng.bytes(size),
    }
}

fn random_setup(sheet: &mut Sheet, rng: &mut Rng, p: &Profile) {
    sheet.profile(p);
    let need = u64::from(p.o) + u64::from(p.s);
    let extra = rng.of(&[0, 0, 1, 64, 128]);
    let (a, b) = (rng.of(&[0, 0, 1, 3]), rng.of(&[255, 255, 0, 90]));
    sheet.flash((need + extra).min(131_072), a, b);
    let room = u64::from(p.m) + rng.of(&[0, 0, 1, 20]);
    sheet.room(room as usize);
    if rng.percent(75) {
        sheet.fresh();
    } else {
        let state = random_state(rng, p);
        sheet.state(&state);
    }
}

/// Mostly well formed.
fn random_state(rng: &mut Rng, p: &Profile) -> State {
    let mut s = State::fresh();
    s.own = random_own(rng, p.bus);
    s.running = rng.percent(10);
    s.next = rng.below(u64::from(p.s) + 1) as u32;
    s.w = rng.below(u64::from(s.next % p.page) + 1) as u32;
    s.count = rng.below(u64::from(s.next - s.w) + 1) as u32;
    if p.bus == Bus::I2c && rng.percent(50) {
        s.reply_len = rng.below(u64::from(p.m) + 1) as u32;
    }
    s.waiting.copy_from_slice(&waiting_buffer(rng));
    s.reply.copy_from_slice(&rng.bytes(256));
    match rng.below(25) {
        0 => s.next = p.s + 1,
        1 => s.w = s.next % p.page + 1,
        2 => s.count = s.next - s.w + 1,
        3 => s.reply_len = p.m + 1,
        4 => s.w = rng.number() as u32,
        _ => {}
    }
    s
}

/// Bytes of a whole waiting buffer. The second half has numbers of its own, so that a seed's lists stay as they were when the
/// buffer had 64 bytes.
fn waiting_buffer(rng: &mut Rng) -> Vec<u8> {
    let first = rng.bytes(64);
    let mut own = Rng::new(u64::from(first[0]) << 8 ^ u64::from(first[63]));
    [first, own.bytes(MOST_PAGE - 64)].concat()
}

pub fn random_own(rng: &mut Rng, bus: Bus) -> Own {
    match rng.below(8) {
        0 => Own::Address(rng.byte()),
        1 => Own::Address(1 + rng.byte() % 127),
        2 | 3 => Own::Address(reserved_address(rng, bus)),
        _ => Own::DefaultRange,
    }
}

fn reserved_address(rng: &mut Rng, bus: Bus) -> u8 {
    let all: Vec<u64> = (0..256).filter(|&address| reserved(bus, address as u32)).collect();
    rng.of(&all) as u8
}

/// A change of profile, flash, state or room amid the list.
fn random_change(sheet: &mut Sheet, rng: &mut Rng, p: &Profile) {
    match rng.below(6) {
        0 => sheet.fresh(),
        1 => {
            let state = random_state(rng, p);
            sheet.state(&state);
        }
        2 => sheet.room(p.m as usize),
        3 => {
            let short = rng.of(&[0, 31, u64::from(p.m) - 1]);
            sheet.room(short as usize);
            random_board_call(sheet, rng, p, &[1, 2, 3]);
            sheet.room(p.m as usize);
        }
        4 => {
            let mut bad = p.clone();
            match rng.below(4) {
                0 => bad.m = rng.of(&[31, 257]) as u32,
                1 => bad.s += 1,
                2 => bad.o += 1,
                _ => bad.hardware = 0,
            }
            sheet.profile(&bad);
            random_board_call(sheet, rng, &bad, &[1, 2, 3]);
            sheet.profile(p);
        }
        _ => {
            let mut other = p.clone();
            other.hardware = 1 + rng.below(255) as u8;
            sheet.profile(&other);
            random_board_call(sheet, rng, p, &[1, 2, 3]);
            sheet.profile(p);
        }
    }
}

fn random_board_call(sheet: &mut Sheet, rng: &mut Rng, p: &Profile, image: &[u8]) {
    if sheet.runner.state.running && rng.percent(35) {
        sheet.reset_running(p.bus, p.m, 0, 0);
        return sheet.general(6);
    }
    if rng.percent(8) {
        let own = sheet.own();
        let address = if rng.percent(85) { own } else { rng.byte() };
        return sheet.read(address);
    }
    if rng.percent(5) {
        return sheet.general(if rng.percent(35) { 6 } else { 4 });
    }
    let own = match sheet.runner.state.own {
        Own::DefaultRange => 8 + rng.byte() % 8,
        Own::Address(address) => address,
    };
    let own = if rng.percent(3) { rng.byte() } else { own };
    let mut frame = random_frame(sheet, rng, p, image, own);
    if rng.percent(7) {
        damage(rng, &mut frame);
    }
    frame.truncate(600);
    sheet.frame(own, &frame);
}

fn random_frame(sheet: &Sheet, rng: &mut Rng, p: &Profile, image: &[u8], own: u8) -> Vec<u8> {
    let bus = p.bus;
    match rng.below(100) {
        0..=57 => random_write(sheet, rng, p, image, own),
        58..=71 => framed(bus, own, FINALIZE, &[]),
        72..=78 => {
            let at = rng.below(u64::from(p.s) + 2);
            let length = rng.below(70).min(u64::from(p.s).saturating_sub(at) + 1);
            framed(bus, own, READ, &[(at >> 8) as u8, at as u8, length as u8])
        }
        79..=84 => random_set_address(rng, p, own),
        85..=86 => framed(bus, own, START, &[]),
        87..=96 => framed(bus, own, rng.byte() % 16, &[]),
        97 => {
            let (code, length) = (rng.byte() % 16, rng.below(6) as usize);
            framed(bus, own, code, &rng.bytes(length))
        }
        98 => {
            let length = rng.below(600) as usize;
            rng.bytes(length)
        }
        _ => {
            let length = rng.below(6) as usize;
            rng.bytes(length)
        }
    }
}

/// Set address, mostly of the right length.
pub fn random_set_address(rng: &mut Rng, p: &Profile, own: u8) -> Vec<u8> {
    let own_type = u64::from(p.hardware);
    let address = some_new_address(rng, p.bus);
    if rng.percent(88) {
        let hardware = rng.of(&[0, own_type, own_type, 77]) as u8;
        return framed(p.bus, own, SET_ADDRESS, &[address, hardware]);
    }
    let hardware = rng.of(&[own_type, 77]) as u8;
    let length = rng.of(&[0, 1, 3, 3, 3, 3]) as usize;
    framed(p.bus, own, SET_ADDRESS, &[address, hardware, 0][..length])
}

/// A write, mostly in order and with the image's bytes.
fn random_write(sheet: &Sheet, rng: &mut Rng, p: &Profile, image: &[u8], own: u8) -> Vec<u8> {
    let next = sheet.next();
    let at = match rng.below(40) {
        0 | 1 => 0,
        2 => next + 1,
        3 => next.saturating_sub(1),
        4 => rng.below(65_536),
        _ if next >= image.len() as u64 && rng.percent(60) => 0,
        _ => next,
    };
    let most = most_data(p.bus, p.m) as u64;
    let left = u64::from(p.s).saturating_sub(at);
    let length = match rng.below(10) {
        0 => rng.below(4),
        1 => left,
        2 => left + 1,
        3 => rng.below(most + 1),
        4 => (u64::from(p.page) - at % u64::from(p.page)).min(left),
        _ => most.min(left),
    };
    let length = if rng.percent(98) { length.min(most) } else { length.min(most + 1) };
    let mut data: Vec<u8> = (at..at + length).map(|k| byte_of(image, k)).collect();
    if rng.percent(8) {
        damage(rng, &mut data);
    }
    write_frame(p.bus, own, at, &data)
}

fn byte_of(image: &[u8], k: u64) -> u8 {
    image.get(k as usize).copied().unwrap_or(0x5a)
}

fn damage(rng: &mut Rng, bytes: &mut Vec<u8>) {
    let k = rng.below(bytes.len() as u64) as usize;
    match rng.below(6) {
        0 => bytes.truncate(k),
        1 => bytes.push(0),
        _ => {
            if let Some(byte) = bytes.get_mut(k) {
                *byte ^= 1 << rng.below(8);
            }
        }
    }
}

fn random_encode(sheet: &mut Sheet, rng: &mut Rng) {
    let bus = BUSES[rng.below(2) as usize];
    let m = rng.of(&[31, 32, 33, 64, 128, 256, 256, 257]) as u32;
    let code = match rng.below(7) {
        0 => 260,
        1 => 262,
        2 => rng.below(256) as u32,
        3 => 1,
        _ => rng.below(15) as u32,
    };
    let to = rng.of(&[3, 8, 9, 15, 127, 128, 250, 255, 0, 256]) as u32;
    let room = rng.of(&[0, 1, 2, 3, 4, 6, 8, 32, 256, 300]);
    let before = sheet.runner.room;
    sheet.room(room as usize);
    let length = rng.below(40) as usize;
    match code {
        1 => {
            let a = if rng.percent(10) { 256 } else { u32::from(some_new_address(rng, bus)) };
            let b = rng.of(&[0, 7, 255, 256]) as u32;
            sheet.encode(bus, m, code, to, a, b, &[]);
        }
        6 => {
            let a = rng.of(&[0, 1, 256, 65_535, 65_536]) as u32;
            let data = rng.bytes(length);
            sheet.encode(bus, m, code, to, a, 0, &data);
        }
        8 => {
            let a = rng.of(&[0, 1, 256, 65_535, 65_536]) as u32;
            let most = (u64::from(m) - 5) as u32;
            let b = rng.of(&[0, 1, 27, 28, 29, 30, u64::from(most), u64::from(most) + 3]) as u32;
            sheet.encode(bus, m, code, to, a, b, &[]);
        }
        _ => sheet.encode(bus, m, code, to, 0, 0, &[]),
    }
    sheet.room(before);
}

fn random_reply(rng: &mut Rng, bus: Bus, address: u8) -> Vec<u8> {
    let status = rng.of(&[0, 0, 0, 1, 2, 5, 6]) as u8;
    let length = rng.of(&[0, 1, 2, 2, 4, 5, 6, 30]) as usize;
    let mut bytes = reply(bus, address, status, &rng.bytes(length));
    match rng.below(5) {
        0 => damage(rng, &mut bytes),
        1 => {
            let more = rng.below(4) as usize;
            bytes.extend(rng.bytes(more));
        }
        _ => {}
    }
    bytes
}

fn random_decode(sheet: &mut Sheet, rng: &mut Rng) {
    let bus = BUSES[rng.below(2) as usize];
    let address = rng.of(&[8, 9, 200]) as u8;
    let from = if rng.percent(90) { address } else { 10 };
    let bytes = random_reply(rng, bus, from);
    let asked = rng.of(&[0, 1, 2, 5, 30, 31, 256]) as u32;
    let code = if rng.percent(90) { rng.below(15) } else { rng.below(256) };
    sheet.decode(bus, code as u32, address, asked, &bytes);
}

fn random_two_reads(sheet: &mut Sheet, rng: &mut Rng) {
    let first = random_reply(rng, Bus::I2c, 0);
    let second = random_reply(rng, Bus::I2c, 0);
    let asked = rng.of(&[0, 1, 2, 5, 30]) as u32;
    sheet.two_reads(rng.below(15) as u32, asked, &first, &second);
}

/// A version to the version rule, and one to the call that resets running applications.
fn random_version(sheet: &mut Sheet, rng: &mut Rng) {
    let (first, second) = (rng.number(), rng.number());
    let (major, minor) = (first as u8 % 4, second as u8 % 5);
    sheet.version(major, minor);
    // numbers of its own, so that the rest of a seed's list doesn't depend on what is drawn here
    let mut own = Rng::new(first);
    let (major, minor) = if own.percent(40) { (0, 0) } else { (major, minor) };
    let bus = BUSES[own.below(2) as usize];
    let m = own.of(&[31, 32, 33, 64, 128, 255, 256, 256, 257]) as u32;
    let room = own.of(&[0, 1, 2, 3, 4, 5, 32, 256]);
    let before = sheet.runner.room;
    sheet.room(room as usize);
    sheet.reset_running(bus, m, major, minor);
    sheet.room(before);
}
