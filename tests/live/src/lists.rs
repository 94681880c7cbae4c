//! Random lists. Most are the second program's own; some are whole uploads, repeated in other pieces. Calls that only
//! the C functions have, and longer requests and replies, are put in between.

use crate::alarm_lines::any_alarm;
use crate::cases::{self, most_data, most_results, random_own, random_set_address, reply, Sheet, BUSES};
use crate::items::*;
use crate::layout::{profile_bytes, put, state_bytes, tally_bytes, PAGE_BYTE, PROFILE_BYTES, STATE_BYTES, TALLY_BYTES};
use rules::check::{framed, general_frame, paged_profile, some_new_address, write_frame};
use rules::model::*;
use rules::rng::Rng;
use rules::silences::{any_tally, silent_frame};
use rules::sums::push_crc16;

/// List number `k` of a seed.
pub fn list(seed: u64, k: u64) -> Vec<Item> {
    let mut rng = Rng::new(seed ^ k.wrapping_mul(0xd6e8_feb8_6659_fd93));
    let text = match rng.below(400) {
        0 => upload(&mut rng, &[65_472, 65_472, 32_768]),
        1..=40 => upload(&mut rng, &[64, 128, 192, 512, 1024, 2048, 4096]),
        41..=56 => size_edges(),
        57..=76 => handed_over(&mut rng),
        _ => cases::random(rng.number(), 1).cases,
    };
    let items = parse(&text).expect("the generator writes good lines");
    let items = with_more(&mut rng, items);
    let items = with_noise(&mut Rng::new(rng.number()), items);
    with_alarms(&mut Rng::new(rng.number()), items)
}

/// Calls on what must not be missed, with buffers of their own, behind most calls of the board.
fn with_alarms(rng: &mut Rng, items: Vec<Item>) -> Vec<Item> {
    let mut list = Vec::with_capacity(items.len() * 3 / 2);
    for item in items {
        let board = matches!(item, Item::Board(_) | Item::Aside(..));
        list.push(item);
        if board && rng.percent(60) {
            list.push(Item::Alarm(any_alarm(rng)));
        }
    }
    list
}

/// Three lists of four with random bytes where their states mean nothing: from the start, behind most lines that set a state, and
/// now and then in between.
fn with_noise(rng: &mut Rng, items: Vec<Item>) -> Vec<Item> {
    if rng.percent(25) {
        return items;
    }
    let mut list = vec![Item::Noise(rng.number() as u32)];
    for item in items {
        let sets = matches!(item, Item::Fresh | Item::State(_));
        list.push(item);
        if rng.percent(if sets { 80 } else { 5 }) {
            list.push(Item::Noise(rng.number() as u32));
        }
    }
    list
}

/// A whole upload, then the same image in other pieces, with other calls in between.
fn upload(rng: &mut Rng, sizes: &[u64]) -> String {
    let bus = BUSES[rng.below(2) as usize];
    let m = rng.of(&[32, 33, 70, 72, 128, 200, 256, 256, 256]) as u32;
    let page = rng.of(&PAGES.map(u64::from)) as u32;
    let s = (rng.of(sizes) as u32 / page * page).max(page);
    let o = rng.of(&[0, 0, 64, 128, 65_472]) as u32 / page * page;
    let m = if s > 10_000 { 256 } else { m };
    let mut sheet = Sheet { counting: Some(Rng::new(rng.number())), ..Sheet::default() };
    sheet.paged_board(bus, m, page, s, o);
    let length = if rng.percent(60) { s as usize } else { rng.below(u64::from(s) + 1) as usize };
    let mut image = rng.bytes(length);
    let noise = rng.of(&[0, 0, 1, 5]);
    for turn in 0..2 + rng.below(2) {
        if turn == 1 && rng.percent(30) {
            damage_one(rng, &mut image);
        }
        let most = most_data(bus, m) as u64;
        let piece = if s > 10_000 { most } else { rng.of(&[most, most, most - 1, 20, 64.min(most), 128.min(most)]) };
        upload_once(&mut sheet, rng, &image, piece as usize, noise);
        sheet.finalize();
    }
    if s <= 4096 {
        sheet.read_back(u64::from(s), most_results(bus, m).min(255) as u8);
    }
    sheet.cases
}

/// S and O at their ends and next to them with pages of 128, in a flash that is long enough.
fn size_edges() -> String {
    const SIZES: [u32; 9] = [0, 64, 128, 192, 65_344, 65_408, 65_472, 65_536, 4_294_967_168];
    let mut sheet = Sheet::default();
    sheet.flash(u64::from(MOST_FLASH), 3, 0);
    for (bus, size) in BUSES.into_iter().flat_map(|bus| SIZES.map(|size| (bus, size))) {
        for (s, o) in [(size, 0), (128, size)] {
            sheet.profile(&paged_profile(bus, 64, 128, s, o));
            sheet.fresh();
            sheet.send(HARDWARE_INFO, &[]);
        }
    }
    sheet.cases
}

/// Uploads under one page that go on under the other, malformed there or not, and then under their own again.
fn handed_over(rng: &mut Rng) -> String {
    let bus = BUSES[rng.below(2) as usize];
    let (s, o) = (128 * (2 + rng.below(3)) as u32, 128 * rng.below(3) as u32);
    let mut sheet = Sheet { counting: Some(Rng::new(rng.number())), ..Sheet::default() };
    sheet.paged_board(bus, 256, 64, s, o);
    for _ in 0..10 {
        let (from, to) = if rng.percent(50) { (64, 128) } else { (128, 64) };
        sheet.profile(&paged_profile(bus, 256, from, s, o));
        let length = rng.of(&[6, 50, 63, 70, 100, 127, 130, 140, 190, 200]) as usize;
        sheet.write(0, &rng.bytes(length));
        sheet.profile(&paged_profile(bus, 256, to, s, o));
        match rng.below(10) {
            0..=2 => sheet.finalize(),
            3..=5 => {
                let (next, more) = (sheet.next(), rng.of(&[1, 14, 58, 64, 120]));
                let more = more.min(u64::from(s) - next);
                sheet.write(next, &rng.bytes(more as usize));
            }
            6..=8 => sheet.read_flash(0, 100),
            _ => sheet.read(8),
        }
        sheet.profile(&paged_profile(bus, 256, from, s, o));
        sheet.finalize();
    }
    sheet.cases
}

fn damage_one(rng: &mut Rng, image: &mut [u8]) {
    let k = rng.below(image.len() as u64) as usize;
    if let Some(byte) = image.get_mut(k) {
        *byte ^= 1 << rng.below(8);
    }
}

fn upload_once(sheet: &mut Sheet, rng: &mut Rng, image: &[u8], piece: usize, noise: u64) {
    let mut at = 0;
    loop {
        if rng.percent(noise) {
            between(sheet, rng);
        }
        let end = (at + piece).min(image.len());
        sheet.write(at as u64, &image[at..end]);
        if end == image.len() {
            return;
        }
        at = end;
    }
}

/// A call that leaves the upload where it is.
fn between(sheet: &mut Sheet, rng: &mut Rng) {
    let own = sheet.own();
    match rng.below(8) {
        0 => sheet.finalize(),
        1 => sheet.read_flash(rng.below(64), rng.below(28) as u8),
        2 => sheet.read(own),
        3 => sheet.general(4),
        4 => {
            let address = some_new_address(rng, sheet.bus());
            sheet.send(SET_ADDRESS, &[address, 0]);
        }
        5 => sheet.send(HARDWARE_INFO, &[]),
        6 => {
            let mut frame = framed(sheet.bus(), own, FINALIZE, &[]);
            damage_one(rng, &mut frame);
            sheet.frame(own, &frame);
        }
        _ => {
            let frame = framed(sheet.bus(), own ^ 64, VERSION, &[]);
            sheet.frame(own ^ 64, &frame);
        }
    }
}

/// More calls, one for each two items or so. None of them changes the upload.
fn with_more(rng: &mut Rng, items: Vec<Item>) -> Vec<Item> {
    let mut list = Vec::with_capacity(items.len() * 4 / 3);
    let mut profile = None;
    let mut has_flash = false;
    let mut large = false;
    for item in items {
        match &item {
            Item::Profile(p) => profile = Some(p.clone()),
            Item::Flash { len, .. } => {
                has_flash = true;
                large = *len > 10_000;
            }
            _ => {}
        }
        list.push(item);
        match &profile {
            // a copy of a large flash takes time
            Some(p) if has_flash && rng.percent(if large { 1 } else { 42 }) => list.push(more(rng, p)),
            Some(p) if has_flash && rng.percent(12) => list.extend(silence(rng, p)),
            _ => {}
        }
    }
    list
}

fn more(rng: &mut Rng, p: &Profile) -> Item {
    match rng.below(38) {
        0..=4 => aside(rng, p),
        5 => Item::AsideEncode(any_encode(rng), rng.of(&[0, 1, 3, 4, 5, 7, 8, 31, 32, 255, 256, 257, 300]) as usize),
        6 => exact_encode(rng),
        7 => Item::General {
            bus: any_bus(rng),
            m: rng.of(&[31, 32, 64, 256, 256, 257, 288, 65_568]) as u32,
            reset: rng.of(&[0, 0, 1, 2, 256, 4_294_967_295]) as u32,
            room: rng.of(&[0, 1, 1, 2, 3, 4, 5, 256]) as usize,
        },
        8 | 9 => any_decode(rng),
        10 => two_reads(rng),
        11..=16 => set_address_encode(rng),
        17 | 18 => set_address_aside(rng, p),
        19..=24 => any_reset_running(rng, p),
        25 | 26 => {
            let (major, minor) = any_version(rng);
            Item::AsideVersion { major, minor }
        }
        27..=32 => silent_aside(rng, p),
        33 | 34 => page_aside(rng, p),
        35 | 36 => waiting_aside(rng, p),
        _ => Item::AsideFresh(rng.of(&[0, 1, 148, 340, 403, 404, 405, 500]) as usize),
    }
}

fn any_bus(rng: &mut Rng) -> u32 {
    if rng.percent(8) {
        return rng.of(&[2, 9, 256, 257, 4_294_967_295]) as u32;
    }
    rng.below(2) as u32
}

/// A frame to the standing board, mostly one that gets silence on RS485, at times with a tally before it. What the board takes
/// on is a request for its version.
fn silence(rng: &mut Rng, p: &Profile) -> Vec<Item> {
    let mut items = Vec::new();
    if rng.percent(30) {
        items.push(Item::Tally(any_tally(rng)));
    }
    let to = rng.of(&[0, 1, 7, 8, 8, 15, 16, 20, 255]) as u8;
    let version = framed(p.bus, to, VERSION, &[]);
    let mut frame = match rng.below(6) {
        0 => version[..rng.below(version.len() as u64) as usize].to_vec(),
        1 => short_sealed(rng, to),
        2 | 3 => {
            // M bytes, M + 1, and far more
            let most = u64::from(p.m).clamp(32, 590) - version.len() as u64;
            let length = rng.of(&[most, most + 1, most + 1, 300, 590]) as usize;
            framed(p.bus, to, VERSION, &rng.bytes(length))
        }
        _ => version,
    };
    if rng.percent(30) {
        damage_one(rng, &mut frame);
    }
    let address = u32::from(if p.bus == Bus::I2c && rng.percent(30) { rng.byte() } else { to });
    items.push(Item::Board(BoardCall::Receive { address, frame, counted: rng.percent(70) }));
    items
}

/// Two or three bytes with their right CRC-16.
fn short_sealed(rng: &mut Rng, to: u8) -> Vec<u8> {
    let mut frame = vec![to; rng.below(2) as usize];
    push_crc16(&mut frame);
    frame
}

/// A frame that mostly gets silence, to a board in a state of its own, half of them with a tally of its own.
fn silent_aside(rng: &mut Rng, p: &Profile) -> Item {
    let mut state = any_state(rng, p);
    if rng.percent(40) {
        state.own = Own::Address(rng.of(&[0, 0, 1, 8, 20, 255]) as u8);
    }
    let own = some_own(rng, &state);
    let address = rng.of(&[u64::from(own), u64::from(own), 0, 16, 200, 65_536]) as u32;
    let frame = silent_frame(rng, p, own);
    let counted = rng.percent(85);
    let mut buffers = Buffers { state: Some(state_bytes(&state)), ..Buffers::default() };
    if counted && rng.percent(60) {
        buffers.tally = Some(any_tally_bytes(rng));
    }
    Item::Aside(BoardCall::Receive { address, frame, counted }, buffers)
}

/// A tally, one with more bytes behind it, or too few bytes.
fn any_tally_bytes(rng: &mut Rng) -> Vec<u8> {
    let mut b = tally_bytes(&any_tally(rng));
    b.truncate(TALLY_BYTES);
    match rng.below(8) {
        0 => b.clear(),
        1 => b.truncate(TALLY_BYTES - 1),
        2 => b.truncate(rng.below(TALLY_BYTES as u64) as usize),
        3 => {
            let more = 1 + rng.below(30) as usize;
            b.extend(rng.bytes(more));
        }
        _ => {}
    }
    b
}

/// A board call with a profile, a state, a flash or an output of its own.
fn aside(rng: &mut Rng, p: &Profile) -> Item {
    let state = any_state(rng, p);
    let call = any_board_call(rng, p, &state);
    let need = (u64::from(p.o) + u64::from(p.s)).min(u64::from(MOST_FLASH)) as usize;
    let mut buffers = Buffers { state: Some(state_bytes(&state)), ..Buffers::default() };
    if rng.percent(35) {
        buffers.profile = Some(any_profile_bytes(rng, p));
    }
    if rng.percent(35) {
        buffers.state = Some(any_state_bytes(rng, p, &state));
    }
    if rng.percent(12) {
        buffers.flash = Some(rng.of(&[0, 1, need.saturating_sub(1) as u64, need as u64]) as usize);
    }
    if rng.percent(15) {
        let m = u64::from(p.m).min(MOST_ROOM as u64);
        buffers.room = Some(rng.of(&[0, 31, m.saturating_sub(1), m]) as usize);
    }
    if call.is_counted() && rng.percent(50) {
        buffers.tally = Some(any_tally_bytes(rng));
    }
    Item::Aside(call, buffers)
}

/// The page of a profile, 64 for one that is out of range.
fn page_of(p: &Profile) -> u32 {
    if PAGES.contains(&p.page) {
        return p.page;
    }
    64
}

/// A board call under another page byte, half of them on a copy of the standing state: that one is handed over.
fn page_aside(rng: &mut Rng, p: &Profile) -> Item {
    let other = Profile { page: if page_of(p) == 64 { 128 } else { 64 }, ..p.clone() };
    let mut profile = profile_bytes(&other);
    if rng.percent(25) {
        profile[PAGE_BYTE] = rng.of(&[2, 2, 3, 63, 64, 64, 65, 127, 128, 128, 129, 254, 255, 255]) as u8;
    }
    let mut buffers = Buffers { profile: Some(profile), ..Buffers::default() };
    if rng.percent(50) {
        let to = 8 + rng.byte() % 8;
        let frame = match rng.below(6) {
            0 => framed(p.bus, to, READ, &[0, 0, rng.byte() % 28]),
            1 => general_frame(p.bus, 6),
            2 => return Item::Aside(BoardCall::Read { address: u32::from(to) }, buffers),
            _ => framed(p.bus, to, FINALIZE, &[]),
        };
        let address = if frame == general_frame(p.bus, 6) { 0 } else { u32::from(to) };
        return Item::Aside(BoardCall::Receive { address, frame, counted: rng.percent(50) }, buffers);
    }
    let state = any_state(rng, p);
    let call = any_board_call(rng, &other, &state);
    buffers.state = Some(state_bytes(&state));
    Item::Aside(call, buffers)
}

/// A board with pages of 128 and a state of its own, next to 64 or 128 bytes waiting.
fn waiting_aside(rng: &mut Rng, p: &Profile) -> Item {
    let mut profile = Profile { page: 128, s: (p.s / 128 * 128).max(128), o: p.o / 128 * 128, ..p.clone() };
    profile.s = profile.s.min(65_408);
    let in_page = rng.of(&[62, 63, 63, 64, 65, 126, 127, 127]) as u32;
    let mut state = State { running: false, own: Own::DefaultRange, ..any_state(rng, &profile) };
    state.next = 128 * rng.below(u64::from(profile.s / 128)) as u32 + in_page;
    state.w = if rng.percent(20) { in_page + 1 } else { in_page };
    state.count = 0;
    let frame = match rng.below(8) {
        0 => framed(p.bus, 8, FINALIZE, &[]),
        1 => framed(p.bus, 8, START, &[]),
        2 => write_frame(p.bus, 8, u64::from(state.next), &rng.bytes(2)),
        _ => write_frame(p.bus, 8, u64::from(state.next), &rng.bytes(1)),
    };
    let buffers = Buffers { profile: Some(profile_bytes(&profile)), state: Some(state_bytes(&state)), ..Buffers::default() };
    Item::Aside(BoardCall::Receive { address: 8, frame, counted: rng.percent(50) }, buffers)
}

/// Set address to a board in a state of its own.
fn set_address_aside(rng: &mut Rng, p: &Profile) -> Item {
    let state = any_state(rng, p);
    let own = some_own(rng, &state);
    let frame = random_set_address(rng, p, own);
    let call = BoardCall::Receive { address: u32::from(own), frame, counted: rng.percent(30) };
    Item::Aside(call, Buffers { state: Some(state_bytes(&state)), ..Buffers::default() })
}

pub fn any_state(rng: &mut Rng, p: &Profile) -> State {
    let mut s = State::fresh();
    s.own = random_own(rng, p.bus);
    s.running = rng.percent(8);
    s.next = if rng.percent(20) { p.s } else { rng.below(u64::from(p.s) + 1) as u32 };
    let in_page = s.next % page_of(p);
    s.w = if rng.percent(20) { in_page } else { rng.below(u64::from(in_page) + 1) as u32 };
    s.count = if rng.percent(20) { s.next - s.w } else { rng.below(u64::from(s.next - s.w) + 1) as u32 };
    if p.bus == Bus::I2c && rng.percent(60) {
        s.reply_len = if rng.percent(20) { p.m } else { rng.below(u64::from(p.m) + 1) as u32 };
    }
    s.waiting.copy_from_slice(&rng.bytes(MOST_PAGE));
    s.reply.copy_from_slice(&rng.bytes(256));
    s
}

/// An address that is the board's.
pub fn some_own(rng: &mut Rng, s: &State) -> u8 {
    match s.own {
        Own::DefaultRange => 8 + rng.byte() % 8,
        Own::Address(address) => address,
    }
}

fn any_board_call(rng: &mut Rng, p: &Profile, s: &State) -> BoardCall {
    let own = some_own(rng, s);
    // numbers that are the own address in their low seven or eight bits
    let address = u32::from(own) + rng.of(&[0, 0, 0, 0, 0, 0, 0, 128, 256, 65_536, 4_294_967_040]) as u32;
    if rng.percent(15) {
        return BoardCall::Read { address };
    }
    let most = most_data(p.bus, p.m).min(260) as u64;
    let (next, page) = (u64::from(s.next), u64::from(page_of(p)));
    let left = u64::from(p.s).saturating_sub(next);
    let frame = match rng.below(13) {
        0..=5 => {
            let at = rng.of(&[0, next, next, next, next, next + 1]);
            let length = rng.of(&[0, 1, most, most, left, left + 1, page - next % page]).min(most);
            write_frame(p.bus, own, at, &rng.bytes(length as usize))
        }
        6 | 7 => framed(p.bus, own, FINALIZE, &[]),
        8 => general_frame(p.bus, if rng.percent(50) { 4 } else { 6 }),
        9 => framed(p.bus, own, START, &[]),
        10 => random_set_address(rng, p, own),
        _ => {
            let (code, length) = (rng.byte() % 16, rng.below(5) as usize);
            framed(p.bus, own, code, &rng.bytes(length))
        }
    };
    let general = frame == general_frame(p.bus, 4) || frame == general_frame(p.bus, 6);
    let address = if general { address - u32::from(own) } else { address };
    BoardCall::Receive { address, frame, counted: rng.percent(50) }
}

/// One field that the bytes can hold and the profile can't, a short buffer, or a longer one.
pub fn any_profile_bytes(rng: &mut Rng, p: &Profile) -> Vec<u8> {
    let mut b = profile_bytes(p);
    let number = any_number(rng);
    match rng.below(11) {
        0 | 1 => b.truncate(rng.below(PROFILE_BYTES as u64) as usize),
        2 | 3 => b[0] = rng.of(&[0, 1, 2, 9, 128, 255]) as u8,
        4 => b[5] = rng.of(&[0, 15, 16, 17, 255]) as u8,
        5 => put(&mut b, 8, number),
        6 => put(&mut b, 12, number),
        7 => put(&mut b, 16, number),
        8 => b[1] = 0,
        9 => b[PAGE_BYTE] = rng.of(&[0, 1, 2, 64, 128, 255]) as u8,
        _ => {
            let more = rng.below(60) as usize;
            b.extend(rng.bytes(more));
        }
    }
    b
}

/// The same for a state.
pub fn any_state_bytes(rng: &mut Rng, p: &Profile, s: &State) -> Vec<u8> {
    let mut b = state_bytes(s);
    let number = any_number(rng);
    match rng.below(10) {
        0 => b.truncate(rng.below(STATE_BYTES as u64) as usize),
        1 => b.truncate(STATE_BYTES - 1),
        2 | 3 => b[0] = rng.of(&[0, 1, 2, 7, 255]) as u8,
        4 | 5 => b[2] = rng.of(&[0, 1, 2, 7, 255]) as u8,
        6 => {
            let at = rng.of(&[4, 8, 12, 16]) as usize;
            put(&mut b, at, number);
        }
        7 => {
            // one more than the field can hold
            let at = rng.of(&[4, 8, 12, 16]) as usize;
            let more = [(4, s.next), (8, s.next % page_of(p)), (12, s.next - s.w), (16, 256)];
            let most = more.iter().find(|(place, _)| *place == at).map_or(0, |(_, most)| *most);
            put(&mut b, at, most + 1);
        }
        8 => {
            let more = rng.below(60) as usize;
            b.extend(rng.bytes(more));
        }
        _ => {
            let all = rng.bytes(STATE_BYTES);
            b[20..STATE_BYTES].copy_from_slice(&all[20..]);
        }
    }
    b
}

fn any_number(rng: &mut Rng) -> u32 {
    match rng.below(3) {
        0 => rng.number() as u32,
        _ => {
            let low = rng.of(&[0, 1, 31, 32, 63, 64, 65, 128, 255, 256, 257, 65_472, 65_473, 65_536]) as u32;
            let high = rng.of(&[0, 0, 0, 65_536, 16_777_216, 2_147_483_648]) as u32;
            low.wrapping_add(high)
        }
    }
}

fn any_encode(rng: &mut Rng) -> Encode {
    let length = rng.of(&[0, 1, 26, 27, 28, 29, 122, 124, 250, 251, 252, 253, 300]) as usize;
    Encode {
        bus: any_bus(rng),
        m: rng.of(&[31, 32, 32, 33, 128, 128, 255, 256, 256, 256, 257, 65_568]) as u32,
        code: if rng.percent(6) { rng.of(&[260, 262]) as u32 } else { any_code(rng) },
        to: rng.of(&[3, 8, 8, 8, 9, 100, 100, 127, 128, 255, 256, 264, 0, 4_294_967_295]) as u32,
        a: rng.of(&[0, 1, 1, 8, 119, 127, 128, 247, 255, 256, 65_535, 65_535, 65_536, 4_294_967_295]) as u32,
        b: rng.of(&[0, 1, 27, 28, 29, 30, 251, 252, 253, 254, 255, 256, 4_294_967_295]) as u32,
        data: rng.bytes(length),
    }
}

/// A good request, into a room that is just enough or one byte less.
fn exact_encode(rng: &mut Rng) -> Item {
    let bus = rng.below(2) as u32;
    let m = 32 + rng.below(225) as u32;
    let code = rng.of(&[0, 1, 3, 4, 5, 6, 6, 6, 7, 8, 9, 12]) as u32;
    let most = most_data(BUSES[bus as usize], m) as u64;
    let some = rng.below(most + 1);
    let length = rng.of(&[0, 1, most, some]);
    let args = match code {
        1 => 2,
        6 => 2 + length,
        8 => 3,
        _ => 0,
    };
    let whole = args + if bus == 0 { 2 } else { 4 };
    let encode = Encode {
        bus,
        m,
        code,
        to: 1 + rng.below(if bus == 0 { 127 } else { 255 }) as u32,
        a: if code == 1 { 8 + rng.below(112) } else { rng.below(65_536) } as u32,
        b: rng.below(u64::from(m) - 4) as u32,
        data: rng.bytes(length as usize),
    };
    Item::AsideEncode(encode, (whole - rng.below(2)) as usize)
}

/// Set address; mostly the new address alone decides.
fn set_address_encode(rng: &mut Rng) -> Item {
    let bus = rng.below(2) as u32;
    let encode = Encode {
        bus,
        m: rng.of(&[31, 32, 64, 128, 255, 256, 256, 257]) as u32,
        code: 1,
        to: rng.of(&[0, 3, 8, 8, 9, 9, 100, 100, 120, 127, 250]) as u32,
        a: if rng.percent(5) { 256 } else { u32::from(some_new_address(rng, BUSES[bus as usize])) },
        b: rng.of(&[0, 0, 1, 7, 255, 255, 256]) as u32,
        data: Vec::new(),
    };
    Item::AsideEncode(encode, rng.of(&[0, 3, 5, 6, 7, 256, 256, 256]) as usize)
}

fn any_reply(rng: &mut Rng, bus: Bus, address: u8) -> Vec<u8> {
    let status = rng.of(&[0, 0, 0, 0, 1, 2, 3, 4, 5, 6, 255]) as u8;
    let length = rng.of(&[0, 1, 2, 4, 5, 27, 28, 100, 251, 253, 255]);
    let length = if rng.percent(30) { rng.below(256) } else { length };
    let mut bytes = reply(bus, address, status, &rng.bytes(length as usize));
    match rng.below(8) {
        0 => damage_one(rng, &mut bytes),
        1 => bytes.truncate(rng.below(bytes.len() as u64) as usize),
        2 => {
            let more = 1 + rng.below(4) as usize;
            bytes.extend(rng.bytes(more));
        }
        3 => {
            // another length byte
            let at = if bus == Bus::I2c { 1 } else { 2 };
            bytes[at] = bytes[at].wrapping_add(rng.of(&[1, 255, 2, 128]) as u8);
        }
        _ => {}
    }
    bytes
}

fn any_decode(rng: &mut Rng) -> Item {
    let bus = any_bus(rng);
    let from = rng.of(&[8, 9, 0, 255]) as u8;
    let bytes = any_reply(rng, BUSES[(bus % 2) as usize], from);
    Item::AsideDecode(Decode {
        bus,
        code: any_code(rng),
        address: u32::from(from) + rng.of(&[0, 0, 0, 0, 1, 256, 65_536]) as u32,
        asked: rng.of(&[0, 1, 27, 28, 100, 253, 255, 256, 4_294_967_295]) as u32,
        reply: bytes,
    })
}

/// Mostly served.
fn any_code(rng: &mut Rng) -> u32 {
    if rng.percent(8) {
        return rng.of(&[2, 10, 13, 15, 255, 256, 264, 65_536, 4_294_967_295]) as u32;
    }
    rng.of(&[0, 1, 3, 4, 5, 6, 7, 8, 8, 8, 9, 12]) as u32
}

fn two_reads(rng: &mut Rng) -> Item {
    let first = any_reply(rng, Bus::I2c, 0);
    let mut second = if rng.percent(50) { first.clone() } else { any_reply(rng, Bus::I2c, 0) };
    let mut first = first;
    if rng.percent(60) {
        damage_one(rng, &mut first);
    }
    if rng.percent(20) {
        damage_one(rng, &mut second);
    }
    let code = any_code(rng);
    let asked = rng.of(&[0, 1, 5, 27, 100, 253, 255, 4_294_967_295]) as u32;
    Item::TwoReads { code, asked, first, second }
}

/// The reset of a running application, mostly for the board's bus and M, into a room near its length.
fn any_reset_running(rng: &mut Rng, p: &Profile) -> Item {
    let bus = match rng.below(10) {
        0 => rng.of(&[2, 9, 256, 257, 4_294_967_295]) as u32,
        1 | 2 => rng.below(2) as u32,
        _ => p.bus as u32,
    };
    let (major, minor) = any_version(rng);
    let m = if rng.percent(40) { p.m } else { rng.of(&[31, 32, 64, 256, 257, 288, 65_568, 4_294_967_295]) as u32 };
    let whole = if bus == 1 { 4 } else { 1 };
    let room = rng.of(&[0, whole - 1, whole, whole, whole + 1, 5, 256]) as usize;
    Item::AsideResetRunning(ResetRunning { bus, m, major, minor }, room)
}

/// Running, next to it, known, and numbers that are one of these in their low bits.
fn any_version(rng: &mut Rng) -> (u32, u32) {
    let (major, minor) = match rng.below(10) {
        0..=3 => (0, 0),
        4 | 5 => (0, rng.of(&[1, 2, 255, 256, 65_536, 4_294_967_295])),
        6 => (rng.of(&[3, 255, 256, 256, 65_536]), 0),
        7 | 8 => (1 + rng.below(2), rng.of(&[0, 1, 2, 3, 255, 256, 257, 4_294_967_295])),
        _ => {
            let major = rng.of(&[0, 1, 2, 2, 3, 255, 256, 257, 258, 65_538, 4_294_967_295]);
            (major, rng.of(&[0, 1, 2, 3, 255, 256, 257, 4_294_967_295]))
        }
    };
    (major as u32, minor as u32)
}
