//! The library's functions (include/childbus.h), each behind a function that lends it buffers with guard bytes around.

mod c {
    extern "C" {
        pub fn childbus_fresh(state: *mut u8, state_len: usize) -> u32;
        pub fn childbus_receive(
            profile: *const u8,
            profile_len: usize,
            state: *mut u8,
            state_len: usize,
            address: u32,
            frame: *const u8,
            frame_len: usize,
            flash: *mut u8,
            flash_len: usize,
            out: *mut u8,
            out_len: usize,
            made: *mut usize,
        ) -> u32;
        pub fn childbus_receive_tally(
            profile: *const u8,
            profile_len: usize,
            state: *mut u8,
            state_len: usize,
            address: u32,
            frame: *const u8,
            frame_len: usize,
            flash: *mut u8,
            flash_len: usize,
            out: *mut u8,
            out_len: usize,
            tally: *mut u8,
            tally_len: usize,
            made: *mut usize,
        ) -> u32;
        pub fn childbus_read(
            profile: *const u8,
            profile_len: usize,
            state: *const u8,
            state_len: usize,
            address: u32,
            flash: *const u8,
            flash_len: usize,
            out: *mut u8,
            out_len: usize,
            made: *mut usize,
        ) -> u32;
        pub fn childbus_encode(
            bus: u32,
            longest: u32,
            code: u32,
            destination: u32,
            a: u32,
            b: u32,
            data: *const u8,
            data_len: usize,
            out: *mut u8,
            out_len: usize,
            made: *mut usize,
        ) -> u32;
        pub fn childbus_general(
            bus: u32,
            longest: u32,
            reset: u32,
            out: *mut u8,
            out_len: usize,
            made: *mut usize,
        ) -> u32;
        pub fn childbus_decode(
            bus: u32,
            code: u32,
            address: u32,
            asked: u32,
            reply: *const u8,
            reply_len: usize,
            status: *mut u32,
            start: *mut usize,
            len: *mut usize,
        ) -> u32;
        pub fn childbus_two_reads(
            code: u32,
            asked: u32,
            first: *const u8,
            first_len: usize,
            second: *const u8,
            second_len: usize,
            start: *mut usize,
            len: *mut usize,
        ) -> u32;
        pub fn childbus_version(major: u32, minor: u32, known_major: *mut u32, known_minor: *mut u32) -> u32;
        pub fn childbus_reset_running(
            bus: u32,
            longest: u32,
            major: u32,
            minor: u32,
            out: *mut u8,
            out_len: usize,
            made: *mut usize,
        ) -> u32;
        pub fn childbus_silence(
            profile: *const u8,
            profile_len: usize,
            state: *const u8,
            state_len: usize,
            address: u32,
            frame: *const u8,
            frame_len: usize,
            number: u32,
        ) -> u32;
        pub fn childbus_lost(
            profile: *const u8,
            profile_len: usize,
            before: *const u8,
            before_len: usize,
            after: *const u8,
            after_len: usize,
            flash: *const u8,
            flash_len: usize,
        ) -> u32;
        pub fn childbus_erased_nothing(
            profile: *const u8,
            profile_len: usize,
            frame: *const u8,
            frame_len: usize,
            number: u32,
            reply: *const u8,
            reply_len: usize,
            after: *const u8,
            after_len: usize,
        ) -> u32;
        pub fn childbus_upload_end(
            profile: *const u8,
            profile_len: usize,
            image: *const u8,
            image_len: usize,
            earlier: *const u8,
            earlier_len: usize,
            flash: *const u8,
            flash_len: usize,
        ) -> u32;
        pub fn childbus_page_changed(
            profile: *const u8,
            profile_len: usize,
            page: u32,
            earlier: *const u8,
            earlier_len: usize,
            flash: *const u8,
            flash_len: usize,
        ) -> u32;
    }
}

const GUARD: usize = 16;
const GUARD_BYTE: u8 = 0x5c;
/// What single results hold before a call; no call answers it.
const UNSET: usize = 0x7777_7777;

/// A lent buffer between guard bytes. Its place in memory is not aligned.
pub struct Lent {
    store: Vec<u8>,
    at: usize,
    len: usize,
}

impl Lent {
    pub fn new(bytes: &[u8]) -> Lent {
        let at = GUARD + bytes.len() % 4;
        let mut store = vec![GUARD_BYTE; at];
        store.extend_from_slice(bytes);
        store.extend_from_slice(&[GUARD_BYTE; GUARD]);
        Lent { store, at, len: bytes.len() }
    }

    pub fn bytes(&self) -> &[u8] {
        &self.store[self.at..self.at + self.len]
    }

    /// The guard bytes are untouched.
    pub fn guarded(&self) -> bool {
        let (before, after) = (&self.store[..self.at], &self.store[self.at + self.len..]);
        before.iter().chain(after).all(|&byte| byte == GUARD_BYTE)
    }

    fn read(&self) -> (*const u8, usize) {
        (self.bytes().as_ptr(), self.len)
    }

    fn write(&mut self) -> (*mut u8, usize) {
        (self.store[self.at..self.at + self.len].as_mut_ptr(), self.len)
    }
}

// Every call below hands over pointers to whole buffers with their lengths, no two of them overlapping.

pub fn fresh(state: &mut Lent) -> u32 {
    let (at, len) = state.write();
    unsafe { c::childbus_fresh(at, len) }
}

/// The number, and the length of the reply.
pub fn receive(
    profile: &Lent,
    state: &mut Lent,
    address: u32,
    frame: &Lent,
    flash: &mut Lent,
    out: &mut Lent,
) -> (u32, usize) {
    let ((p, pn), (s, sn), (f, fn_)) = (profile.read(), state.write(), frame.read());
    let ((m, mn), (o, on)) = (flash.write(), out.write());
    let mut made = UNSET;
    let number = unsafe { c::childbus_receive(p, pn, s, sn, address, f, fn_, m, mn, o, on, &mut made) };
    (number, made)
}

/// The number, and the length of the reply. The frame is counted in the tally.
pub fn receive_tally(
    profile: &Lent,
    state: &mut Lent,
    address: u32,
    frame: &Lent,
    flash: &mut Lent,
    out: &mut Lent,
    tally: &mut Lent,
) -> (u32, usize) {
    let ((p, pn), (s, sn), (f, fn_)) = (profile.read(), state.write(), frame.read());
    let ((m, mn), (o, on), (t, tn)) = (flash.write(), out.write(), tally.write());
    let mut made = UNSET;
    let number = unsafe { c::childbus_receive_tally(p, pn, s, sn, address, f, fn_, m, mn, o, on, t, tn, &mut made) };
    (number, made)
}

/// The number, and the length of the reply.
pub fn read(profile: &Lent, state: &Lent, address: u32, flash: &Lent, out: &mut Lent) -> (u32, usize) {
    let ((p, pn), (s, sn), (m, mn), (o, on)) = (profile.read(), state.read(), flash.read(), out.write());
    let mut made = UNSET;
    let number = unsafe { c::childbus_read(p, pn, s, sn, address, m, mn, o, on, &mut made) };
    (number, made)
}

/// The number, and the length of the request.
#[allow(clippy::too_many_arguments)]
pub fn encode(bus: u32, m: u32, code: u32, to: u32, a: u32, b: u32, data: &Lent, out: &mut Lent) -> (u32, usize) {
    let ((d, dn), (o, on)) = (data.read(), out.write());
    let mut made = UNSET;
    let number = unsafe { c::childbus_encode(bus, m, code, to, a, b, d, dn, o, on, &mut made) };
    (number, made)
}

/// The number, and the length of the request.
pub fn general(bus: u32, m: u32, reset: u32, out: &mut Lent) -> (u32, usize) {
    let (o, on) = out.write();
    let mut made = UNSET;
    let number = unsafe { c::childbus_general(bus, m, reset, o, on, &mut made) };
    (number, made)
}

/// The number; status, start and length of the results.
pub fn decode(bus: u32, code: u32, address: u32, asked: u32, reply: &Lent) -> (u32, u32, usize, usize) {
    let (r, rn) = reply.read();
    let (mut status, mut start, mut len) = (UNSET as u32, UNSET, UNSET);
    let number = unsafe { c::childbus_decode(bus, code, address, asked, r, rn, &mut status, &mut start, &mut len) };
    (number, status, start, len)
}

/// Which read it is; start and length of the results.
pub fn two_reads(code: u32, asked: u32, first: &Lent, second: &Lent) -> (u32, usize, usize) {
    let ((f, fn_), (s, sn)) = (first.read(), second.read());
    let (mut start, mut len) = (UNSET, UNSET);
    let which = unsafe { c::childbus_two_reads(code, asked, f, fn_, s, sn, &mut start, &mut len) };
    (which, start, len)
}

/// The number, and the version it counts as.
pub fn version(major: u32, minor: u32) -> (u32, u32, u32) {
    let (mut known_major, mut known_minor) = (UNSET as u32, UNSET as u32);
    let number = unsafe { c::childbus_version(major, minor, &mut known_major, &mut known_minor) };
    (number, known_major, known_minor)
}

/// The number, and the length of the request.
pub fn reset_running(bus: u32, m: u32, major: u32, minor: u32, out: &mut Lent) -> (u32, usize) {
    let (o, on) = out.write();
    let mut made = UNSET;
    let number = unsafe { c::childbus_reset_running(bus, m, major, minor, o, on, &mut made) };
    (number, made)
}

pub fn silence(profile: &Lent, state: &Lent, address: u32, frame: &Lent, number: u32) -> u32 {
    let ((p, pn), (s, sn), (f, fn_)) = (profile.read(), state.read(), frame.read());
    unsafe { c::childbus_silence(p, pn, s, sn, address, f, fn_, number) }
}

pub fn lost(profile: &Lent, before: &Lent, after: &Lent, flash: &Lent) -> u32 {
    let ((p, pn), (b, bn), (a, an), (m, mn)) = (profile.read(), before.read(), after.read(), flash.read());
    unsafe { c::childbus_lost(p, pn, b, bn, a, an, m, mn) }
}

pub fn erased_nothing(profile: &Lent, frame: &Lent, number: u32, reply: &Lent, after: &Lent) -> u32 {
    let ((p, pn), (f, fn_), (r, rn), (a, an)) = (profile.read(), frame.read(), reply.read(), after.read());
    unsafe { c::childbus_erased_nothing(p, pn, f, fn_, number, r, rn, a, an) }
}

pub fn upload_end(profile: &Lent, image: &Lent, earlier: &Lent, flash: &Lent) -> u32 {
    let ((p, pn), (i, in_), (e, en), (m, mn)) = (profile.read(), image.read(), earlier.read(), flash.read());
    unsafe { c::childbus_upload_end(p, pn, i, in_, e, en, m, mn) }
}

pub fn page_changed(profile: &Lent, page: u32, earlier: &Lent, flash: &Lent) -> u32 {
    let ((p, pn), (e, en), (m, mn)) = (profile.read(), earlier.read(), flash.read());
    unsafe { c::childbus_page_changed(p, pn, page, e, en, m, mn) }
}
