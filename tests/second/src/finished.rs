//! What a finished upload leaves, as a check of any board over the list of its calls; it shares no rule with `board` and `ledger`.
//!
//! A stretch goes from an accepted write at 0 to a later answered finalize, both included. No reset is in it, and its accepted writes are
//! one at 0 and then each where the last ended. Their data joined is the image. Then
//!   (a) the lent flash after it is the one before it with the image laid over it at O, byte for byte;
//!   (b) the count that its finalize tells is the number of changed pages, unless an earlier finalize of it found bytes waiting;
//!   (c) the changed pages, each laid whole over the flash before it, give the flash after it.
//! A page of the working flash is changed if it is another one with the image's bytes for it laid over its first bytes.
//! And after a start no finalize is answered before a reset.

use crate::ledger::Seen;
use crate::model::{Bus, Own, Profile, State};

/// One call: what was sent, the number and the reply, the state before it, and the whole lent flash before and after it. Of the state
/// the statement looks at w, at running, and at the own address, to know a start.
pub struct Told<'a> {
    pub seen: Seen<'a>,
    pub number: u32,
    pub reply: &'a [u8],
    pub state: &'a State,
    pub before: &'a [u8],
    pub after: &'a [u8],
}

/// What a call is to the statement.
enum Meaning<'a> {
    Reset,
    /// An accepted write.
    Write { at: usize, data: &'a [u8] },
    /// An answered finalize.
    Finalize { results: &'a [u8] },
    Other,
}

/// An accepted write at 0 from which stretches may go. Empty writes at 0 that follow one another over the same flash are one of these.
#[derive(Clone)]
struct Open {
    /// Its place in the list of calls.
    first: u64,
    times: u64,
    writes: u64,
    state: State,
    flash: Vec<u8>,
    /// Answered finalizes since that found nothing waiting, and that found bytes.
    found: [u64; 2],
}

/// A stretch that just ended, and all that was claimed of it holds.
pub struct Ended<'a> {
    pub p: &'a Profile,
    /// The place of its first write in the list of calls; how many stretches this one stands for; its accepted writes.
    pub first: u64,
    pub times: u64,
    pub writes: u64,
    /// State and flash before the first write.
    pub start: &'a State,
    pub old: &'a [u8],
    pub image: &'a [u8],
    /// Earlier finalizes that found nothing waiting, and that found bytes.
    pub found: [u64; 2],
    /// The results of the finalize that ends it.
    pub results: &'a [u8],
}

impl Ended<'_> {
    /// Whether (b) is claimed of it.
    pub fn counted(&self) -> bool {
        self.found[1] == 0
    }

    pub fn changed(&self) -> usize {
        changed_pages(self.p, self.old, self.image).len()
    }

    /// What would be wrong with it if it had left this flash and told this count.
    pub fn fault(&self, now: &[u8], results: &[u8]) -> Option<String> {
        fault(self.p, self.old, self.image, now, Some(results).filter(|_| self.counted()))
    }
}

/// The check of one board's list of calls, under one profile that is in range.
#[derive(Clone)]
pub struct Finished {
    p: Profile,
    calls: u64,
    open: Vec<Open>,
    image: Vec<u8>,
    started: bool,
}

impl Finished {
    pub fn new(p: &Profile) -> Finished {
        Finished { p: p.clone(), calls: 0, open: Vec::new(), image: Vec::new(), started: false }
    }

    /// Enters the next call of the list; the stretches that end with it, or what is wrong with one of them.
    pub fn enter<'a>(&'a mut self, told: &Told<'a>) -> Result<Vec<Ended<'a>>, String> {
        self.calls += 1;
        self.started |= told.state.running || is_start(self.p.bus, told);
        match meaning(self.p.bus, told) {
            Meaning::Reset => {
                self.open.clear();
                self.started = false;
            }
            Meaning::Write { at, data } => self.write(at, data, told),
            Meaning::Finalize { results } => return self.finalize(results, told),
            Meaning::Other => {}
        }
        Ok(Vec::new())
    }

    fn write(&mut self, at: usize, data: &[u8], told: &Told) {
        if at != self.image.len() {
            self.open.clear();
        }
        if at == 0 {
            self.begin(told);
        }
        self.image.extend_from_slice(data);
        for open in &mut self.open {
            open.writes += 1;
        }
    }

    /// Those that are still open had empty writes at 0 only: they go on.
    fn begin(&mut self, told: &Told) {
        self.image.clear();
        if let Some(last) = self.open.last_mut() {
            if last.found[1] == 0 && last.flash == told.before {
                last.times += 1;
                return;
            }
        }
        let (state, flash) = (told.state.clone(), told.before.to_vec());
        self.open.push(Open { first: self.calls, times: 1, writes: 0, state, flash, found: [0, 0] });
    }

    fn finalize<'a>(&'a mut self, results: &'a [u8], told: &Told<'a>) -> Result<Vec<Ended<'a>>, String> {
        if self.started {
            return Err("a finalize was answered after a start and before a reset".to_string());
        }
        let found: Vec<[u64; 2]> = self.open.iter().map(|open| open.found).collect();
        for open in &mut self.open {
            open.found[usize::from(told.state.w > 0)] += 1;
        }
        let (p, image) = (&self.p, &self.image[..]);
        let ended = |(open, found): (&'a Open, [u64; 2])| {
            let Open { first, times, writes, state, flash, .. } = open;
            Ended { p, first: *first, times: *times, writes: *writes, start: state, old: flash, image, found, results }
        };
        let all: Vec<Ended> = self.open.iter().zip(found).map(ended).collect();
        match all.iter().find_map(|e| e.fault(told.after, results)) {
            Some(fault) => Err(fault),
            None => Ok(all),
        }
    }
}

/// From frame, address, number and reply alone.
fn meaning<'a>(bus: Bus, told: &Told<'a>) -> Meaning<'a> {
    let Seen::Frame { address, frame } = told.seen else {
        return Meaning::Other;
    };
    if told.number == 1 && is_reset(bus, address, frame) {
        return Meaning::Reset;
    }
    if told.number != 0 {
        return Meaning::Other;
    }
    match (inner(bus, frame), inner(bus, told.reply)) {
        ([0x06, high, low, data @ ..], [0, ..]) => Meaning::Write { at: usize::from(u16::from_be_bytes([*high, *low])), data },
        ([0x07, ..], [0, _, results @ ..]) => Meaning::Finalize { results },
        _ => Meaning::Other,
    }
}

fn is_reset(bus: Bus, address: u8, frame: &[u8]) -> bool {
    match bus {
        Bus::I2c => address == 0 && frame == [0x06],
        Bus::Rs485 => frame == [0x00, 0x46, 0x80, 0x42],
    }
}

/// What a frame or a reply says, without the RS485 address and the check sum.
fn inner(bus: Bus, bytes: &[u8]) -> &[u8] {
    let (front, back) = match bus {
        Bus::I2c => (0, 1),
        Bus::Rs485 => (1, 2),
    };
    bytes.get(front..bytes.len().saturating_sub(back)).unwrap_or(&[])
}

/// A start to an address that the board hears. (A damaged one gets another number.)
fn is_start(bus: Bus, told: &Told) -> bool {
    let Seen::Frame { address, frame } = told.seen else {
        return false;
    };
    let to = match bus {
        Bus::I2c => address,
        Bus::Rs485 => frame.first().copied().unwrap_or(0),
    };
    let heard = match told.state.own {
        Own::DefaultRange => (8..16).contains(&to),
        Own::Address(own) => to == own && to != 0 && (bus == Bus::Rs485 || to < 128),
    };
    told.number == 1 && inner(bus, frame) == [0x05] && heard
}

/// What is wrong with a finished upload of this image: the flash before it and after it, and the results that (b) claims, if it does.
pub fn fault(p: &Profile, old: &[u8], image: &[u8], now: &[u8], results: Option<&[u8]>) -> Option<String> {
    if let Some(place) = not_laid(p, old, image, now) {
        return Some(format!("(a) byte {place} of the lent flash is not the one that is due"));
    }
    let pages = changed_pages(p, old, image);
    let count = pages.len() as u16;
    if let Some(results) = results.filter(|&results| results != count.to_be_bytes()) {
        return Some(format!("(b) the finalize tells {results:02x?}, and {count} pages changed"));
    }
    if with_pages(old, &pages) != now {
        return Some(format!("(c) the {count} changed pages laid over the old flash are not the flash"));
    }
    None
}

/// The first place where the flash isn't the old one with the image laid over it at O.
fn not_laid(p: &Profile, old: &[u8], image: &[u8], now: &[u8]) -> Option<usize> {
    let first = p.o as usize;
    let end = now.len().max(old.len()).max(first + image.len());
    let due = |place: usize| place.checked_sub(first).and_then(|k| image.get(k)).or(old.get(place));
    (0..end).find(|&place| now.get(place) != due(place))
}

/// The changed pages: where each begins in the lent flash, and its new bytes.
fn changed_pages(p: &Profile, old: &[u8], image: &[u8]) -> Vec<(usize, Vec<u8>)> {
    let (first, size, page) = (p.o as usize, p.s as usize, p.page as usize);
    let working = old.get(first..first + size).unwrap_or(&[]);
    let mut parts = image.chunks(page);
    let mut changed = Vec::new();
    for (k, before) in working.chunks(page).enumerate() {
        let bytes = parts.next().unwrap_or(&[]);
        let after = [bytes, &before[bytes.len()..]].concat();
        if after != before {
            changed.push((first + k * page, after));
        }
    }
    changed
}

fn with_pages(old: &[u8], pages: &[(usize, Vec<u8>)]) -> Vec<u8> {
    let mut flash = old.to_vec();
    for (at, bytes) in pages {
        flash[*at..at + bytes.len()].copy_from_slice(bytes);
    }
    flash
}

#[cfg(test)]
mod tests {
    use super::*;
    use crate::board;
    use crate::check::{framed, general_frame, paged_profile, write_frame};
    use crate::model::{Answer, FINALIZE, START};

    /// The second program's board on I2C and the check of its calls.
    struct Tried {
        p: Profile,
        s: State,
        flash: Vec<u8>,
        finished: Finished,
        /// How many stretches ended with the last call.
        ended: usize,
        results: Vec<u8>,
    }

    impl Tried {
        fn new(page: u32, flash: Vec<u8>) -> Tried {
            let p = paged_profile(Bus::I2c, 256, page, 256, 128);
            Tried { finished: Finished::new(&p), p, s: State::fresh(), flash, ended: 0, results: Vec::new() }
        }

        /// A frame; what the check says of it.
        fn send(&mut self, address: u8, frame: &[u8]) -> Result<(), String> {
            let (state, before) = (self.s.clone(), self.flash.clone());
            let mut out = [0; 256];
            let Answer { number, len } = board::receive(&self.p, &mut self.s, &mut self.flash, &mut out, address, frame);
            let seen = Seen::Frame { address, frame };
            let told = Told { seen, number: number.into(), reply: &out[..len], state: &state, before: &before, after: &self.flash };
            let ended = self.finished.enter(&told)?;
            self.ended = ended.iter().map(|e| e.times as usize).sum();
            self.results = inner(Bus::I2c, &out[..len]).iter().skip(2).copied().collect();
            Ok(())
        }

        fn write(&mut self, at: u64, data: &[u8]) {
            self.send(8, &write_frame(Bus::I2c, 8, at, data)).unwrap();
        }

        fn finalize(&mut self) {
            self.send(8, &framed(Bus::I2c, 8, FINALIZE, &[])).unwrap();
        }
    }

    /// (b) without its condition is false: a finalize within a page counts that page twice. One after a page end does not.
    #[test]
    fn a_finalize_within_a_page_counts_it_twice() {
        let old = vec![0xff; 500];
        let mut tried = Tried::new(64, old.clone());
        tried.write(0, &[0x11]);
        tried.finalize();
        assert_eq!((tried.ended, &tried.results[..]), (1, &[0, 1][..]));
        tried.write(1, &[0x22]);
        tried.finalize();
        assert_eq!((tried.ended, &tried.results[..]), (1, &[0, 2][..]));
        assert_eq!(changed_pages(&tried.p, &old, &[0x11, 0x22]).len(), 1);
        let claimed = fault(&tried.p, &old, &[0x11, 0x22], &tried.flash, Some(&tried.results));
        assert!(claimed.is_some_and(|text| text.starts_with("(b)")));
        assert_eq!(fault(&tried.p, &old, &[0x11, 0x22], &tried.flash, None), None);

        let mut tried = Tried::new(64, old.clone());
        tried.write(0, &[0x11; 64]);
        tried.finalize();
        tried.write(64, &[0x11]);
        tried.finalize();
        assert_eq!(tried.results, [0, 2]);
        assert_eq!(fault(&tried.p, &old, &[0x11; 65], &tried.flash, Some(&[0, 2])), None);
    }

    /// (a) with a reset in between is false, and no stretch goes over one.
    #[test]
    fn a_reset_loses_what_waited() {
        let old = vec![0xff; 500];
        let mut tried = Tried::new(64, old.clone());
        tried.write(0, &[0x11]);
        tried.send(0, &general_frame(Bus::I2c, 6)).unwrap();
        tried.finalize();
        assert_eq!((tried.ended, &tried.results[..]), (0, &[0, 0][..]));
        let claimed = fault(&tried.p, &old, &[0x11], &tried.flash, None);
        assert!(claimed.is_some_and(|text| text.starts_with("(a)")));
        assert_eq!(tried.flash, old);
    }

    /// The image lies at O, not at 0.
    #[test]
    fn the_image_is_laid_at_o() {
        let old: Vec<u8> = (0..500).map(|k| k as u8).collect();
        let mut tried = Tried::new(128, old.clone());
        tried.write(0, &[0xee; 3]);
        tried.finalize();
        assert_eq!(tried.ended, 1);
        assert_eq!(tried.flash[128..131], [0xee; 3]);
        let at_0 = Profile { o: 0, ..tried.p.clone() };
        let claimed = fault(&at_0, &old, &[0xee; 3], &tried.flash, None);
        assert!(claimed.is_some_and(|text| text.starts_with("(a) byte 0 ")));
        assert_eq!(fault(&tried.p, &old, &[0xee; 3], &tried.flash, Some(&[0, 1])), None);
    }

    /// Bytes behind the image stay the old ones, also for the count.
    #[test]
    fn no_padding() {
        let mut old = vec![0x33; 500];
        old[128..131].fill(0x11);
        let mut tried = Tried::new(64, old.clone());
        tried.write(0, &[0x11; 3]);
        tried.finalize();
        assert_eq!((tried.ended, &tried.results[..], &tried.flash), (1, &[0, 0][..], &old));
    }

    /// Each empty write at 0 opens a stretch; a write at 0 after bytes ends those that are open.
    #[test]
    fn writes_at_0_again() {
        let mut tried = Tried::new(64, vec![0xff; 500]);
        tried.write(0, &[]);
        tried.finalize();
        assert_eq!(tried.ended, 1);
        tried.write(0, &[]);
        tried.write(0, &[0x11; 2]);
        tried.finalize();
        assert_eq!(tried.ended, 3);
        tried.write(0, &[]);
        tried.finalize();
        assert_eq!(tried.ended, 1);
        tried.write(0, &[0x11; 70]);
        tried.write(0, &[0x22]);
        tried.finalize();
        assert_eq!(tried.ended, 1);
    }

    /// A finalize that is answered after a start, as a board would that forgets to run.
    #[test]
    fn a_start_ends_it() {
        let mut tried = Tried::new(64, vec![0xff; 500]);
        tried.write(0, &[0x11]);
        tried.send(8, &framed(Bus::I2c, 8, START, &[])).unwrap();
        tried.finalize();
        assert_eq!((tried.ended, tried.results.len()), (0, 0));
        tried.s.running = false;
        assert!(tried.send(8, &framed(Bus::I2c, 8, FINALIZE, &[])).is_err());
        tried.send(0, &general_frame(Bus::I2c, 6)).unwrap();
        tried.finalize();
        assert_eq!(tried.ended, 0);
    }
}
