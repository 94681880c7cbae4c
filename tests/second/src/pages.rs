//! Request W8 judged once more, apart from `model` and `board`: which S and O a page allows, which states are well formed under
//! it, and what boards do whose page changes between calls. The state doesn't hold its page: a state made under another one is
//! malformed, or taken with its waiting bytes at their own places.

use crate::board;
use crate::check::{demand, framed, general_frame, paged_profile, write_frame};
use crate::model::*;
use crate::rng::Rng;

const BUSES: [Bus; 2] = [Bus::I2c, Bus::Rs485];
const UNTOUCHED: u8 = 0xa5;
/// Page sizes that no board has; some are 64 or 128 in their low 8 or 16 bits.
pub const WRONG: [u32; 16] =
    [0, 1, 32, 63, 65, 96, 127, 129, 192, 256, 320, 384, 512, 65_600, 65_664, 4_294_967_168];

/// A page size with the highest multiples of it that S and O may be: 1023 pages of 64, 511 of 128.
const ALLOWED: [(u32, u32); 2] = [(64, 1023), (128, 511)];

/// By counting pages: S from one to the highest multiple, O from none.
fn allowed(p: &Profile) -> bool {
    let Some((page, highest)) = ALLOWED.iter().find(|(page, _)| *page == p.page) else {
        return false;
    };
    let whole = |size: u32| (0..=*highest).find(|k| k * page == size);
    whole(p.s).is_some_and(|k| k > 0) && whole(p.o).is_some()
}

/// Every S and every O up to beyond their ends under both pages, and sizes that each wrong page would divide.
fn every_profile() -> Result<u64, String> {
    let mut done = 0;
    let mut one = |page: u32, s: u32, o: u32| {
        let p = paged_profile(Bus::I2c, 32, page, s, o);
        let told = refusal(&p, &State::fresh(), 200_000, 32);
        let due = if allowed(&p) { None } else { Some(2) };
        done += 1;
        demand(told == due, &format!("page {page}, S {s}, O {o}: {told:?}, not {due:?}"))
    };
    let far = [65_600, 65_664, 131_072, 4_294_967_168, 4_294_967_232];
    for page in PAGES {
        // one more than a multiple, and each multiple of 32
        let near = (0..2100).flat_map(|k| [32 * k, 32 * k + 1]);
        for size in near.chain(far) {
            one(page, size, 0)?;
            one(page, size, 65_408)?;
            one(page, 128, size)?;
            one(page, 65_408, size)?;
        }
    }
    for page in (0..=600).chain(WRONG) {
        for (s, o) in [(768, 0), (768, 768), (64, 64), (128, 128), (page, page), (page, 0)] {
            one(page, s, o)?;
        }
    }
    Ok(done)
}

/// The last w bytes before next lie in the page that next is in.
fn in_one_page(page: u32, next: u32, w: u32) -> bool {
    w <= next && (next - w) / page == next / page
}

/// Every next and w of a small flash under both pages, with the highest count and one more.
fn every_waiting() -> Result<u64, String> {
    let version = framed(Bus::I2c, 8, VERSION, &[]);
    let mut done = 0;
    for page in PAGES {
        let p = paged_profile(Bus::I2c, 32, page, 384, 0);
        let mut flash = vec![0xff; 384];
        for (next, w) in (0..=385).flat_map(|next| (0..=130).map(move |w| (next, w))) {
            let well_formed = next <= 384 && in_one_page(page, next, w);
            for (more, due) in [(0, if well_formed { 0 } else { 4 }), (1, 4)] {
                let mut s = State { next, w, count: next.saturating_sub(w) + more, ..State::fresh() };
                let mut out = [0; 32];
                let answer = board::receive(&p, &mut s, &mut flash, &mut out, 8, &version);
                let told = answer.number;
                demand(told == due, &format!("page {page}, next {next}, w {w}, count + {more}: {told}, not {due}"))?;
                done += 1;
            }
        }
    }
    Ok(done)
}

/// What a board must hold whose page changes: places and bytes, no page buffer.
struct Shadow {
    flash: Vec<u8>,
    next: usize,
    waiting: Vec<u8>,
    count: u32,
}

impl Shadow {
    /// The waiting bytes go to their own places.
    fn lay(&mut self, o: usize) {
        let first = o + self.next - self.waiting.len();
        let mut changed = false;
        for (k, byte) in self.waiting.drain(..).enumerate() {
            changed |= self.flash[first + k] != byte;
            self.flash[first + k] = byte;
        }
        self.count += u32::from(changed);
    }

    fn write(&mut self, p: &Profile, at: usize, data: &[u8]) {
        if at == 0 {
            self.next = 0;
            self.waiting.clear();
            self.count = 0;
        }
        for byte in data {
            self.next += 1;
            self.waiting.push(*byte);
            if self.next % p.page as usize == 0 {
                self.lay(p.o as usize);
            }
        }
    }
}

/// What happened in the lists.
#[derive(Default)]
struct Counts {
    calls: u64,
    /// Changes of the page to 64 and to 128 with bytes waiting: then malformed, then well formed.
    malformed: [u64; 2],
    taken: [u64; 2],
    /// Of those taken: the first call after it is a finalize, or a write that ends a page.
    finalized: [u64; 2],
    written_on: [u64; 2],
    /// Page or sizes refused by 2.
    out_of_range: u64,
    /// Calls that left 64 to 127 bytes waiting, and writes past a multiple of 64 under 128 without a commit.
    over_63: u64,
    past_64: u64,
}

/// A board whose page changes, and its shadow.
struct Handed {
    p: Profile,
    s: State,
    flash: Vec<u8>,
    shadow: Shadow,
    /// The page of the last call that the board took.
    made_under: u32,
}

impl Handed {
    /// The number that every call gets now, if it is refused.
    fn refused(&self) -> Option<u8> {
        if !allowed(&self.p) {
            return Some(2);
        }
        let (next, w) = (self.shadow.next as u32, self.shadow.waiting.len() as u32);
        if !in_one_page(self.p.page, next, w) {
            return Some(4);
        }
        None
    }

    /// Bytes wait that were taken under another page.
    fn handed(&self) -> bool {
        self.p.page != self.made_under && !self.shadow.waiting.is_empty()
    }

    fn change_page(&mut self, page: u32, counts: &mut Counts) {
        self.p.page = page;
        let to = usize::from(page == 128);
        if self.handed() && allowed(&self.p) {
            counts.malformed[to] += u64::from(self.refused() == Some(4));
            counts.taken[to] += u64::from(self.refused().is_none());
        }
    }

    /// A frame, and the results that an OK to it must have; the shadow already did what the frame asks for.
    fn receive(&mut self, frame: &[u8], refused: Option<u8>, results: &[u8], counts: &mut Counts) -> Result<(), String> {
        let given = (self.s.clone(), self.flash.clone());
        let mut out = vec![UNTOUCHED; self.p.m as usize];
        let answer = board::receive(&self.p, &mut self.s, &mut self.flash, &mut out, 8, frame);
        counts.calls += 1;
        if let Some(number) = refused {
            counts.out_of_range += u64::from(number == 2);
            demand(answer == Answer::only(number), &format!("number {}, not {number}", answer.number))?;
            let untouched = (&self.s, &self.flash) == (&given.0, &given.1) && out.iter().all(|&b| b == UNTOUCHED);
            return demand(untouched, "a refused call changed something");
        }
        self.made_under = self.p.page;
        let (start, tail) = if self.p.bus == Bus::I2c { (2, 1) } else { (3, 2) };
        demand(answer.number == 0 && out[start - 2] == OK, "not answered OK")?;
        demand(out.get(start..answer.len - tail) == Some(results), "other results")?;
        self.same()?;
        let (kept, w) = (self.s.next - given.0.next.min(self.s.next), self.s.w);
        counts.over_63 += u64::from(w > 63);
        counts.past_64 += u64::from(w == given.0.w + kept && self.s.next / 64 > given.0.next / 64);
        Ok(())
    }

    fn same(&self) -> Result<(), String> {
        let shadow = &self.shadow;
        demand(self.s.next as usize == shadow.next, "another next")?;
        demand(self.s.waiting_bytes() == shadow.waiting, "other waiting bytes")?;
        demand(self.s.count == shadow.count, "another count")?;
        demand(self.flash == shadow.flash, "another flash")
    }

    fn write(&mut self, at: usize, data: &[u8], counts: &mut Counts) -> Result<(), String> {
        let refused = self.refused();
        if refused.is_none() {
            let (handed, waited) = (self.handed(), self.shadow.waiting.len());
            self.shadow.write(&self.p, at, data);
            let ended = at > 0 && self.shadow.waiting.len() < waited + data.len();
            counts.written_on[usize::from(self.p.page == 128)] += u64::from(handed && ended);
        }
        let frame = write_frame(self.p.bus, 8, at as u64, data);
        self.receive(&frame, refused, &[], counts)
    }

    fn finalize(&mut self, counts: &mut Counts) -> Result<(), String> {
        let refused = self.refused();
        if refused.is_none() {
            counts.finalized[usize::from(self.p.page == 128)] += u64::from(self.handed());
            self.shadow.lay(self.p.o as usize);
        }
        let count = (self.shadow.count as u16).to_be_bytes();
        self.receive(&framed(self.p.bus, 8, FINALIZE, &[]), refused, &count, counts)
    }

    /// It shows flash, never waiting bytes.
    fn read_flash(&mut self, at: usize, length: usize, counts: &mut Counts) -> Result<(), String> {
        let [high, low] = (at as u16).to_be_bytes();
        let frame = framed(self.p.bus, 8, READ, &[high, low, length as u8]);
        let first = self.p.o as usize + at;
        let results = self.shadow.flash[first..first + length].to_vec();
        let refused = self.refused();
        self.receive(&frame, refused, &results, counts)
    }

    /// A reset, and the last reply read: both refused like any other call.
    fn reset(&mut self) -> Result<(), String> {
        let refused = self.refused();
        let given = self.s.clone();
        let mut out = vec![UNTOUCHED; self.p.m as usize];
        let read = board::read(&self.p, &self.s, &self.flash, &mut out, 8).number;
        let due = u8::from(given.reply_len == 0);
        demand(read == refused.unwrap_or(due), &format!("the read's number is {read}"))?;
        let call = general_frame(self.p.bus, 6);
        let number = board::receive(&self.p, &mut self.s, &mut self.flash, &mut out, 0, &call).number;
        demand(number == refused.unwrap_or(1), &format!("the reset's number is {number}"))?;
        if refused.is_none() {
            self.shadow = Shadow { flash: self.flash.clone(), next: 0, waiting: Vec::new(), count: 0 };
            self.made_under = self.p.page;
            return demand(self.s == State::fresh(), "not fresh after a reset");
        }
        demand(self.s == given, "a refused reset changed the state")
    }
}

/// A board whose page changes now and then. Most sizes are multiples of both pages.
fn one_list(rng: &mut Rng, counts: &mut Counts) -> Result<(), String> {
    let unit = if rng.percent(85) { 128 } else { 64 };
    let (s, o) = (unit * rng.of(&[1, 2, 3, 5]) as u32, unit * rng.below(3) as u32);
    let p = paged_profile(BUSES[rng.below(2) as usize], 256, 64, s, o);
    let (first, size) = (o as usize, s as usize);
    let past = rng.below(70) as usize;
    let flash = if rng.percent(30) { vec![0xff; first + size + past] } else { rng.bytes(first + size + past) };
    let image = if rng.percent(50) { flash[first..first + size].to_vec() } else { rng.bytes(size) };
    let shadow = Shadow { flash: flash.clone(), next: 0, waiting: Vec::new(), count: 0 };
    let mut board = Handed { p, s: State::fresh(), flash, shadow, made_under: 64 };
    for step in 0..20 + rng.below(30) {
        if rng.percent(25) {
            let page = if rng.percent(85) { rng.of(&[64, 128]) } else { rng.of(&WRONG.map(u64::from)) };
            board.change_page(page as u32, counts);
        }
        let page = board.p.page.max(1) as usize;
        let at = if rng.percent(8) || board.shadow.next == size { 0 } else { board.shadow.next };
        let left = size - at;
        let to_end = page - at % page;
        let length = rng.of(&[0, 1, 6, 63, 64, 65, 127, 128, 200, to_end as u64, to_end as u64 - 1]).min(left as u64).min(250);
        let mut data = image[at..at + length as usize].to_vec();
        if let (true, Some(byte)) = (rng.percent(20), data.last_mut()) {
            *byte ^= 0x10;
        }
        let result = match rng.below(20) {
            0..=11 => board.write(at, &data, counts),
            12..=16 => board.finalize(counts),
            17 | 18 => board.read_flash(at, left.min(200), counts),
            _ => board.reset(),
        };
        result.map_err(|e| format!("{e}; call {step}, page {}, S {s}, O {o}, at {at}, {} bytes", board.p.page, data.len()))?;
    }
    Ok(())
}

/// All of it; a report line.
pub fn compare(seed: u64, lists: u64) -> Result<String, String> {
    let profiles = every_profile()?;
    let states = every_waiting()?;
    let mut counts = Counts::default();
    for k in 0..lists {
        let mut rng = Rng::new(seed.wrapping_mul(0x1_0000_0001).wrapping_add(k << 10));
        one_list(&mut rng, &mut counts).map_err(|e| format!("{e}; pages, list {k}"))?;
    }
    let Counts { calls, malformed, taken, finalized, written_on, out_of_range, over_63, past_64 } = counts;
    // a state made under 64 is well formed under 128
    let parts = [malformed[0], taken[0], taken[1], finalized[0], finalized[1], written_on[0], written_on[1]];
    let happened = parts.iter().chain(&[out_of_range, over_63, past_64]).all(|&n| n > 0);
    demand(lists < 200 || happened, "some change of the page never happened")?;
    demand(malformed[1] == 0, "a state made under 64 is malformed under 128")?;
    Ok(format!(
        "pages: {profiles} profiles, {states} states; lists with changing pages: {calls} calls, states handed over to 64 and 128 \
         malformed {malformed:?}, taken {taken:?}, then finalized {finalized:?}, written on to a page end {written_on:?}; \
         {out_of_range} refused by 2, {over_63} left 64 bytes or more waiting, {past_64} wrote past 64 without a commit"
    ))
}

#[cfg(test)]
mod tests {
    use super::*;

    #[test]
    fn pages_are_the_judged_ones() {
        compare(2, 300).unwrap();
    }

    /// 100 bytes made under 128 and 6 of 70 made under 64, worked by hand.
    #[test]
    fn handed_over_by_hand() {
        let finalize = framed(Bus::I2c, 8, FINALIZE, &[]);
        let under = |page: u32| paged_profile(Bus::I2c, 256, page, 256, 128);
        let mut out = [0; 256];
        let mut flash = vec![0xff; 384];
        let mut s = State::fresh();
        board::receive(&under(128), &mut s, &mut flash, &mut out, 8, &write_frame(Bus::I2c, 8, 0, &[0x11; 100]));
        assert_eq!((s.next, s.w, s.count), (100, 100, 0));
        let given = s.clone();
        assert_eq!(board::receive(&under(64), &mut s, &mut flash, &mut out, 8, &finalize), Answer::only(4));
        assert_eq!(s, given);
        assert!(flash.iter().all(|&byte| byte == 0xff));

        let mut s = State::fresh();
        board::receive(&under(64), &mut s, &mut flash, &mut out, 8, &write_frame(Bus::I2c, 8, 0, &[0x22; 70]));
        assert_eq!((s.next, s.w, s.count), (70, 6, 1));
        board::receive(&under(128), &mut s, &mut flash, &mut out, 8, &finalize);
        assert_eq!((s.next, s.w, s.count, &out[..5]), (70, 0, 2, &[0x00, 0x02, 0x00, 0x02, 0x09][..]));
        let mut wanted = vec![0xff; 384];
        wanted[128..198].fill(0x22);
        assert_eq!(flash, wanted);
    }
}
