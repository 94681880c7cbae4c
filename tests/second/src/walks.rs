//! The five calls of `alarms` after calls of the board, judged in another way: by the board's number, by what changed, and by the
//! ledger.

use crate::alarms;
use crate::board;
use crate::check::{demand, framed, general_frame, paged_profile, write_frame};
use crate::layout::{profile_bytes, state_bytes};
use crate::ledger::{Event, Ledger, Seen};
use crate::model::*;
use crate::rng::Rng;
use crate::silences::silent_frame;

/// A board, its ledger, and how often each answer came.
struct Walk {
    p: Profile,
    profile: Vec<u8>,
    s: State,
    flash: Vec<u8>,
    ledger: Ledger,
}

/// Answers of the five calls; of lost bytes 0, some, and all that waited.
#[derive(Default)]
struct Counts {
    calls: u64,
    silence: [u64; 10],
    lost: [u64; 3],
    erased_nothing: [u64; 2],
    upload_end: [u64; 3],
    page_changed: [u64; 2],
}

impl Walk {
    fn call(&mut self, address: u8, frame: &[u8], counts: &mut Counts) -> Result<(), String> {
        let (before, flash_before) = (self.s.clone(), self.flash.clone());
        let mut out = [0; 256];
        let answer = board::receive(&self.p, &mut self.s, &mut self.flash, &mut out, address, frame);
        let (number, reply) = (u32::from(answer.number), &out[..answer.len]);
        let event = self.ledger.enter(&self.p, Seen::Frame { address, frame }, answer.number, reply);
        counts.calls += 1;

        let why = alarms::silence(&self.profile, &state_bytes(&before), u32::from(address), frame, number);
        counts.silence[why as usize] += 1;
        self.silence(&before, &flash_before, number, why)?;

        let after = state_bytes(&self.s);
        let erased_nothing = alarms::erased_nothing(&self.profile, frame, number, reply, &after);
        counts.erased_nothing[erased_nothing as usize] += 1;
        demand((erased_nothing == 1) == (event == Event::Finalize { told: 0 }), "a finalize that erased nothing")?;

        let lost = alarms::lost(&self.profile, &state_bytes(&before), &after, &self.flash);
        counts.lost[usize::from(lost > 0) + usize::from(lost > 0 && lost == before.w)] += 1;
        demand(lost as usize == self.lost(&before), &format!("{lost} bytes lost, counted {}", self.lost(&before)))?;

        self.pages(&before, &flash_before, &event, counts)?;
        self.upload_end(&event, counts)
    }

    /// By the number, and by what a silence leaves.
    fn silence(&self, before: &State, flash: &[u8], number: u32, why: u32) -> Result<(), String> {
        let silent = number == 1 || (15..=18).contains(&number);
        demand((why != alarms::NONE) == silent, &format!("silence {why} with number {number}"))?;
        let told = match why {
            alarms::SHORT => 15,
            alarms::LONG => 16,
            alarms::CRC => 17,
            alarms::FOREIGN if self.p.bus == Bus::Rs485 => 18,
            alarms::NONE => number,
            _ => 1,
        };
        demand(number == told, &format!("silence {why} with number {number}"))?;
        let kept = State { reply_len: before.reply_len, reply: before.reply, ..self.s.clone() } == *before;
        let fits = match why {
            alarms::NONE => true,
            alarms::RESET => self.s.own == Own::DefaultRange && !self.s.running && self.s.reply_len == 0,
            alarms::START => self.s.running && !before.running,
            alarms::RUNNING => before.running && self.s == *before,
            alarms::TYPE => kept && self.s.reply_len == 0,
            _ => !before.running && self.s == *before,
        };
        demand(fits, &format!("silence {why}, and another change"))?;
        demand(why == alarms::NONE || self.flash == flash, "silence, and the flash changed")
    }

    /// A picture of the upload with the bytes that wait now laid over the flash, and the flash itself.
    fn lost(&self, before: &State) -> usize {
        let first = self.p.o as usize;
        let mut picture = self.flash[first..].to_vec();
        let place = (self.s.next - self.s.w) as usize;
        picture[place..place + self.s.w as usize].copy_from_slice(self.s.waiting_bytes());
        let at = (before.next - before.w) as usize;
        let gone = |k: usize, byte: u8| picture[at + k] != byte && self.flash[first + at + k] != byte;
        before.waiting_bytes().iter().enumerate().filter(|&(k, &byte)| gone(k, byte)).count()
    }

    /// As many pages changed as the erase count rose by. A reset and a write at 0 begin it anew. Past S none changes.
    fn pages(&self, before: &State, flash: &[u8], event: &Event, counts: &mut Counts) -> Result<(), String> {
        let mut changed = [0, 0];
        let end = self.p.s / self.p.page;
        for page in 0..end + 3 {
            let answer = alarms::page_changed(&self.profile, page, flash, &self.flash);
            counts.page_changed[answer as usize] += 1;
            changed[usize::from(page >= end)] += answer;
        }
        let began = matches!(event, Event::Reset | Event::Write { address: 0, .. });
        let rose = self.s.count - if began { 0 } else { before.count };
        demand(changed == [rose, 0], &format!("{changed:?} pages changed up to S and past it, {rose} erased"))
    }

    /// The accepted bytes are the image: all of them stand after a finalize.
    fn upload_end(&self, event: &Event, counts: &mut Counts) -> Result<(), String> {
        let (image, earlier) = (&self.ledger.accepted, &self.ledger.earlier);
        let end = alarms::upload_end(&self.profile, image, earlier, &self.flash);
        counts.upload_end[end as usize] += 1;
        if matches!(event, Event::Finalize { .. }) {
            demand(end == alarms::WHOLE, "finalized, and not whole")?;
        }
        // a byte that is not so in flash
        let first = self.p.o as usize;
        let mut other = image.clone();
        other.push(!self.flash[first + image.len().min(self.p.s as usize - 1)]);
        let end = alarms::upload_end(&self.profile, &other, earlier, &self.flash);
        counts.upload_end[end as usize] += 1;
        let due = if *earlier == self.flash { alarms::UNCHANGED } else { alarms::PARTLY };
        demand(end == due, &format!("the upload of another image ends by {end}, not {due}"))
    }
}

fn frame(rng: &mut Rng, walk: &Walk, image: &[u8]) -> (u8, Vec<u8>) {
    let (bus, m) = (walk.p.bus, walk.p.m as usize);
    let own = match walk.s.own {
        Own::DefaultRange => 8 + rng.byte() % 8,
        Own::Address(own) => own,
    };
    if walk.s.running && rng.percent(40) {
        return (0, general_frame(bus, 6));
    }
    let next = walk.s.next as usize;
    let frame = match rng.below(20) {
        0..=9 => {
            let at = if rng.percent(15) || next >= image.len() { 0 } else { next };
            let most = (m - 6).min(image.len() - at) as u64;
            let length = if rng.percent(60) { most } else { rng.below(most + 1) };
            let mut data = image[at..at + length as usize].to_vec();
            if let (true, Some(byte)) = (rng.percent(10), data.last_mut()) {
                *byte ^= 0x10;
            }
            write_frame(bus, own, at as u64, &data)
        }
        10..=13 => framed(bus, own, FINALIZE, &[]),
        14 => framed(bus, own, START, &[]),
        15 => {
            let new = 8 + rng.below(110) as u8;
            framed(bus, own, SET_ADDRESS, &[new, rng.of(&[0, 7, 77]) as u8])
        }
        16 => return (0, general_frame(bus, if rng.percent(40) { 6 } else { 4 })),
        17 => return (own ^ 1, framed(bus, own ^ 1, FINALIZE, &[])),
        18 => return (own, silent_frame(rng, &walk.p, own)),
        _ => framed(bus, own, rng.byte() % 16, &[]),
    };
    (own, frame)
}

fn one_list(rng: &mut Rng, counts: &mut Counts) -> Result<(), String> {
    let (bus, page) = (if rng.percent(50) { Bus::I2c } else { Bus::Rs485 }, rng.of(&[64, 128]) as u32);
    let (s, o) = (page * (1 + rng.below(4) as u32), page * rng.below(3) as u32);
    let p = paged_profile(bus, rng.of(&[40, 64, 256]) as u32, page, s, o);
    let mut flash = vec![0xff; (o + s + 200) as usize];
    if rng.percent(50) {
        flash = rng.bytes(flash.len());
    }
    let image = if rng.percent(30) { flash[o as usize..(o + s) as usize].to_vec() } else { rng.bytes(s as usize) };
    let mut walk = Walk { profile: profile_bytes(&p), p, s: State::fresh(), ledger: Ledger::new(&flash), flash };
    for step in 0..20 + rng.below(30) {
        let (address, frame) = frame(rng, &walk, &image);
        walk.call(address, &frame, counts).map_err(|e| format!("{e}; call {step}: {address} {frame:02x?}"))?;
    }
    Ok(())
}

/// All of it; a report line.
pub fn compare(seed: u64, lists: u64) -> Result<String, String> {
    let mut counts = Counts::default();
    for k in 0..lists {
        let mut rng = Rng::new(seed.wrapping_mul(0x1_0000_0001).wrapping_add(k << 11));
        one_list(&mut rng, &mut counts).map_err(|e| format!("{e}; alarms, list {k}"))?;
    }
    let Counts { calls, silence, lost, erased_nothing, upload_end, page_changed } = counts;
    let all = [&silence[..], &lost, &erased_nothing, &upload_end, &page_changed].concat();
    demand(lists < 200 || all.iter().all(|&n| n > 0), "some answer of the five alarm calls never came")?;
    Ok(format!(
        "alarms: {calls} calls; silences {silence:?}; bytes lost: none, some, all {lost:?}; finalizes that erased nothing \
         {erased_nothing:?}; uploads whole, partly, unchanged {upload_end:?}; pages the same, changed {page_changed:?}"
    ))
}

#[cfg(test)]
mod tests {
    #[test]
    fn alarms_fit_the_board() {
        println!("{}", super::compare(3, 400).unwrap());
    }
}
