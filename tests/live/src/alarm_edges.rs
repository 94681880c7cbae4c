//! The five calls on what must not be missed, after received frames with the board's own buffers and with buffers of their own, and how
//! often each answer and each edge came.

use crate::alarms::{Alarm, CALLS};
use crate::compare::Difference;
use crate::layout::{profile_of, PROFILE_BYTES, STATE_BYTES};
use rules::alarms as second;
use rules::check::general_frame;
use rules::model::{profile_out_of_range, Bus, Profile, PAGES};
use rules::rng::Rng;
use rules::script::fnv;

/// A received frame, as the library was lent it and as it left it.
pub struct Frame<'a> {
    pub profile: &'a [u8],
    pub before: &'a [u8],
    pub after: &'a [u8],
    pub flash_before: &'a [u8],
    pub flash: &'a [u8],
    pub address: u32,
    pub frame: &'a [u8],
    pub number: u32,
    pub reply: &'a [u8],
}

/// An upload to the standing board: the flash before its first write, and the bytes accepted since.
#[derive(Clone)]
pub struct Upload {
    pub earlier: Vec<u8>,
    pub image: Vec<u8>,
}

pub struct Alarms {
    /// Answers to calls with buffers of their own, by the place in `CALLS`.
    given: [Vec<u64>; CALLS.len()],
    /// Answers to calls after received frames, by the board's bus too.
    real: [[Vec<u64>; CALLS.len()]; 2],
    /// By place in `EDGES` and in `REAL_EDGES`.
    edges: [u64; EDGES.len()],
    real_edges: [[u64; 2]; REAL_EDGES.len()],
}

impl Default for Alarms {
    fn default() -> Alarms {
        let none = || CALLS.map(|(_, most)| vec![0; most as usize + 1]);
        Alarms { given: none(), real: [none(), none()], edges: [0; EDGES.len()], real_edges: [[0; 2]; REAL_EDGES.len()] }
    }
}

/// With a flash above this a frame in so many gets its calls: copies of it take time.
const LARGE: usize = 10_000;
const ONE_IN: u64 = 16;

/// Whether calls follow this frame. It depends on the frame alone, so that a smaller list has them too.
pub fn follow(frame: &[u8], flash_len: usize) -> bool {
    flash_len <= LARGE || fnv(frame) % ONE_IN == 0
}

impl Alarms {
    pub fn calls(&self) -> u64 {
        self.given.iter().chain(self.real.iter().flatten()).flatten().sum()
    }

    /// A call with buffers of its own.
    pub fn line(&mut self, alarm: &Alarm) -> Result<(), Difference> {
        let answer = alarm.compare()?;
        self.given[alarm.call()][answer as usize] += 1;
        for ((_, at), count) in EDGES.iter().zip(&mut self.edges) {
            *count += u64::from(at(alarm, answer));
        }
        Ok(())
    }

    /// The four calls after a received frame.
    pub fn after_frame(&mut self, f: &Frame) -> Result<(), Difference> {
        let mut rng = Rng::new(fnv(f.frame) ^ fnv(f.before) ^ u64::from(f.number));
        let profile = f.profile.to_vec();
        let silence = |number: u32| {
            let (profile, state, frame) = (profile.clone(), f.before.to_vec(), f.frame.to_vec());
            Alarm::Silence { profile, state, address: f.address, frame, number }
        };
        let why = self.real(f, &silence(f.number))?;
        if let Some(what) = f.silence_fault(why) {
            return Err(Difference { what, second: "-".to_string(), library: format!("Q {why}"), alarm: None });
        }
        let other = rng.of(&[0, 1, 1, 1, 2, 5, 14, 15, 16, 17, 18, 19, 40, 257, 4_294_967_295]) as u32;
        self.line(&silence(other))?;

        let lost = |after: &[u8]| {
            let (before, flash) = (f.before.to_vec(), f.flash.to_vec());
            Alarm::Lost { profile: profile.clone(), before, after: after.to_vec(), flash }
        };
        let count = self.real(f, &lost(f.after))?;
        // a power cut
        let cut = self.real(f, &lost(&[0; STATE_BYTES]))?;

        let (frame, reply, after) = (f.frame.to_vec(), f.reply.to_vec(), f.after.to_vec());
        let finalize = Alarm::ErasedNothing { profile: profile.clone(), frame, number: f.number, reply, after };
        let erased_nothing = self.real(f, &finalize)?;

        let mut changed = 0;
        for page in pages(&mut rng, f) {
            let (earlier, flash) = (f.flash_before.to_vec(), f.flash.to_vec());
            changed += self.real(f, &Alarm::PageChanged { profile: profile.clone(), page, earlier, flash })?;
        }
        let told = Told { f, why, lost: count, cut, erased_nothing, changed };
        for ((_, _, at), counts) in REAL_EDGES.iter().zip(&mut self.real_edges) {
            counts[f.bus()] += u64::from(at(&told));
        }
        Ok(())
    }

    /// Images that the board was sent, some of them changed, against its flash.
    pub fn after_upload(&mut self, f: &Frame, upload: &Upload) -> Result<(), Difference> {
        let mut rng = Rng::new(fnv(f.frame) ^ fnv(&upload.image));
        let mut other = upload.image.clone();
        match rng.below(4) {
            0 => other.push(rng.byte()),
            1 => other.truncate(rng.below(other.len() as u64 + 1) as usize),
            2 => other.resize(number_at(f.profile, 12) as usize + rng.below(2) as usize, 0xff),
            _ => {
                let k = rng.below(other.len() as u64) as usize;
                other.iter_mut().skip(k).take(1).for_each(|byte| *byte ^= 1 << rng.below(8));
            }
        }
        for image in [upload.image.clone(), other] {
            let (profile, earlier, flash) = (f.profile.to_vec(), upload.earlier.clone(), f.flash.to_vec());
            self.real(f, &Alarm::UploadEnd { profile, image, earlier, flash })?;
        }
        Ok(())
    }

    fn real(&mut self, f: &Frame, alarm: &Alarm) -> Result<u32, Difference> {
        let answer = alarm.compare()?;
        self.real[f.bus()][alarm.call()][answer as usize] += 1;
        Ok(answer)
    }

    pub fn lines(&self) -> Vec<String> {
        let mut lines = vec![format!("alarms: {} calls", self.calls())];
        for (k, (name, _)) in CALLS.iter().enumerate() {
            lines.push(format!(
                "childbus_{name}, answers from 0 on: after frames, I2C {}, RS485 {}; buffers of its own {}",
                shown(&self.real[0][k]),
                shown(&self.real[1][k]),
                shown(&self.given[k])
            ));
        }
        let edges = EDGES.iter().zip(&self.edges).map(|((name, _), n)| format!("{name}: {n}"));
        lines.push(format!("alarms, buffers of their own: {}", edges.collect::<Vec<String>>().join(", ")));
        let real = REAL_EDGES.iter().zip(&self.real_edges).map(|((name, buses, _), counts)| {
            let on = |bus: usize| if buses[bus] { counts[bus].to_string() } else { "-".to_string() };
            format!("{name}: {} {}", on(0), on(1))
        });
        lines.push(format!("alarms after frames, on I2C and RS485: {}", real.collect::<Vec<String>>().join(", ")));
        lines
    }

    /// Answers and edges that never came though they can.
    pub fn missing(&self) -> Vec<String> {
        let mut missing = Vec::new();
        for (k, (name, _)) in CALLS.iter().enumerate() {
            let never = |answers: &[u64]| (0..answers.len()).filter(|&answer| answers[answer] == 0).collect::<Vec<usize>>();
            missing.extend(never(&self.given[k]).iter().map(|answer| format!("childbus_{name}: answer {answer}")));
            for (bus, real) in [("I2C", &self.real[0]), ("RS485", &self.real[1])] {
                // how many bytes a walk loses is left to chance; that it loses some is an edge
                let possible = |answer: usize| match *name {
                    "silence" => bus == "RS485" || !(2..=4).contains(&answer),
                    "lost" => answer == 0,
                    _ => true,
                };
                let never = never(&real[k]).into_iter().filter(|&answer| possible(answer));
                missing.extend(never.map(|answer| format!("childbus_{name} after a frame, {bus}: answer {answer}")));
            }
        }
        let edges = EDGES.iter().zip(&self.edges).filter(|(_, &n)| n == 0);
        missing.extend(edges.map(|((name, _), _)| format!("alarms: {name}")));
        for ((name, buses, _), counts) in REAL_EDGES.iter().zip(&self.real_edges) {
            let never = (0..2).filter(|&bus| buses[bus] && counts[bus] == 0);
            missing.extend(never.map(|bus| format!("alarms after a frame, {}: {name}", ["I2C", "RS485"][bus])));
        }
        missing
    }
}

/// How often each answer came; of many answers the first, how many others came, and how often the rarest of all.
fn shown(answers: &[u64]) -> String {
    if answers.len() <= 10 {
        return answers.iter().map(u64::to_string).collect::<Vec<String>>().join(" ");
    }
    let came = answers[1..].iter().filter(|&&n| n > 0).count();
    let rarest = answers.iter().min().copied().unwrap_or(0);
    format!("0: {}, {came} of the other {} answers, the rarest {rarest} times", answers[0], answers.len() - 1)
}

fn number_at(bytes: &[u8], at: usize) -> u32 {
    let byte = |k: usize| u32::from(bytes.get(at + k).copied().unwrap_or(0));
    byte(0) | byte(1) << 8 | byte(2) << 16 | byte(3) << 24
}

/// Up to six pages: where the upload stood before and after, past the end, and any.
fn pages(rng: &mut Rng, f: &Frame) -> Vec<u32> {
    let page = if f.profile.get(6) == Some(&1) { 128 } else { 64 };
    let end = number_at(f.profile, 12) / page;
    if end < 5 {
        return (0..=end).collect();
    }
    let place = |state: &[u8], back: u32| number_at(state, 4).saturating_sub(back) / page;
    let any = rng.below(u64::from(end)) as u32;
    vec![place(f.before, 1), place(f.after, 1), place(f.before, 0), any, end, rng.number() as u32]
}

/// A received frame, and what the calls after it told.
struct Told<'a> {
    f: &'a Frame<'a>,
    why: u32,
    lost: u32,
    /// By a power cut.
    cut: u32,
    erased_nothing: u32,
    changed: u32,
}

impl Frame<'_> {
    fn bus(&self) -> usize {
        usize::from(self.profile.first() == Some(&1))
    }

    /// What the header says of an answer, whatever the second program says: it is not 0 exactly if the number is 1 or 15 to 18; with 1 to 7
    /// nothing changed, but for the last reply with 7 on I2C; reset, reset address and start are done.
    fn silence_fault(&self, why: u32) -> Option<String> {
        let silent = self.number == 1 || (15..=18).contains(&self.number);
        if (why != 0) != silent {
            return Some(format!("childbus_silence: {why} to a frame answered {}", self.number));
        }
        let mut due = self.before.to_vec();
        if why == second::TYPE && self.bus() == 0 {
            due[16..20].fill(0);
        }
        let fits = match why {
            second::NONE => true,
            second::RESET => self.after.starts_with(&[0]) && self.after[2] == 0 && number_at(self.after, 16) == 0,
            second::START => self.after[2] == 1 && number_at(self.after, 8) == 0,
            _ => self.after == due,
        };
        let same_flash = why == second::NONE || self.flash == self.flash_before;
        (!fits || !same_flash).then(|| format!("childbus_silence: {why}, and something else changed"))
    }

    fn waited(&self) -> u32 {
        number_at(self.before, 8)
    }

    /// Its command, if the board answered it.
    fn command(&self) -> Option<u8> {
        self.frame.get(self.bus()).copied().filter(|_| self.number == 0)
    }

    fn is_general(&self, code: u8) -> bool {
        let bus = if self.bus() == 1 { Bus::Rs485 } else { Bus::I2c };
        self.number == 1 && self.frame == general_frame(bus, code)
    }
}

const BOTH: [bool; 2] = [true, true];
const RS485: [bool; 2] = [false, true];

/// Name, whether it can happen on I2C and on RS485, and whether it did.
type RealEdge = (&'static str, [bool; 2], fn(&Told) -> bool);

const REAL_EDGES: [RealEdge; 22] = [
    ("bytes lost by a start", BOTH, |t| t.why == second::START && t.lost > 0),
    ("by a reset", BOTH, |t| t.f.is_general(6) && t.lost > 0),
    ("by a write at 0", BOTH, |t| t.f.command() == Some(6) && t.lost > 0),
    ("some of them", BOTH, |t| t.lost > 0 && t.lost < t.f.waited()),
    ("64 and more", BOTH, |t| t.lost >= 64),
    ("by a power cut", BOTH, |t| t.cut > 0 && t.lost == 0),
    ("none by a start, since they stand in flash", BOTH, |t| t.why == second::START && t.f.waited() > 0 && t.lost == 0),
    ("none by a reset address", BOTH, |t| t.f.is_general(4) && t.f.waited() > 0 && t.lost == 0),
    ("none by a finalize", BOTH, |t| t.f.command() == Some(7) && t.f.waited() > 0 && t.lost == 0),
    ("none by a write that goes on", BOTH, |t| t.f.command() == Some(6) && t.f.waited() > 0 && t.changed == 0 && t.lost == 0),
    ("none by a commit", BOTH, |t| t.f.command() == Some(6) && t.f.waited() > 0 && t.changed > 0 && t.lost == 0),
    ("none by a silence", BOTH, |t| (1..=7).contains(&t.why) && t.f.waited() > 0 && t.lost == 0),
    ("a finalize that erased nothing, with bytes waiting", BOTH, |t| t.erased_nothing == 1 && t.f.waited() > 0),
    ("a finalize that erased", BOTH, |t| t.f.command() == Some(7) && t.changed > 0 && t.erased_nothing == 0),
    ("a frame of M and more while running", BOTH, |t| t.why == second::RUNNING && t.f.frame.len() > number_at(t.f.profile, 8) as usize),
    ("a reset while running", BOTH, |t| t.why == second::RESET && t.f.before.get(2) == Some(&1)),
    ("a reset address", BOTH, |t| t.why == second::RESET && t.f.is_general(4)),
    ("short, long, damaged or foreign amid an upload", RS485, |t| (2..=5).contains(&t.why) && t.f.waited() > 0),
    ("another type amid an upload", BOTH, |t| t.why == second::TYPE && t.f.waited() > 0),
    ("two pages changed", BOTH, |t| t.changed > 1),
    ("a page of 128 changed", BOTH, |t| t.changed > 0 && t.f.profile.get(6) == Some(&1)),
    ("refused", BOTH, |t| (2..=5).contains(&t.f.number) && t.why == 0),
];

/// Name, and whether a call with this answer is at the edge.
type Edge = (&'static str, fn(&Alarm, u32) -> bool);

const EDGES: [Edge; 35] = [
    ("profile of 35 bytes", |a, _| a.profile().len() == PROFILE_BYTES - 1),
    ("no profile: no bytes", |a, _| a.profile().is_empty()),
    ("bus above 1", |a, _| a.changed_profile(0, 1)),
    ("page byte above 1", |a, _| a.changed_profile(6, 1)),
    ("another field out of range", |a, _| a.held().is_some_and(|p| profile_out_of_range(&p))),
    ("pages of 128", |a, _| a.held().is_some_and(|p| p.page == 128 && !profile_out_of_range(&p))),
    ("silence, no profile: reset", |a, n| a.is_silence() && a.no_profile() && n == second::RESET),
    ("silence, no profile: foreign", |a, n| a.is_silence() && a.no_profile() && n == second::FOREIGN),
    ("silence, no profile: general call", |a, n| a.is_silence() && a.no_profile() && n == second::GENERAL),
    ("silence, no profile: none", |a, n| a.is_silence() && a.no_profile() && n == 0 && matches!(a.number(), 1 | 15..=18)),
    ("silence, state of 403 bytes", |a, n| matches!(a, Alarm::Silence { state, .. } if state.len() == STATE_BYTES - 1 && n > 0)),
    ("silence, address kind above 1", |a, n| matches!(a, Alarm::Silence { state, .. } if state.first() > Some(&1) && n > 0)),
    ("silence, running byte above 1", |a, n| matches!(a, Alarm::Silence { state, .. } if state.get(2) > Some(&1) && n > 0)),
    ("silence, number 1 for a frame of 15 to 18", |a, n| a.is_rs485() && a.number() == 1 && (2..=4).contains(&n)),
    ("silence, number 15 to 18 for a frame of 1", |a, n| a.is_silence() && a.number() > 1 && n > second::FOREIGN),
    ("silence, number 1 for a frame with a reply", |a, n| a.is_silence() && a.number() == 1 && n == 0),
    ("silence, number 0 for a frame without", |a, n| a.is_silence() && a.number() == 0 && n == 0),
    ("silence, address above 127", |a, n| matches!(a, Alarm::Silence { address: 128.., .. } if n == second::FOREIGN)),
    ("lost, before too short", |a, n| matches!(a, Alarm::Lost { before, .. } if before.len() == STATE_BYTES - 1 && n == 0)),
    ("lost, after too short", |a, n| matches!(a, Alarm::Lost { after, .. } if after.len() == STATE_BYTES - 1 && n > 0)),
    ("lost, more than 128 before", |a, n| matches!(a, Alarm::Lost { before, .. } if number_at(before, 8) > 128 && n > 0)),
    ("lost, more than 128 after", |a, _| matches!(a, Alarm::Lost { after, .. } if number_at(after, 8) > 128)),
    ("lost, more waiting than accepted", |a, _| {
        matches!(a, Alarm::Lost { before, .. } if before.len() >= STATE_BYTES && number_at(before, 8) > number_at(before, 4))
    }),
    ("lost, flash too short", |a, n| {
        matches!(a, Alarm::Lost { before, flash, .. } if flash.len() < number_at(before, 4) as usize && n > 0)
    }),
    ("lost, O beyond the flash", |a, n| matches!(a, Alarm::Lost { flash, .. } if a.o() > flash.len() as u64 && n > 0)),
    ("finalize, number above 0", |a, n| matches!(a, Alarm::ErasedNothing { number: 1.., .. } if n == 0)),
    ("finalize, state too short", |a, n| matches!(a, Alarm::ErasedNothing { after, .. } if after.len() < STATE_BYTES && n == 1)),
    ("upload, image longer than S", |a, n| matches!(a, Alarm::UploadEnd { image, .. } if image.len() as u64 > a.s() && a.s() > 0 && n > 0)),
    ("upload, image of S", |a, n| matches!(a, Alarm::UploadEnd { image, .. } if image.len() as u64 == a.s() && a.s() > 0 && n == 0)),
    ("upload, empty image", |a, n| matches!(a, Alarm::UploadEnd { image, .. } if image.is_empty() && n == 0)),
    ("upload, O beyond the flash", |a, _| matches!(a, Alarm::UploadEnd { flash, .. } if a.o() > flash.len() as u64)),
    ("upload, flash shorter than O and S", |a, n| {
        matches!(a, Alarm::UploadEnd { flash, .. } if (flash.len() as u64) < a.o() + a.s() && flash.len() as u64 > a.o() && n == 0)
    }),
    ("page past the end", |a, n| {
        matches!(a, Alarm::PageChanged { page, flash, .. } if u64::from(*page) * 64 > flash.len() as u64 && n == 0)
    }),
    ("page number of 32 bits", |a, n| matches!(a, Alarm::PageChanged { page: 33_554_432.., .. } if !a.no_profile() && n == 0)),
    ("page of which one copy has a part", |a, n| {
        matches!(a, Alarm::PageChanged { earlier, flash, .. } if earlier.len() != flash.len() && n == 1)
    }),
];

impl Alarm {
    fn profile(&self) -> &[u8] {
        self.buffers()[0]
    }

    /// The profile that the bytes hold; it may be out of range. Too few bytes, no bus and no page are none.
    fn held(&self) -> Option<Profile> {
        profile_of(self.profile()).filter(|p| PAGES.contains(&p.page))
    }

    fn no_profile(&self) -> bool {
        self.held().is_none()
    }

    /// No profile, and this byte above its highest value is why.
    fn changed_profile(&self, at: usize, most: u8) -> bool {
        let mut bytes = self.profile().to_vec();
        if bytes.len() < PROFILE_BYTES || bytes[at] <= most {
            return false;
        }
        bytes[at] = 0;
        profile_of(&bytes).is_some_and(|p| !profile_out_of_range(&p))
    }

    fn o(&self) -> u64 {
        self.held().map_or(0, |p| u64::from(p.o))
    }

    fn s(&self) -> u64 {
        self.held().map_or(0, |p| u64::from(p.s))
    }

    fn is_silence(&self) -> bool {
        matches!(self, Alarm::Silence { .. })
    }

    fn is_rs485(&self) -> bool {
        self.is_silence() && self.held().is_some_and(|p| p.bus == Bus::Rs485)
    }

    fn number(&self) -> u32 {
        match self {
            Alarm::Silence { number, .. } | Alarm::ErasedNothing { number, .. } => *number,
            _ => 0,
        }
    }
}
