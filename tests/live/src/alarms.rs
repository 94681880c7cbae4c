//! The five calls on what must not be missed: one call on both sides, everything compared.

use crate::compare::Difference;
use crate::library::{self, Lent};
use rules::alarms as second;
use rules::script::packed;

#[derive(Clone, Debug)]
pub enum Alarm {
    Silence { profile: Vec<u8>, state: Vec<u8>, address: u32, frame: Vec<u8>, number: u32 },
    Lost { profile: Vec<u8>, before: Vec<u8>, after: Vec<u8>, flash: Vec<u8> },
    ErasedNothing { profile: Vec<u8>, frame: Vec<u8>, number: u32, reply: Vec<u8>, after: Vec<u8> },
    UploadEnd { profile: Vec<u8>, image: Vec<u8>, earlier: Vec<u8>, flash: Vec<u8> },
    PageChanged { profile: Vec<u8>, page: u32, earlier: Vec<u8>, flash: Vec<u8> },
}

/// Name, and the highest answer.
pub const CALLS: [(&str, u32); 5] = [("silence", 9), ("lost", 128), ("erased_nothing", 1), ("upload_end", 2), ("page_changed", 1)];

impl Alarm {
    /// The place in `CALLS`.
    pub fn call(&self) -> usize {
        match self {
            Alarm::Silence { .. } => 0,
            Alarm::Lost { .. } => 1,
            Alarm::ErasedNothing { .. } => 2,
            Alarm::UploadEnd { .. } => 3,
            Alarm::PageChanged { .. } => 4,
        }
    }

    fn letter(&self) -> char {
        ['Q', 'L', 'X', 'U', 'H'][self.call()]
    }

    pub fn text(&self) -> String {
        let letter = self.letter();
        match self {
            Alarm::Silence { profile, state, address, frame, number } => {
                format!("{letter} {} {} {address} {} {number}", packed(profile), packed(state), packed(frame))
            }
            Alarm::ErasedNothing { profile, frame, number, reply, after } => {
                format!("{letter} {} {} {number} {} {}", packed(profile), packed(frame), packed(reply), packed(after))
            }
            Alarm::PageChanged { profile, page, earlier, flash } => {
                format!("{letter} {} {page} {} {}", packed(profile), packed(earlier), packed(flash))
            }
            Alarm::Lost { .. } | Alarm::UploadEnd { .. } => {
                let words: Vec<String> = self.buffers().iter().map(|bytes| packed(bytes)).collect();
                format!("{letter} {}", words.join(" "))
            }
        }
    }

    /// In the order of the call's arguments.
    pub fn buffers(&self) -> Vec<&[u8]> {
        match self {
            Alarm::Silence { profile, state, frame, .. } => vec![profile, state, frame],
            Alarm::Lost { profile, before, after, flash } => vec![profile, before, after, flash],
            Alarm::ErasedNothing { profile, frame, reply, after, .. } => vec![profile, frame, reply, after],
            Alarm::UploadEnd { profile, image, earlier, flash } => vec![profile, image, earlier, flash],
            Alarm::PageChanged { profile, earlier, flash, .. } => vec![profile, earlier, flash],
        }
    }

    pub fn buffers_mut(&mut self) -> Vec<&mut Vec<u8>> {
        match self {
            Alarm::Silence { profile, state, frame, .. } => vec![profile, state, frame],
            Alarm::Lost { profile, before, after, flash } => vec![profile, before, after, flash],
            Alarm::ErasedNothing { profile, frame, reply, after, .. } => vec![profile, frame, reply, after],
            Alarm::UploadEnd { profile, image, earlier, flash } => vec![profile, image, earlier, flash],
            Alarm::PageChanged { profile, earlier, flash, .. } => vec![profile, earlier, flash],
        }
    }

    pub fn numbers_mut(&mut self) -> Vec<&mut u32> {
        match self {
            Alarm::Silence { address, number, .. } => vec![address, number],
            Alarm::ErasedNothing { number, .. } => vec![number],
            Alarm::PageChanged { page, .. } => vec![page],
            Alarm::Lost { .. } | Alarm::UploadEnd { .. } => Vec::new(),
        }
    }

    fn second(&self) -> u32 {
        match self {
            Alarm::Silence { profile, state, address, frame, number } => {
                second::silence(profile, state, *address, frame, *number)
            }
            Alarm::Lost { profile, before, after, flash } => second::lost(profile, before, after, flash),
            Alarm::ErasedNothing { profile, frame, number, reply, after } => {
                second::erased_nothing(profile, frame, *number, reply, after)
            }
            Alarm::UploadEnd { profile, image, earlier, flash } => second::upload_end(profile, image, earlier, flash),
            Alarm::PageChanged { profile, page, earlier, flash } => second::page_changed(profile, *page, earlier, flash),
        }
    }

    fn library(&self, lent: &[Lent]) -> u32 {
        match (self, lent) {
            (Alarm::Silence { address, number, .. }, [profile, state, frame]) => {
                library::silence(profile, state, *address, frame, *number)
            }
            (Alarm::Lost { .. }, [profile, before, after, flash]) => library::lost(profile, before, after, flash),
            (Alarm::ErasedNothing { number, .. }, [profile, frame, reply, after]) => {
                library::erased_nothing(profile, frame, *number, reply, after)
            }
            (Alarm::UploadEnd { .. }, [profile, image, earlier, flash]) => {
                library::upload_end(profile, image, earlier, flash)
            }
            (Alarm::PageChanged { page, .. }, [profile, earlier, flash]) => {
                library::page_changed(profile, *page, earlier, flash)
            }
            _ => unreachable!("each call has its own number of buffers"),
        }
    }

    /// The answer, if both sides give the same and no byte changed.
    pub fn compare(&self) -> Result<u32, Difference> {
        let lent: Vec<Lent> = self.buffers().into_iter().map(Lent::new).collect();
        let (wanted, got) = (self.second(), self.library(&lent));
        let name = CALLS[self.call()].0;
        let kept = lent.iter().zip(self.buffers()).all(|(lent, given)| lent.bytes() == given && lent.guarded());
        let what = match (wanted == got, kept) {
            (true, true) => return Ok(got),
            (true, false) => format!("childbus_{name}: it changed a byte"),
            _ => format!("childbus_{name}: second {wanted}, library {got}"),
        };
        let letter = self.letter();
        let (second, library) = (format!("{letter} {wanted}"), format!("{letter} {got}"));
        Err(Difference { what, second, library, alarm: Some(Box::new(self.clone())) })
    }
}
