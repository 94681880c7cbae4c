//! Why an RS485 frame got silence, and the tally: five counters of received frames that stand beside the state (request W3).

pub const FRAME_SHORT: u8 = 15;
pub const FRAME_LONG: u8 = 16;
pub const FRAME_CRC: u8 = 17;
pub const FRAME_FOREIGN: u8 = 18;

/// Received frames answered 15, 16, 17, 18 and 0. Each counter stops at its highest number.
#[derive(Clone, Copy, Debug, Default, PartialEq, Eq)]
pub struct Tally {
    pub short: u16,
    pub long: u16,
    pub crc: u16,
    pub foreign: u16,
    pub answered: u16,
}

impl Tally {
    pub fn of(counters: [u16; 5]) -> Tally {
        let [short, long, crc, foreign, answered] = counters;
        Tally { short, long, crc, foreign, answered }
    }

    pub fn counters(&self) -> [u16; 5] {
        [self.short, self.long, self.crc, self.foreign, self.answered]
    }

    /// A received frame was answered by this number.
    pub fn count(&mut self, number: u8) {
        let counter = match number {
            FRAME_SHORT => &mut self.short,
            FRAME_LONG => &mut self.long,
            FRAME_CRC => &mut self.crc,
            FRAME_FOREIGN => &mut self.foreign,
            0 => &mut self.answered,
            _ => return,
        };
        if *counter < 65_535 {
            *counter += 1;
        }
    }
}
