//! Which entries of the check sums' tables the compared calls used in each half step (request W2). What is counted has a
//! check sum that both sides made or took for right.

use rules::half_bytes::entries;
use rules::model::*;

const NAMES: [&str; 4] = ["frames received", "replies made", "requests made", "replies decoded"];
const SUMS: [&str; 2] = ["CRC-8", "CRC-16"];
const HALVES: [&str; 2] = ["first", "second"];

/// How often, by half step and entry.
type Counts = [[u64; 16]; 2];

/// By what is counted, in the order of `NAMES`, and by check sum.
#[derive(Default)]
pub struct HalfBytes([[Counts; 2]; 4]);

fn sum_bytes(bus: Bus) -> usize {
    match bus {
        Bus::I2c => 1,
        Bus::Rs485 => 2,
    }
}

impl HalfBytes {
    /// A frame to a board and its reply.
    pub fn received(&mut self, bus: Bus, frame: &[u8], number: u32, reply: &[u8]) {
        if number != 0 {
            return;
        }
        self.add(1, bus, reply);
        let status = reply.get(if bus == Bus::I2c { 0 } else { 1 });
        if !matches!(status, Some(&INVALID_TRANSFER | &INVALID_CRC)) {
            self.add(0, bus, frame);
        }
    }

    pub fn request(&mut self, bus: Bus, request: &[u8]) {
        self.add(2, bus, request);
    }

    /// A reply that decodes; bytes after its check sum are not counted.
    pub fn decoded(&mut self, bus: Bus, reply: &[u8], results_end: usize) {
        self.add(3, bus, &reply[..results_end + sum_bytes(bus)]);
    }

    /// Bytes with their check sum at the end.
    fn add(&mut self, what: usize, bus: Bus, bytes: &[u8]) {
        let counts = &mut self.0[what][bus as usize];
        for [first, second] in entries(bus, &bytes[..bytes.len() - sum_bytes(bus)]) {
            counts[0][first] += 1;
            counts[1][second] += 1;
        }
    }

    /// The entry used least in each half step.
    pub fn line(&self) -> String {
        let least = |counts: &Counts| counts.map(|uses| uses.iter().min().map_or(0, |&n| n));
        let part = |what: usize| {
            let [[a, b], [c, d]] = [least(&self.0[what][0]), least(&self.0[what][1])];
            format!("{} {a} {b}, {c} {d}", NAMES[what])
        };
        let parts: Vec<String> = (0..4).map(part).collect();
        format!("least use of a table entry in the two half steps of CRC-8, CRC-16: {}", parts.join("; "))
    }

    /// What never happened though it can.
    pub fn missing(&self) -> Vec<String> {
        let mut missing = Vec::new();
        for k in 0..4 * 2 * 2 * 16 {
            let (what, sum, half, entry) = (k / 64, k / 32 % 2, k / 16 % 2, k % 16);
            if self.0[what][sum][half][entry] == 0 {
                missing.push(format!("{}: {} entry {entry} in the {} half step", NAMES[what], SUMS[sum], HALVES[half]));
            }
        }
        missing
    }
}
