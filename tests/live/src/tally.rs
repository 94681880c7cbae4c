//! What was compared: calls of each kind by number, and what happened in them. (The board's own tally is in `silences`.)

use crate::address_edges::AddressEdges;
use crate::alarm_edges::Alarms;
use crate::dead::Dead;
use crate::half_bytes::HalfBytes;
use crate::pages::Pages;
use crate::running::Running;
use crate::silences::Silences;
use rules::ledger::Event;
use rules::model::*;

#[derive(Clone, Copy)]
pub enum Kind {
    FrameI2c,
    FrameRs485,
    CountedI2c,
    CountedRs485,
    Read,
    Encode,
    General,
    Decode,
    TwoReads,
    Version,
    ResetRunning,
    Fresh,
}

const KINDS: usize = 12;
/// The numbers that calls answer.
const NUMBERS: [u32; 20] = [0, 1, 2, 3, 4, 5, 6, 7, 8, 9, 10, 11, 12, 13, 14, 15, 16, 17, 18, 40];

/// Name, and the numbers that its calls can answer.
const ROWS: [(&str, &[u32]); KINDS] = [
    ("frame, I2C", &[0, 1, 2, 3, 4, 5]),
    ("frame, RS485", &[0, 1, 2, 3, 4, 5, 15, 16, 17, 18]),
    ("counted, I2C", &[0, 1, 2, 3, 4, 5]),
    ("counted, RS485", &[0, 1, 2, 3, 4, 5, 15, 16, 17, 18]),
    ("I2C read", &[0, 1, 2, 3, 4, 5]),
    ("encoder", &[0, 2, 6, 7]),
    ("general call", &[0, 2, 6]),
    ("decoder", &[0, 7, 8, 9, 10, 11, 12, 13]),
    ("two reads", &[0, 1, 2]),
    ("version rule", &[0, 14, 40]),
    ("reset running", &[0, 1, 2, 6, 14]),
    ("fresh state", &[0, 4]),
];

/// A run of so many calls in which something never happened has shown too little.
pub const ENOUGH: u64 = 20_000;

#[derive(Default)]
pub struct Tally {
    pub calls: u64,
    pub aside: u64,
    pub most_flash: usize,
    /// By kind and by place in `NUMBERS`.
    numbers: [[u64; NUMBERS.len()]; KINDS],
    /// Decoded replies by status.
    pub decoded: [u64; 6],
    /// Replies to frames by status.
    statuses: [u64; 6],
    writes: u64,
    bytes: u64,
    commits: u64,
    unchanged: u64,
    finalizes: u64,
    repeats: u64,
    full: u64,
    resets: u64,
    address_resets: u64,
    addresses: u64,
    starts: u64,
    silent: u64,
    pub address_edges: AddressEdges,
    pub half_bytes: HalfBytes,
    pub running: Running,
    pub silences: Silences,
    pub pages: Pages,
    pub dead: Dead,
    /// Their calls are not among `calls`.
    pub alarms: Alarms,
}

/// The place of a number in `NUMBERS`.
fn column(number: u32) -> usize {
    NUMBERS.iter().position(|&n| n == number).expect("both sides answered a number of the papers")
}

impl Tally {
    pub fn call(&mut self, kind: Kind, number: u32) {
        self.calls += 1;
        self.numbers[kind as usize][column(number)] += 1;
    }

    /// A frame to the standing board, from the second program's states.
    pub fn frame(&mut self, p: &Profile, before: &State, after: &State, number: u32, reply: &[u8], event: &Event) {
        if number > 1 {
            return;
        }
        let status = reply.get(if p.bus == Bus::I2c { 0 } else { 1 });
        if let (0, Some(&status)) = (number, status) {
            self.statuses[usize::from(status).min(5)] += 1;
        }
        match event {
            Event::Reset => self.resets += 1,
            Event::Write { address, data } => self.write(p, before, after, *address == 0, data.len()),
            Event::Finalize { told } => self.finalize(p, before, after, *told),
            Event::Other => self.other(before, after, number),
        }
    }

    fn write(&mut self, p: &Profile, before: &State, after: &State, at_zero: bool, len: usize) {
        let (next, count) = if at_zero { (0, 0) } else { (before.next, before.count) };
        let ends = u64::from(after.next / p.page - next / p.page);
        let commits = u64::from(after.count - count);
        self.writes += 1;
        self.bytes += len as u64;
        self.commits += commits;
        self.unchanged += ends - commits;
    }

    fn finalize(&mut self, p: &Profile, before: &State, after: &State, told: u64) {
        let commits = u64::from(after.count - before.count);
        self.finalizes += 1;
        self.commits += commits;
        self.unchanged += u64::from(before.w > 0) - commits;
        self.repeats += u64::from(told == 0 && after.next > 0);
        self.full += u64::from(after.next == p.s);
    }

    fn other(&mut self, before: &State, after: &State, number: u32) {
        if after.running {
            self.starts += u64::from(!before.running);
            self.silent += u64::from(before.running);
            return;
        }
        if before.own != after.own {
            match after.own {
                Own::Address(_) => self.addresses += 1,
                Own::DefaultRange => self.address_resets += u64::from(number == 1),
            }
        }
    }

    fn happened(&self) -> [(&'static str, u64); 12] {
        [
            ("accepted writes", self.writes),
            ("bytes in them", self.bytes),
            ("commits that changed a page", self.commits),
            ("commits that changed nothing", self.unchanged),
            ("finalizes", self.finalizes),
            ("of them with count 0 after accepted bytes", self.repeats),
            ("of them with next = S", self.full),
            ("resets", self.resets),
            ("address resets that changed the address", self.address_resets),
            ("addresses set", self.addresses),
            ("starts", self.starts),
            ("frames while running", self.silent),
        ]
    }

    pub fn lines(&self) -> Vec<String> {
        let head: String = NUMBERS.iter().map(|n| format!("{n:>9}")).collect();
        let mut lines = vec![format!("{:<15}{head}", "answers")];
        for ((name, _), row) in ROWS.iter().zip(&self.numbers) {
            let cells: String =
                row.iter().map(|&n| if n == 0 { format!("{:>9}", ".") } else { format!("{n:>9}") }).collect();
            lines.push(format!("{name:<15}{cells}"));
        }
        lines.push(format!("replies to frames by status 0 to 5: {}", listed(&self.statuses)));
        lines.push(format!("decoded replies by status 0 to 5: {}", listed(&self.decoded)));
        let parts: Vec<String> = self.happened().iter().map(|(name, n)| format!("{name} {n}")).collect();
        lines.push(parts.join(", "));
        lines.extend(self.address_edges.lines());
        lines.push(self.half_bytes.line());
        lines.extend(self.running.lines());
        lines.extend(self.silences.lines());
        lines.extend(self.pages.lines());
        lines.push(self.dead.line());
        lines.extend(self.alarms.lines());
        lines.push(format!("calls with buffers of their own {}, longest flash {}", self.aside, self.most_flash));
        lines
    }

    /// What never happened though it can.
    pub fn missing(&self) -> Vec<String> {
        let mut missing = Vec::new();
        for ((name, possible), row) in ROWS.iter().zip(&self.numbers) {
            missing.extend(possible.iter().filter(|&&n| row[column(n)] == 0).map(|n| format!("{name}: number {n}")));
        }
        // this board never says COMMAND_FAILED
        missing.extend([0, 2, 3, 4, 5].iter().filter(|&&s| self.statuses[s] == 0).map(|s| format!("status {s}")));
        missing.extend((0..6).filter(|&s| self.decoded[s] == 0).map(|s| format!("decoded status {s}")));
        missing.extend(self.happened().iter().filter(|(_, n)| *n == 0).map(|(name, _)| name.to_string()));
        missing.extend(self.address_edges.missing());
        missing.extend(self.half_bytes.missing());
        missing.extend(self.running.missing());
        missing.extend(self.silences.missing());
        missing.extend(self.pages.missing());
        missing.extend(self.dead.missing());
        missing.extend(self.alarms.missing());
        missing
    }
}

fn listed(numbers: &[u64]) -> String {
    numbers.iter().map(u64::to_string).collect::<Vec<String>>().join(" ")
}
