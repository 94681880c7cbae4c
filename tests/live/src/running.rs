//! What happened at the edges of version 0.0 and of the reset of a running application (request W4).

use crate::items::ResetRunning;
use rules::model::*;
use std::collections::BTreeMap;

#[derive(Default)]
pub struct Running {
    /// By place in `EDGES`.
    edges: [u64; EDGES.len()],
    /// Versions to the version rule, those of `VERSIONS`.
    versions: BTreeMap<(u32, u32), u64>,
    /// By the bus of the board.
    sent: [Sent; 2],
}

/// Resets that the library wrote, sent to boards that answer none of 2 to 5.
#[derive(Default)]
struct Sent {
    running: u64,
    made_to_run: u64,
    not_running: u64,
    /// Running, and with something to lose.
    own_address: u64,
    upload: u64,
    waiting: u64,
    last_reply: u64,
    /// Written for the other bus.
    other_bus: u64,
}

/// A name, and whether a call with this room and number is at the edge.
type Edge = (&'static str, fn(&ResetRunning, usize, u32) -> bool);

const EDGES: [Edge; 23] = [
    ("I2C 0.0 with just room", |a, room, n| is(a, 0, 0, 0) && (room, n) == (1, 0)),
    ("I2C 0.0 with a byte less", |a, room, n| is(a, 0, 0, 0) && (room, n) == (0, 6)),
    ("RS485 0.0 with just room", |a, room, n| is(a, 1, 0, 0) && (room, n) == (4, 0)),
    ("RS485 0.0 with a byte less", |a, room, n| is(a, 1, 0, 0) && (room, n) == (3, 6)),
    ("0.1", |a, _, n| (a.major, a.minor, n) == (0, 1, 14)),
    ("0.255", |a, _, n| (a.major, a.minor, n) == (0, 255, 14)),
    ("0.256", |a, _, n| (a.major, a.minor, n) == (0, 256, 14)),
    ("256.0", |a, _, n| (a.major, a.minor, n) == (256, 0, 14)),
    ("3.0", |a, _, n| (a.major, a.minor, n) == (3, 0, 14)),
    ("known with a minor over 255", |a, _, n| a.minor > 255 && n == 1),
    ("M 31", |a, _, n| running(a) && (a.m, n) == (31, 2)),
    ("M 32", |a, _, n| running(a) && (a.m, n) == (32, 0)),
    ("M 256", |a, _, n| running(a) && (a.m, n) == (256, 0)),
    ("M 257", |a, _, n| running(a) && (a.m, n) == (257, 2)),
    ("M 32 in its low bits", |a, _, n| running(a) && (a.m, n) == (65_568, 2)),
    ("no bus", |a, _, n| running(a) && a.bus > 1 && !m_out_of_range(a.m) && n == 2),
    ("known without room", |_, room, n| (room, n) == (0, 1)),
    ("RS485 known with a byte less", |a, room, n| a.bus == 1 && (room, n) == (3, 1)),
    ("not known without room", |_, room, n| (room, n) == (0, 14)),
    ("RS485 not known with a byte less", |a, room, n| a.bus == 1 && (room, n) == (3, 14)),
    ("number 2 before 14", |a, _, n| a.bus < 2 && a.major > 2 && n == 2),
    ("number 2 before 1", |a, _, n| a.bus < 2 && (a.major == 1 || a.major == 2) && n == 2),
    ("number 2 before 6", |a, room, n| a.bus < 2 && running(a) && room == 0 && n == 2),
];

/// Versions that the version rule must have been asked, with their numbers.
const VERSIONS: [(u32, u32, u32); 6] = [(0, 0, 40), (0, 1, 14), (0, 255, 14), (0, 256, 14), (256, 0, 14), (3, 0, 14)];

const NAMES: [&str; 2] = ["I2C", "RS485"];

fn running(a: &ResetRunning) -> bool {
    a.major == 0 && a.minor == 0
}

fn is(a: &ResetRunning, bus: u32, major: u32, minor: u32) -> bool {
    (a.bus, a.major, a.minor) == (bus, major, minor)
}

impl Running {
    /// A call that answered this number.
    pub fn called(&mut self, a: &ResetRunning, room: usize, number: u32) {
        for ((_, at), count) in EDGES.iter().zip(&mut self.edges) {
            *count += u64::from(at(a, room, number));
        }
    }

    pub fn version(&mut self, major: u32, minor: u32, number: u32) {
        if VERSIONS.contains(&(major, minor, number)) {
            *self.versions.entry((major, minor)).or_default() += 1;
        }
    }

    /// What was written for a bus reached a board in this state, which answered it by 0 or 1. Made to run: the list's board
    /// didn't, the copy does.
    pub fn sent(&mut self, bus: Bus, p: &Profile, before: &State, made_to_run: bool) {
        let sent = &mut self.sent[p.bus as usize];
        if p.bus != bus {
            sent.other_bus += 1;
            return;
        }
        if !before.running {
            sent.not_running += 1;
            return;
        }
        sent.running += u64::from(!made_to_run);
        sent.made_to_run += u64::from(made_to_run);
        sent.own_address += u64::from(before.own != Own::DefaultRange);
        sent.upload += u64::from(before.next > 0);
        sent.waiting += u64::from(before.w > 0);
        sent.last_reply += u64::from(before.reply_len > 0);
    }

    /// How often each edge was met.
    fn happened(&self) -> Vec<(String, u64)> {
        let edges = EDGES.iter().zip(self.edges).map(|((name, _), n)| (name.to_string(), n));
        let of = |major: u32, minor: u32| self.versions.get(&(major, minor)).copied().unwrap_or(0);
        let versions =
            VERSIONS.iter().map(|&(major, minor, _)| (format!("version rule {major}.{minor}"), of(major, minor)));
        edges.chain(versions).collect()
    }

    pub fn lines(&self) -> Vec<String> {
        let mut lines = vec![format!("reset running: {}", listed(&self.happened()))];
        lines.extend(
            (0..2).map(|k| format!("resets sent to boards, {}: {}", NAMES[k], listed(&self.sent[k].happened(k)))),
        );
        lines
    }

    /// What never happened though it can.
    pub fn missing(&self) -> Vec<String> {
        let never = |list: Vec<(String, u64)>| list.into_iter().filter(|(_, n)| *n == 0).map(|(what, _)| what);
        let mut missing: Vec<String> = never(self.happened()).map(|what| format!("reset running: {what}")).collect();
        for (k, sent) in self.sent.iter().enumerate() {
            missing.extend(never(sent.happened(k)).map(|what| format!("resets sent to boards, {}: {what}", NAMES[k])));
        }
        missing
    }
}

impl Sent {
    /// On bus number `k`; on RS485 there is no last reply.
    fn happened(&self, k: usize) -> Vec<(String, u64)> {
        let mut parts = vec![
            ("reset of a running board", self.running),
            ("of a board made to run", self.made_to_run),
            ("of both at an own address", self.own_address),
            ("with an upload", self.upload),
            ("with bytes waiting", self.waiting),
        ];
        if k == 0 {
            parts.push(("with a last reply", self.last_reply));
        }
        parts.push(("reset of a board not running", self.not_running));
        parts.push(("written for the other bus", self.other_bus));
        parts.into_iter().map(|(what, n)| (what.to_string(), n)).collect()
    }
}

fn listed(parts: &[(String, u64)]) -> String {
    parts.iter().map(|(what, n)| format!("{what}: {n}")).collect::<Vec<String>>().join(", ")
}
