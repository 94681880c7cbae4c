//! The items of a list: lines of the case-file format (tests/second/FORMAT.md) and, behind `#!`, calls that only the
//! C functions have (README.md).

use crate::alarms::Alarm;
use rules::model::*;
use rules::script::{hex, packed_bytes, tally_text};
use rules::tally::Tally as Counters;

#[derive(Clone, Debug)]
pub enum Item {
    Profile(Profile),
    Flash {
        len: u32,
        a: u32,
        b: u32,
    },
    Fresh,
    State(Box<State>),
    Room(usize),
    Tally(Counters),
    Board(BoardCall),
    Encode(Encode),
    Decode(Decode),
    TwoReads {
        code: u32,
        asked: u32,
        first: Vec<u8>,
        second: Vec<u8>,
    },
    Version {
        major: u32,
        minor: u32,
    },
    ResetRunning(ResetRunning),
    /// A call on what must not be missed, with buffers of its own.
    Alarm(Alarm),
    /// A board call with buffers of its own, on copies of state and flash.
    Aside(BoardCall, Buffers),
    /// The request encoder with any numbers and a room of its own.
    AsideEncode(Encode, usize),
    General {
        bus: u32,
        m: u32,
        reset: u32,
        room: usize,
    },
    AsideDecode(Decode),
    AsideVersion {
        major: u32,
        minor: u32,
    },
    /// The reset of a running application with any numbers and a room of its own.
    AsideResetRunning(ResetRunning, usize),
    /// The fresh state in a buffer of this length.
    AsideFresh(usize),
    /// Random bytes of this seed where the state in use means nothing.
    Noise(u32),
}

#[derive(Clone, Debug)]
pub enum BoardCall {
    /// Counted: by the call that takes a tally.
    Receive {
        address: u32,
        frame: Vec<u8>,
        counted: bool,
    },
    Read {
        address: u32,
    },
}

#[derive(Clone, Debug)]
pub struct Encode {
    pub bus: u32,
    pub m: u32,
    pub code: u32,
    pub to: u32,
    pub a: u32,
    pub b: u32,
    pub data: Vec<u8>,
}

#[derive(Clone, Debug)]
pub struct Decode {
    pub bus: u32,
    pub code: u32,
    pub address: u32,
    pub asked: u32,
    pub reply: Vec<u8>,
}

#[derive(Clone, Debug)]
pub struct ResetRunning {
    pub bus: u32,
    pub m: u32,
    pub major: u32,
    pub minor: u32,
}

/// Profile bytes, state bytes, length of the flash and of the output, tally bytes; none: the standing one.
#[derive(Clone, Debug, Default)]
pub struct Buffers {
    pub profile: Option<Vec<u8>>,
    pub state: Option<Vec<u8>>,
    pub flash: Option<usize>,
    pub room: Option<usize>,
    /// Only counted calls take one.
    pub tally: Option<Vec<u8>>,
}

pub const MOST_FLASH: u32 = 131_072;
pub const MOST_ROOM: usize = 512;
const MOST_BYTES: usize = 600;

impl Item {
    pub fn text(&self) -> String {
        match self {
            Item::Profile(p) => format!(
                "P {} {} {} {} {} {} {} {} {} {}",
                p.bus as u8,
                p.m,
                p.page,
                p.s,
                p.o,
                p.hardware,
                p.compatible,
                p.actual,
                p.version,
                hex(&p.serial)
            ),
            Item::Flash { len, a, b } => format!("F {len} {a} {b}"),
            Item::Fresh => "Z".to_string(),
            Item::State(s) => state_line(s),
            Item::Room(n) => format!("B {n}"),
            Item::Tally(tally) => format!("K {}", tally_text(tally)),
            Item::Board(call) => call.text(),
            Item::Encode(e) => e.text(),
            Item::Decode(d) => d.text(),
            Item::TwoReads { code, asked, first, second } => {
                format!("T {code} {asked} {} {}", hex(first), hex(second))
            }
            Item::Version { major, minor } => format!("V {major} {minor}"),
            Item::ResetRunning(a) => a.text(),
            Item::Alarm(alarm) => alarm.text(),
            Item::Aside(call, own) => format!("#! {} {}", call.text(), own.text(call.is_counted())),
            Item::AsideEncode(e, room) => format!("#! {} {room}", e.text()),
            Item::General { bus, m, reset, room } => format!("#! G {bus} {m} {reset} {room}"),
            Item::AsideDecode(d) => format!("#! {}", d.text()),
            Item::AsideVersion { major, minor } => format!("#! V {major} {minor}"),
            Item::AsideResetRunning(a, room) => format!("#! {} {room}", a.text()),
            Item::AsideFresh(len) => format!("#! Z {len}"),
            Item::Noise(seed) => format!("#! N {seed}"),
        }
    }
}

fn state_line(s: &State) -> String {
    let own = own_number(s);
    let (running, numbers) = (u8::from(s.running), [s.next, s.w, s.count, s.reply_len]);
    let [next, w, count, len] = numbers;
    format!("S {own} {running} {next} {w} {count} {len} {} {}", hex(&s.waiting), hex(&s.reply))
}

/// The own address, 256 for the default range.
pub fn own_number(s: &State) -> u32 {
    match s.own {
        rules::model::Own::DefaultRange => 256,
        rules::model::Own::Address(address) => u32::from(address),
    }
}

impl BoardCall {
    pub fn is_counted(&self) -> bool {
        matches!(self, BoardCall::Receive { counted: true, .. })
    }

    /// The letter of its line.
    pub fn letter(&self) -> char {
        match self {
            BoardCall::Receive { counted: false, .. } => 'R',
            BoardCall::Receive { counted: true, .. } => 'C',
            BoardCall::Read { .. } => 'I',
        }
    }

    fn text(&self) -> String {
        let letter = self.letter();
        match self {
            BoardCall::Receive { address, frame, .. } => format!("{letter} {address} {}", hex(frame)),
            BoardCall::Read { address } => format!("{letter} {address}"),
        }
    }
}

impl Encode {
    fn text(&self) -> String {
        let Encode { bus, m, code, to, a, b, data } = self;
        format!("E {bus} {m} {code} {to} {a} {b} {}", hex(data))
    }
}

impl Decode {
    fn text(&self) -> String {
        let Decode { bus, code, address, asked, reply } = self;
        format!("D {bus} {code} {address} {asked} {}", hex(reply))
    }
}

impl ResetRunning {
    fn text(&self) -> String {
        let ResetRunning { bus, m, major, minor } = self;
        format!("A {bus} {m} {major} {minor}")
    }
}

impl Buffers {
    fn text(&self, counted: bool) -> String {
        let bytes = |given: &Option<Vec<u8>>| given.as_ref().map_or("=".to_string(), |b| hex(b));
        let number = |given: Option<usize>| given.map_or("=".to_string(), |n| n.to_string());
        let mut words = vec![bytes(&self.profile), bytes(&self.state), number(self.flash), number(self.room)];
        if counted {
            words.push(bytes(&self.tally));
        }
        words.join(" ")
    }
}

/// The items of a case file; a bad line is an error.
pub fn parse(text: &str) -> Result<Vec<Item>, String> {
    let mut items = Vec::new();
    for (k, line) in text.lines().enumerate() {
        match parse_line(line) {
            Ok(Some(item)) => items.push(item),
            Ok(None) => {}
            Err(message) => return Err(format!("line {}: {message}", k + 1)),
        }
    }
    Ok(items)
}

fn parse_line(line: &str) -> Result<Option<Item>, String> {
    if let Some(rest) = line.strip_prefix("#! ") {
        let words: Vec<&str> = rest.split(' ').collect();
        return aside(words[0], &words[1..]).map(Some);
    }
    if line.is_empty() || line.starts_with('#') {
        return Ok(None);
    }
    let words: Vec<&str> = line.split(' ').collect();
    plain(words[0], &words[1..]).map(Some)
}

fn plain(letter: &str, f: &[&str]) -> Result<Item, String> {
    Ok(match (letter, f) {
        ("P", [bus, m, page, s, o, hardware, compatible, actual, version, serial]) => Item::Profile(Profile {
            bus: if number(bus, 1)? == 0 { Bus::I2c } else { Bus::Rs485 },
            m: number(m, u32::MAX)?,
            page: number(page, u32::MAX)?,
            s: number(s, u32::MAX)?,
            o: number(o, u32::MAX)?,
            hardware: number(hardware, 255)? as u8,
            compatible: number(compatible, 255)? as u8,
            actual: number(actual, 255)? as u8,
            version: number(version, 255)? as u8,
            serial: bytes(serial, 40)?,
        }),
        ("F", [len, a, b]) => {
            Item::Flash { len: number(len, MOST_FLASH)?, a: number(a, u32::MAX)?, b: number(b, u32::MAX)? }
        }
        ("Z", []) => Item::Fresh,
        ("S", [own, running, next, w, count, len, waiting, reply]) => {
            let own = number(own, 256)?;
            Item::State(Box::new(State {
                own: if own == 256 { Own::DefaultRange } else { Own::Address(own as u8) },
                running: number(running, 1)? == 1,
                next: number(next, u32::MAX)?,
                w: number(w, u32::MAX)?,
                count: number(count, u32::MAX)?,
                reply_len: number(len, u32::MAX)?,
                waiting: bytes(waiting, MOST_PAGE)?.try_into().map_err(|_| "waiting needs 128 bytes")?,
                reply: bytes(reply, 256)?.try_into().map_err(|_| "reply needs 256 bytes")?,
            }))
        }
        ("B", [n]) => Item::Room(number(n, MOST_ROOM as u32)? as usize),
        ("K", [short, long, crc, foreign, answered]) => {
            let counter = |text: &str| number(text, 65_535).map(|n| n as u16);
            let counters = [counter(short)?, counter(long)?, counter(crc)?, counter(foreign)?, counter(answered)?];
            Item::Tally(Counters::of(counters))
        }
        ("R" | "C" | "I", _) => Item::Board(board_call(letter, f, 255)?),
        ("E", _) => Item::Encode(encode(f, 1)?),
        ("D", _) => Item::Decode(decode(f, 1, 255)?),
        ("T", [code, asked, first, second]) => Item::TwoReads {
            code: number(code, u32::MAX)?,
            asked: number(asked, u32::MAX)?,
            first: bytes(first, MOST_BYTES)?,
            second: bytes(second, MOST_BYTES)?,
        },
        ("V", [major, minor]) => Item::Version { major: number(major, 255)?, minor: number(minor, 255)? },
        ("A", _) => Item::ResetRunning(reset_running(f, 1, 255)?),
        ("Q" | "L" | "X" | "U" | "H", _) => Item::Alarm(alarm(letter, f)?),
        _ => return Err(format!("no line of letter `{letter}` has these fields")),
    })
}

fn aside(letter: &str, f: &[&str]) -> Result<Item, String> {
    let all = u32::MAX;
    Ok(match (letter, f) {
        ("R" | "I", [call @ .., profile, state, flash, room]) => {
            Item::Aside(board_call(letter, call, all)?, buffers(profile, state, flash, room, "=")?)
        }
        ("C", [call @ .., profile, state, flash, room, tally]) => {
            Item::Aside(board_call(letter, call, all)?, buffers(profile, state, flash, room, tally)?)
        }
        ("E", [call @ .., room]) => Item::AsideEncode(encode(call, all)?, number(room, MOST_ROOM as u32)? as usize),
        ("G", [bus, m, reset, room]) => Item::General {
            bus: number(bus, all)?,
            m: number(m, all)?,
            reset: number(reset, all)?,
            room: number(room, MOST_ROOM as u32)? as usize,
        },
        ("D", _) => Item::AsideDecode(decode(f, all, all)?),
        ("V", [major, minor]) => Item::AsideVersion { major: number(major, all)?, minor: number(minor, all)? },
        ("A", [call @ .., room]) => {
            Item::AsideResetRunning(reset_running(call, all, all)?, number(room, MOST_ROOM as u32)? as usize)
        }
        ("Z", [len]) => Item::AsideFresh(number(len, 1000)? as usize),
        ("N", [seed]) => Item::Noise(number(seed, all)?),
        _ => return Err(format!("no `#!` line of letter `{letter}` has these fields")),
    })
}

fn buffers(profile: &str, state: &str, flash: &str, room: &str, tally: &str) -> Result<Buffers, String> {
    Ok(Buffers {
        profile: given(profile, |t| bytes(t, MOST_BYTES))?,
        state: given(state, |t| bytes(t, MOST_BYTES))?,
        flash: given(flash, |t| number(t, MOST_FLASH).map(|n| n as usize))?,
        room: given(room, |t| number(t, MOST_ROOM as u32).map(|n| n as usize))?,
        tally: given(tally, |t| bytes(t, MOST_BYTES))?,
    })
}

fn board_call(letter: &str, f: &[&str], most: u32) -> Result<BoardCall, String> {
    match (letter, f) {
        ("R" | "C", [address, frame]) => Ok(BoardCall::Receive {
            address: number(address, most)?,
            frame: bytes(frame, MOST_BYTES)?,
            counted: letter == "C",
        }),
        ("I", [address]) => Ok(BoardCall::Read { address: number(address, most)? }),
        _ => Err(format!("wrong number of fields after `{letter}`")),
    }
}

fn encode(f: &[&str], most_bus: u32) -> Result<Encode, String> {
    let [bus, m, code, to, a, b, data] = f else {
        return Err("wrong number of fields after `E`".to_string());
    };
    Ok(Encode {
        bus: number(bus, most_bus)?,
        m: number(m, u32::MAX)?,
        code: number(code, u32::MAX)?,
        to: number(to, u32::MAX)?,
        a: number(a, u32::MAX)?,
        b: number(b, u32::MAX)?,
        data: bytes(data, MOST_BYTES)?,
    })
}

fn decode(f: &[&str], most_bus: u32, most_address: u32) -> Result<Decode, String> {
    let [bus, code, address, asked, reply] = f else {
        return Err("wrong number of fields after `D`".to_string());
    };
    Ok(Decode {
        bus: number(bus, most_bus)?,
        code: number(code, u32::MAX)?,
        address: number(address, most_address)?,
        asked: number(asked, u32::MAX)?,
        reply: bytes(reply, MOST_BYTES)?,
    })
}

fn reset_running(f: &[&str], most_bus: u32, most_version: u32) -> Result<ResetRunning, String> {
    let [bus, m, major, minor] = f else {
        return Err("wrong number of fields after `A`".to_string());
    };
    Ok(ResetRunning {
        bus: number(bus, most_bus)?,
        m: number(m, u32::MAX)?,
        major: number(major, most_version)?,
        minor: number(minor, most_version)?,
    })
}

fn alarm(letter: &str, f: &[&str]) -> Result<Alarm, String> {
    let short = |text: &str| packed_bytes("bytes", text, MOST_BYTES);
    let long = |text: &str| packed_bytes("bytes", text, MOST_FLASH as usize);
    Ok(match (letter, f) {
        ("Q", [profile, state, address, frame, answered]) => Alarm::Silence {
            profile: short(profile)?,
            state: short(state)?,
            address: number(address, u32::MAX)?,
            frame: short(frame)?,
            number: number(answered, u32::MAX)?,
        },
        ("L", [profile, before, after, flash]) => Alarm::Lost {
            profile: short(profile)?,
            before: short(before)?,
            after: short(after)?,
            flash: long(flash)?,
        },
        ("X", [profile, frame, answered, reply, after]) => Alarm::ErasedNothing {
            profile: short(profile)?,
            frame: short(frame)?,
            number: number(answered, u32::MAX)?,
            reply: short(reply)?,
            after: short(after)?,
        },
        ("U", [profile, image, earlier, flash]) => Alarm::UploadEnd {
            profile: short(profile)?,
            image: long(image)?,
            earlier: long(earlier)?,
            flash: long(flash)?,
        },
        ("H", [profile, page, earlier, flash]) => Alarm::PageChanged {
            profile: short(profile)?,
            page: number(page, u32::MAX)?,
            earlier: long(earlier)?,
            flash: long(flash)?,
        },
        _ => return Err(format!("wrong number of fields after `{letter}`")),
    })
}

fn given<T>(text: &str, read: impl Fn(&str) -> Result<T, String>) -> Result<Option<T>, String> {
    if text == "=" {
        return Ok(None);
    }
    read(text).map(Some)
}

fn number(text: &str, most: u32) -> Result<u32, String> {
    match text.parse::<u32>() {
        Ok(n) if n <= most && !text.starts_with('+') => Ok(n),
        _ => Err(format!("`{text}` is not a number from 0 to {most}")),
    }
}

fn bytes(text: &str, most: usize) -> Result<Vec<u8>, String> {
    if text == "-" {
        return Ok(Vec::new());
    }
    let digits = text.as_bytes();
    let pairs = !digits.is_empty() && digits.len() % 2 == 0 && digits.len() / 2 <= most;
    let read = digits.chunks(2).map(|pair| Some(digit(pair[0])? * 16 + digit(*pair.get(1)?)?));
    match read.collect::<Option<Vec<u8>>>() {
        Some(bytes) if pairs => Ok(bytes),
        _ => Err(format!("not `-` or up to {most} pairs of hex digits")),
    }
}

fn digit(c: u8) -> Option<u8> {
    match c {
        b'0'..=b'9' => Some(c - b'0'),
        b'a'..=b'f' => Some(c - b'a' + 10),
        _ => None,
    }
}
