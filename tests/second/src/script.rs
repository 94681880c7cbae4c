//! Case files: reading their lines and answering the calls (see FORMAT.md).

use crate::alarms;
use crate::board;
use crate::master::{self, Request};
use crate::model::*;
use crate::tally::Tally;

pub const UNTOUCHED: u8 = 0xa5;
pub const MOST_BYTES: usize = 600;
/// Bytes of an image, and of a lent flash.
pub const MOST_FLASH: usize = 131_072;
const MOST_NUMBER: u64 = 4_294_967_295;

/// The standing parts of a case file: profile, flash, state, output room, tally.
pub struct Runner {
    pub profile: Option<Profile>,
    pub flash: Option<Vec<u8>>,
    pub state: State,
    pub room: usize,
    pub tally: Tally,
}

impl Default for Runner {
    fn default() -> Runner {
        Runner { profile: None, flash: None, state: State::fresh(), room: 256, tally: Tally::default() }
    }
}

type Fields<'a> = &'a [&'a str];

impl Runner {
    /// Carry out one line. A call gives its output line; a bad line an error
    /// message, and changes nothing.
    pub fn line(&mut self, line: &str) -> Result<Option<String>, String> {
        if line.is_empty() || line.starts_with('#') {
            return Ok(None);
        }
        let fields: Vec<&str> = line.split(' ').collect();
        let rest = &fields[1..];
        match fields[0] {
            "P" => self.set_profile(rest).map(|()| None),
            "F" => self.set_flash(rest).map(|()| None),
            "Z" => self.set_fresh(rest).map(|()| None),
            "S" => self.set_state(rest).map(|()| None),
            "B" => self.set_room(rest).map(|()| None),
            "K" => self.set_tally(rest).map(|()| None),
            "R" => self.receive(rest).map(Some),
            "C" => self.receive_tally(rest).map(Some),
            "I" => self.read(rest).map(Some),
            "E" => self.encode(rest).map(Some),
            "D" => decode(rest).map(Some),
            "T" => two_reads(rest).map(Some),
            "V" => version(rest).map(Some),
            "A" => self.reset_running(rest).map(Some),
            "Q" => silence(rest).map(Some),
            "L" => lost(rest).map(Some),
            "X" => erased_nothing(rest).map(Some),
            "U" => upload_end(rest).map(Some),
            "H" => page_changed(rest).map(Some),
            other => Err(format!("unknown line letter `{other}`")),
        }
    }

    fn set_profile(&mut self, f: Fields) -> Result<(), String> {
        count_fields(f, 10)?;
        self.profile = Some(Profile {
            bus: bus(f[0])?,
            m: number("M", f[1], MOST_NUMBER)? as u32,
            page: number("page", f[2], MOST_NUMBER)? as u32,
            s: number("S", f[3], MOST_NUMBER)? as u32,
            o: number("O", f[4], MOST_NUMBER)? as u32,
            hardware: number("hardware", f[5], 255)? as u8,
            compatible: number("compatible", f[6], 255)? as u8,
            actual: number("actual", f[7], 255)? as u8,
            version: number("version", f[8], 255)? as u8,
            serial: bytes("serial", f[9], 40)?,
        });
        Ok(())
    }

    fn set_flash(&mut self, f: Fields) -> Result<(), String> {
        count_fields(f, 3)?;
        let len = number("length", f[0], MOST_FLASH as u64)?;
        let a = number("a", f[1], MOST_NUMBER)?;
        let b = number("b", f[2], MOST_NUMBER)?;
        self.flash = Some((0..len).map(|i| (a * i + b) as u8).collect());
        Ok(())
    }

    fn set_fresh(&mut self, f: Fields) -> Result<(), String> {
        count_fields(f, 0)?;
        self.state = State::fresh();
        Ok(())
    }

    fn set_state(&mut self, f: Fields) -> Result<(), String> {
        count_fields(f, 8)?;
        let own = number("own", f[0], 256)?;
        let waiting = bytes("waiting", f[6], MOST_PAGE)?;
        let reply = bytes("reply", f[7], 256)?;
        self.state = State {
            own: if own == 256 { Own::DefaultRange } else { Own::Address(own as u8) },
            running: number("running", f[1], 1)? == 1,
            next: number("next", f[2], MOST_NUMBER)? as u32,
            w: number("w", f[3], MOST_NUMBER)? as u32,
            count: number("count", f[4], MOST_NUMBER)? as u32,
            reply_len: number("replylen", f[5], MOST_NUMBER)? as u32,
            waiting: waiting.try_into().map_err(|_| format!("waiting needs exactly {MOST_PAGE} bytes"))?,
            reply: reply.try_into().map_err(|_| "reply needs exactly 256 bytes".to_string())?,
        };
        Ok(())
    }

    fn set_room(&mut self, f: Fields) -> Result<(), String> {
        count_fields(f, 1)?;
        self.room = number("n", f[0], 512)? as usize;
        Ok(())
    }

    fn set_tally(&mut self, f: Fields) -> Result<(), String> {
        count_fields(f, 5)?;
        let counter = |k: usize| number("counter", f[k], 65_535).map(|n| n as u16);
        self.tally = Tally::of([counter(0)?, counter(1)?, counter(2)?, counter(3)?, counter(4)?]);
        Ok(())
    }

    fn receive(&mut self, f: Fields) -> Result<String, String> {
        let (address, frame) = received(f)?;
        self.board_call('R', |p, s, flash, out| board::receive(p, s, flash, out, address, &frame))
    }

    /// Its line ends with the tally after the call.
    fn receive_tally(&mut self, f: Fields) -> Result<String, String> {
        let (address, frame) = received(f)?;
        let mut tally = self.tally;
        let counted = |p: &Profile, s: &mut State, flash: &mut [u8], out: &mut [u8]| {
            board::receive_tally(p, s, flash, out, address, &frame, &mut tally)
        };
        let line = self.board_call('C', counted)?;
        self.tally = tally;
        Ok(format!("{line} {}", tally_text(&tally)))
    }

    fn read(&mut self, f: Fields) -> Result<String, String> {
        count_fields(f, 1)?;
        let address = number("address", f[0], 255)? as u8;
        self.board_call('I', |p, s, flash, out| board::read(p, s, flash, out, address))
    }

    fn board_call<C>(&mut self, letter: char, call: C) -> Result<String, String>
    where
        C: FnOnce(&Profile, &mut State, &mut [u8], &mut [u8]) -> Answer,
    {
        let p = self.profile.as_ref().ok_or("no profile line before this call")?;
        let flash = self.flash.as_mut().ok_or("no flash line before this call")?;
        let mut out = vec![UNTOUCHED; self.room];
        let answer = call(p, &mut self.state, flash, &mut out);
        Ok(format!(
            "{letter} {} {} {} {:016x} {}",
            answer.number,
            hex(&out[..answer.len]),
            state_text(&self.state),
            fnv(flash),
            rest_untouched(&out, answer.len),
        ))
    }

    fn encode(&self, f: Fields) -> Result<String, String> {
        count_fields(f, 7)?;
        let bus = bus(f[0])?;
        let m = number("M", f[1], MOST_NUMBER)? as u32;
        let data = bytes("data", f[6], MOST_BYTES)?;
        let request = Request {
            code: number("code", f[2], MOST_NUMBER)? as u32,
            destination: number("destination", f[3], MOST_NUMBER)? as u32,
            a: number("a", f[4], MOST_NUMBER)? as u32,
            b: number("b", f[5], MOST_NUMBER)? as u32,
            data: &data,
        };
        Ok(self.request('E', |out| master::encode(bus, m, &request, out)))
    }

    fn reset_running(&self, f: Fields) -> Result<String, String> {
        count_fields(f, 4)?;
        let bus = bus(f[0])?;
        let m = number("M", f[1], MOST_NUMBER)? as u32;
        let major = number("major", f[2], 255)? as u8;
        let minor = number("minor", f[3], 255)? as u8;
        Ok(self.request('A', |out| master::reset_running(bus, m, major, minor, out)))
    }

    /// A call that lays a request into the lent output.
    fn request<C>(&self, letter: char, call: C) -> String
    where
        C: FnOnce(&mut [u8]) -> Answer,
    {
        let mut out = vec![UNTOUCHED; self.room];
        let answer = call(&mut out);
        let made = hex(&out[..answer.len]);
        format!("{letter} {} {made} {}", answer.number, rest_untouched(&out, answer.len))
    }
}

/// The fields of a received frame.
fn received(f: Fields) -> Result<(u8, Vec<u8>), String> {
    count_fields(f, 2)?;
    Ok((number("address", f[0], 255)? as u8, bytes("frame", f[1], MOST_BYTES)?))
}

fn decode(f: Fields) -> Result<String, String> {
    count_fields(f, 5)?;
    let bus = bus(f[0])?;
    let code = number("code", f[1], MOST_NUMBER)? as u32;
    let address = number("address", f[2], 255)? as u32;
    let asked = number("asked", f[3], MOST_NUMBER)? as u32;
    let reply = bytes("reply", f[4], MOST_BYTES)?;
    Ok(match master::decode(bus, code, address, asked, &reply) {
        Ok(d) => format!("D 0 {} {} {}", d.status, d.start, d.length),
        Err(n) => format!("D {n} 0 0 0"),
    })
}

fn two_reads(f: Fields) -> Result<String, String> {
    count_fields(f, 4)?;
    let code = number("code", f[0], MOST_NUMBER)? as u32;
    let asked = number("asked", f[1], MOST_NUMBER)? as u32;
    let first = bytes("first", f[2], MOST_BYTES)?;
    let second = bytes("second", f[3], MOST_BYTES)?;
    let (which, results) = master::two_reads(code, asked, &first, &second);
    Ok(format!("T {which} {}", hex(results)))
}

fn version(f: Fields) -> Result<String, String> {
    count_fields(f, 2)?;
    let major = number("major", f[0], 255)? as u8;
    let minor = number("minor", f[1], 255)? as u8;
    Ok(match master::version(major, minor) {
        Ok((major, minor)) => format!("V 0 {major} {minor}"),
        Err(n) => format!("V {n} 0 0"),
    })
}

fn silence(f: Fields) -> Result<String, String> {
    count_fields(f, 5)?;
    let (profile, state) = (packed_bytes("profile", f[0], MOST_BYTES)?, packed_bytes("state", f[1], MOST_BYTES)?);
    let address = number("address", f[2], MOST_NUMBER)? as u32;
    let frame = packed_bytes("frame", f[3], MOST_BYTES)?;
    let answered = number("number", f[4], MOST_NUMBER)? as u32;
    Ok(format!("Q {}", alarms::silence(&profile, &state, address, &frame, answered)))
}

fn lost(f: Fields) -> Result<String, String> {
    count_fields(f, 4)?;
    let profile = packed_bytes("profile", f[0], MOST_BYTES)?;
    let (before, after) = (packed_bytes("before", f[1], MOST_BYTES)?, packed_bytes("after", f[2], MOST_BYTES)?);
    let flash = packed_bytes("flash", f[3], MOST_FLASH)?;
    Ok(format!("L {}", alarms::lost(&profile, &before, &after, &flash)))
}

fn erased_nothing(f: Fields) -> Result<String, String> {
    count_fields(f, 5)?;
    let (profile, frame) = (packed_bytes("profile", f[0], MOST_BYTES)?, packed_bytes("frame", f[1], MOST_BYTES)?);
    let answered = number("number", f[2], MOST_NUMBER)? as u32;
    let (reply, after) = (packed_bytes("reply", f[3], MOST_BYTES)?, packed_bytes("after", f[4], MOST_BYTES)?);
    Ok(format!("X {}", alarms::erased_nothing(&profile, &frame, answered, &reply, &after)))
}

fn upload_end(f: Fields) -> Result<String, String> {
    count_fields(f, 4)?;
    let (profile, image) = (packed_bytes("profile", f[0], MOST_BYTES)?, packed_bytes("image", f[1], MOST_FLASH)?);
    let (earlier, flash) = (packed_bytes("earlier", f[2], MOST_FLASH)?, packed_bytes("flash", f[3], MOST_FLASH)?);
    Ok(format!("U {}", alarms::upload_end(&profile, &image, &earlier, &flash)))
}

fn page_changed(f: Fields) -> Result<String, String> {
    count_fields(f, 4)?;
    let profile = packed_bytes("profile", f[0], MOST_BYTES)?;
    let page = number("page", f[1], MOST_NUMBER)? as u32;
    let (earlier, flash) = (packed_bytes("earlier", f[2], MOST_FLASH)?, packed_bytes("flash", f[3], MOST_FLASH)?);
    Ok(format!("H {}", alarms::page_changed(&profile, page, &earlier, &flash)))
}

fn rest_untouched(out: &[u8], len: usize) -> u8 {
    u8::from(out[len..].iter().all(|&byte| byte == UNTOUCHED))
}

fn state_text(s: &State) -> String {
    let own = match s.own {
        Own::DefaultRange => 256,
        Own::Address(address) => u32::from(address),
    };
    format!(
        "{own} {} {} {} {} {} {}",
        u8::from(s.running),
        s.next,
        s.w,
        s.count,
        hex(s.waiting_bytes()),
        hex(s.last_reply()),
    )
}

/// The five counters: short, long, CRC, foreign, answered.
pub fn tally_text(tally: &Tally) -> String {
    tally.counters().map(|n| n.to_string()).join(" ")
}

/// FNV-1a, 64 bits.
pub fn fnv(bytes: &[u8]) -> u64 {
    let mut hash: u64 = 0xcbf2_9ce4_8422_2325;
    for &byte in bytes {
        hash ^= u64::from(byte);
        hash = hash.wrapping_mul(0x0000_0100_0000_01b3);
    }
    hash
}

/// Lowercase pairs, `-` for no bytes.
pub fn hex(bytes: &[u8]) -> String {
    const DIGITS: &[u8; 16] = b"0123456789abcdef";
    if bytes.is_empty() {
        return "-".to_string();
    }
    let mut text = String::with_capacity(2 * bytes.len());
    for &byte in bytes {
        text.push(DIGITS[usize::from(byte >> 4)] as char);
        text.push(DIGITS[usize::from(byte & 15)] as char);
    }
    text
}

/// Parts joined by `+`: hex pairs, or a count, `*` and the pair that stands so often. `-` for no bytes.
pub fn packed(bytes: &[u8]) -> String {
    const LEAST: usize = 4;
    if bytes.is_empty() {
        return "-".to_string();
    }
    let mut parts: Vec<String> = Vec::new();
    let (mut done, mut at) = (0, 0);
    for run in bytes.chunk_by(|a, b| a == b) {
        if run.len() >= LEAST {
            if done < at {
                parts.push(hex(&bytes[done..at]));
            }
            parts.push(format!("{}*{}", run.len(), hex(&run[..1])));
            done = at + run.len();
        }
        at += run.len();
    }
    if done < at {
        parts.push(hex(&bytes[done..]));
    }
    parts.join("+")
}

/// The bytes of a packed string.
pub fn packed_bytes(name: &str, text: &str, most: usize) -> Result<Vec<u8>, String> {
    if text == "-" {
        return Ok(Vec::new());
    }
    let mut all = Vec::new();
    for part in text.split('+') {
        let left = most - all.len();
        match part.split_once('*') {
            Some((count, pair)) => match (number("count", count, left as u64)?, &bytes(name, pair, 1)?[..]) {
                (count @ 1.., [byte]) => all.resize(all.len() + count as usize, *byte),
                _ => return Err(format!("{name}: `{part}` is not a count from 1, `*` and a pair of hex digits")),
            },
            None if part == "-" => return Err(format!("{name}: `-` is no part of a packed string")),
            None => all.extend(bytes(name, part, left)?),
        }
    }
    Ok(all)
}

fn count_fields(f: Fields, wanted: usize) -> Result<(), String> {
    if f.len() == wanted {
        return Ok(());
    }
    Err(format!("{} fields after the letter, {wanted} wanted", f.len()))
}

fn bus(text: &str) -> Result<Bus, String> {
    match text {
        "0" => Ok(Bus::I2c),
        "1" => Ok(Bus::Rs485),
        _ => Err(format!("bus `{text}` is not 0 or 1")),
    }
}

fn number(name: &str, text: &str, most: u64) -> Result<u64, String> {
    let digits = !text.is_empty() && text.bytes().all(|c| c.is_ascii_digit());
    match text.parse::<u64>() {
        Ok(n) if digits && n <= most => Ok(n),
        _ => Err(format!("{name} `{text}` is not a number from 0 to {most}")),
    }
}

fn bytes(name: &str, text: &str, most: usize) -> Result<Vec<u8>, String> {
    if text == "-" {
        return Ok(Vec::new());
    }
    let digits = text.as_bytes();
    if digits.is_empty() || digits.len() % 2 != 0 {
        return Err(format!("{name} is not `-` or pairs of hex digits"));
    }
    if digits.len() / 2 > most {
        return Err(format!("{name} is longer than {most} bytes"));
    }
    digits
        .chunks(2)
        .map(|pair| Some(digit(pair[0])? * 16 + digit(pair[1])?))
        .collect::<Option<Vec<u8>>>()
        .ok_or(format!("{name} holds a character that is no lowercase hex digit"))
}

fn digit(c: u8) -> Option<u8> {
    match c {
        b'0'..=b'9' => Some(c - b'0'),
        b'a'..=b'f' => Some(c - b'a' + 10),
        _ => None,
    }
}

/// Answers of a whole case file: the output, and the messages on bad lines.
pub fn answer_all(text: &[u8]) -> (String, Vec<String>) {
    let mut runner = Runner::default();
    let mut output = String::new();
    let mut errors = Vec::new();
    for (k, line) in text.split(|&c| c == b'\n').enumerate() {
        let result = match std::str::from_utf8(line) {
            Ok(line) => runner.line(line),
            Err(_) => Err("not UTF-8 text".to_string()),
        };
        match result {
            Ok(Some(text)) => {
                output.push_str(&text);
                output.push('\n');
            }
            Ok(None) => {}
            Err(message) => errors.push(format!("line {}: {message}", k + 1)),
        }
    }
    (output, errors)
}

#[cfg(test)]
mod tests {
    use super::*;

    #[test]
    fn bad_lines_are_told_and_skipped() {
        let (output, errors) = answer_all(b"V 2 9\nV 2\nR 8 00f3\nQ\nV 2 x\nD 0 0 8 0 0\nV 0 0\n");
        assert_eq!(output, "V 0 2 2\nV 40 0 0\n");
        assert_eq!(errors.len(), 5);
        assert!(errors[0].starts_with("line 2: "));
    }

    #[test]
    fn reset_of_a_running_application() {
        let lines = ["A 0 32 0 0", "A 1 256 0 0", "A 1 32 2 2", "A 0 31 0 0", "A 0 32 0 1"];
        let without_room = ["B 0", "A 0 32 0 0", "A 0 32 2 2"];
        let (output, errors) = answer_all([&lines[..], &without_room].concat().join("\n").as_bytes());
        assert!(errors.is_empty());
        let answers: Vec<&str> = output.lines().collect();
        assert_eq!(answers, ["A 0 06 1", "A 0 00468042 1", "A 1 - 1", "A 2 - 1", "A 14 - 1", "A 6 - 1", "A 1 - 1"]);
        let bad = ["A 2 32 0 0", "A 0 32 256 0", "A 0 32 0 256", "A 0 32 0", "A 0 32 0 0 0", "A 0 x 0 0"];
        let (output, errors) = answer_all(bad.join("\n").as_bytes());
        assert_eq!((output.as_str(), errors.len()), ("", bad.len()));
    }

    #[test]
    fn packed_byte_strings() {
        for text in ["-", "00", "4*00", "0001+4*02+03", "131072*ff", "00000000", "3*00", "5*00+5*01+02"] {
            let bytes = packed_bytes("bytes", text, 131_072).unwrap();
            assert_eq!(packed_bytes("bytes", &packed(&bytes), 131_072).unwrap(), bytes);
        }
        assert_eq!(packed(&[1, 1, 1, 2, 2, 2, 2, 3]), "010101+4*02+03");
        assert_eq!(packed_bytes("bytes", "0102+3*05", 5).unwrap(), [1, 2, 5, 5, 5]);
        for bad in ["", "+", "00+", "+00", "-+00", "4*", "*00", "0*00", "4*0000", "4*-", "6*00", "0102+4*05", "x*00", "4*00*00"] {
            assert!(packed_bytes("bytes", bad, 5).is_err(), "{bad}");
        }
    }

    /// A board on I2C with pages of 64, S 128 and O 64.
    #[test]
    fn alarm_lines() {
        let profile = "0007+5*00+0020000000800000004000+18*00";
        let own_9 = "0109+402*00";
        let waiting = "4*00+0600000006+11*00+6*11+378*00";
        let lines = [
            format!("Q {profile} 404*00 20 05e8 1"),
            format!("Q {profile} {own_9} 9 05e8 1"),
            format!("Q {profile} {own_9} 9 05e8 0"),
            format!("Q - {own_9} 9 05e8 1"),
            format!("L {profile} {waiting} - 64*ff+2*11+126*ff"),
            format!("X {profile} 07e6 0 0002000007 -"),
            format!("U {profile} 4*11 192*ff 64*ff+4*11+124*ff"),
            format!("U {profile} 5*11 192*ff 64*ff+4*11+124*ff"),
            format!("U {profile} 5*11 192*ff 192*ff"),
            format!("H {profile} 1 192*ff 191*ff+00"),
            format!("H {profile} 0 192*ff 191*ff+00"),
        ];
        let (output, errors) = answer_all(lines.join("\n").as_bytes());
        assert!(errors.is_empty(), "{errors:?}");
        let answers: Vec<&str> = output.lines().collect();
        assert_eq!(answers, ["Q 5", "Q 9", "Q 0", "Q 0", "L 4", "X 1", "U 0", "U 1", "U 2", "H 1", "H 0"]);
        let bad = ["Q - - 0 -", "Q - - 0 - 4294967296", "L - - -", "X - - 0 -", "U - - - - -", "H - -1 - -", "H - 0 - 131073*00"];
        let (output, errors) = answer_all(bad.join("\n").as_bytes());
        assert_eq!((output.as_str(), errors.len()), ("", bad.len()));
    }

    #[test]
    fn version_request_of_the_examples() {
        let text = b"P 0 256 64 128 0 7 16 19 3 -\nF 128 0 255\nR 8 00f3\n";
        let (output, errors) = answer_all(text);
        assert!(errors.is_empty());
        assert!(output.starts_with("R 0 0002020223 256 0 0 0 0 - 0002020223 "));
    }

    #[test]
    fn tally_lines() {
        let board = ["P 1 32 64 64 0 7 16 19 3 -", "F 64 0 255"];
        let calls = ["C 0 -", "R 0 -", "C 0 10000c70", "K 65535 65534 0 0 9", "Z", "C 9 00468042", "C 0 -", "C 0 08000670"];
        let (output, errors) = answer_all([&board[..], &calls].concat().join("\n").as_bytes());
        assert!(errors.is_empty());
        let fields = |line: &str| line.split(' ').map(str::to_string).collect::<Vec<String>>();
        let lines: Vec<Vec<String>> = output.lines().map(fields).collect();
        let shown = |k: usize| format!("{} {}", lines[k][..2].join(" "), lines[k][11..].join(" "));
        let wanted = ["C 15 1 1 0 0 0 0", "R 15 1", "C 18 1 1 0 0 1 0", "C 1 1 65535 65534 0 0 9"];
        assert_eq!([0, 1, 2, 3].map(shown), wanted);
        assert_eq!([4, 5].map(shown), ["C 15 1 65535 65534 0 0 9", "C 0 1 65535 65534 0 0 10"]);
        let bad = ["K 1 2 3 4", "K 1 2 3 4 65536", "K 1 2 3 4 5 6", "C 0", "C 256 00", "C 0 0", "C 0 00 00"];
        let (output, errors) = answer_all([&board[..], &bad, &["C 0 -"]].concat().join("\n").as_bytes());
        assert_eq!(errors.len(), bad.len());
        assert!(output.starts_with("C 15 ") && output.ends_with(" 1 1 0 0 0 0\n"));
        assert_eq!(answer_all(b"C 0 -\nK 0 0 0 0 0\n").1.len(), 1);
    }

    /// Lines without a page, and with a waiting buffer of 64 bytes, are no lines.
    #[test]
    fn profile_and_state_lines() {
        let (waiting, reply) = ("a1".repeat(128), "b2".repeat(256));
        let board = ["P 0 256 128 256 0 7 16 19 3 -", "F 256 0 255"];
        let state = format!("S 256 0 127 127 0 0 {waiting} {reply}");
        let (output, errors) = answer_all([&board[..], &[state.as_str(), "R 8 07e6"]].concat().join("\n").as_bytes());
        assert!(errors.is_empty());
        assert!(output.starts_with("R 0 0002000100 256 0 127 0 1 - "));
        let short = format!("S 256 0 0 0 0 0 {} {reply}", &waiting[..128]);
        let bad = ["P 0 256 256 0 7 16 19 3 -", "P 0 256 x 256 0 7 16 19 3 -", short.as_str()];
        assert_eq!(answer_all(bad.join("\n").as_bytes()).1.len(), bad.len());
    }

    #[test]
    fn hash_of_nothing() {
        assert_eq!(fnv(b""), 0xcbf2_9ce4_8422_2325);
        assert_eq!(fnv(b"a"), 0xaf63_dc4c_8601_ec8c);
    }
}
