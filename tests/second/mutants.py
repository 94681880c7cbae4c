#!/usr/bin/env python3
"""Single changes of meaning in the rules; each must be noticed.

Changes to board, model, master and sums run on the stored fixed cases: the
output must differ from fixed.expected. Changes to the five alarm calls run on
alarms.cases and alarms.expected in the same way. Changes to the ledger, to its bound and
to the check sums bit by bit, and some others again, run the check of board,
ledger, master, pages and check sums: it must fail. Changes to the check of finished uploads, and to
the board's upload once more, run that check alone: it must fail. A change whose text is not found exactly once, or
that does not build, is an error.
"""
import os
import queue
import shutil
import subprocess
import sys
import tempfile
from concurrent.futures import ThreadPoolExecutor

HERE = os.path.dirname(os.path.abspath(__file__))
RULES = ["model", "sums", "tally", "board", "master", "script", "ledger", "check", "rng", "total", "bits", "half_bytes", "running",
         "silences", "pages", "alarms", "layout", "walks", "finished", "finished_lists", "finished_situations"]
SECONDS = 60
WORKERS = max(2, min(4, os.cpu_count() or 2))

ANSWER_MAIN = """#![allow(dead_code)]
mod alarms; mod board; mod layout; mod master; mod model; mod script; mod sums; mod tally;
use std::io::{Read, Write};
fn main() {
    let mut text = Vec::new();
    std::io::stdin().read_to_end(&mut text).unwrap();
    let (output, errors) = script::answer_all(&text);
    std::io::stdout().write_all(output.as_bytes()).unwrap();
    std::process::exit(if errors.is_empty() { 0 } else { 2 });
}
"""
CHECK_MAIN = """#![allow(dead_code)]
mod alarms; mod bits; mod board; mod half_bytes; mod layout; mod ledger; mod check; mod master; mod model; mod pages; mod rng;
mod running; mod silences; mod sums; mod tally; mod total; mod walks;
fn main() {
    if let Err(message) = CALL {
        println!("{message}");
        std::process::exit(1);
    }
}
"""
FINISHED_MAIN = CHECK_MAIN.replace("mod running;", "mod finished; mod finished_lists; mod finished_situations; mod running; mod script;")
MAINS = {
    "answer": ANSWER_MAIN,
    "alarms": ANSWER_MAIN,
    "check": CHECK_MAIN.replace("CALL", "check::all(3000, 3)"),
    "finished": FINISHED_MAIN.replace("CALL", "finished_lists::compare(1, 40_000)"),
}

W_RULE = "if w > next % u64::from(p.page)"
PROFILE_LINE = "        count_fields(f, 10)?;\n"
FLASH_LINE = "        let len = number(\"length\", f[0], MOST_FLASH as u64)?;\n"

# (file, name, old text, new text)
MUTANTS = [
    # check sums
    ("sums", "CRC-16 second byte not tested",
     "tail[0] == (sum & 0xff) as u8 && tail[1] == (sum >> 8) as u8", "tail[0] == (sum & 0xff) as u8"),
    ("sums", "CRC-16 first byte not tested",
     "tail[0] == (sum & 0xff) as u8 && tail[1] == (sum >> 8) as u8", "tail[1] == (sum >> 8) as u8"),
    # profile, flash, state, room
    ("model", "M from 31", "LEAST_M: u64 = 32", "LEAST_M: u64 = 31"),
    ("model", "M from 33", "LEAST_M: u64 = 32", "LEAST_M: u64 = 33"),
    ("model", "M to 257", "MOST_M: u64 = 256", "MOST_M: u64 = 257"),
    ("model", "M to 255", "MOST_M: u64 = 256", "MOST_M: u64 = 255"),
    ("model", "S to 65536", "MOST_S: u64 = 65_472", "MOST_S: u64 = 65_536"),
    ("model", "S to 65408", "MOST_S: u64 = 65_472", "MOST_S: u64 = 65_408"),
    ("model", "S from 0", "s % page != 0 || s < LEAST_S || s > MOST_S", "s % page != 0 || s > MOST_S"),
    ("model", "S any number", "s % page != 0 || s < LEAST_S || s > MOST_S", "s < LEAST_S || s > MOST_S"),
    ("model", "O any number", "o % page != 0 || o > MOST_O", "o > MOST_O"),
    ("model", "O to 65536", "MOST_O: u64 = 65_472", "MOST_O: u64 = 65_536"),
    ("model", "hardware type 0 taken", "sizes || p.hardware == 0 ||", "sizes ||"),
    ("model", "serial to 17", "MOST_SERIAL: usize = 16", "MOST_SERIAL: usize = 17"),
    ("model", "serial to 15", "MOST_SERIAL: usize = 16", "MOST_SERIAL: usize = 15"),
    ("model", "flash one longer than needed", "(flash_len as u64) < u64", "(flash_len as u64) <= u64"),
    ("model", "next at S malformed", "if next > u64::from(p.s)", "if next >= u64::from(p.s)"),
    ("model", "w one higher", W_RULE, "if w > next % u64::from(p.page) + 1"),
    ("model", "w only below a page", W_RULE, "if w >= u64::from(p.page) || w > next"),
    ("model", "count up to next", "count > next - w", "count > next"),
    ("model", "count below next - w", "count > next - w", "count > 0 && count >= next - w"),
    ("model", "last reply of M malformed", "s.reply_len > p.m", "s.reply_len >= p.m"),
    ("model", "last reply to 256", "s.reply_len > p.m", "s.reply_len > 256"),
    ("model", "last reply on RS485 taken", "p.bus == Bus::Rs485 && s.reply_len > 0", "false"),
    ("model", "room of M refused", "(room as u64) < u64", "(room as u64) <= u64"),
    ("model", "room of 32 is enough", "(room as u64) < u64::from(p.m)", "room < 32"),
    ("model", "3 before 2",
     "    if profile_out_of_range(p) {\n        return Some(2);\n    }\n    if flash_too_short(p, flash_len) {\n        return Some(3);\n    }",
     "    if flash_too_short(p, flash_len) {\n        return Some(3);\n    }\n    if profile_out_of_range(p) {\n        return Some(2);\n    }"),
    ("model", "5 before 4",
     "    if state_malformed(p, s) {\n        return Some(4);\n    }\n    if (room as u64) < u64::from(p.m) {\n        return Some(5);\n    }",
     "    if (room as u64) < u64::from(p.m) {\n        return Some(5);\n    }\n    if state_malformed(p, s) {\n        return Some(4);\n    }"),
    ("model", "write without address served", "(true, 2, 254), // 0x06", "(true, 1, 254), // 0x06"),
    ("model", "0x0a served", "(false, 0, 0),  // 0x0a", "(true, 0, 0),  // 0x0a"),
    ("model", "read with two arguments", "(true, 3, 3),   // 0x08", "(true, 3, 4),   // 0x08"),
    ("model", "0x0c not served", "(true, 0, 0),   // 0x0c", "(false, 0, 0),   // 0x0c"),
    # frames and addresses
    ("board", "default range to 16", "(8..=15)", "(8..=16)"),
    ("board", "default range from 9", "(8..=15)", "(9..=15)"),
    ("board", "I2C addresses of 128 heard", "address < 128 && hears", "hears"),
    ("board", "own address 0 heard", "address == own && address != 0", "address == own"),
    ("board", "I2C frame of one byte", "frame.len() < 2 ||", "frame.is_empty() ||"),
    ("board", "I2C frame of M + 1", "frame.len() < 2 || frame.len() > p.m as usize",
     "frame.len() < 2 || frame.len() > p.m as usize + 1"),
    ("board", "INVALID_CRC on RS485", "        return Verdict::Dropped(FRAME_CRC);",
     "        return if hears(s, frame[0]) { Verdict::BadCrc } else { Verdict::Dropped(FRAME_CRC) };"),
    ("board", "CRC before length on I2C",
     "    if frame.len() < 2 || frame.len() > p.m as usize {\n        return Verdict::BadTransfer;\n    }\n    if !crc8_right(frame) {\n        return Verdict::BadCrc;\n    }",
     "    if !crc8_right(frame) {\n        return Verdict::BadCrc;\n    }\n    if frame.len() < 2 || frame.len() > p.m as usize {\n        return Verdict::BadTransfer;\n    }"),
    ("board", "status of a bad transfer", "status(INVALID_TRANSFER)", "status(INVALID_ARGUMENTS)"),
    ("board", "RS485 reply from the new address", "reply.push(frame.first().copied().unwrap_or(0));",
     "reply.push(match frame { [_, 1, new, 7, ..] => *new, _ => frame[0] });"),
    ("board", "reply keeps no last reply on I2C", "    s.reply_len = reply.len() as u32;",
     "    if !reply.is_empty() { s.reply_len = reply.len() as u32; }"),
    ("board", "length of a last reply in one byte", "    s.reply_len = reply.len() as u32;",
     "    s.reply_len = u32::from(reply.len() as u8);"),
    ("board", "last reply kept on RS485", "    if p.bus == Bus::I2c {\n        keep(s, &reply);\n    }", "    keep(s, &reply);"),
    ("board", "read while running", "p.bus == Bus::Rs485 || s.running || !hears_i2c", "p.bus == Bus::Rs485 || !hears_i2c"),
    ("board", "read at any address", "s.running || !hears_i2c(s, address)", "s.running"),
    # general calls
    ("board", "reset not heard while running",
     "    if general == Some(6) {\n        return Verdict::Reset;\n    }\n    if s.running {\n        return Verdict::Ignored;\n    }",
     "    if s.running {\n        return Verdict::Ignored;\n    }\n    if general == Some(6) {\n        return Verdict::Reset;\n    }"),
    ("board", "reset address heard while running",
     "    if s.running {\n        return Verdict::Ignored;\n    }\n    if general == Some(4) {\n        return Verdict::ResetAddress;\n    }",
     "    if general == Some(4) {\n        return Verdict::ResetAddress;\n    }\n    if s.running {\n        return Verdict::Ignored;\n    }"),
    ("board", "reset keeps own address", "            *s = State::fresh();",
     "            let own = s.own;\n            *s = State::fresh();\n            s.own = own;"),
    ("board", "reset keeps the last reply", "            *s = State::fresh();",
     "            let kept = (s.reply_len, s.reply);\n            *s = State::fresh();\n            (s.reply_len, s.reply) = kept;"),
    ("board", "reset address drops waiting bytes", "            s.own = Own::DefaultRange;",
     "            s.own = Own::DefaultRange;\n            s.w = 0;"),
    ("board", "reset address keeps the last reply", "            s.own = Own::DefaultRange;\n            s.reply_len = 0;",
     "            s.own = Own::DefaultRange;"),
    ("board", "I2C reset with more bytes", "(Bus::I2c, [0x06]) if", "(Bus::I2c, [0x06, ..]) if"),
    ("board", "RS485 reset without check sum", "(Bus::Rs485, [0, 0x46, _, _]) if crc16_right(frame)", "(Bus::Rs485, [0, 0x46, _, _])"),
    ("board", "RS485 reset at any length", "[0, 0x46, _, _]", "[0, 0x46, ..]"),
    # commands
    ("board", "version 2.1", "ok(vec![2, 2])", "ok(vec![2, 1])"),
    ("board", "length before served",
     "    let Some((fewest, most)) = served(u32::from(code)) else {\n        return status(NOT_SUPPORTED);\n    };",
     "    let Some((fewest, most)) = served(u32::from(code)) else {\n        return status(if args.is_empty() { NOT_SUPPORTED } else { INVALID_ARGUMENTS });\n    };"),
    ("board", "too many arguments taken", "args.len() < fewest || args.len() > most", "args.len() < fewest"),
    ("board", "set address of a foreign type answers", "        return Outcome::Nothing;\n    }\n    let taken", "        return status(INVALID_ARGUMENTS);\n    }\n    let taken"),
    ("board", "type 0 is foreign", "hardware != p.hardware && hardware != 0", "hardware != p.hardware"),
    ("board", "top bit kept on I2C", "address & 0x7f", "address"),
    ("board", "top bit dropped on RS485", "        Bus::Rs485 => address,\n    };\n    if reserved",
     "        Bus::Rs485 => address & 0x7f,\n    };\n    if reserved"),
    ("board", "compatible and actual swapped", "ok(vec![p.actual])", "ok(vec![p.compatible])"),
    ("board", "version and revision swapped", "vec![p.hardware, p.compatible, p.version]", "vec![p.hardware, p.version, p.compatible]"),
    ("board", "little-endian results", "vec![(number >> 8) as u8, number as u8]", "vec![number as u8, (number >> 8) as u8]"),
    ("board", "empty serial OK", "    if p.serial.is_empty() {\n        return status(NOT_SUPPORTED);\n    }\n", ""),
    ("board", "start keeps waiting bytes", "    s.running = true;\n    s.w = 0;", "    s.running = true;"),
    ("board", "finalize on start", "        START => start(s),", "        START => { finalize(p, s, flash); start(s) }"),
    ("board", "start answers OK", "    Outcome::Nothing\n}\n\nfn write", "    ok(Vec::new())\n}\n\nfn write"),
    # writes, commits, finalize, read
    ("board", "write anywhere up to next", "address == 0 || address == u64::from(s.next)", "address <= u64::from(s.next)"),
    ("board", "write not at 0 again", "address == 0 || address == u64::from(s.next)", "address == u64::from(s.next)"),
    ("board", "write ending at S refused", "!in_order || end > u64::from(p.s)", "!in_order || end >= u64::from(p.s)"),
    ("board", "half of a write past S taken", "    if !in_order || end > u64::from(p.s) {\n        return status(INVALID_ARGUMENTS);",
     "    if in_order && end > u64::from(p.s) {\n        let room = u64::from(p.s).saturating_sub(address) as usize;\n        write(p, s, flash, address, &data[..room]);\n        return status(INVALID_ARGUMENTS);\n    }\n    if !in_order {\n        return status(INVALID_ARGUMENTS);"),
    ("board", "refused write at 0 drops waiting bytes", "    if !in_order || end > u64::from(p.s) {",
     "    if address == 0 {\n        s.w = 0;\n    }\n    if !in_order || end > u64::from(p.s) {"),
    ("board", "empty write at 0 does nothing", "    if address == 0 {\n        s.next = 0;", "    if address == 0 && !data.is_empty() {\n        s.next = 0;"),
    ("board", "count kept at 0", "        s.w = 0;\n        s.count = 0;\n    }\n    for", "        s.w = 0;\n    }\n    for"),
    ("board", "waiting bytes kept at 0", "        s.next = 0;\n        s.w = 0;", "        s.next = 0;\n        if s.w >= p.page { s.w = 0; }"),
    ("board", "little-endian flash address", "u64::from(high) * 256 + u64::from(low)", "u64::from(low) * 256 + u64::from(high)"),
    ("board", "commit one byte late", "    s.next += 1;\n    if s.next % p.page == 0 {\n        commit(p, s, flash);\n    }",
     "    s.next += 1;\n    if s.next % p.page == 0 && s.w > 1 {\n        commit(p, s, flash);\n    }\n    s.w %= p.page;"),
    ("board", "count of unchanged commits", "        s.count += 1;\n    }\n    s.w = 0;", "    }\n    s.count += 1;\n    s.w = 0;"),
    ("board", "last page padded with 0xFF", "    let mut page = old.to_vec();", "    let mut page = old.to_vec();\n    page[within..].fill(0xff);"),
    ("board", "waiting bytes at the page's start", "page[within..within + s.w as usize]", "page[..s.w as usize]"),
    ("board", "offset forgotten in commit", "p.o as usize + first - within", "first - within"),
    ("board", "offset forgotten in read", "(u64::from(p.o) + address) as usize", "address as usize"),
    ("board", "finalize commits nothing", "    if s.w > 0 {\n        commit(p, s, flash);\n    }\n    ok", "    ok"),
    ("board", "finalize clears the count", "    ok(two_bytes(s.count))", "    let told = two_bytes(s.count);\n    s.count = 0;\n    ok(told)"),
    ("board", "finalize ends the upload", "    ok(two_bytes(s.count))", "    s.next = 0;\n    ok(two_bytes(s.count))"),
    ("board", "count in one byte", "    ok(two_bytes(s.count))", "    ok(two_bytes(s.count & 0xff))"),
    ("board", "read to S - 1", "address + length > u64::from(p.s)", "address + length >= u64::from(p.s)"),
    ("board", "read to S + 1", "address + length > u64::from(p.s)", "address + length > u64::from(p.s) + 1"),
    ("board", "longest read refused", "|| length > most", "|| length >= most"),
    ("board", "read cut at M, not refused", "|| length > most {\n        return status(INVALID_ARGUMENTS);\n    }",
     "{\n        return status(INVALID_ARGUMENTS);\n    }\n    let length = length.min(most);"),
    # master
    ("master", "6 before 7",
     "    let bytes = match request.code {", "    if out.len() < 2 {\n        return Answer::only(6);\n    }\n    let bytes = match request.code {"),
    ("master", "general calls swapped", "RESET_CALL => general_bytes(bus, 0x06)", "RESET_CALL => general_bytes(bus, 0x04)"),
    ("master", "destination 0 taken", "request.destination == 0 || request.destination >", "request.destination >"),
    ("master", "I2C addresses to 128", "Bus::I2c => 127,", "Bus::I2c => 128,"),
    ("master", "RS485 addresses to 256", "Bus::Rs485 => 255,", "Bus::Rs485 => 256,"),
    ("master", "new address over 127 or 255 made", "if address > most_address(bus) || reserved(bus, address) ||",
     "if reserved(bus, address) ||"),
    ("master", "type not tested", "reserved(bus, address) || hardware > 255", "reserved(bus, address)"),
    ("master", "flash address to 65536", "address > 65_535", "address > 65_536"),
    ("master", "request of M refused", "if frame.len() > m as usize", "if frame.len() >= m as usize"),
    ("master", "longest read one more", "u64::from(length) + reply_frame_bytes(bus) > u64::from(m)", "u64::from(length) + reply_frame_bytes(bus) > u64::from(m) + 1"),
    ("master", "output of the request's length refused", "bytes.len() > out.len()", "bytes.len() >= out.len()"),
    ("master", "output compared with M", "    lay(&bytes, out)\n}",
     "    if m as usize > out.len() {\n        return Answer::only(6);\n    }\n    lay(&bytes, out)\n}"),
    ("master", "shortest reply one more", "reply.len() < frame_bytes", "reply.len() <= frame_bytes"),
    ("master", "I2C bytes after the CRC refused", "reply.len() >= whole", "reply.len() == whole"),
    ("master", "RS485 bytes after the CRC taken", "reply.len() == whole", "reply.len() >= whole"),
    ("master", "CRC before length",
     "    if !fits {\n        return Err(11);\n    }\n    if !reply_sum_right(bus, &reply[..whole]) {\n        return Err(9);\n    }",
     "    if !reply_sum_right(bus, &reply[..whole.min(reply.len())]) {\n        return Err(9);\n    }\n    if !fits {\n        return Err(11);\n    }"),
    ("master", "address not tested", "if bus == Bus::Rs485 && u32::from(reply[0]) != address", "if bus == Bus::Rs485 && address > 255"),
    ("master", "status 6 taken", "if status > 5", "if status > 6"),
    ("master", "status 5 refused", "if status > 5", "if status >= 5"),
    ("master", "12 before 10",
     "    if bus == Bus::Rs485 && u32::from(reply[0]) != address {\n        return Err(10);\n    }\n    let status = reply[start - 2];\n    if status > 5 {\n        return Err(12);\n    }",
     "    let status = reply[start - 2];\n    if status > 5 {\n        return Err(12);\n    }\n    if bus == Bus::Rs485 && u32::from(reply[0]) != address {\n        return Err(10);\n    }"),
    ("master", "fixed part for every status", "if status == OK && (length", "if (length"),
    ("master", "fixed part of hardware info", "HARDWARE_INFO => 5,", "HARDWARE_INFO => 4,"),
    ("master", "fixed part of finalize", "FINALIZE => 2,", "FINALIZE => 1,"),
    ("master", "length asked in one byte", "READ => u64::from(asked)", "READ => u64::from(asked as u8)"),
    ("master", "only OK counts as decoded", "    if let Ok(d) = decode(Bus::I2c, code, 0, asked, first) {\n",
     "    if let Some(d) = decode(Bus::I2c, code, 0, asked, first).ok().filter(|d| d.status == OK) {\n"),
    ("master", "second read first",
     "    if let Ok(d) = decode(Bus::I2c, code, 0, asked, first) {\n        return (1, &first[d.start..d.start + d.length]);\n    }\n    if let Ok(d) = decode(Bus::I2c, code, 0, asked, second) {\n        return (2, &second[d.start..d.start + d.length]);\n    }",
     "    if let Ok(d) = decode(Bus::I2c, code, 0, asked, second) {\n        return (2, &second[d.start..d.start + d.length]);\n    }\n    if let Ok(d) = decode(Bus::I2c, code, 0, asked, first) {\n        return (1, &first[d.start..d.start + d.length]);\n    }"),
    ("master", "version 1.2 known", "minor.min(1)", "minor.min(2)"),
    ("master", "version 2.3 known", "minor.min(2)", "minor.min(3)"),
    ("master", "higher minor not known", "2 => Ok((2, minor.min(2)))", "2 if minor <= 2 => Ok((2, minor))"),
    ("master", "version 0 known", "        _ => Err(14),", "        0 => Ok((0, minor)),\n        _ => Err(14),"),
]

# reserved addresses: the board's test, and what stands where it begins and where it refuses
TEST = "    if reserved(p.bus, u32::from(taken)) {\n        return status(INVALID_ARGUMENTS);\n    }\n"
REFUSED = "taken)) {\n        return status"
REFUSAL = "taken)) {\n        return status(INVALID_ARGUMENTS);"
TEST_2 = "    if m_out_of_range(m) {\n        return Answer::only(2);\n    }\n"
ENCODER_REST = "    let bytes = match request.code {"
RESERVED = [
    ("model", "0 taken on I2C", "address <= 7 ||", "(1..=7).contains(&address) ||"),
    ("model", "7 taken on I2C", "address <= 7 ||", "address <= 6 ||"),
    ("model", "8 refused on I2C", "address <= 7 ||", "address <= 8 ||"),
    ("model", "119 refused on I2C", "(120..=127)", "(119..=127)"),
    ("model", "120 taken on I2C", "(120..=127)", "(121..=127)"),
    ("model", "127 taken on I2C", "(120..=127)", "(120..=126)"),
    ("model", "0 taken on RS485", "address == 0 || (248", "(248"),
    ("model", "1 refused on RS485", "address == 0 || (248", "address <= 1 || (248"),
    ("model", "247 refused on RS485", "(248..=255)", "(247..=255)"),
    ("model", "248 taken on RS485", "(248..=255)", "(249..=255)"),
    ("model", "255 taken on RS485", "(248..=255)", "(248..=254)"),
    ("model", "I2C's addresses refused on RS485", "Bus::Rs485 => address == 0 ||",
     "Bus::Rs485 => reserved(Bus::I2c, address) ||"),
    ("model", "given state at a reserved address malformed", "upload_malformed(p, s) ||",
     "matches!(s.own, Own::Address(own) if reserved(p.bus, u32::from(own))) || upload_malformed(p, s) ||"),
    ("board", "reserved tested with the top bit", "reserved(p.bus, u32::from(taken))", "reserved(p.bus, u32::from(address))"),
    ("board", "reserved before the type", "    if hardware != p.hardware && hardware != 0 {",
     "    if reserved(p.bus, u32::from(if p.bus == Bus::I2c { address % 128 } else { address })) {\n"
     "        return status(INVALID_ARGUMENTS);\n    }\n    if hardware != p.hardware && hardware != 0 {"),
    ("board", "type before the length", "    if args.len() < fewest || args.len() > most {",
     "    if code == SET_ADDRESS && args.len() > 2 && args[1] != p.hardware && reserved(p.bus, u32::from(args[0])) {\n"
     "        return Outcome::Nothing;\n    }\n    if args.len() < fewest || args.len() > most {"),
    ("board", "reserved not refused", TEST, ""),
    ("board", "reserved refused for the own type only", "    if reserved(p.bus,", "    if hardware != 0 && reserved(p.bus,"),
    ("board", "reserved refused for type 0 only", "    if reserved(p.bus,", "    if hardware == 0 && reserved(p.bus,"),
    ("board", "reserved refused without a reply", REFUSAL, "taken)) {\n        return Outcome::Nothing;"),
    ("board", "reserved answered OK", REFUSAL, "taken)) {\n        return ok(Vec::new());"),
    ("board", "reserved with another status", REFUSAL, "taken)) {\n        return status(NOT_SUPPORTED);"),
    ("board", "reserved refused and taken", REFUSED, "taken)) {\n        s.own = Own::Address(taken);\n        return status"),
    ("board", "refusal back to the default range", REFUSED, "taken)) {\n        s.own = Own::DefaultRange;\n        return status"),
    ("board", "refusal drops waiting bytes", REFUSED, "taken)) {\n        s.w = 0;\n        return status"),
    ("board", "refusal clears the count", REFUSED, "taken)) {\n        s.count = 0;\n        return status"),
    ("board", "refusal ends the upload", REFUSED, "taken)) {\n        (s.next, s.w, s.count) = (0, 0, 0);\n        return status"),
    ("board", "reply to set address not kept", "    if p.bus == Bus::I2c {\n        keep",
     "    if p.bus == Bus::I2c && frame.first() != Some(&SET_ADDRESS) {\n        keep"),
    ("board", "every address refused", "    if reserved(p.bus, u32::from(taken)) {", "    if u32::from(taken) < 256 {"),
    ("board", "own addresses below 8 not heard", "address == own && address != 0", "address == own && address > 7"),
    ("board", "own addresses from 248 not heard", "address == own && address != 0", "address == own && address != 0 && address < 248"),
    ("board", "board at a reserved address not moved", "    s.own = Own::Address(taken);",
     "    if matches!(s.own, Own::Address(own) if reserved(p.bus, u32::from(own))) {\n"
     "        return status(INVALID_ARGUMENTS);\n    }\n    s.own = Own::Address(taken);"),
    ("master", "encoder makes reserved addresses", "|| reserved(bus, address) ||", "||"),
    ("master", "encoder drops the top bit", "    if address > most_address(bus) || reserved",
     "    let address = if bus == Bus::I2c && address < 256 { address % 128 } else { address };\n"
     "    if address > most_address(bus) || reserved"),
    ("master", "encoder refuses reserved destinations", "request.destination == 0 ||", "reserved(bus, request.destination) ||"),
    ("master", "encoder refuses reserved flash addresses", "address > 65_535", "address > 65_535 || reserved(Bus::Rs485, address)"),
    ("master", "encoder refuses for type 0 only", "|| reserved(bus, address) ||", "|| hardware == 0 && reserved(bus, address) ||"),
    ("master", "6 before 7 for set address", TEST_2 + ENCODER_REST,
     TEST_2 + "    if request.code == 1 && out.len() < 4 {\n        return Answer::only(6);\n    }\n" + ENCODER_REST),
    ("master", "7 before 2 for set address", TEST_2 + ENCODER_REST,
     "    if request.code == 1 && reserved(bus, request.a) {\n        return Answer::only(7);\n    }\n" + TEST_2 + ENCODER_REST),
]


def entries(start, step):
    """Sixteen entries: four steps from start(i)."""
    table = []
    for i in range(16):
        register = start(i)
        for _ in range(4):
            register = step(register)
        table.append(register)
    return table


def left(bits, polynomial):
    """A bit step, most significant bit first."""
    mask = (1 << bits) - 1
    return lambda r: ((r << 1) & mask) ^ (polynomial if r >> (bits - 1) else 0)


def right(polynomial):
    """A bit step, least significant bit first."""
    return lambda r: (r >> 1) ^ (polynomial if r & 1 else 0)


def other_table(name, bits, table):
    """The change of a whole table: its name goes to another one."""
    old = "pub const TABLE%d: [u%d; 16] =" % (bits, bits)
    text = ", ".join(str(entry) for entry in table)
    return "sums", name, old, "%s [%s];\nconst OLD%d: [u%d; 16] =" % (old, text, bits, bits)


# check sums by half bytes
HALVES_8 = "    let sum = half8(sum, byte >> 4);\n    half8(sum, byte & 0x0f)"
HALVES_16 = "    let sum = half16(sum, byte & 0x0f);\n    half16(sum, byte >> 4)"
MOVED_8 = "(sum << 4) ^ TABLE8"
MOVED_16 = "(sum >> 4) ^ TABLE16"
ENTRY_8 = "let entry = (sum >> 4) ^ half;"
ENTRY_16 = "let entry = (sum & 0x0f) ^ u16::from(half);"
HALF_BYTES = [
    ("sums", "CRC-8 start", "let mut sum: u8 = 0xff;", "let mut sum: u8 = 0x00;"),
    ("sums", "CRC-16 start", "let mut sum: u16 = 0xffff;", "let mut sum: u16 = 0;"),
    other_table("CRC-8 polynomial", 8, entries(lambda i: i << 4, left(8, 0x31))),
    other_table("CRC-16 polynomial", 16, entries(lambda i: i, right(0x8408))),
    other_table("CRC-8 table of the reflected polynomial", 8, entries(lambda i: i, right(0xe0))),
    other_table("CRC-16 table of the polynomial not reflected", 16, entries(lambda i: i << 12, left(16, 0x8005))),
    other_table("CRC-8 table from the half that leaves last", 8, entries(lambda i: i, left(8, 0x07))),
    other_table("CRC-16 table from the half that leaves last", 16, entries(lambda i: i << 12, right(0xa001))),
    ("sums", "CRC-8 entry 6", "0x12,", "0x13,"),
    ("sums", "CRC-8 entry 15", "0x2d]", "0x2f]"),
    ("sums", "CRC-16 entry 9", "0x6c00,", "0x6c01,"),
    ("sums", "CRC-16 entry 15", "0x4400,", "0xc400,"),
    ("sums", "CRC-8 low half first", HALVES_8, "    let sum = half8(sum, byte & 0x0f);\n    half8(sum, byte >> 4)"),
    ("sums", "CRC-16 high half first", HALVES_16, "    let sum = half16(sum, byte >> 4);\n    half16(sum, byte & 0x0f)"),
    ("sums", "CRC-8 first half only", HALVES_8, "    half8(sum, byte >> 4)"),
    ("sums", "CRC-16 first half only", HALVES_16, "    half16(sum, byte & 0x0f)"),
    ("sums", "CRC-8 second half only", HALVES_8, "    half8(sum, byte & 0x0f)"),
    ("sums", "CRC-16 second half only", HALVES_16, "    half16(sum, byte >> 4)"),
    ("sums", "CRC-8 half of three bits", "half8(sum, byte & 0x0f)", "half8(sum, byte & 0x07)"),
    ("sums", "CRC-16 half of three bits", "half16(sum, byte & 0x0f)", "half16(sum, byte & 0x07)"),
    ("sums", "CRC-8 high half one bit too far", "half8(sum, byte >> 4)", "half8(sum, byte >> 5)"),
    ("sums", "CRC-16 high half one bit too far", "half16(sum, byte >> 4)", "half16(sum, byte >> 5)"),
    ("sums", "CRC-8 entry by the register's low half", ENTRY_8, "let entry = (sum & 0x0f) ^ half;"),
    ("sums", "CRC-16 entry by the register's high half", ENTRY_16, "let entry = (sum >> 12) ^ u16::from(half);"),
    ("sums", "CRC-16 entry not masked", ENTRY_16, "let entry = (sum ^ u16::from(half)).min(15);"),
    ("sums", "CRC-8 half byte not entered", ENTRY_8, "let entry = sum >> 4;"),
    ("sums", "CRC-16 half byte not entered", ENTRY_16, "let entry = sum & 0x0f;"),
    ("sums", "CRC-8 moved part dropped", MOVED_8, "TABLE8"),
    ("sums", "CRC-16 moved part dropped", MOVED_16, "TABLE16"),
    ("sums", "CRC-8 moved the other way", MOVED_8, "(sum >> 4) ^ TABLE8"),
    ("sums", "CRC-16 moved the other way", MOVED_16, "(sum << 4) ^ TABLE16"),
    ("sums", "CRC-8 moved by three bits", MOVED_8, "(sum << 3) ^ TABLE8"),
    ("sums", "CRC-16 moved by three bits", MOVED_16, "(sum >> 3) ^ TABLE16"),
]

# version 0.0 and the reset of a running application: the rule's case, the call's tests, and what it writes
CASE = "        0 if minor == 0 => Err(APPLICATION_RUNNING),\n"
RESET_TESTS = TEST_2 + "    match version(major, minor) {"
RESET_MATCH = "    match version(major, minor) {"
KNOWN = "        Ok(_) => Answer::only(1),"
WRITTEN = "lay(&general_bytes(bus, 0x06), out)"
UNKNOWN = "        Err(number) => Answer::only(number),"
NO_ROOM = "out.len() < general_bytes(bus, 0x06).len()"


def before_test_2(condition, number):
    """The change of the reset call's order: another test comes first."""
    first = "    if %s {\n        return Answer::only(%d);\n    }\n" % (condition, number)
    return RESET_TESTS, first + RESET_TESTS


def after_test_2(condition, number):
    """The same, right after the test of M."""
    first = "    if %s {\n        return Answer::only(%d);\n    }\n" % (condition, number)
    return RESET_TESTS, TEST_2 + first + RESET_MATCH


RUNNING = [
    # the version rule
    ("master", "0.0 not known", CASE, ""),
    ("master", "0.0 known", CASE, "        0 if minor == 0 => Ok((0, 0)),\n"),
    ("master", "0.0 counts as 2.2", CASE, "        0 if minor == 0 => Ok((2, 2)),\n"),
    ("master", "0.1 running", CASE, "        0 if minor <= 1 => Err(APPLICATION_RUNNING),\n"),
    ("master", "0.255 running", CASE, "        0 if minor == 0 || minor == 255 => Err(APPLICATION_RUNNING),\n"),
    ("master", "every 0 running", CASE, "        0 => Err(APPLICATION_RUNNING),\n"),
    ("master", "every minor 0 of an unknown major running", CASE, "        0 | 3..=255 if minor == 0 => Err(APPLICATION_RUNNING),\n"),
    ("master", "3.0 running", CASE, "        0 | 3 if minor == 0 => Err(APPLICATION_RUNNING),\n"),
    ("master", "only 0.1 running", CASE, "        0 if minor == 1 => Err(APPLICATION_RUNNING),\n"),
    ("master", "1.0 running", CASE, "        0 | 1 if minor == 0 => Err(APPLICATION_RUNNING),\n"),
    ("master", "application running is 41", "APPLICATION_RUNNING: u8 = 40", "APPLICATION_RUNNING: u8 = 41"),
    ("master", "application running is 15", "APPLICATION_RUNNING: u8 = 40", "APPLICATION_RUNNING: u8 = 15"),
    # the call's tests
    ("master", "reset: M not tested", RESET_TESTS, RESET_MATCH),
    ("master", "reset: M from 33", *before_test_2("m == 32", 2)),
    ("master", "reset: M to 255", *before_test_2("m == 256", 2)),
    ("master", "reset: M tested for 0.0 only", RESET_TESTS,
     "    if m_out_of_range(m) && (major, minor) == (0, 0) {\n        return Answer::only(2);\n    }\n" + RESET_MATCH),
    ("master", "reset: 14 before 2", *before_test_2("version(major, minor) == Err(14)", 14)),
    ("master", "reset: 1 before 2", *before_test_2("version(major, minor).is_ok()", 1)),
    ("master", "reset: 6 before 2", *before_test_2("(major, minor) == (0, 0) && " + NO_ROOM, 6)),
    ("master", "reset: 6 before 14", *after_test_2("version(major, minor).is_err() && " + NO_ROOM, 6)),
    ("master", "reset: 6 before 1", *after_test_2("version(major, minor).is_ok() && " + NO_ROOM, 6)),
    ("master", "reset: empty output refused before 1", *after_test_2("version(major, minor).is_ok() && out.is_empty()", 6)),
    ("master", "reset: output of M bytes needed", *after_test_2("(major, minor) == (0, 0) && out.len() < m as usize", 6)),
    ("master", "reset: output of just its length refused", WRITTEN,
     "if out.len() == general_bytes(bus, 0x06).len() { Answer::only(6) } else { lay(&general_bytes(bus, 0x06), out) }"),
    ("master", "reset: output one byte short taken", WRITTEN,
     "{ let n = out.len().max(general_bytes(bus, 0x06).len() - 1);\n"
     "            lay(&general_bytes(bus, 0x06)[..n.min(general_bytes(bus, 0x06).len())], out) }"),
    ("master", "reset: one byte of room is enough", WRITTEN,
     "{ let n = out.len().clamp(1, general_bytes(bus, 0x06).len());\n            lay(&general_bytes(bus, 0x06)[..n], out) }"),
    # its answers
    ("master", "reset: known version reset", KNOWN, "        Ok(_) => lay(&general_bytes(bus, 0x06), out),"),
    ("master", "reset: version 1 reset", KNOWN, "        Ok((1, _)) => lay(&general_bytes(bus, 0x06), out),\n" + KNOWN),
    ("master", "reset: known version answered 0", KNOWN, "        Ok(_) => Answer::only(0),"),
    ("master", "reset: known version not known", KNOWN, "        Ok(_) => Answer::only(14),"),
    ("master", "reset: higher minor not known", KNOWN, "        Ok(known) if known != (major, minor) => Answer::only(14),\n" + KNOWN),
    ("master", "reset: known version touches the output", KNOWN,
     "        Ok(_) => {\n            out.fill(0);\n            Answer::only(1)\n        }"),
    ("master", "reset: unknown version answered 1", UNKNOWN, "        Err(_) => Answer::only(1),"),
    ("master", "reset: unknown version reset", UNKNOWN, "        Err(_) => lay(&general_bytes(bus, 0x06), out),"),
    ("master", "reset: unknown version touches the output", UNKNOWN,
     "        Err(number) => {\n            out.fill(0);\n            Answer::only(number)\n        }"),
    ("master", "reset: 0.0 answered 40", "        Err(APPLICATION_RUNNING) => " + WRITTEN + ",\n", ""),
    ("master", "reset: 0.0 answered 1", WRITTEN, "Answer::only(1)"),
    # what it writes
    ("master", "reset address instead of reset", WRITTEN, "lay(&general_bytes(bus, 0x04), out)"),
    ("master", "reset of the other bus", WRITTEN,
     "lay(&general_bytes(if bus == Bus::I2c { Bus::Rs485 } else { Bus::I2c }, 0x06), out)"),
    ("master", "reset without its check sum", WRITTEN, "lay(&general_bytes(bus, 0x06)[..if bus == Bus::I2c { 1 } else { 2 }], out)"),
    ("master", "reset with a check sum on I2C", WRITTEN,
     "{ let mut bytes = general_bytes(bus, 0x06);\n            if bus == Bus::I2c { push_crc8(&mut bytes); }\n"
     "            lay(&bytes, out) }"),
    ("master", "reset at the output's end", WRITTEN,
     "{ let at = out.len().saturating_sub(general_bytes(bus, 0x06).len());\n"
     "            lay(&general_bytes(bus, 0x06), &mut out[at..]) }"),
    ("master", "reset written though it doesn't fit", WRITTEN,
     "{ let bytes = general_bytes(bus, 0x06);\n"
     "            for (place, byte) in out.iter_mut().zip(&bytes) { *place = *byte; }\n            lay(&bytes, out) }"),
    ("master", "reset with zeros after it", WRITTEN,
     "{ let made = lay(&general_bytes(bus, 0x06), out);\n            out[made.len..].fill(0);\n            made }"),
]

# why a frame got silence: the four tests in their order, what stands before them, and the tally
def dropped(condition, number):
    return "    if %s {\n        return Verdict::Dropped(%s);\n    }\n" % (condition, number)


SHORT = dropped("frame.len() < 4", "FRAME_SHORT")
LONG = dropped("frame.len() > p.m as usize", "FRAME_LONG")
CRC = dropped("!crc16_right(frame)", "FRAME_CRC")
GENERAL = "    if frame[0] == 0 {\n        return Verdict::Ignored;\n    }\n"
FOREIGN = dropped("!hears(s, frame[0])", "FRAME_FOREIGN")
RUNNING_TEST = "    if s.running {\n        return Verdict::Ignored;\n    }\n"
RESET_TEST = "    if general == Some(6) {\n        return Verdict::Reset;\n    }\n"
REFUSAL_TEST = "    if let Some(number) = refusal(p, s, flash.len(), out.len()) {\n        return Answer::only(number);\n    }\n"
LEFT = "        Verdict::Dropped(number) => Answer::only(number),"
COUNT = "    tally.count(answer.number);\n"
STOP = "        if *counter < 65_535 {\n            *counter += 1;\n        }\n"
PLAIN_CALL = "        self.board_call('R', |p, s, flash, out| board::receive(p, s, flash, out, address, &frame))"
READ_CALL = "        self.board_call('I', |p, s, flash, out| board::read(p, s, flash, out, address))"
TALLIED = "        self.tally = tally;\n        Ok(format!"


def counted(condition, change):
    """The change of what is counted: under a condition something else happens."""
    return COUNT, "    if %s {\n        %s\n        return answer;\n    }\n%s" % (condition, change, COUNT)


SILENCES = [
    # the limits
    ("board", "short: three bytes are a frame", "frame.len() < 4 {", "frame.len() < 3 {"),
    ("board", "short: four bytes are short", "frame.len() < 4 {", "frame.len() < 5 {"),
    ("board", "short: an empty frame is not", "frame.len() < 4 {", "!frame.is_empty() && frame.len() < 4 {"),
    ("board", "long: a frame of M is long", dropped("frame.len() > p.m as usize", "FRAME_LONG"),
     dropped("frame.len() >= p.m as usize", "FRAME_LONG")),
    ("board", "long: a frame of M + 1 is not", LONG, dropped("frame.len() > p.m as usize + 1", "FRAME_LONG")),
    ("board", "long: only over 256", LONG, dropped("frame.len() > 256", "FRAME_LONG")),
    ("board", "long: only with a right CRC", LONG, dropped("frame.len() > p.m as usize && crc16_right(frame)", "FRAME_LONG")),
    ("board", "long: length in one byte", LONG, dropped("(frame.len() as u8) as usize > p.m as usize", "FRAME_LONG")),
    # the numbers
    ("board", "15 is 16", "FRAME_SHORT);", "FRAME_LONG);"),
    ("board", "16 is 15", "FRAME_LONG);", "FRAME_SHORT);"),
    ("board", "17 is 18", "FRAME_CRC);", "FRAME_FOREIGN);"),
    ("board", "18 is 17", "FRAME_FOREIGN);", "FRAME_CRC);"),
    ("tally", "17 and 18 exchanged", "FRAME_CRC: u8 = 17;\npub const FRAME_FOREIGN: u8 = 18;",
     "FRAME_CRC: u8 = 18;\npub const FRAME_FOREIGN: u8 = 17;"),
    ("board", "15 still 1", "Verdict::Dropped(FRAME_SHORT)", "Verdict::Ignored"),
    ("board", "16 still 1", "Verdict::Dropped(FRAME_LONG)", "Verdict::Ignored"),
    ("board", "17 still 1", "Verdict::Dropped(FRAME_CRC)", "Verdict::Ignored"),
    ("board", "18 still 1", "Verdict::Dropped(FRAME_FOREIGN)", "Verdict::Ignored"),
    # their order
    ("board", "CRC before short", SHORT + LONG + CRC, CRC + SHORT + LONG),
    ("board", "CRC before long", LONG + CRC, CRC + LONG),
    ("board", "foreign before CRC", CRC + GENERAL + FOREIGN,
     dropped("frame[0] != 0 && !hears(s, frame[0])", "FRAME_FOREIGN") + CRC + GENERAL),
    ("board", "foreign before long", LONG + CRC + GENERAL + FOREIGN,
     dropped("frame[0] != 0 && !hears(s, frame[0])", "FRAME_FOREIGN") + LONG + CRC + GENERAL),
    ("board", "foreign before short", SHORT,
     dropped("frame.first().is_some_and(|&to| to != 0 && !hears(s, to))", "FRAME_FOREIGN") + SHORT),
    ("board", "0 is foreign", GENERAL, ""),
    ("board", "any frame to 0 is 1", SHORT, SHORT + GENERAL),
    ("board", "0 is foreign to a board at 0", GENERAL, dropped("frame[0] == 0 && s.own != Own::Address(0)", "1")),
    ("board", "a board at 0 takes commands to 0", GENERAL,
     "    if frame[0] == 0 {\n        return if s.own == Own::Address(0) { Verdict::Command } else { Verdict::Ignored };\n    }\n"),
    ("board", "damaged general calls are 1", CRC,
     "    if frame[0] == 0 && !crc16_right(frame) {\n        return Verdict::Ignored;\n    }\n" + CRC),
    # running and the general calls come first
    ("board", "reasons while running", RUNNING_TEST,
     "    if s.running && p.bus == Bus::Rs485 && general.is_none() {\n"
     "        let idle = State { running: false, ..s.clone() };\n"
     "        return match verdict_rs485(p, &idle, frame) {\n"
     "            Verdict::Command => Verdict::Ignored,\n            other => other,\n        };\n    }\n" + RUNNING_TEST),
    ("board", "foreign while running", RUNNING_TEST,
     "    if s.running && p.bus == Bus::Rs485 && frame.len() > 3 && crc16_right(frame) && frame[0] != 0 && !hears(s, frame[0]) {\n"
     "        return Verdict::Dropped(FRAME_FOREIGN);\n    }\n" + RUNNING_TEST),
    ("board", "short while running", RUNNING_TEST,
     dropped("s.running && p.bus == Bus::Rs485 && frame.len() < 4", "FRAME_SHORT") + RUNNING_TEST),
    ("board", "damaged reset while running is 17", RESET_TEST,
     "    if s.running && p.bus == Bus::Rs485 && frame.starts_with(&[0, 0x46]) && general.is_none() {\n"
     "        return Verdict::Dropped(FRAME_CRC);\n    }\n" + RESET_TEST),
    ("board", "reasons before 2 to 5", REFUSAL_TEST + "    match",
     "    if p.bus == Bus::Rs485 && frame.len() < 4 && !s.running {\n        return Answer::only(FRAME_SHORT);\n    }\n"
     + REFUSAL_TEST + "    match"),
    # what they leave
    ("board", "a dropped frame drops waiting bytes", LEFT,
     "        Verdict::Dropped(number) => {\n            s.w = 0;\n            Answer::only(number)\n        }"),
    ("board", "a foreign frame sends home", LEFT,
     "        Verdict::Dropped(number) => {\n            s.own = if number == FRAME_FOREIGN { Own::DefaultRange } else { s.own };\n"
     "            Answer::only(number)\n        }"),
    ("board", "a dropped frame touches the output", LEFT,
     "        Verdict::Dropped(number) => {\n            out[0] = number;\n            Answer::only(number)\n        }"),
    # I2C has none of them
    ("board", "short on I2C", "    if frame.len() < 2 ||", dropped("frame.is_empty()", "FRAME_SHORT") + "    if frame.len() < 2 ||"),
    ("board", "foreign on I2C", "    if !hears_i2c(s, address) {\n        return Verdict::Ignored;",
     "    if !hears_i2c(s, address) {\n        return if address == 0 { Verdict::Ignored } else { Verdict::Dropped(FRAME_FOREIGN) };"),
    # the counters
    ("tally", "counters wrap", STOP, "        *counter = counter.wrapping_add(1);\n"),
    ("tally", "counters stop at 65534", "*counter < 65_535", "*counter < 65_534"),
    ("tally", "counters stop at 255", "*counter < 65_535", "*counter < 255"),
    ("tally", "counters start anew at their end", STOP, STOP + "        if *counter == 65_535 {\n            *counter = 0;\n        }\n"),
    ("tally", "counters rise by two", "*counter += 1;", "*counter = counter.saturating_add(2);"),
    ("tally", "short and long counted the other way", "FRAME_SHORT => &mut self.short,\n            FRAME_LONG => &mut self.long,",
     "FRAME_SHORT => &mut self.long,\n            FRAME_LONG => &mut self.short,"),
    ("tally", "CRC counted as foreign", "FRAME_CRC => &mut self.crc,", "FRAME_CRC => &mut self.foreign,"),
    ("tally", "foreign not counted", "            FRAME_FOREIGN => &mut self.foreign,\n", ""),
    ("tally", "answered not counted", "            0 => &mut self.answered,\n", ""),
    ("tally", "1 counted as answered", "            0 => &mut self.answered,", "            0 | 1 => &mut self.answered,"),
    ("tally", "refused counted as answered", "            0 => &mut self.answered,", "            0 | 2..=5 => &mut self.answered,"),
    ("tally", "full counter stops the others", "        let counter = match",
     "        if self.counters().contains(&65_535) {\n            return;\n        }\n        let counter = match"),
    ("tally", "written in another order", "[self.short, self.long, self.crc, self.foreign, self.answered]",
     "[self.short, self.long, self.foreign, self.crc, self.answered]"),
    # what is counted
    ("board", "reset clears the tally",
     *counted("general_call(p.bus, address, frame) == Some(6) && answer.number == 1", "*tally = Tally::default();")),
    ("board", "reset address clears the tally",
     *counted("general_call(p.bus, address, frame) == Some(4) && answer.number == 1", "*tally = Tally::default();")),
    ("board", "start clears the tally", *counted("s.running", "*tally = Tally::default();")),
    ("board", "while running answered is counted", *counted("s.running && answer.number == 1", "tally.count(0);")),
    ("board", "I2C drop counted as foreign", *counted("p.bus == Bus::I2c && answer.number == 1", "tally.count(FRAME_FOREIGN);")),
    ("board", "I2C general call counted", *counted("p.bus == Bus::I2c && address == 0 && answer.number == 1", "tally.count(0);")),
    ("board", "I2C nothing counted", *counted("p.bus == Bus::I2c", "")),
    ("board", "I2C bad transfer counted as short",
     *counted("p.bus == Bus::I2c && answer.number == 0 && frame.is_empty()", "tally.count(FRAME_SHORT);")),
    ("board", "I2C wrong CRC counted as CRC",
     *counted("p.bus == Bus::I2c && answer.number == 0 && out.first() == Some(&INVALID_CRC)", "tally.count(FRAME_CRC);")),
    ("board", "refused commands not counted",
     *counted("answer.number == 0 && out[usize::from(p.bus == Bus::Rs485)] != OK", "")),
    ("board", "other general calls counted as foreign",
     *counted("p.bus == Bus::Rs485 && answer.number == 1 && !s.running && frame.first() == Some(&0)", "tally.count(FRAME_FOREIGN);")),
    # the lines of case files
    ("script", "R counts", PLAIN_CALL,
     "        let mut tally = self.tally;\n"
     "        let line = self.board_call('R', |p, s, flash, out| board::receive_tally(p, s, flash, out, address, &frame, &mut tally))?;\n"
     "        self.tally = tally;\n        Ok(line)"),
    ("script", "I2C read counts as answered", READ_CALL,
     "        let mut tally = self.tally;\n"
     "        let line = self.board_call('I', |p, s, flash, out| {\n"
     "            let answer = board::read(p, s, flash, out, address);\n            tally.count(answer.number);\n"
     "            answer\n        })?;\n"
     "        self.tally = tally;\n        Ok(line)"),
    ("script", "C counts for its own line only", TALLIED, "        Ok(format!"),
    ("script", "fresh state clears the tally", "        self.state = State::fresh();\n        Ok(())",
     "        self.state = State::fresh();\n        self.tally = Tally::default();\n        Ok(())"),
    ("script", "profile clears the tally", PROFILE_LINE, PROFILE_LINE + "        self.tally = Tally::default();\n"),
    ("script", "flash clears the tally", FLASH_LINE, FLASH_LINE + "        self.tally = Tally::default();\n"),
]

# the profile's page, and states handed over from one page to another
PAGE_RULE = "!PAGES.contains(&page)"
PAGE_FIRST = "    if page_out_of_range(p.page) {\n        return true;\n    }\n"
PAGE_LIST = "pub const PAGES: [u32; 2] = [64, 128];"
COMMIT_AT = "    if s.next % p.page == 0 {"
LAID = "    page[within..within + s.w as usize].copy_from_slice(s.waiting_bytes());\n"
PROFILE_THEN_FLASH = ("    if profile_out_of_range(p) {\n        return Some(2);\n    }\n"
                      "    if flash_too_short(p, flash_len) {\n        return Some(3);\n    }\n")
PAGES = [
    # which pages, S and O
    ("model", "page of 96 taken", PAGE_LIST, "pub const PAGES: [u32; 3] = [64, 96, 128];"),
    ("model", "page of 256 taken", PAGE_LIST, "pub const PAGES: [u32; 3] = [64, 128, 256];"),
    ("model", "page of 128 refused", PAGE_LIST, "pub const PAGES: [u32; 2] = [64, 64];"),
    ("model", "page of 64 refused", PAGE_LIST, "pub const PAGES: [u32; 2] = [128, 128];"),
    ("model", "multiples of 64 taken for pages", PAGE_RULE, "page == 0 || page % 64 != 0"),
    ("model", "page in its low 8 bits", PAGE_RULE, "!PAGES.contains(&(page & 0xff))"),
    ("model", "page in its low 16 bits", PAGE_FIRST, "    let p = &Profile { page: p.page & 0xffff, ..p.clone() };\n" + PAGE_FIRST),
    ("model", "page after the flash", PROFILE_THEN_FLASH,
     "    if !page_out_of_range(p.page) && profile_out_of_range(p) {\n        return Some(2);\n    }\n"
     "    if flash_too_short(p, flash_len) {\n        return Some(3);\n    }\n"
     "    if page_out_of_range(p.page) {\n        return Some(2);\n    }\n"),
    ("model", "S a multiple of 64 only", "s % page != 0", "s % 64 != 0"),
    ("model", "O a multiple of 64 only", "o % page != 0", "o % 64 != 0"),
    ("model", "S of 64 with every page", "s % page != 0", "s % page != 0 && s != 64"),
    ("model", "S of 65472 with every page", "s % page != 0", "s % page != 0 && s != MOST_S"),
    ("model", "O of 65472 with every page", "o % page != 0", "o % page != 0 && o != MOST_O"),
    # malformed states
    ("model", "w by 64", W_RULE, "if w > next % 64"),
    ("model", "w by 128", W_RULE, "if w > next % 128"),
    ("model", "w to 63", W_RULE, "if w > (next % u64::from(p.page)).min(63)"),
    ("model", "w to 126", W_RULE, "if w > (next % u64::from(p.page)).min(126)"),
    ("board", "too many waiting bytes dropped, not 4", REFUSAL_TEST + "    match",
     "    if p.page == 64 && s.w > 63 {\n        s.w = 0;\n    }\n" + REFUSAL_TEST + "    match"),
    ("board", "fewer waiting bytes than in the page are 4", REFUSAL_TEST + "    match",
     "    if p.page == 128 && s.w < s.next % p.page && s.w > 0 {\n        return Answer::only(4);\n    }\n" + REFUSAL_TEST + "    match"),
    # commits
    ("board", "commit at 64", COMMIT_AT, "    if s.next % 64 == 0 {"),
    ("board", "commit at 128", COMMIT_AT, "    if s.next % 128 == 0 {"),
    ("board", "commit by the number of waiting bytes", COMMIT_AT, "    if s.w == p.page {"),
    ("board", "commit of 64 bytes only", LAID, LAID + "    page[64..].copy_from_slice(&old[64..]);\n"),
    ("board", "change in the first 64 bytes only", "    if page != old {", "    if page[..64] != old[..64] {"),
    ("board", "erases counted by 64 bytes", "        s.count += 1;\n    }\n    s.w = 0;", "        s.count += p.page / 64;\n    }\n    s.w = 0;"),
    ("board", "waiting bytes laid at the page's end", LAID,
     "    let within = page_size - s.w as usize;\n" + LAID),
    ("board", "page of 128 padded with 0xFF", LAID,
     LAID + "    if page_size == 128 {\n        page[within + s.w as usize..].fill(0xff);\n    }\n"),
    ("board", "finalize leaves what a page of 64 can't hold", "    if s.w > 0 {\n", "    if s.w > 0 && s.w < 64 {\n"),
    ("board", "start drops 64 waiting bytes", "    s.running = true;\n    s.w = 0;", "    s.running = true;\n    s.w = s.w.saturating_sub(64);"),
    # the lines of case files
    ("script", "another page makes the state fresh", PROFILE_LINE, PROFILE_LINE + "        self.state = State::fresh();\n"),
    ("model", "64 waiting bytes shown", "(self.w as usize).min(MOST_PAGE)]", "(self.w as usize).min(64)]"),
]

# the five alarm calls: tried with alarms.cases
SILENT = "matches!(number, 1 | 15 | 16 | 17 | 18)"
RUNNING_TEST = "    if listener.running {\n        return RUNNING;\n    }\n"
RESET_RS485 = "    if frame == [0x00, 0x46, 0x80, 0x42] {\n        return RESET;\n    }\n"
RESET_ADDRESS_RS485 = "    if frame == [0x00, 0x44, 0x01, 0x83] {\n        return RESET;\n    }\n"
LONG_TEST = "    if frame.len() as u64 > board.m {\n        return LONG;\n    }\n"
CRC_TEST = "    if !crc16_right(frame) {\n        return CRC;\n    }\n"
GENERAL_TEST = "    if frame[0] == 0 {\n        return GENERAL;\n    }\n"
FOREIGN_TEST = "    if !listener.hears(u32::from(frame[0])) {\n        return FOREIGN;\n    }\n"
NO_STATE = "state.len() < STATE_BYTES || state[0] > 1 || state[2] > 1"
NO_PROFILE = "profile.len() < PROFILE_BYTES || profile[0] > 1 || profile[6] > 1"
WAITS = "!now.contains(&(place, byte)) && !stands(place, byte)"
FIRST_PLACE = "number_at(state, 4).saturating_sub(w)"
ALARMS = [
    # silence
    ("alarms", "silence: 18 is no silence", SILENT, "matches!(number, 1 | 15 | 16 | 17)"),
    ("alarms", "silence: number in its low byte", SILENT, "matches!(number as u8, 1 | 15..=18)"),
    ("alarms", "silence: number not looked at", "    if !" + SILENT + " {\n        return NONE;\n    }\n", "    let _ = number;\n"),
    ("alarms", "silence: reset while running is running", RESET_RS485 + RUNNING_TEST, RUNNING_TEST + RESET_RS485),
    ("alarms", "silence: reset address while running is a reset", RUNNING_TEST + RESET_ADDRESS_RS485,
     RESET_ADDRESS_RS485 + RUNNING_TEST),
    ("alarms", "silence: three bytes are not short", "frame.len() < 4", "frame.len() < 3"),
    ("alarms", "silence: a frame of M is long", LONG_TEST, LONG_TEST.replace(">", ">=")),
    ("alarms", "silence: CRC before long", LONG_TEST + CRC_TEST, CRC_TEST + LONG_TEST),
    ("alarms", "silence: foreign before CRC", CRC_TEST + GENERAL_TEST + FOREIGN_TEST, FOREIGN_TEST + CRC_TEST + GENERAL_TEST),
    ("alarms", "silence: 0 is foreign", GENERAL_TEST + FOREIGN_TEST, FOREIGN_TEST + GENERAL_TEST),
    ("alarms", "silence: I2C addresses of 128 heard", "address > 127 || !listener.hears(address)", "!listener.hears(address)"),
    ("alarms", "silence: address in its low byte", "address > 127 || !listener.hears(address)", "!listener.hears(address & 0xff)"),
    ("alarms", "silence: bad transfer is silent", "frame.len() < 2 || frame.len() as u64 > board.m ||", "frame.len() < 2 ||"),
    ("alarms", "silence: another type is none", "        0x01 => TYPE,\n", ""),
    ("alarms", "silence: address kind not looked at", NO_STATE, "state.len() < STATE_BYTES || state[2] > 1"),
    ("alarms", "silence: state of 403 bytes", NO_STATE, "state.len() < 403 || state[0] > 1 || state[2] > 1"),
    # what holds no profile
    ("alarms", "profile: bus of 2", NO_PROFILE, "profile.len() < PROFILE_BYTES || profile[6] > 1"),
    ("alarms", "profile: page of 2", NO_PROFILE, "profile.len() < PROFILE_BYTES || profile[0] > 1"),
    ("alarms", "profile: 35 bytes", NO_PROFILE, "profile.len() < 35 || profile[0] > 1 || profile[6] > 1"),
    ("alarms", "profile: type 0 is none", NO_PROFILE, NO_PROFILE + " || profile[1] == 0"),
    # lost bytes
    ("alarms", "lost: waiting bytes not looked at", WAITS, "!stands(place, byte)"),
    ("alarms", "lost: flash not looked at", WAITS, "!now.contains(&(place, byte))"),
    ("alarms", "lost: waiting at any place", WAITS, "!now.iter().any(|&(_, other)| other == byte) && !stands(place, byte)"),
    ("alarms", "lost: waiting with any value", WAITS, "!now.iter().any(|&(other, _)| other == place) && !stands(place, byte)"),
    ("alarms", "lost: O forgotten", "flash.get((o + place) as usize)", "flash.get(place as usize)"),
    ("alarms", "lost: 64 waiting bytes", "MOST_WAITING: u64 = 128", "MOST_WAITING: u64 = 64"),
    ("alarms", "lost: places of all that wait", FIRST_PLACE, "number_at(state, 4).saturating_sub(number_at(state, 8))"),
    ("alarms", "lost: places below 0", FIRST_PLACE, "(number_at(state, 4) + (1 << 32) - w) % (1 << 32)"),
    # finalize
    ("alarms", "finalize: status not looked at", " && number == 0 && reply.get(front) == Some(&0)", " && number == 0"),
    ("alarms", "finalize: number not looked at", " && number == 0 && reply", " && reply"),
    ("alarms", "finalize: count in two bytes", "finalized && count == 0", "finalized && count % 65_536 == 0"),
    ("alarms", "finalize: any command", "frame.get(front) == Some(&0x07) &&", "frame.get(front).is_some() &&"),
    # upload and pages
    ("alarms", "flash: S forgotten", "    let now = part(flash, board.o, board.s);", "    let now = part(flash, board.o, 1 << 20);"),
    ("alarms", "flash: partly and unchanged by the whole flash", "    if now == part(earlier, board.o, board.s) {",
     "    if flash == earlier {"),
    ("alarms", "flash: O forgotten by pages", "board.o + u64::from(page) * board.page", "u64::from(page) * board.page"),
    ("alarms", "flash: place of a page in 32 bits", "u64::from(page) * board.page", "u64::from(page.wrapping_mul(board.page as u32))"),
    ("alarms", "flash: a page that one copy has is the same", "u32::from(part(earlier",
     "u32::from(!part(earlier, at, board.page).is_empty() && part(earlier"),
]

# the check sums bit by bit: tried with the check
BITS = [
    ("bits", "CRC-8 polynomial", "^ 0x07", "^ 0x31"),
    ("bits", "CRC-16 polynomial", "^ 0xa001", "^ 0x8408"),
    ("bits", "CRC-8 start", "fold(0xff,", "fold(0x00,"),
    ("bits", "CRC-16 start", "fold(0xffff,", "fold(0,"),
    ("bits", "CRC-8 low bit first", "sum & 0x80 != 0", "sum & 1 != 0"),
    ("bits", "CRC-16 high bit first", "sum & 1 != 0", "sum & 0x8000 != 0"),
    ("bits", "CRC-8 entries after three steps", "(0..4).fold(sum, |sum, _| step8", "(0..3).fold(sum, |sum, _| step8"),
    ("bits", "CRC-16 entries after five steps", "(0..4).fold(sum, |sum, _| step16", "(0..5).fold(sum, |sum, _| step16"),
    ("bits", "CRC-8 seven steps", "(0..8).fold(sum ^ byte,", "(0..7).fold(sum ^ byte,"),
    ("bits", "CRC-16 nine steps", "(0..8).fold(sum ^ u16::from(byte),", "(0..9).fold(sum ^ u16::from(byte),"),
]

# changes to the ledger: tried with the check
LEDGER = [
    ("ledger", "earlier copy not taken", "        self.earlier = self.copy.clone();\n", ""),
    ("ledger", "count kept at a write at 0", "        self.count = 0;\n        self.f = 0;\n    }", "        self.f = 0;\n    }"),
    ("ledger", "f kept at a write at 0", "        self.f = 0;\n    }", "    }"),
    ("ledger", "committed kept", "        self.committed = 0;\n        self.count = 0;", "        self.count = 0;"),
    ("ledger", "no commit at page ends", "checked_rem(p.page as usize)", "checked_rem(2 * p.page as usize)"),
    ("ledger", "commits at 64", "checked_rem(p.page as usize)", "checked_rem(64)"),
    ("ledger", "commits at 128", "checked_rem(p.page as usize)", "checked_rem(128)"),
    ("check", "erase bound by 64", "self.ledger.accepted.len() / self.page()", "self.ledger.accepted.len() / 64"),
    ("check", "erase bound by 128", "self.ledger.accepted.len() / self.page()", "self.ledger.accepted.len() / 128"),
    ("ledger", "every commit counted", "        if changed {", "        if changed || self.committed > 0 {"),
    ("ledger", "finalize commits nothing", "            self.f += 1;\n            self.commit(p);", "            self.f += 1;"),
    ("ledger", "f not counted", "            self.f += 1;\n", ""),
    ("ledger", "offset forgotten", "p.o as usize + place", "place"),
    ("ledger", "refused writes accepted", "number != 0 || reply.get(skip) != Some(&0) ||", "number != 0 ||"),
    ("ledger", "reset while refused", "if reset && number == 1 {", "if reset {"),
    ("ledger", "I2C reset at any address", "address == 0 && frame == [0x06]", "frame == [0x06]"),
    ("ledger", "reset address taken for reset", "[0x00, 0x46, 0x80, 0x42]", "[0x00, 0x44, 0x01, 0x83]"),
    ("ledger", "write at 0 goes on", "        if address == 0 {\n            self.begin();\n        }\n", ""),
]

# changes that the check notices too
CHECKED_TOO = [
    "reserved not refused", "reserved tested with the top bit", "reserved refused and taken", "reserved answered OK",
    "refusal back to the default range", "refusal drops waiting bytes", "every address refused",
    "reply to set address not kept",
    "120 taken on I2C", "8 refused on I2C", "247 refused on RS485", "encoder makes reserved addresses",
    "CRC-8 start", "CRC-16 start", "CRC-8 entry 6", "CRC-8 entry 15", "CRC-16 entry 9", "CRC-16 entry 15",
    "CRC-8 low half first", "CRC-16 high half first", "CRC-8 first half only", "CRC-16 moved part dropped",
    "0.0 not known", "0.0 known", "0.1 running", "every 0 running", "application running is 41",
    "reset: M not tested", "reset: 14 before 2", "reset: 1 before 2", "reset: 6 before 14", "reset: 6 before 1",
    "reset: known version reset", "reset: unknown version answered 1", "reset address instead of reset", "reset of the other bus",
    "reset written though it doesn't fit",
    "reset not heard while running", "reset keeps own address", "reset keeps the last reply", "version 2.1",
    "short: three bytes are a frame", "short: four bytes are short", "long: a frame of M is long", "long: a frame of M + 1 is not",
    "17 and 18 exchanged", "CRC before short", "CRC before long", "foreign before CRC", "foreign before long", "0 is foreign",
    "any frame to 0 is 1", "reasons while running", "a dropped frame drops waiting bytes", "a dropped frame touches the output",
    "foreign on I2C", "counters wrap", "counters stop at 65534", "full counter stops the others", "refused counted as answered",
    "1 counted as answered", "reset clears the tally", "I2C drop counted as foreign", "I2C nothing counted",
    "refused commands not counted",
    "page in its low 16 bits", "S a multiple of 64 only", "O a multiple of 64 only", "O of 65472 with every page",
    "w by 64", "w by 128", "too many waiting bytes dropped, not 4", "fewer waiting bytes than in the page are 4",
    "commit at 64", "commit by the number of waiting bytes", "change in the first 64 bytes only",
    "silence: 0 is foreign", "lost: waiting bytes not looked at", "lost: flash not looked at", "finalize: any command",
    "flash: O forgotten by pages",
]

# changes to the check of finished uploads: tried with it alone
PLACES = "(p.o as usize, p.s as usize, p.page as usize)"
ALL_ENDED = "self.open.iter().zip(found).map(ended)"
FINISHED = [
    ("finished", "image laid at 0", "place.checked_sub(first).and_then", "Some(place).and_then"),
    ("finished", "bytes outside the image not looked at", "(0..end).find(", "(first..first + image.len()).find("),
    ("finished", "bytes outside the working flash not looked at", "(0..end).find(", "(first..first + p.s as usize).find("),
    ("finished", "pages judged at 0", "old.get(first..first + size)", "old.get(..size)"),
    ("finished", "pages of 64 always", PLACES, "(p.o as usize, p.s as usize, 64)"),
    ("finished", "pages of 128 always", PLACES, "(p.o as usize, p.s as usize, 128)"),
    ("finished", "touched pages counted", "        if after != before {", "        if !bytes.is_empty() {"),
    ("finished", "last page judged with padding", "        let after = [bytes, &before[bytes.len()..]].concat();",
     "        let mut after = [bytes, &before[bytes.len()..]].concat();\n"
     "        if !bytes.is_empty() { after[bytes.len()..].fill(0xff); }"),
    ("finished", "last page not judged", "        if after != before {", "        if after != before && bytes.len() == page {"),
    ("finished", "changed pages laid at 0", "(first + k * page, after)", "(k * page, after)"),
    ("finished", "first changed page not laid", "for (at, bytes) in pages {", "for (at, bytes) in pages.iter().skip(1) {"),
    ("finished", "count in its low byte", "results != count.to_be_bytes()", "results.last() != count.to_be_bytes().last()"),
    ("finished", "condition on earlier finalizes dropped", "self.found[1] == 0", "true"),
    ("finished", "count with no earlier finalize only", "self.found[1] == 0", "self.found == [0, 0]"),
    ("finished", "earlier finalizes exchanged", "told.state.w > 0", "told.state.w == 0"),
    ("finished", "reset ignored", "                self.open.clear();\n                self.started", "                self.started"),
    ("finished", "refused reset taken", "told.number == 1 && is_reset(", "is_reset("),
    ("finished", "reset address taken for reset", "frame == [0x00, 0x46, 0x80, 0x42]", "frame == [0x00, 0x44, 0x01, 0x83]"),
    ("finished", "refused writes joined", "data @ ..], [0, ..])", "data @ ..], _)"),
    ("finished", "write at 0 after bytes goes on", "if at != self.image.len() {", "if at != 0 && at != self.image.len() {"),
    ("finished", "first empty write at 0 only", "                last.times += 1;\n", ""),
    ("finished", "empty images not judged", ALL_ENDED, ALL_ENDED.replace(".map", ".filter(|_| !image.is_empty()).map")),
    ("finished", "write after a finalize ends the stretch", "        if at != self.image.len() {",
     "        self.open.retain(|open| open.found == [0, 0]);\n        if at != self.image.len() {"),
    ("finished", "start not seen", "told.state.running || is_start(self.p.bus, told)", "told.state.running"),
    ("finished", "any start taken", "inner(bus, frame) == [0x05] && heard", "inner(bus, frame) == [0x05]"),
    ("finished", "reset doesn't end a start", "                self.started = false;\n", ""),
]

# changes to the board that the check of finished uploads notices by itself
FINISHED_TOO = [
    "reset address drops waiting bytes", "refused write at 0 drops waiting bytes", "refusal drops waiting bytes",
    "a dropped frame drops waiting bytes", "count kept at 0", "count of unchanged commits", "last page padded with 0xFF",
    "waiting bytes at the page's start", "finalize clears the count", "count in one byte", "commit at 64",
]


def situations(cases):
    """The comment line that each call stands under."""
    names, current = [], "start"
    for line in cases.split("\n"):
        if line.startswith("# "):
            current = line[2:]
        elif line[:1] in ("R", "C", "I", "E", "D", "T", "V", "A", "Q", "L", "X", "U", "H"):
            names.append(current)
    return names


def build(folder, main, module=None, old=None, new=None):
    """A copy of the rules, changed and built with one of MAINS; gives an error text or None."""
    for name in RULES:
        shutil.copy(os.path.join(HERE, "src", name + ".rs"), folder)
    if module is not None:
        path = os.path.join(folder, module + ".rs")
        with open(path) as f:
            text = f.read()
        if text.count(old) != 1:
            return "text found %d times" % text.count(old)
        with open(path, "w") as f:
            f.write(text.replace(old, new))
    with open(os.path.join(folder, "main.rs"), "w") as f:
        f.write(MAINS[main])
    made = subprocess.run(
        ["rustc", "--edition", "2021", "-C", "opt-level=1", "-C", "overflow-checks=on",
         "-C", "incremental=parts-" + main.replace("alarms", "answer"), "-A", "warnings", "-o", "mutant", "main.rs"],
        cwd=folder, capture_output=True, text=True)
    if made.returncode != 0:
        return "does not build: " + made.stderr[:400]
    return None


def run(folder, cases):
    """Exit status and output of the built program; status None if too slow."""
    try:
        done = subprocess.run([os.path.join(folder, "mutant")], input=cases.encode(),
                              capture_output=True, timeout=SECONDS)
    except subprocess.TimeoutExpired:
        return None, ""
    return done.returncode, done.stdout.decode()


def judge_answers(status, output, expected, names):
    if status != 0:
        return True, "stopped with status %d" % status
    got = output.split("\n")
    for k, line in enumerate(expected.split("\n")):
        if k >= len(got) or got[k] != line:
            return True, "at " + (names[k] if k < len(names) else "the end")
    return False, "same output"


def judge_check(status, output):
    if status == 0:
        return False, "check holds"
    return True, output.strip().split(";")[0][:60] or "stopped"


def try_one(main, mutant, folders, files):
    cases, expected, names = files.get(main, ("", "", []))
    module, name, old, new = mutant
    folder = folders.get()
    try:
        error = build(folder, main, module, old, new)
        if error:
            return "ERROR", error
        status, output = run(folder, cases)
    finally:
        folders.put(folder)
    if status is None or status < 0:
        return "ERROR", "too slow or killed"
    if main in ("check", "finished"):
        noticed, why = judge_check(status, output)
    else:
        noticed, why = judge_answers(status, output, expected, names)
    return ("noticed" if noticed else "SURVIVED"), why


def unchanged_passes(folder, files):
    for main in MAINS:
        cases, expected, _ = files.get(main, ("", "", []))
        error = build(folder, main)
        status, output = (None, "") if error else run(folder, cases)
        if status != 0 or output != expected:
            print("the unchanged rules fail (%s): %s" % (main, error or "status %s" % status))
            return False
    return True


def try_all(folders, files):
    rules = MUTANTS + RESERVED + HALF_BYTES + RUNNING + SILENCES + PAGES
    again = [m for m in rules + ALARMS if m[1] in CHECKED_TOO]
    uploads = [m for m in rules if m[1] in FINISHED_TOO]
    assert len(again) == len(CHECKED_TOO) and len(uploads) == len(FINISHED_TOO)
    mutants = [("answer", mutant) for mutant in rules]
    mutants += [("alarms", mutant) for mutant in ALARMS]
    mutants += [("check", mutant) for mutant in LEDGER + BITS + again]
    mutants += [("finished", mutant) for mutant in FINISHED + uploads]
    noticed = 0
    with ThreadPoolExecutor(max_workers=WORKERS) as pool:
        tried = pool.map(lambda m: try_one(*m, folders, files), mutants)
        for (main, (module, name, _, _)), (word, why) in zip(mutants, tried):
            print("%-8s %s, %s: %s (%s)" % (word, main, module, name, why), flush=True)
            noticed += word == "noticed"
    print("%d of %d mutants noticed" % (noticed, len(mutants)))
    return 0 if noticed == len(mutants) else 1


def case_file(name):
    """A stored case file, its expected output, and the comment line of each call."""
    texts = []
    for end in (".cases", ".expected"):
        with open(os.path.join(HERE, name + end)) as f:
            texts.append(f.read())
    return texts[0], texts[1], situations(texts[0])


def main():
    files = {"answer": case_file("fixed"), "alarms": case_file("alarms")}
    with tempfile.TemporaryDirectory() as base:
        folders = queue.Queue()
        for k in range(WORKERS):
            folder = os.path.join(base, "worker%d" % k)
            os.mkdir(folder)
            folders.put(folder)
        if not unchanged_passes(folder, files):
            return 1
        return try_all(folders, files)


if __name__ == "__main__":
    sys.exit(main())
