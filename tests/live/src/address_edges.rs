//! What happened with reserved addresses and next to them (request W1), on each bus.

use crate::items::Encode;
use rules::board::{hears, hears_i2c};
use rules::model::*;
use rules::sums::{crc16_right, crc8_right};
use std::collections::BTreeMap;

/// How often, by address.
type Counts = BTreeMap<u32, u64>;

#[derive(Default)]
pub struct AddressEdges([OnBus; 2]);

#[derive(Default)]
struct OnBus {
    /// Set addresses to a board by the address byte sent.
    taken: Counts,
    refused: Counts,
    refused_own_type: u64,
    refused_type_0: u64,
    refused_amid_upload: u64,
    /// Of a foreign type, with a reserved address.
    silent: u64,
    /// Of a foreign type, with one argument too many.
    length_first: u64,
    /// Boards given at a reserved address: frames answered, set addresses among them taken.
    heard: u64,
    moved: u64,
    /// Set addresses to the encoder by new address; not made though all else is right.
    made: Counts,
    not_made: Counts,
    not_made_without_room: u64,
    refused_by_m: u64,
    reserved_destinations: u64,
}

const NAMES: [&str; 2] = ["I2C", "RS485"];

/// New addresses at the edges of the reserved ones, for I2C and RS485. On I2C the board drops the top bit (136 is 8),
/// the encoder does not; 7, 120 and 127 are reserved on I2C only.
const TAKEN: [&[u32]; 2] = [&[8, 119, 136, 247], &[1, 7, 120, 127, 247]];
const REFUSED: [&[u32]; 2] = [&[0, 7, 120, 127, 128, 135, 248, 255], &[0, 248, 255]];
const MADE: [&[u32]; 2] = [&[8, 119], &[1, 7, 120, 127, 247]];
const NOT_MADE: [&[u32]; 2] = [&[0, 7, 120, 127, 128, 136, 247], &[0, 248, 255]];

fn add(counts: &mut Counts, address: u32) {
    *counts.entry(address).or_default() += 1;
}

fn most_address(bus: Bus) -> u32 {
    match bus {
        Bus::I2c => 127,
        Bus::Rs485 => 255,
    }
}

/// The arguments of a set address in a right frame.
fn set_address_arguments(bus: Bus, frame: &[u8]) -> Option<&[u8]> {
    match (bus, frame) {
        (Bus::I2c, [SET_ADDRESS, arguments @ .., _]) if crc8_right(frame) => Some(arguments),
        (Bus::Rs485, [_, SET_ADDRESS, arguments @ .., _, _]) if crc16_right(frame) => Some(arguments),
        _ => None,
    }
}

/// A new address that the board refuses, its top bit dropped on I2C.
fn is_refused(bus: Bus, new: u8) -> bool {
    match bus {
        Bus::I2c => reserved(bus, u32::from(new % 128)),
        Bus::Rs485 => reserved(bus, u32::from(new)),
    }
}

fn is_heard(bus: Bus, s: &State, address: u32, frame: &[u8]) -> bool {
    match bus {
        Bus::I2c => hears_i2c(s, address.min(255) as u8),
        Bus::Rs485 => frame.first().is_some_and(|&to| hears(s, to)),
    }
}

impl AddressEdges {
    /// A frame to a board in this state.
    pub fn received(&mut self, p: &Profile, s: &State, address: u32, frame: &[u8], number: u32, reply: &[u8]) {
        if number > 1 || s.running || !is_heard(p.bus, s, address, frame) {
            return;
        }
        let on_bus = &mut self.0[p.bus as usize];
        let at_reserved = matches!(s.own, Own::Address(own) if reserved(p.bus, u32::from(own)));
        on_bus.heard += u64::from(at_reserved && number == 0);
        let status = reply.get(if p.bus == Bus::I2c { 0 } else { 1 });
        match (set_address_arguments(p.bus, frame), status) {
            (Some(&[new, _]), Some(&OK)) => {
                add(&mut on_bus.taken, u32::from(new));
                on_bus.moved += u64::from(at_reserved);
            }
            (Some(&[new, hardware]), Some(&INVALID_ARGUMENTS)) => on_bus.refusal(s, new, hardware),
            (Some(&[new, _]), None) => on_bus.silent += u64::from(is_refused(p.bus, new)),
            (Some(&[_, hardware, _]), Some(&INVALID_ARGUMENTS)) => {
                on_bus.length_first += u64::from(hardware != 0 && hardware != p.hardware);
            }
            _ => {}
        }
    }

    /// A request to the encoder.
    pub fn encoded(&mut self, e: &Encode, room: usize, number: u32) {
        let bus = match e.bus {
            0 => Bus::I2c,
            1 => Bus::Rs485,
            _ => return,
        };
        let on_bus = &mut self.0[bus as usize];
        on_bus.reserved_destinations += u64::from(number == 0 && reserved(bus, e.to));
        if e.code != u32::from(SET_ADDRESS) {
            return;
        }
        let else_right = (1..=most_address(bus)).contains(&e.to) && e.b <= 255;
        match number {
            0 => add(&mut on_bus.made, e.a),
            2 => on_bus.refused_by_m += u64::from(else_right && reserved(bus, e.a)),
            7 if else_right => {
                add(&mut on_bus.not_made, e.a);
                let whole = if bus == Bus::I2c { 4 } else { 6 };
                on_bus.not_made_without_room += u64::from(room < whole && reserved(bus, e.a));
            }
            _ => {}
        }
    }

    /// One line for each bus.
    pub fn lines(&self) -> Vec<String> {
        let line = |k: usize| {
            let parts: Vec<String> = self.0[k].happened(k).iter().map(|(what, n)| format!("{what}: {n}")).collect();
            format!("set address, {}: {}", NAMES[k], parts.join(", "))
        };
        vec![line(0), line(1)]
    }

    /// What never happened though it can.
    pub fn missing(&self) -> Vec<String> {
        let mut missing = Vec::new();
        for (k, on_bus) in self.0.iter().enumerate() {
            let never = on_bus.happened(k).into_iter().filter(|(_, n)| *n == 0);
            missing.extend(never.map(|(what, _)| format!("set address, {}: {what}", NAMES[k])));
        }
        missing
    }
}

impl OnBus {
    fn refusal(&mut self, s: &State, new: u8, hardware: u8) {
        add(&mut self.refused, u32::from(new));
        self.refused_type_0 += u64::from(hardware == 0);
        self.refused_own_type += u64::from(hardware != 0);
        self.refused_amid_upload += u64::from(s.w > 0);
    }

    /// What happened on bus number `k`.
    fn happened(&self, k: usize) -> Vec<(String, u64)> {
        let tables = [
            ("taken at", &self.taken, TAKEN[k]),
            ("refused at", &self.refused, REFUSED[k]),
            ("made for", &self.made, MADE[k]),
            ("not made for", &self.not_made, NOT_MADE[k]),
        ];
        let mut parts = vec![
            ("refused, own type".to_string(), self.refused_own_type),
            ("refused, type 0".to_string(), self.refused_type_0),
            ("refused with bytes waiting".to_string(), self.refused_amid_upload),
            ("silence for a foreign type".to_string(), self.silent),
            ("length before a foreign type".to_string(), self.length_first),
            ("heard at a reserved address".to_string(), self.heard),
            ("moved from a reserved address".to_string(), self.moved),
            ("number 7 before 6".to_string(), self.not_made_without_room),
            ("number 2 before 7".to_string(), self.refused_by_m),
            ("made to a reserved destination".to_string(), self.reserved_destinations),
        ];
        for (what, counts, addresses) in tables {
            let of = |address: u32| counts.get(&address).copied().unwrap_or(0);
            parts.extend(addresses.iter().map(|&address| (format!("{what} {address}"), of(address))));
        }
        parts
    }
}
