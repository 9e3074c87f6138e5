//! Damage to ring and state, a few calls on what is left, and mostly a way back.

use super::Generator;
use crate::ring::{self, Entry, FILE_LIMIT, HEADER, NUMBER_LIMIT, SLOT, slots_of};
use crate::state::{Listed, Pin};

/// Where an entry lies.
#[derive(Clone, Copy)]
struct Placed {
    slot: usize,
    start: usize,
    number: u64,
    length: usize,
}

/// A line that damages, and the line that undoes it.
struct Damage {
    line: String,
    undo: String,
}

impl Generator {
    pub(super) fn damage(&mut self) {
        let done: Vec<Damage> = match self.random.below(20) {
            0 | 1 => self.recast_state(),
            2 => vec![self.poke_header()],
            3..6 => vec![self.poke_entry()],
            6..9 => self.poke_field(),
            9 => vec![self.poke_anywhere()],
            10 => vec![self.poke_header(), self.set_something()],
            11 => vec![self.set_pin(), self.set_phase()],
            _ => vec![self.set_something()],
        };
        for damage in &done {
            self.emit(damage.line.as_bytes());
        }
        self.emit(b"state");
        for _ in 0..self.random.between(1, 3) {
            self.any_call();
        }
        self.end_damage(&done);
    }

    fn end_damage(&mut self, done: &[Damage]) {
        match self.random.below(20) {
            0..11 => {
                for damage in done.iter().rev() {
                    self.emit(damage.undo.as_bytes());
                }
            }
            11..16 => {
                self.tickets.clear();
                self.call("reopen");
            }
            16 => self.make(),
            _ => {}
        }
    }

    fn poke(&mut self, place: usize, byte: u8) -> Damage {
        let old = self.player.ring.get(place).copied().unwrap_or(0);
        Damage { line: format!("poke {place} {byte:02X}"), undo: format!("poke {place} {old:02x}") }
    }

    /// A byte near the one that is there, or any.
    fn other_byte(&mut self, place: usize) -> u8 {
        let old = self.player.ring.get(place).copied().unwrap_or(0);
        let any = self.random.draw() as u8;
        self.random.pick(&[old.wrapping_add(1), old.wrapping_sub(1), 0, 1, 0x3F, 0x40, 0xFF, any])
    }

    fn poke_header(&mut self) -> Damage {
        let place = if self.random.chance(60) { self.random.pick(&[1, 2, 3]) } else { self.random.below(16) as usize };
        let byte = self.other_byte(place);
        self.poke(place, byte)
    }

    /// A byte of an entry's head, or any of its last slot, which is where its filler lies.
    fn poke_entry(&mut self) -> Damage {
        let placed = self.placed_entries();
        if placed.is_empty() {
            return self.poke_anywhere();
        }
        let slots = self.player.ring[1] as usize;
        let wrapped = placed.iter().find(|entry| entry.slot + slots_of(entry.length) > slots);
        let entry = match wrapped {
            Some(&wrapped) if self.random.chance(50) => wrapped,
            _ => self.random.pick(&placed),
        };
        let place = if self.random.chance(60) {
            entry.start + self.random.below(24) as usize
        } else {
            let last = (entry.slot + slots_of(entry.length) - 1) % slots;
            let any = self.random.below(SLOT as u64) as usize;
            HEADER + last * SLOT + self.random.pick(&[255, 254, 24, 23, any])
        };
        let byte = self.other_byte(place);
        self.poke(place, byte)
    }

    /// A whole field of an entry gets a value at or beside its limits.
    fn poke_field(&mut self) -> Vec<Damage> {
        let placed = self.placed_entries();
        if placed.is_empty() {
            return vec![self.poke_anywhere()];
        }
        let long = placed.iter().position(|entry| entry.length > 4072);
        let index = match long {
            Some(long) if self.random.chance(50) => long,
            _ => self.random.below(placed.len() as u64) as usize,
        };
        let entry = placed[index];
        let before = if index == 0 { 0 } else { placed[index - 1].number };
        let after = placed.get(index + 1).map_or(0, |next| next.number);
        let room = FILE_LIMIT - entry.length as u64;
        let length = entry.length as u64;
        let (at, size, value) = match self.random.below(6) {
            0 | 1 => (0, 8, self.random.pick(&[0, before, before + 1, after, NUMBER_LIMIT - 1, NUMBER_LIMIT])),
            2 => (8, 4, 0),
            3 => (16, 4, self.random.pick(&[room, room + 1, FILE_LIMIT, u32::MAX.into()])),
            4 if length > 4072 => (20, 2, 4097),
            4 => (20, 2, self.random.pick(&[0, 1, length + 1, length - 1, 4096])),
            _ => (20, 4, length + (1 << self.random.between(16, 31))),
        };
        let bytes = value.to_le_bytes();
        (0..size).map(|byte| self.poke(entry.start + at + byte, bytes[byte])).collect()
    }

    fn placed_entries(&self) -> Vec<Placed> {
        let Some(reading) = ring::read(&self.player.ring) else { return Vec::new() };
        let mut slot = reading.head;
        let place = |entry: &Entry| {
            let placed = Placed { slot, start: HEADER + slot * SLOT, number: entry.number, length: entry.length() };
            slot = (slot + entry.slots()) % reading.slots;
            placed
        };
        reading.entries.iter().map(place).collect()
    }

    fn poke_anywhere(&mut self) -> Damage {
        let place = self.random.below(self.player.ring.len().max(1) as u64) as usize;
        let byte = self.other_byte(place);
        self.poke(place, byte)
    }

    fn odd_value(&mut self, old: u64) -> u64 {
        let next = self.player.state.next;
        let any = self.random.below(next.max(1));
        let limits = [0, 1, 1 << 62, (1 << 62) + 1, u64::MAX];
        let near = [old.wrapping_add(1), old.wrapping_sub(1), next, next.wrapping_sub(1), any, any];
        if self.random.chance(40) { self.random.pick(&limits) } else { self.random.pick(&near) }
    }

    fn set_something(&mut self) -> Damage {
        let state = &self.player.state;
        let (next, flush, count) = (state.next, state.flush, state.count);
        match self.random.below(12) {
            0 => set("next", next, self.odd_value(next)),
            1 => set("flush", flush, self.odd_value(flush)),
            2 => set("count", count, self.odd_value(count)),
            3..5 => self.set_number(),
            5..8 => self.set_phase(),
            _ => self.set_pin(),
        }
    }

    /// A place among the listed writes mostly, or the first behind them.
    fn listed_place(&mut self) -> (usize, Listed) {
        let count = self.player.state.count.min(253);
        let place = if self.random.chance(95) { self.random.below(count + 1) } else { self.random.below(254) };
        (place as usize, self.player.state.listed[place as usize])
    }

    fn set_number(&mut self) -> Damage {
        let (place, old) = self.listed_place();
        let value = self.odd_value(old.number);
        set(&format!("number {place}"), old.number, value)
    }

    fn set_phase(&mut self) -> Damage {
        let (place, old) = self.listed_place();
        let value = self.random.pick(&[0, 1, 2, 2, 3, 255]);
        set(&format!("phase {place}"), old.phase.into(), value)
    }

    fn set_pin(&mut self) -> Damage {
        let place = self.random.below(16) as usize;
        let old = self.player.state.pins[place];
        let other = self.random.below(16) as usize;
        let twin = self.player.state.pins[other].number;
        let free = Pin { number: 0, mark: 5, node: 6 };
        let (number, mark) = (self.odd_value(old.number), self.odd_value(old.mark));
        let node = if self.random.chance(50) { 0 } else { self.node() };
        let new = match self.random.below(6) {
            0 => Pin { number: twin, ..old },
            1 => Pin { mark, ..old },
            2 => free,
            _ => Pin { number, mark, node },
        };
        Damage { line: pin_line(place, new), undo: pin_line(place, old) }
    }

    /// New phases for all listed writes, which mostly fit: for each node Flushed ones, then In flight, then Unflushed.
    fn recast_state(&mut self) -> Vec<Damage> {
        if self.random.chance(30) {
            self.many_small_writes();
        }
        let Some(reading) = ring::read(&self.player.ring) else { return vec![self.set_something()] };
        let nodes: Vec<u32> = reading.entries.iter().map(|entry| entry.node).collect();
        let out = self.plan.nodes[0];
        let (flushed, in_flight) = (self.random.pick(&[0, 0, 1, 3]), self.random.pick(&[0, 1, 3, 40, 40]));
        let mut done = if self.random.chance(50) { vec![self.set_pin()] } else { Vec::new() };
        for place in 0..nodes.len() {
            let rank = nodes[..place].iter().filter(|&&node| node == nodes[place]).count() as u64;
            let phase = match rank {
                _ if rank < flushed => 2,
                _ if nodes[place] == out && rank < flushed + in_flight => 1,
                _ => 0,
            };
            done.push(set(&format!("phase {place}"), self.player.state.listed[place].phase.into(), phase));
        }
        let flush = if in_flight == 0 { 0 } else { self.random.below(self.player.state.next.max(1)) };
        done.push(set("flush", self.player.state.flush, flush));
        done
    }
}

fn set(name: &str, old: u64, new: u64) -> Damage {
    Damage { line: format!("set {name} {new}"), undo: format!("set {name} {old}") }
}

fn pin_line(place: usize, pin: Pin) -> String {
    let Pin { number, mark, node } = pin;
    format!("set pin {place} {number} {mark} {node}")
}
