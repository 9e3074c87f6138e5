//! Calls as a good host makes them, and what the shore does meanwhile.

use super::Generator;
use crate::history::Fetch;
use crate::player::{Answer, Player};
use crate::ring::{FILE_LIMIT, HEADER, SLOT};
use crate::script::Command;
use crate::shore::{File, Files};
use crate::state::Pin;
use crate::words::hex;

const LENGTHS: [u64; 12] = [1, 2, 231, 232, 233, 255, 256, 488, 489, 4072, 4073, 4096];

impl Generator {
    pub(super) fn make(&mut self) {
        if self.random.chance(30) {
            self.plan.slots = self.random.pick(&[18, 19, 25, 40, 255]);
        }
        self.checker.starting = self.starting_files();
        let length = HEADER + SLOT * self.plan.slots as usize;
        self.tickets.clear();
        self.call(&format!("make {length}"));
    }

    fn starting_files(&mut self) -> Files {
        let mut files = Files::new();
        for node in self.plan.nodes.clone() {
            let mut file = File::default();
            let length = self.random.below(self.plan.span + 1) as usize;
            file.write(0, &self.random.bytes(length));
            files.insert(node, file);
        }
        files
    }

    pub(super) fn write(&mut self) {
        let (node, handle) = (self.node(), self.random.below(4));
        let length = self.length();
        let offset = self.offset(length);
        let bytes = self.bytes_word(length as usize);
        self.call(&format!("write {node} {handle} {offset} {bytes}"));
    }

    pub(super) fn node(&mut self) -> u32 {
        self.random.pick(&self.plan.nodes)
    }

    pub(super) fn length(&mut self) -> u64 {
        if self.random.chance(self.plan.long) {
            return if self.random.chance(50) { self.random.pick(&LENGTHS) } else { self.random.between(1, 4096) };
        }
        let most = if self.random.chance(80) { 16 } else { 500 };
        self.random.between(1, most)
    }

    /// Within the span mostly; often beside or over a write that is held; rarely at the file limit.
    pub(super) fn offset(&mut self, length: u64) -> u64 {
        let last = FILE_LIMIT - length;
        let near = match self.random.below(20) {
            0..=4 => self.beside_a_write(length),
            5 => (self.random.below(12) * 4096 + 3).saturating_sub(self.random.below(7)),
            6 if self.random.chance(20) => last - self.random.below(2),
            _ => self.random.below(self.plan.span),
        };
        near.min(last)
    }

    fn beside_a_write(&mut self, length: u64) -> u64 {
        let held = &self.checker.history.held;
        if held.is_empty() {
            return 0;
        }
        let write = &held[self.random.below(held.len() as u64) as usize];
        let (start, end) = (u64::from(write.offset), u64::from(write.end()));
        match self.random.below(4) {
            0 => end,
            1 => end + 1,
            2 => start.saturating_sub(length),
            _ => start + self.random.below(3),
        }
    }

    pub(super) fn bytes_word(&mut self, length: usize) -> String {
        let percent = if length <= 24 {
            70
        } else if length <= 300 {
            20
        } else {
            2
        };
        if self.random.chance(percent) {
            let bytes = self.random.bytes(length);
            return hex(&bytes);
        }
        format!("{:02x}x{length}", self.random.draw() as u8)
    }

    pub(super) fn pin(&mut self) {
        let node = if self.random.chance(25) { 0 } else { self.node() };
        let node = self.word(node.into());
        self.call(&format!("pin {node}"));
    }

    pub(super) fn live_pins(&self) -> Vec<Pin> {
        self.player.state.live_pins().copied().collect()
    }

    pub(super) fn unpin(&mut self) {
        let pins = self.live_pins();
        if pins.is_empty() {
            return self.pin();
        }
        let number = self.random.pick(&pins).number;
        let number = self.word(number);
        self.call(&format!("unpin {number}"));
    }

    pub(super) fn unpin_all(&mut self) {
        for pin in self.live_pins() {
            self.call(&format!("unpin {}", pin.number));
        }
    }

    /// The host fetches under a pin; the fill may come later.
    pub(super) fn fetch(&mut self) {
        if let Some(fetch) = self.fetched()
            && self.random.chance(30)
        {
            self.fill_fetched(&fetch);
        }
    }

    fn fetched(&mut self) -> Option<Fetch> {
        let pins: Vec<Pin> = self.live_pins().into_iter().filter(|pin| pin.node != 0).collect();
        if pins.is_empty() || !self.is_followed() {
            return None;
        }
        let pin = self.random.pick(&pins);
        let length = self.fill_length();
        let offset = self.offset(length) as u32;
        let fetch = self.checker.history.fetch(pin.number, pin.node, offset, length as usize);
        // Long fetches make long scripts, so most are left out.
        let wanted = fetch.bytes.len() < 700 || self.random.chance(10);
        wanted.then_some(fetch)
    }

    fn fill_length(&mut self) -> u64 {
        match self.random.below(100) {
            0..2 => 0,
            2..60 => self.random.between(1, 40),
            60..92 => self.random.between(1, 600),
            92..99 => self.random.between(600, 9_000),
            _ => self.random.between(65_530, 65_536),
        }
    }

    pub(super) fn fill(&mut self) {
        let early: Vec<usize> = (0..self.checker.history.fetches.len()).collect();
        let fetch = if early.is_empty() || self.random.chance(20) {
            self.fetched()
        } else {
            let index = self.random.pick(&early);
            Some(self.checker.history.fetches[index].clone())
        };
        match fetch {
            Some(fetch) if fetch.bytes.len() < 700 || self.random.chance(10) => self.fill_fetched(&fetch),
            _ if self.live_pins().is_empty() => self.pin(),
            _ => {}
        }
    }

    fn fill_fetched(&mut self, fetch: &Fetch) {
        let Fetch { pin, node, offset, length, bytes, .. } = fetch;
        let fetched = self.word(bytes.len() as u64);
        self.call(&format!("fill {pin} {node} {offset} {length} {fetched} {}", hex(bytes)));
    }

    /// A fill with bytes that were never on shore: the rule holds, the claim says nothing.
    pub(super) fn fill_with_anything(&mut self) {
        let pins = self.live_pins();
        if pins.is_empty() {
            return self.pin();
        }
        let pin = self.random.pick(&pins);
        let node = if self.random.chance(10) { self.node() } else { pin.node };
        let length = self.fill_length();
        let offset = self.offset(length);
        let laid = self.random.below(length.min(60) + 1);
        let fetched = if self.random.chance(20) { self.random.below(length + 1) } else { laid };
        let bytes = self.bytes_word(laid as usize);
        self.call(&format!("fill {} {node} {offset} {length} {fetched} {bytes}", pin.number));
    }

    pub(super) fn flush(&mut self) {
        let turn = self.checker.history.held.iter().find(|write| !write.good).map(|write| write.node);
        let node = match turn {
            Some(node) if self.random.chance(60) => node,
            _ => self.node(),
        };
        let length = self.flush_length(node);
        self.call(&format!("flush {node} {length}"));
    }

    /// Mostly enough, often exactly enough, now and then one byte too few.
    pub(super) fn flush_length(&mut self, node: u32) -> u64 {
        let mut trial: Player = self.player.clone();
        let needed = match trial.run(&Command::Flush { node, length: 140_000 }) {
            Some(Answer::Begun { length, .. }) => length,
            _ => self.random.below(64),
        };
        match self.random.below(20) {
            0 => needed.saturating_sub(1),
            1 => self.random.below(needed + 1),
            2..=9 => needed,
            10 => 132_000,
            _ => needed + self.random.below(40),
        }
    }

    pub(super) fn report(&mut self) {
        let number = self.player.state.flush;
        if number == 0 {
            return self.flush();
        }
        let good = self.random.chance(65);
        if good {
            self.checker.history.land(|_| true);
            self.check_shore();
        }
        let number = self.word(number);
        self.call(&format!("report {number} {}", if good { "good" } else { "bad" }));
    }

    /// Some bytes of the sheet that is out reach the shore, in no order.
    pub(super) fn land(&mut self) {
        let missing = self.checker.history.out.as_ref().map_or(0, |out| out.pending.len());
        if missing == 0 || !self.is_followed() {
            return;
        }
        let cut = self.random.below(missing as u64) as usize;
        let random = &mut self.random;
        let history = &mut self.checker.history;
        match random.below(4) {
            0 => history.land(|index| index < cut),
            1 => history.land(|index| index >= cut),
            2 => history.land(|index| index == cut),
            _ => history.land(|_| random.chance(50)),
        }
        self.check_shore();
    }

    fn check_shore(&mut self) {
        let checked = self.checker.check_now(&self.player);
        self.note(checked);
    }

    /// Everything is flushed and let go, as a box at the quay does it.
    pub(super) fn drain(&mut self) {
        self.unpin_all();
        for _ in 0..self.random.below(6) {
            self.flush();
            self.report();
        }
    }

    /// Long writes go through the ring one after the other, so that entries come to lie across its end.
    pub(super) fn churn(&mut self) {
        self.unpin_all();
        for _ in 0..self.random.between(5, 15) {
            let (node, length) = (self.node(), self.random.between(233, 2_000));
            let offset = self.offset(length);
            let bytes = self.bytes_word(length as usize);
            self.call(&format!("write {node} 5 {offset} {bytes}"));
            self.flush();
            self.report();
        }
    }

    /// A read that begins before a flush and ends after it.
    pub(super) fn read_across_a_flush(&mut self) {
        self.write();
        self.pin();
        let fetch = self.fetched();
        self.flush();
        self.land();
        self.report();
        if let Some(fetch) = fetch {
            self.fill_fetched(&fetch);
        }
        self.unpin();
    }

    pub(super) fn ticket(&mut self) {
        if let Some(Answer::Value(number)) = self.call("ticket") {
            self.tickets.push(number);
        }
    }

    pub(super) fn ask(&mut self) {
        let number = match self.tickets.last() {
            Some(_) if self.random.chance(80) => self.random.pick(&self.tickets),
            _ => self.random.below(self.player.state.next.saturating_add(2).max(1)),
        };
        let node = if self.random.chance(40) { 0 } else { self.node() };
        self.call(&format!("ask {number} {node}"));
    }

    pub(super) fn turn(&mut self) {
        self.call("turn");
    }

    pub(super) fn end(&mut self) {
        let node = self.node();
        self.call(&format!("end {node}"));
    }

    pub(super) fn reopen(&mut self) {
        // A restart is most telling while a sheet is out.
        if self.player.state.flush != 0 || self.random.chance(50) {
            self.tickets.clear();
            self.call("reopen");
        }
    }
}
