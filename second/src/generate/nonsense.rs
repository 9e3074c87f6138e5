//! Calls that a host should not make. Each argument goes wrong by itself, so that several reasons for a no meet.

use super::Generator;
use crate::ring::{FILE_LIMIT, NUMBER_LIMIT};

impl Generator {
    pub(super) fn nonsense(&mut self) {
        match self.random.below(9) {
            0..3 => self.odd_write(),
            3..5 => self.odd_fill(),
            5 => self.odd_flush(),
            6 => {
                let (number, verdict) = (self.odd_number(), self.random.pick(&["good", "bad"]));
                self.odd_report(number, verdict);
            }
            7 => {
                let number = self.odd_number();
                self.call(&format!("unpin {number}"));
            }
            _ => self.odd_question(),
        }
    }

    fn odd_node(&mut self) -> u32 {
        match self.random.below(4) {
            0 => 0,
            1 => self.random.below(12) as u32,
            _ => self.node(),
        }
    }

    /// A number that may or may not name something.
    fn odd_number(&mut self) -> u64 {
        let next = self.player.state.next;
        let choices = [0, 1, next.saturating_sub(1), next, NUMBER_LIMIT, u64::MAX, self.player.state.flush];
        if self.random.chance(50) { self.random.pick(&choices) } else { self.random.below(next.max(1)) }
    }

    fn odd_offset(&mut self) -> u64 {
        let limit = FILE_LIMIT;
        let odd = [0, limit - 4096, limit - 4095, limit - 1, limit, limit + 1, u32::MAX as u64];
        if self.random.chance(50) { self.random.pick(&odd) } else { self.random.below(self.plan.span) }
    }

    fn odd_write(&mut self) {
        let (node, offset) = (self.odd_node(), self.odd_offset());
        let length = self.random.pick(&[0, 1, 1, 2, 4096, 4097, 5000]);
        let bytes = if length == 0 && self.random.chance(50) { "-".into() } else { format!("5ax{length}") };
        self.call(&format!("write {node} 9 {offset} {bytes}"));
    }

    fn odd_fill(&mut self) {
        let pins = self.live_pins();
        let (pin, node) = match self.random.below(3) {
            0 if !pins.is_empty() => {
                let pin = self.random.pick(&pins);
                (pin.number, pin.node)
            }
            1 if !pins.is_empty() => (self.random.pick(&pins).number, self.odd_node()),
            _ => (self.odd_number(), self.odd_node()),
        };
        let offset = self.odd_offset();
        let length = self.random.pick(&[0, 1, 8, 65_536, 65_537, 140_000]);
        let fetched = self.random.pick(&[0, 0, 1, length, length + 1, u64::MAX]);
        let bytes = format!("77x{}", fetched.min(length));
        self.call(&format!("fill {pin} {node} {offset} {length} {fetched} {bytes}"));
    }

    fn odd_flush(&mut self) {
        let node = self.odd_node();
        let length = self.random.pick(&[0, 1, 8, 16, 17, 24, 140_000]);
        self.call(&format!("flush {node} {length}"));
    }

    /// A report that should be refused, unless the number happens to be the flush: then all must have landed.
    fn odd_report(&mut self, number: u64, verdict: &str) {
        if number == self.player.state.flush && verdict == "good" {
            self.checker.history.land(|_| true);
        }
        self.call(&format!("report {number} {verdict}"));
    }

    fn odd_question(&mut self) {
        let (number, node) = (self.odd_number(), self.odd_node());
        let text = if self.random.chance(50) { format!("end {node}") } else { format!("ask {number} {node}") };
        self.call(&text);
    }

    /// What a history needs once or twice: more pins than there can be, a far next number, another ring.
    pub(super) fn rarely(&mut self) {
        match self.random.below(6) {
            0 | 1 => self.many_pins(),
            2 => self.numbers_run_out(),
            3 => self.many_small_writes(),
            4 => {
                let length = self.random.pick(&[0, 15, 16, 4368, 4623, 4625, 65_295, 65_297, 65_552, 140_000]);
                if self.random.chance(30) {
                    self.call(&format!("make {length}"));
                }
            }
            _ => self.make(),
        }
    }

    fn many_pins(&mut self) {
        for _ in 0..self.random.between(10, 18) {
            self.pin();
        }
    }

    fn numbers_run_out(&mut self) {
        if self.random.chance(30) {
            self.many_pins();
        }
        let next = NUMBER_LIMIT - self.random.below(7);
        if next >= self.player.state.next {
            self.emit(format!("set next {next}").as_bytes());
        }
        for _ in 0..8 {
            self.any_call();
        }
    }

    pub(super) fn many_small_writes(&mut self) {
        for _ in 0..self.random.between(20, 60) {
            let (node, offset) = (self.plan.nodes[0], self.random.below(90));
            let bytes = self.bytes_word(1);
            self.call(&format!("write {node} 1 {offset} {bytes}"));
        }
    }
}
