//! Looks after a call, and lines that are no commands.

use super::Generator;

/// Lines that look like commands and are none, or hardly.
#[rustfmt::skip]
const NO_COMMANDS: [&[u8]; 48] = [
    b"", b" ", b"     ", b"# a comment", b"#", b" # not a comment", b"wirte 1 2 3 4E", b"WRITE 1 2 3 4E",
    b"write 1 2 3", b"write 1 2 3 4E 5", b" write 1 2 3 4E", b"write 1 2 3 4E ", b"write  1 2 3 4E", b"write 1 2 3 4",
    b"write 1 2 3 4G", b"write 1 2 3 4E4", b"write 1 2 3 4Ex", b"write 1 2 3 4Ex140001", b"write 1 2 3 4EX5",
    b"write 1 2 3 -4", b"write 4294967296 2 3 4E", b"write 1 4294967296 3 4E", b"write 1 2 4294967296 4E",
    b"pin -1", b"pin +1", b"pin 1\r", b"\tpin 1", b"pin\t1", b"pin 0x1", b"pin 99999999999999999999", b"unpin",
    b"unpin 18446744073709551616", b"ticket 1", b"turn 0", b"reopen now", b"make", b"make 140001", b"flush 1 140001",
    b"fill 1 1 0 2 0 000000", b"fill 1 1 0 140001 0 -", b"report 1", b"report 1 Good", b"sum", b"sum rings",
    b"state 1", b"show me", b"set pin 16 1 1 1", b"\xFF\x00\x80",
];

/// The same, for those that would change a ring or state if they went through.
#[rustfmt::skip]
const MORE_NO_COMMANDS: [&[u8]; 12] = [
    b"set number 254 1", b"set phase 0 256", b"set phase 254 0", b"set pin 0 1 1", b"set pin 0 1 1 4294967296",
    b"set next", b"set mark 0 1", b"poke 65296 00", b"poke 18446744073709551615 00", b"poke 0 1", b"poke 0 001",
    b"set next 18446744073709551616",
];

impl Generator {
    pub(super) fn noise(&mut self) {
        match self.random.below(40) {
            0..30 => {
                let line = self.random.pick(&NO_COMMANDS);
                self.emit(line);
            }
            30..36 => {
                let line = self.random.pick(&MORE_NO_COMMANDS);
                self.emit(line);
            }
            36..39 => {
                let count = self.random.below(12) as usize;
                let mut line = self.random.bytes(count);
                line.retain(|&byte| byte != b'\n');
                self.emit(&line);
            }
            _ => self.long_line(),
        }
    }

    /// A line at the longest length or one byte longer. They are large, so they come seldom.
    fn long_line(&mut self) {
        if !self.random.chance(10) {
            return;
        }
        let length = 300_000 + self.random.below(2) as usize;
        let first = self.random.pick(b"# 0");
        let line = vec![first; length];
        self.emit(&line);
    }

    /// Looks at what a call may have changed, mostly, so that a difference shows at once.
    pub(super) fn look_after(&mut self, call: &str) {
        let name = call.split(' ').next().unwrap_or("");
        match name {
            "make" | "reopen" | "write" | "unpin" | "report" => {
                self.look("sum ring", 70);
                self.look("state", 60);
            }
            "flush" => {
                self.look("sum buffer", 80);
                self.look("state", 60);
            }
            "fill" => self.look("sum buffer", 90),
            "pin" | "ticket" => self.look("state", 80),
            _ => {}
        }
        self.look("state", 3);
        self.look("sum ring", 3);
        self.look("show", 2);
        if self.random.chance(4) {
            self.look_at_part();
        }
    }

    fn look(&mut self, look: &str, percent: u64) {
        if self.random.chance(percent) {
            self.emit(look.as_bytes());
        }
    }

    fn look_at_part(&mut self) {
        let (name, length) = match self.random.below(2) {
            0 => ("ring", self.player.ring.len()),
            _ => ("buffer", self.player.buffer.len()),
        };
        let from = self.random.below(length as u64 + 2);
        let to = if self.random.chance(90) {
            (from + self.random.below(300)).min(length as u64)
        } else {
            self.random.below(length as u64 + 3)
        };
        self.emit(format!("{name} {from} {to}").as_bytes());
    }
}
