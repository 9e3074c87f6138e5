//! The state that the host keeps beside the ring.

pub const LISTED: usize = 254;
pub const PINS: usize = 16;

#[derive(Clone, Copy, PartialEq, Eq, Debug)]
pub enum Phase {
    Unflushed,
    InFlight,
    Flushed,
}

impl Phase {
    pub fn from_byte(byte: u8) -> Option<Phase> {
        match byte {
            0 => Some(Phase::Unflushed),
            1 => Some(Phase::InFlight),
            2 => Some(Phase::Flushed),
            _ => None,
        }
    }
}

/// A write that the state lists. The phase is a plain byte, because damage can put anything there.
#[derive(Clone, Copy, PartialEq, Eq, Debug, Default)]
pub struct Listed {
    pub number: u64,
    pub phase: u8,
}

/// A record of the pin table. Number 0: free, whatever the rest holds.
#[derive(Clone, Copy, PartialEq, Eq, Debug, Default)]
pub struct Pin {
    pub number: u64,
    pub mark: u64,
    pub node: u32,
}

impl Pin {
    pub fn lives(&self) -> bool {
        self.number != 0
    }

    /// Whether it keeps a Flushed write from leaving.
    pub fn holds(&self, node: u32, number: u64) -> bool {
        self.lives() && reaches(self.node, node) && self.mark <= number
    }
}

/// Whether a write's node lies in the reach of a pin or ticket for `reach`, where 0 is for all.
pub fn reaches(reach: u32, node: u32) -> bool {
    reach == 0 || reach == node
}

#[derive(Clone, PartialEq, Eq, Debug)]
pub struct State {
    pub next: u64,
    /// The flush under way, 0 if none.
    pub flush: u64,
    pub count: u64,
    pub listed: [Listed; LISTED],
    pub pins: [Pin; PINS],
}

impl State {
    /// Every number 0: a state before the first call, which fits no ring.
    pub fn blank() -> State {
        State { next: 0, flush: 0, count: 0, listed: [Listed::default(); LISTED], pins: [Pin::default(); PINS] }
    }

    pub fn live_pins(&self) -> impl Iterator<Item = &Pin> {
        self.pins.iter().filter(|pin| pin.lives())
    }

    /// Lists these writes, with zeros in all places behind them.
    pub fn list(&mut self, writes: impl Iterator<Item = (u64, Phase)>) {
        self.listed = [Listed::default(); LISTED];
        self.count = 0;
        for (place, (number, phase)) in self.listed.iter_mut().zip(writes) {
            *place = Listed { number, phase: phase as u8 };
            self.count += 1;
        }
    }

    pub fn take_number(&mut self) -> u64 {
        self.next += 1;
        self.next - 1
    }
}
