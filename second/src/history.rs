//! What has happened, told from the calls and their answers alone: accepted writes, live pins and their marks, good
//! batches since the last restart, the writes that must be held, and the files on shore.

use crate::ring::{Entry, LARGEST_WRITE};
use crate::shore::{File, Files};
use crate::state::reaches;
use std::collections::BTreeMap;

const BATCH: usize = 32;

/// An accepted write that must still be held.
#[derive(Clone, PartialEq, Eq, Debug)]
pub struct Write {
    pub number: u64,
    pub node: u32,
    pub handle: u32,
    pub offset: u32,
    pub bytes: Vec<u8>,
    /// How many writes the history had accepted before.
    pub order: usize,
    /// It has been in a batch reported good since the last restart.
    pub good: bool,
}

impl Write {
    pub fn end(&self) -> u32 {
        self.offset + self.bytes.len() as u32
    }

    pub fn covers(&self, place: u32) -> bool {
        (self.offset..self.end()).contains(&place)
    }
}

#[derive(Clone, Copy, PartialEq, Eq, Debug)]
pub struct LivePin {
    pub node: u32,
    pub mark: u64,
}

/// The sheet that is out.
#[derive(Clone, Debug)]
pub struct Out {
    pub number: u64,
    pub node: u32,
    /// The numbers of its batch.
    pub batch: Vec<u64>,
    /// Its bytes that haven't landed, with their places.
    pub pending: Vec<(u32, u8)>,
    pub some_landed: bool,
}

/// Bytes that the host fetched from shore at one moment, under a pin.
#[derive(Clone, PartialEq, Eq, Debug)]
pub struct Fetch {
    pub pin: u64,
    pub node: u32,
    pub offset: u32,
    pub length: usize,
    pub bytes: Vec<u8>,
    /// How many batches had been reported good by then.
    pub good_before: usize,
}

#[derive(Clone, Default, Debug)]
pub struct History {
    /// The ring's N.
    pub slots: usize,
    pub next: u64,
    pub accepted: usize,
    /// The nodes of all batches reported good.
    pub good_batches: Vec<u32>,
    pub held: Vec<Write>,
    pub pins: BTreeMap<u64, LivePin>,
    pub out: Option<Out>,
    /// Tickets since the last restart, with the count of writes accepted before each.
    pub tickets: BTreeMap<u64, usize>,
    pub fetches: Vec<Fetch>,
    pub shore: Files,
    /// The starting files with all accepted writes laid on in order.
    pub files: Files,
}

impl History {
    /// A new ring, with any files on shore.
    pub fn begin(slots: usize, shore: Files) -> History {
        History { slots, next: 1, files: shore.clone(), shore, ..History::default() }
    }

    pub fn take_number(&mut self) -> u64 {
        self.next += 1;
        self.next - 1
    }

    pub fn accept(&mut self, node: u32, handle: u32, offset: u32, bytes: &[u8]) {
        let (number, order) = (self.take_number(), self.accepted);
        self.accepted += 1;
        self.held.push(Write { number, node, handle, offset, bytes: bytes.to_vec(), order, good: false });
        self.files.entry(node).or_default().write(offset, bytes);
    }

    pub fn pin(&mut self, node: u32) {
        let number = self.take_number();
        let mut waiting = self.held.iter().filter(|write| !write.good && reaches(node, write.node));
        let mark = waiting.next().map_or(number, |write| write.number);
        self.pins.insert(number, LivePin { node, mark });
    }

    pub fn unpin(&mut self, number: u64) -> usize {
        self.pins.remove(&number);
        self.fetches.retain(|fetch| fetch.pin != number);
        self.let_go()
    }

    /// Whether a live pin with the write in reach has a mark at or below its number.
    pub fn is_pinned(&self, write: &Write) -> bool {
        self.pins.values().any(|pin| reaches(pin.node, write.node) && pin.mark <= write.number)
    }

    /// The held writes of a node that no good batch has had.
    pub fn waiting(&self, node: u32) -> impl Iterator<Item = &Write> {
        self.held.iter().filter(move |write| write.node == node && !write.good)
    }

    pub fn batch(&self, node: u32) -> Vec<&Write> {
        self.waiting(node).take(BATCH).collect()
    }

    pub fn send(&mut self, node: u32, batch: Vec<u64>, bytes: BTreeMap<u32, u8>) {
        let number = self.take_number();
        let pending = bytes.into_iter().collect();
        self.out = Some(Out { number, node, batch, pending, some_landed: false });
    }

    pub fn is_out(&self, number: u64) -> bool {
        self.out.as_ref().is_some_and(|out| out.batch.contains(&number))
    }

    /// Lands those bytes of the sheet that is out whose place in the list of missing ones is chosen.
    pub fn land(&mut self, mut chosen: impl FnMut(usize) -> bool) {
        let Some(out) = &mut self.out else { return };
        let file = self.shore.entry(out.node).or_default();
        let mut index = 0;
        let before = out.pending.len();
        out.pending.retain(|&(place, byte)| {
            let lands = chosen(index);
            index += 1;
            if lands {
                file.write(place, &[byte]);
            }
            !lands
        });
        out.some_landed |= out.pending.len() < before;
    }

    /// The sheet is reported good: all of it has landed. Gives the count of writes that leave.
    pub fn good(&mut self) -> usize {
        self.land(|_| true);
        let Some(out) = self.out.take() else { return 0 };
        for write in self.held.iter_mut().filter(|write| out.batch.contains(&write.number)) {
            write.good = true;
        }
        self.good_batches.push(out.node);
        self.let_go()
    }

    /// The sheet is reported bad: what has landed stays, the rest never lands.
    pub fn bad(&mut self) {
        self.out = None;
    }

    /// The box starts anew: the rest of a sheet never lands, and no good report counts any more.
    pub fn restart(&mut self) {
        self.out = None;
        self.pins.clear();
        self.tickets.clear();
        self.fetches.clear();
        self.held.iter_mut().for_each(|write| write.good = false);
        self.next = self.held.last().map_or(1, |write| write.number + 1);
    }

    pub fn fetch(&mut self, pin: u64, node: u32, offset: u32, length: usize) -> Fetch {
        let bytes = self.shore.get(&node).map_or(Vec::new(), |file| file.read(offset, length));
        let fetch = Fetch { pin, node, offset, length, bytes, good_before: self.good_batches.len() };
        self.fetches.push(fetch.clone());
        fetch
    }

    /// A node's file on shore with the ring's entries laid over it, in order.
    pub fn seen_through(&self, node: u32, entries: &[Entry]) -> File {
        let mut file = self.shore.get(&node).cloned().unwrap_or_default();
        for entry in entries.iter().filter(|entry| entry.node == node) {
            file.write(entry.offset, &entry.to_vec());
        }
        file
    }

    /// The front writes that all meet both conditions leave; counts them.
    fn let_go(&mut self) -> usize {
        let may_leave = |write: &&Write| write.good && !self.is_pinned(write);
        let leaving = self.held.iter().take_while(may_leave).count();
        self.held.drain(..leaving);
        leaving
    }
}

/// What a batch in number order makes of the file, byte by byte.
pub fn painted(batch: &[&Write]) -> BTreeMap<u32, u8> {
    let bytes = batch.iter().flat_map(|write| (write.offset..).zip(write.bytes.iter().copied()));
    bytes.collect()
}

/// The sheet of painted bytes: a piece ends where the next byte is missing, or at 4,096.
pub fn sheet_of(node: u32, painted: &BTreeMap<u32, u8>) -> Vec<u8> {
    let mut pieces: Vec<(u32, u32)> = Vec::new();
    for &place in painted.keys() {
        match pieces.last_mut() {
            Some((start, length)) if *start + *length == place && *length < LARGEST_WRITE as u32 => *length += 1,
            _ => pieces.push((place, 1)),
        }
    }
    let head = [pieces.len() as u32, node].into_iter();
    let numbers = head.chain(pieces.into_iter().flat_map(|(start, length)| [start, length]));
    let front = numbers.flat_map(u32::to_le_bytes);
    front.chain(painted.values().copied()).collect()
}
