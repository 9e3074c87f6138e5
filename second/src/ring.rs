//! The ring's bytes: reading them as entries, and storing one entry more.

pub const HEADER: usize = 16;
pub const SLOT: usize = 256;
pub const ENTRY_HEAD: usize = 24;
pub const LEAST_SLOTS: usize = 18;
pub const MOST_SLOTS: usize = 255;
pub const LARGEST_WRITE: usize = 4096;
pub const FILE_LIMIT: u64 = 16_777_216;
/// The first number that no write, pin, flush or ticket can have.
pub const NUMBER_LIMIT: u64 = 1 << 62;

const EDITION: u8 = 1;

/// One write as it lies in the ring. Its bytes are `front`, then `back`, which is empty unless the ring's end cuts them.
#[derive(Clone, Copy, PartialEq, Eq, Debug)]
pub struct Entry<'a> {
    pub number: u64,
    pub node: u32,
    pub handle: u32,
    pub offset: u32,
    pub front: &'a [u8],
    pub back: &'a [u8],
}

impl Entry<'_> {
    pub fn length(&self) -> usize {
        self.front.len() + self.back.len()
    }

    /// The place behind its last byte. A readable entry ends within the file limit, so this can't overflow.
    pub fn end(&self) -> u32 {
        self.offset + self.length() as u32
    }

    pub fn slots(&self) -> usize {
        slots_of(self.length())
    }

    /// Both parts with the place in the file where each begins.
    pub fn parts(&self) -> [(u32, &[u8]); 2] {
        [(self.offset, self.front), (self.offset + self.front.len() as u32, self.back)]
    }

    pub fn to_vec(&self) -> Vec<u8> {
        [self.front, self.back].concat()
    }
}

/// A readable ring.
#[derive(Debug)]
pub struct Reading<'a> {
    pub slots: usize,
    pub head: usize,
    pub used: usize,
    pub entries: Vec<Entry<'a>>,
}

pub fn slots_of(length: usize) -> usize {
    (ENTRY_HEAD + length).div_ceil(SLOT)
}

/// The slot count that a ring of this length has, if any.
pub fn slots_in(length: usize) -> Option<usize> {
    let area = length.checked_sub(HEADER)?;
    let slots = area / SLOT;
    let valid = area.is_multiple_of(SLOT) && (LEAST_SLOTS..=MOST_SLOTS).contains(&slots);
    valid.then_some(slots)
}

/// Writes the header of an empty ring, or tells that the length is none of a ring.
pub fn clear(ring: &mut [u8]) -> Option<()> {
    let slots = slots_in(ring.len())?;
    ring[..HEADER].fill(0);
    ring[0] = EDITION;
    ring[1] = slots as u8;
    Some(())
}

/// The whole ring as entries, oldest first; none if it isn't readable.
pub fn read(ring: &[u8]) -> Option<Reading<'_>> {
    let slots = slots_in(ring.len())?;
    let (header, area) = ring.split_at(HEADER);
    let (head, tail) = (header[2] as usize, header[3] as usize);
    let good =
        header[0] == EDITION && header[1] as usize == slots && head < slots && tail < slots && all_zero(&header[4..]);
    if !good {
        return None;
    }
    let used = (tail + slots - head) % slots;
    let mut entries: Vec<Entry> = Vec::new();
    let (mut slot, mut left, mut last) = (head, used, 0);
    while left > 0 {
        let entry = entry_at(area, slot, left)?;
        if entry.number <= last {
            return None;
        }
        last = entry.number;
        left -= entry.slots();
        slot = (slot + entry.slots()) % slots;
        entries.push(entry);
    }
    Some(Reading { slots, head, used, entries })
}

/// The entry that begins at a slot, if a valid one does that takes at most `left` slots.
fn entry_at(area: &[u8], slot: usize, left: usize) -> Option<Entry<'_>> {
    let start = slot * SLOT;
    let head = &area[start..start + ENTRY_HEAD];
    let length = u16::from_le_bytes([head[20], head[21]]) as usize;
    if length == 0 || length > LARGEST_WRITE || slots_of(length) > left {
        return None;
    }
    let (front, back) = span(area, start + ENTRY_HEAD, length);
    let entry = Entry {
        number: u64::from_le_bytes(head[..8].try_into().unwrap()),
        node: word(head, 8),
        handle: word(head, 12),
        offset: word(head, 16),
        front,
        back,
    };
    let content = ENTRY_HEAD + length;
    // Filler lies within the last slot, so the ring's end never cuts it.
    let (filler, _) = span(area, start + content, slots_of(length) * SLOT - content);
    let valid = (1..NUMBER_LIMIT).contains(&entry.number)
        && entry.node != 0
        && u64::from(entry.offset) + length as u64 <= FILE_LIMIT
        && all_zero(&head[22..])
        && all_zero(filler);
    valid.then_some(entry)
}

/// What a write stores.
pub struct NewEntry<'a> {
    pub number: u64,
    pub node: u32,
    pub handle: u32,
    pub offset: u32,
    pub bytes: &'a [u8],
}

/// Stores an entry at the tail of a readable ring that has room for it, the tail byte last.
pub fn store(ring: &mut [u8], new: &NewEntry) {
    let mut image = Vec::with_capacity(slots_of(new.bytes.len()) * SLOT);
    image.extend(new.number.to_le_bytes());
    image.extend(new.node.to_le_bytes());
    image.extend(new.handle.to_le_bytes());
    image.extend(new.offset.to_le_bytes());
    image.extend((new.bytes.len() as u32).to_le_bytes());
    image.extend(new.bytes);
    image.resize(slots_of(new.bytes.len()) * SLOT, 0);

    let tail = ring[3] as usize;
    let slots = ring[1] as usize;
    let area = &mut ring[HEADER..];
    let start = tail * SLOT;
    let before_end = image.len().min(area.len() - start);
    area[start..start + before_end].copy_from_slice(&image[..before_end]);
    area[..image.len() - before_end].copy_from_slice(&image[before_end..]);
    ring[3] = ((tail + image.len() / SLOT) % slots) as u8;
}

/// Moves the head on by so many slots.
pub fn move_head(ring: &mut [u8], slots: usize) {
    ring[2] = ((ring[2] as usize + slots) % ring[1] as usize) as u8;
}

/// `length` bytes from `start`, going on at the area's front behind its end.
fn span(area: &[u8], start: usize, length: usize) -> (&[u8], &[u8]) {
    let start = start % area.len();
    let front = length.min(area.len() - start);
    (&area[start..start + front], &area[..length - front])
}

fn word(head: &[u8], at: usize) -> u32 {
    u32::from_le_bytes(head[at..at + 4].try_into().unwrap())
}

fn all_zero(bytes: &[u8]) -> bool {
    bytes.iter().all(|&byte| byte == 0)
}
