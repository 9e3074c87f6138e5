//! The sizes, each named once. They are those of `vibetorch.h`, which a test compares.

/// Bytes of a slot.
pub const SLOT: usize = 256;
/// Slots of the smallest ring, the least that can hold the largest write.
pub const SLOTS_LEAST: usize = 18;
/// Slots of the largest ring.
pub const SLOTS_MOST: usize = 255;
/// Writes that a ring holds at most.
pub const WRITES: usize = 254;
/// Pins that live at once.
pub const PINS: usize = 16;
/// Bytes of the largest write.
pub const WRITE_MOST: usize = 4096;
/// Bytes of the largest fill.
pub const FILL_MOST: usize = 65_536;
/// No file goes on past here.
pub const FILE_END: u32 = 16_777_216;
/// Writes of a flush at most.
pub const BATCH: usize = 32;
/// A buffer of so many bytes holds every sheet.
pub const SHEET_MOST: usize = 8 + BATCH * (8 + WRITE_MOST);

/// Bytes of a ring of so many slots. No other length will do.
///
/// ```
/// let mut ring = [0; vibetorch::ring_bytes(18)];
/// assert_eq!(ring.len(), 4624);
/// ```
pub const fn ring_bytes(slots: usize) -> usize {
    16 + SLOT * slots
}
