//! The flush sheet, as the one who lays it on a file reads it.

use crate::handles::Node;
use crate::sizes::{BATCH, FILE_END, WRITE_MOST};

const HEAD: usize = 8;
const PLACE: usize = 8;

/// A sheet that was read. Each piece's bytes belong at its offset in the node's file; past the file's end the gap is
/// zeros.
///
/// ```
/// use vibetorch::{Cache, Node, SHEET_MOST, Sheet, ring_bytes};
///
/// let mut ring = [0; ring_bytes(18)];
/// let mut cache = Cache::make(&mut ring)?;
/// let node = Node::new(7)?;
/// for (offset, bytes) in [(10, "AAAA"), (12, "BB"), (14, "C"), (20, "D")] {
///     cache.write(node, 0, offset, bytes.as_bytes())?;
/// }
/// let mut buffer = [0; SHEET_MOST];
/// let flush = cache.start(node, &mut buffer)?.expect("four writes wait");
///
/// let sheet = Sheet::read(&buffer[..flush.sheet_length()]).expect("the library writes good sheets");
/// assert_eq!(sheet.node(), node);
/// let pieces: Vec<_> = sheet.pieces().map(|piece| (piece.offset, piece.bytes)).collect();
/// assert_eq!(pieces, [(10, b"AABBC".as_slice()), (20, b"D".as_slice())]);
/// # Ok::<(), vibetorch::Refused>(())
/// ```
#[derive(Clone, Copy, PartialEq, Eq, Debug)]
pub struct Sheet<'a> {
    node: Node,
    places: &'a [u8],
    bytes: &'a [u8],
}

/// Bytes that follow each other in the file.
#[derive(Clone, Copy, PartialEq, Eq, Debug)]
pub struct Piece<'a> {
    /// Where in the file they begin.
    pub offset: u32,
    /// 1 to 4,096 bytes.
    pub bytes: &'a [u8],
}

impl<'a> Sheet<'a> {
    /// Reads the bytes of a whole sheet, and no more; none if they aren't one. A sheet may have come over a radio, so
    /// all is tested: the count of pieces, the node, that pieces ascend and don't overlap, and that no byte is
    /// missing or left.
    pub fn read(sheet: &'a [u8]) -> Option<Sheet<'a>> {
        let (head, rest) = sheet.split_at_checked(HEAD)?;
        let count = word(head, 0) as usize;
        if !(1..=BATCH).contains(&count) {
            return None;
        }
        let node = Node::new(word(head, 4)).ok()?;
        let (places, bytes) = rest.split_at_checked(count * PLACE)?;
        let mut last_end = 0;
        let mut total = 0;
        for (offset, length) in places.chunks_exact(PLACE).map(place) {
            let valid = (1..=WRITE_MOST as u32).contains(&length) && (last_end..=FILE_END - length).contains(&offset);
            if !valid {
                return None;
            }
            last_end = offset + length;
            total += length as usize;
        }
        (total == bytes.len()).then_some(Sheet { node, places, bytes })
    }

    /// Whose file it is for.
    pub fn node(&self) -> Node {
        self.node
    }

    /// The pieces, by ascending offset.
    pub fn pieces(&self) -> impl Iterator<Item = Piece<'a>> + use<'a> {
        let mut rest = self.bytes;
        self.places.chunks_exact(PLACE).map(place).map(move |(offset, length)| {
            let (bytes, behind) = rest.split_at(length as usize);
            rest = behind;
            Piece { offset, bytes }
        })
    }
}

fn place(bytes: &[u8]) -> (u32, u32) {
    (word(bytes, 0), word(bytes, 4))
}

fn word(bytes: &[u8], at: usize) -> u32 {
    u32::from_le_bytes([bytes[at], bytes[at + 1], bytes[at + 2], bytes[at + 3]])
}
