//! Why a call was refused.

use core::error::Error;
use core::fmt;

/// The reason of a refusal, with its number and words in the table of the paper, "When the box says no". A refused
/// call has changed no state and no byte.
///
/// ```
/// use vibetorch::{Node, Refused};
///
/// let no = Node::new(0).unwrap_err();
/// assert_eq!(no, Refused::NodeZero);
/// assert_eq!(no.number(), 1);
/// assert_eq!(no.to_string(), "no node: write, fill, cached end or flush start with node 0 (refusal 1)");
/// ```
#[derive(Clone, Copy, PartialEq, Eq, Hash, Debug)]
#[repr(u8)]
pub enum Refused {
    /// The node is 0. [`Node`](crate::Node) can't be.
    NodeZero = 1,
    /// A write of no byte, or of more than [`WRITE_MOST`](crate::WRITE_MOST).
    BadLength = 2,
    /// Offset and length go past [`FILE_END`](crate::FILE_END).
    PastFileEnd = 3,
    /// The write needs more slots than are free. Flush, and try again.
    NoRoom = 4,
    /// The numbers are used up; no box lives that long.
    NoNumber = 5,
    /// A flush is under way.
    FlushUnderWay = 6,
    /// The flush isn't the one under way.
    NotTheFlush = 7,
    /// The bytes aren't a ring.
    Unreadable = 8,
    /// There is no such live pin, or not for that node.
    NoSuchPin = 9,
    /// [`PINS`](crate::PINS) pins live already.
    TooManyPins = 10,
    /// A lent buffer is too short, too long, or of no valid length; or more was fetched than it holds.
    BadBuffer = 11,
    /// The state doesn't fit the ring: someone else changed the ring's bytes.
    StateUnfit = 12,
}

impl Refused {
    /// Every reason, in the order of its number.
    pub const ALL: [Refused; 12] = [
        Refused::NodeZero,
        Refused::BadLength,
        Refused::PastFileEnd,
        Refused::NoRoom,
        Refused::NoNumber,
        Refused::FlushUnderWay,
        Refused::NotTheFlush,
        Refused::Unreadable,
        Refused::NoSuchPin,
        Refused::TooManyPins,
        Refused::BadBuffer,
        Refused::StateUnfit,
    ];

    /// The paper's number, 1 to 12.
    pub fn number(self) -> u32 {
        self as u32
    }

    /// The reason that has this number.
    pub fn from_number(number: u32) -> Option<Refused> {
        Refused::ALL.into_iter().find(|refused| refused.number() == number)
    }

    /// When it is given, in the paper's words. Of a fill, n is the buffer's length and g the count of bytes fetched.
    pub fn words(self) -> &'static str {
        match self {
            Refused::NodeZero => "write, fill, cached end or flush start with node 0",
            Refused::BadLength => "write of length 0 or over 4,096",
            Refused::PastFileEnd => "write or fill with offset + length above 16,777,216",
            Refused::NoRoom => "a write needs more than N - 1 less the used slots",
            Refused::NoNumber => "a number is needed and the next is 2^62",
            Refused::FlushUnderWay => "flush start while one is under way",
            Refused::NotTheFlush => "report with a number that isn't the flush under way",
            Refused::Unreadable => "the ring isn't readable by the rules, its length included",
            Refused::NoSuchPin => "unpin of no live pin; fill without a live pin of that number for that very node",
            Refused::TooManyPins => "a seventeenth pin",
            Refused::BadBuffer => {
                "flush buffer shorter than the sheet; g above n; n above 65,536; \
                 making a ring in a buffer of no valid length"
            }
            Refused::StateUnfit => "state doesn't fit the ring",
        }
    }

    /// What is wrong, in a word or two.
    fn title(self) -> &'static str {
        match self {
            Refused::NodeZero => "no node",
            Refused::BadLength => "bad length",
            Refused::PastFileEnd => "past the file's end",
            Refused::NoRoom => "no room",
            Refused::NoNumber => "no number left",
            Refused::FlushUnderWay => "flush under way",
            Refused::NotTheFlush => "not the flush",
            Refused::Unreadable => "unreadable",
            Refused::NoSuchPin => "no such pin",
            Refused::TooManyPins => "too many pins",
            Refused::BadBuffer => "bad buffer",
            Refused::StateUnfit => "state unfit",
        }
    }
}

impl fmt::Display for Refused {
    fn fmt(&self, out: &mut fmt::Formatter) -> fmt::Result {
        write!(out, "{}: {} (refusal {})", self.title(), self.words(), self.number())
    }
}

impl Error for Refused {}
