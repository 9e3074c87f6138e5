//! What a host holds in its hand between two calls.

use crate::refused::Refused;
use core::fmt;
use core::marker::PhantomData;
use core::num::NonZeroU32;

/// A node: the number of a file, not 0.
///
/// ```
/// use vibetorch::{Node, Refused};
///
/// assert_eq!(Node::new(7)?.number(), 7);
/// assert_eq!(Node::new(0), Err(Refused::NodeZero));
/// # Ok::<(), Refused>(())
/// ```
#[derive(Clone, Copy, PartialEq, Eq, PartialOrd, Ord, Hash, Debug)]
pub struct Node(NonZeroU32);

impl Node {
    /// The node of this number; refused, 1, where it is 0.
    pub fn new(number: u32) -> Result<Node, Refused> {
        NonZeroU32::new(number).map(Node).ok_or(Refused::NodeZero)
    }

    /// Its number.
    pub fn number(self) -> u32 {
        self.0.get()
    }
}

impl TryFrom<u32> for Node {
    type Error = Refused;

    fn try_from(number: u32) -> Result<Node, Refused> {
        Node::new(number)
    }
}

impl fmt::Display for Node {
    fn fmt(&self, out: &mut fmt::Formatter) -> fmt::Result {
        self.0.fmt(out)
    }
}

/// The reach of all nodes.
#[derive(Clone, Copy, PartialEq, Eq, Debug)]
pub struct All;

/// What a pin or a question about a ticket reaches: a [`Node`], or [`All`].
pub trait Reach: Copy + sealed::Sealed {
    /// The node, 0 for all.
    fn number(self) -> u32;
}

impl Reach for Node {
    fn number(self) -> u32 {
        Node::number(self)
    }
}

impl Reach for All {
    fn number(self) -> u32 {
        0
    }
}

mod sealed {
    pub trait Sealed {}
    impl Sealed for super::Node {}
    impl Sealed for super::All {}
}

/// The number of a write that was accepted.
#[derive(Clone, Copy, PartialEq, Eq, PartialOrd, Ord, Hash, Debug)]
pub struct WriteNumber(pub(crate) u64);

impl WriteNumber {
    /// The number itself: 1 or more, and above that of every earlier write in the ring.
    pub fn number(self) -> u64 {
        self.0
    }
}

impl fmt::Display for WriteNumber {
    fn fmt(&self, out: &mut fmt::Formatter) -> fmt::Result {
        self.0.fmt(out)
    }
}

/// Keeps a handle's lifetime that of the ring's loan. So a ring can't be opened again while the handle is still to be
/// used: at a restart the host forgets old pins, flushes and tickets.
pub(crate) type Loan<'ring> = PhantomData<&'ring mut [u8]>;

/// A live pin, for a node or for all. It ends by [`unpin`](crate::Cache::unpin), once.
#[derive(Debug)]
#[must_use = "writes are held until the pin is ended by `unpin`"]
pub struct Pin<'ring, R: Reach> {
    pub(crate) number: u64,
    pub(crate) reach: R,
    pub(crate) loan: Loan<'ring>,
}

impl<R: Reach> Pin<'_, R> {
    /// Its number.
    pub fn number(&self) -> u64 {
        self.number
    }

    /// What it was taken for.
    pub fn reach(&self) -> R {
        self.reach
    }
}

/// The flush under way. It ends by [`report`](crate::Cache::report), once.
#[derive(Debug)]
#[must_use = "no other flush starts until this one is told to `report`"]
pub struct Flush<'ring> {
    pub(crate) number: u64,
    pub(crate) length: usize,
    pub(crate) loan: Loan<'ring>,
}

impl Flush<'_> {
    /// Its number.
    pub fn number(&self) -> u64 {
        self.number
    }

    /// Bytes of the sheet, which stands in the front of the buffer that was lent.
    pub fn sheet_length(&self) -> usize {
        self.length
    }
}

/// How a flush went.
#[derive(Clone, Copy, PartialEq, Eq, Debug)]
pub enum Report {
    /// The whole sheet landed.
    Good,
    /// It isn't known that the whole sheet landed; parts of it may have.
    Bad,
}

/// A ticket, for asking whether all that was accepted before it is on shore.
#[derive(Clone, Copy, Debug)]
pub struct Ticket<'ring> {
    pub(crate) number: u64,
    pub(crate) loan: Loan<'ring>,
}

impl Ticket<'_> {
    /// Its number.
    pub fn number(&self) -> u64 {
        self.number
    }
}
