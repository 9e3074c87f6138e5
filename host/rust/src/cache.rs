//! The cache: a ring that is lent, and the state that fits it.

use crate::handles::{Flush, Node, Pin, Reach, Report, Ticket, WriteNumber};
use crate::raw::{self, State};
use crate::refused::Refused;
use core::fmt;
use core::marker::PhantomData;

/// A ring with the state that fits it. Only [`make`](Cache::make) and [`reopen`](Cache::reopen) give one, and as long
/// as it lives nobody else can change the ring, so no call finds a state that doesn't fit (unless the memory itself
/// fails).
///
/// The ring outlives the cache; the state needn't. What a restart does is: drop the cache, and reopen the ring. Pins,
/// flushes and tickets can't be used past that:
///
/// ```compile_fail,E0499
/// use vibetorch::{Cache, Node, ring_bytes};
///
/// let mut ring = [0; ring_bytes(18)];
/// let mut cache = Cache::make(&mut ring)?;
/// let old = cache.pin(Node::new(7)?)?;
/// drop(cache);
/// let mut cache = Cache::reopen(&mut ring)?;
/// cache.unpin(old)?; // an old number: the compiler says no
/// # Ok::<(), vibetorch::Refused>(())
/// ```
///
/// A host with several rings keeps each ring's pins, flushes and tickets beside it. They are told apart by their
/// numbers, and two rings give the same ones.
pub struct Cache<'ring> {
    ring: &'ring mut [u8],
    state: State,
}

impl<'ring> Cache<'ring> {
    /// Makes an empty ring. Whatever the bytes held is forgotten: a ring that was used before wants
    /// [`reopen`](Cache::reopen).
    ///
    /// Refused: 11.
    ///
    /// ```
    /// use vibetorch::{Cache, Refused, ring_bytes};
    ///
    /// let mut ring = [0; ring_bytes(18)];
    /// let cache = Cache::make(&mut ring)?;
    /// assert_eq!(cache.next_number(), 1);
    /// drop(cache);
    /// assert_eq!(ring[..4], [1, 18, 0, 0]);
    /// assert_eq!(Cache::make(&mut ring[1..]).unwrap_err(), Refused::BadBuffer);
    /// # Ok::<(), Refused>(())
    /// ```
    pub fn make(ring: &'ring mut [u8]) -> Result<Cache<'ring>, Refused> {
        let mut state = State::blank();
        raw::make(ring, &mut state)?;
        Ok(Cache { ring, state })
    }

    /// Reopens a ring after a restart. Every write that it holds is Unflushed again, no pin lives and no flush is
    /// under way. No byte is changed.
    ///
    /// Refused: 8.
    ///
    /// ```
    /// use vibetorch::{Cache, Node, Refused, ring_bytes};
    ///
    /// let node = Node::new(7)?;
    /// let mut ring = [0; ring_bytes(18)];
    /// assert_eq!(Cache::reopen(&mut ring).unwrap_err(), Refused::Unreadable);
    /// Cache::make(&mut ring)?.write(node, 3, 2, b"N")?;
    ///
    /// let cache = Cache::reopen(&mut ring)?;
    /// assert_eq!(cache.whose_turn()?, Some(node));
    /// assert_eq!(cache.next_number(), 2);
    /// # Ok::<(), Refused>(())
    /// ```
    pub fn reopen(ring: &'ring mut [u8]) -> Result<Cache<'ring>, Refused> {
        let mut state = State::blank();
        raw::reopen(ring, &mut state)?;
        Ok(Cache { ring, state })
    }

    /// Keeps a write. Once this gives a number, the tablet may be told "done".
    ///
    /// Refused: 2, 3, 5, and 4 where it must wait for a flush.
    ///
    /// ```
    /// use vibetorch::{Cache, Node, Refused, ring_bytes};
    ///
    /// let mut ring = [0; ring_bytes(18)];
    /// let mut cache = Cache::make(&mut ring)?;
    /// let node = Node::new(7)?;
    /// assert_eq!(cache.write(node, 3, 0, &[0x4E; 4096])?.number(), 1);
    /// assert_eq!(cache.write(node, 3, 0, b"N"), Err(Refused::NoRoom));
    /// assert_eq!(cache.write(node, 3, 0, b""), Err(Refused::BadLength));
    /// # Ok::<(), Refused>(())
    /// ```
    pub fn write(&mut self, node: Node, handle: u32, offset: u32, bytes: &[u8]) -> Result<WriteNumber, Refused> {
        raw::write(self.ring, &mut self.state, node.number(), handle, offset, bytes).map(WriteNumber)
    }

    /// Pins a node, or [`All`](crate::All), before a file is fetched for a read: writes that may not be in what is
    /// fetched stay in the ring until the pin ends.
    ///
    /// Refused: 5, 10.
    ///
    /// ```
    /// use vibetorch::{All, Cache, Node, Refused, ring_bytes};
    ///
    /// let mut ring = [0; ring_bytes(18)];
    /// let mut cache = Cache::make(&mut ring)?;
    /// let pin = cache.pin(Node::new(7)?)?;
    /// let for_all = cache.pin(All)?;
    /// assert_eq!((pin.number(), for_all.number()), (1, 2));
    /// # cache.unpin(pin)?;
    /// # cache.unpin(for_all)?;
    /// # Ok::<(), Refused>(())
    /// ```
    pub fn pin<R: Reach>(&mut self, reach: R) -> Result<Pin<'ring, R>, Refused> {
        let number = raw::pin(self.ring, &mut self.state, reach.number())?;
        Ok(Pin { number, reach, loan: PhantomData })
    }

    /// Ends a pin.
    ///
    /// Refused: 9, where this ring has no such pin.
    ///
    /// ```
    /// use vibetorch::{Cache, Node, ring_bytes};
    ///
    /// let mut ring = [0; ring_bytes(18)];
    /// let mut cache = Cache::make(&mut ring)?;
    /// let pin = cache.pin(Node::new(7)?)?;
    /// cache.unpin(pin)?;
    /// # Ok::<(), vibetorch::Refused>(())
    /// ```
    pub fn unpin<R: Reach>(&mut self, pin: Pin<'ring, R>) -> Result<(), Refused> {
        raw::unpin(self.ring, &mut self.state, pin.number)
    }

    /// Fills a read of the pin's node: the buffer's first `fetched` bytes came from shore, at one moment after the
    /// pin was taken; `fetched` is the lesser of the buffer's length and what the shore's file has from `offset` on.
    /// Gives the bytes that may be shown, which are those that were written last; the buffer behind them is
    /// unchanged.
    ///
    /// Refused: 3, 9 where this ring has no such pin, 11.
    ///
    /// ```
    /// use vibetorch::{Cache, Node, ring_bytes};
    ///
    /// let mut ring = [0; ring_bytes(18)];
    /// let mut cache = Cache::make(&mut ring)?;
    /// let node = Node::new(7)?;
    /// cache.write(node, 0, 5, b"Q")?;
    ///
    /// let pin = cache.pin(node)?;
    /// let mut buffer = *b"xyz....."; // the shore has "xyz"
    /// assert_eq!(cache.fill(&pin, 0, 3, &mut buffer)?, b"xyz\0\0Q");
    /// cache.unpin(pin)?;
    /// # Ok::<(), vibetorch::Refused>(())
    /// ```
    pub fn fill<'buffer>(
        &self,
        pin: &Pin<'ring, Node>,
        offset: u32,
        fetched: usize,
        buffer: &'buffer mut [u8],
    ) -> Result<&'buffer [u8], Refused> {
        let node = pin.reach.number();
        let count = raw::fill(self.ring, &self.state, pin.number, node, offset, fetched, buffer)?;
        Ok(&buffer[..count])
    }

    /// Gives where the node's cached bytes end, 0 if there are none.
    ///
    /// ```
    /// use vibetorch::{Cache, Node, ring_bytes};
    ///
    /// let mut ring = [0; ring_bytes(18)];
    /// let mut cache = Cache::make(&mut ring)?;
    /// cache.write(Node::new(7)?, 0, 5, b"Q")?;
    /// assert_eq!(cache.cached_end(Node::new(7)?)?, 6);
    /// assert_eq!(cache.cached_end(Node::new(8)?)?, 0);
    /// # Ok::<(), vibetorch::Refused>(())
    /// ```
    pub fn cached_end(&self, node: Node) -> Result<u32, Refused> {
        raw::cached_end(self.ring, &self.state, node.number())
    }

    /// Starts a flush of a node. Its sheet stands in the front of the buffer, to be sent to shore;
    /// [`Sheet`](crate::Sheet) reads it. None: there is nothing to flush.
    ///
    /// Refused: 6, 5, and 11 where the buffer is shorter than the sheet, which is
    /// [`SHEET_MOST`](crate::SHEET_MOST) bytes at most.
    ///
    /// ```
    /// use vibetorch::{Cache, Node, Report, Refused, SHEET_MOST, ring_bytes};
    ///
    /// let mut ring = [0; ring_bytes(18)];
    /// let mut cache = Cache::make(&mut ring)?;
    /// let node = Node::new(7)?;
    /// let mut buffer = [0; SHEET_MOST];
    /// assert!(cache.start(node, &mut buffer)?.is_none());
    /// cache.write(node, 0, 5, b"Q")?;
    ///
    /// let flush = cache.start(node, &mut buffer)?.expect("a write waits");
    /// let sheet = &buffer[..flush.sheet_length()];
    /// assert_eq!(sheet, b"\x01\0\0\0\x07\0\0\0\x05\0\0\0\x01\0\0\0Q");
    /// # cache.report(flush, Report::Good)?;
    /// # Ok::<(), Refused>(())
    /// ```
    pub fn start(&mut self, node: Node, buffer: &mut [u8]) -> Result<Option<Flush<'ring>>, Refused> {
        let begun = raw::start(self.ring, &mut self.state, node.number(), buffer)?;
        Ok(begun.map(|begun| Flush { number: begun.number, length: begun.length, loan: PhantomData }))
    }

    /// Reports a flush: good only if the whole sheet landed. Writes that no pin holds then leave the ring, oldest
    /// first. Once it is reported, good or bad, no byte of the sheet may land any more.
    ///
    /// Refused: 7, where it isn't this ring's flush.
    ///
    /// ```
    /// use vibetorch::{Cache, Node, Report, SHEET_MOST, ring_bytes};
    ///
    /// let mut ring = [0; ring_bytes(18)];
    /// let mut cache = Cache::make(&mut ring)?;
    /// let node = Node::new(7)?;
    /// cache.write(node, 0, 5, b"Q")?;
    /// let mut buffer = [0; SHEET_MOST];
    /// let flush = cache.start(node, &mut buffer)?.expect("a write waits");
    /// cache.report(flush, Report::Bad)?; // no answer from shore
    /// assert_eq!(cache.whose_turn()?, Some(node));
    ///
    /// let again = cache.start(node, &mut buffer)?.expect("the write waits again");
    /// cache.report(again, Report::Good)?;
    /// assert_eq!(cache.whose_turn()?, None);
    /// # Ok::<(), vibetorch::Refused>(())
    /// ```
    pub fn report(&mut self, flush: Flush<'ring>, report: Report) -> Result<(), Refused> {
        raw::report(self.ring, &mut self.state, flush.number, report == Report::Good)
    }

    /// Takes a ticket, for asking later whether all that was accepted so far is on shore.
    ///
    /// Refused: 5.
    ///
    /// ```
    /// use vibetorch::{All, Cache, ring_bytes};
    ///
    /// let mut ring = [0; ring_bytes(18)];
    /// let mut cache = Cache::make(&mut ring)?;
    /// let ticket = cache.take_ticket()?;
    /// assert!(cache.ask_ticket(ticket, All)?);
    /// # Ok::<(), vibetorch::Refused>(())
    /// ```
    pub fn take_ticket(&mut self) -> Result<Ticket<'ring>, Refused> {
        let number = raw::take_ticket(self.ring, &mut self.state)?;
        Ok(Ticket { number, loan: PhantomData })
    }

    /// Whether all that was accepted before the ticket is on shore, of a node or of [`All`](crate::All).
    ///
    /// ```
    /// use vibetorch::{All, Cache, Node, ring_bytes};
    ///
    /// let mut ring = [0; ring_bytes(18)];
    /// let mut cache = Cache::make(&mut ring)?;
    /// cache.write(Node::new(7)?, 0, 5, b"Q")?;
    /// let ticket = cache.take_ticket()?;
    /// assert!(!cache.ask_ticket(ticket, All)?);
    /// assert!(cache.ask_ticket(ticket, Node::new(8)?)?);
    /// # Ok::<(), vibetorch::Refused>(())
    /// ```
    pub fn ask_ticket(&self, ticket: Ticket<'ring>, reach: impl Reach) -> Result<bool, Refused> {
        raw::ask_ticket(self.ring, &self.state, ticket.number, reach.number())
    }

    /// Gives the node that should be flushed next: that of the oldest write that waits.
    ///
    /// ```
    /// use vibetorch::{Cache, Node, ring_bytes};
    ///
    /// let mut ring = [0; ring_bytes(18)];
    /// let mut cache = Cache::make(&mut ring)?;
    /// assert_eq!(cache.whose_turn()?, None);
    /// cache.write(Node::new(7)?, 0, 5, b"Q")?;
    /// assert_eq!(cache.whose_turn()?, Some(Node::new(7)?));
    /// # Ok::<(), vibetorch::Refused>(())
    /// ```
    pub fn whose_turn(&self) -> Result<Option<Node>, Refused> {
        raw::whose_turn(self.ring, &self.state).map(|node| Node::new(node).ok())
    }

    /// The number that the next write, pin, flush or ticket gets.
    pub fn next_number(&self) -> u64 {
        self.state.next
    }

    /// The ring's bytes, to look at or to store away.
    pub fn ring(&self) -> &[u8] {
        self.ring
    }

    /// The state, to look at.
    pub fn state(&self) -> &State {
        &self.state
    }
}

impl fmt::Debug for Cache<'_> {
    fn fmt(&self, out: &mut fmt::Formatter) -> fmt::Result {
        let State { next, flush, count, .. } = self.state;
        let slots = self.ring[1];
        write!(out, "Cache {{ slots: {slots}, next: {next}, flush: {flush}, writes: {count}, .. }}")
    }
}
