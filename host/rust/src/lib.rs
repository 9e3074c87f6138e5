//! Vibetorch, the write-back cache of a chart box, for hosts in Rust.
//!
//! Tablets write chart files to the box; the box keeps each write in a *ring* in battery-held memory, says "done",
//! and sends it to the file server on *shore* when the radio allows. The library behind this crate (`libcabi.a`) is
//! proved: nothing that was accepted is lost, turned into an old value, or put out of order. It keeps nothing itself,
//! allocates nothing and does no input or output; the host owns the memory and does the radio work.
//!
//! A [`Cache`] is a lent ring with its state. The life of a write, from tablet to shore:
//!
//! ```
//! use vibetorch::{Cache, Node, Report, SHEET_MOST, Sheet, ring_bytes};
//!
//! // The ring lies in battery memory, and outlives every restart.
//! let mut ring = [0; ring_bytes(18)];
//! let mut cache = Cache::make(&mut ring)?;
//! let node = Node::new(7)?;
//!
//! // A tablet writes. Once this is back, it may be told "done".
//! cache.write(node, 3, 2, b"N")?;
//!
//! // A tablet reads: pin, fetch from shore, fill, unpin.
//! let pin = cache.pin(node)?;
//! let mut buffer = [0; 100];
//! let fetched = 0; // the shore has no such file yet
//! assert_eq!(cache.fill(&pin, 0, fetched, &mut buffer)?, b"\0\0N");
//! cache.unpin(pin)?;
//!
//! // The radio is free: whose turn is it?
//! let mut buffer = [0; SHEET_MOST];
//! while let Some(node) = cache.whose_turn()? {
//!     let Some(flush) = cache.start(node, &mut buffer)? else { break };
//!     let sheet = Sheet::read(&buffer[..flush.sheet_length()]).expect("the library writes good sheets");
//!     for piece in sheet.pieces() {
//!         println!("to node {} at {}: {:?}", sheet.node(), piece.offset, piece.bytes);
//!     }
//!     cache.report(flush, Report::Good)?;
//! }
//! # Ok::<(), vibetorch::Refused>(())
//! ```
//!
//! A call that can't be done is [`Refused`], and has then changed nothing. [`raw`] has the calls as the library has
//! them, for any state and any numbers. The example `chart_box` keeps the ring in a mapped file and the shore in a
//! folder.
#![no_std]
#![warn(missing_docs, missing_debug_implementations)]

mod cache;
mod handles;
pub mod raw;
mod refused;
mod sheet;
mod sizes;

pub use cache::Cache;
pub use handles::{All, Flush, Node, Pin, Reach, Report, Ticket, WriteNumber};
pub use refused::Refused;
pub use sheet::{Piece, Sheet};
pub use sizes::{
    BATCH, FILE_END, FILL_MOST, PINS, SHEET_MOST, SLOT, SLOTS_LEAST, SLOTS_MOST, WRITE_MOST, WRITES, ring_bytes,
};
