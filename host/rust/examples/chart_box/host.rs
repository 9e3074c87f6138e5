//! The host: what it does with the cache and the shore for each command. Between any two steps the plug may be
//! pulled.

use crate::command::Command;
use crate::plug::Plug;
use crate::ring_file;
use crate::shore::Shore;
use crate::trouble::Trouble;
use std::path::{Path, PathBuf};
use vibetorch::{All, Cache, FILL_MOST, Node, Refused, Report, SHEET_MOST, Sheet};

/// The tablet's handle for an open file; a real box would have one for each.
const HANDLE: u32 = 1;

pub struct Host<'ring> {
    cache: Cache<'ring>,
    /// The name of its file.
    ring: PathBuf,
    shore: Shore,
    plug: Plug,
    sheet: Vec<u8>,
}

impl<'ring> Host<'ring> {
    pub fn new(cache: Cache<'ring>, ring: &Path, shore: Shore, plug: Plug) -> Host<'ring> {
        Host { cache, ring: ring.to_path_buf(), shore, plug, sheet: vec![0; SHEET_MOST] }
    }

    /// Does a command, and gives what to say.
    pub fn run(&mut self, command: &Command) -> Result<String, Trouble> {
        self.plug.step();
        match *command {
            Command::Write { node, offset, ref bytes } => self.write(node, offset, bytes),
            Command::Read { node, offset, length } => self.read(node, offset, length),
            Command::Flush => Ok(match self.flush()? {
                Some(node) => format!("a sheet of node {node} is on shore"),
                None => "nothing waits".to_string(),
            }),
            Command::Sync => self.sync(),
            Command::Turn => Ok(match self.cache.whose_turn()? {
                Some(node) => format!("node {node}"),
                None => "nothing waits".to_string(),
            }),
            Command::End { node } => Ok(format!("cached up to {}", self.cache.cached_end(node)?)),
        }
    }

    /// Keeps a write. Where the ring is full, sheets are sent until there is room.
    fn write(&mut self, node: Node, offset: u32, bytes: &[u8]) -> Result<String, Trouble> {
        let number = loop {
            match self.cache.write(node, HANDLE, offset, bytes) {
                Err(Refused::NoRoom) if self.flush()?.is_some() => (),
                answer => break answer?,
            }
        };
        self.plug.step();
        self.keep()?;
        Ok(format!("done, write {number}"))
    }

    /// Reads: pin, fetch, fill, unpin.
    fn read(&mut self, node: Node, offset: u32, length: usize) -> Result<String, Trouble> {
        if length > FILL_MOST {
            return Err(Refused::BadBuffer.into());
        }
        let mut buffer = vec![0; length];
        let pin = self.cache.pin(node)?;
        self.plug.step();
        let fetched = self.shore.fetch(node, offset, &mut buffer);
        self.plug.step();
        let filled = fetched.and_then(|fetched| Ok(self.cache.fill(&pin, offset, fetched, &mut buffer)?));
        self.plug.step();
        // However the read went, the pin may hold nothing back for longer.
        self.cache.unpin(pin)?;
        self.plug.step();
        let bytes = filled?;
        Ok(format!("{} bytes: {}", bytes.len(), bytes.escape_ascii()))
    }

    /// Sends one sheet of the node whose turn it is.
    fn flush(&mut self) -> Result<Option<Node>, Trouble> {
        let Some(node) = self.cache.whose_turn()? else { return Ok(None) };
        let Some(flush) = self.cache.start(node, &mut self.sheet)? else { return Ok(None) };
        self.plug.step();
        let laid = self.lay(flush.sheet_length());
        let report = if laid.is_ok() { Report::Good } else { Report::Bad };
        self.cache.report(flush, report)?;
        self.plug.step();
        self.keep()?;
        laid.map(|()| Some(node))
    }

    /// Lays the sheet on shore, piece by piece.
    fn lay(&mut self, length: usize) -> Result<(), Trouble> {
        let sheet = Sheet::read(&self.sheet[..length]).expect("the library writes good sheets");
        for piece in sheet.pieces() {
            self.shore.lay(sheet.node(), &piece)?;
            self.plug.step();
        }
        self.shore.sync(sheet.node())?;
        self.plug.step();
        Ok(())
    }

    /// Sends sheets until all that was accepted so far is on shore.
    fn sync(&mut self) -> Result<String, Trouble> {
        let ticket = self.cache.take_ticket()?;
        self.plug.step();
        while !self.cache.ask_ticket(ticket, All)? {
            self.flush()?;
        }
        Ok("all is on shore".to_string())
    }

    /// The ring's bytes are to outlive the machine before anyone is told "done".
    fn keep(&mut self) -> Result<(), Trouble> {
        ring_file::sync(self.cache.ring()).map_err(|error| Trouble::file(&self.ring, error))?;
        self.plug.step();
        Ok(())
    }
}
