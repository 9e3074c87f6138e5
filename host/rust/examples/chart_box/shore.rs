//! The shore: a folder with a file for each node, named by its number.

use crate::trouble::Trouble;
use std::fs::{self, File};
use std::io;
use std::os::unix::fs::FileExt;
use std::path::PathBuf;
use vibetorch::{Node, Piece};

pub struct Shore {
    folder: PathBuf,
}

impl Shore {
    pub fn new(folder: PathBuf) -> Shore {
        Shore { folder }
    }

    /// Reads as many bytes as fit the buffer and the file has from the offset on. A node without a file has none.
    pub fn fetch(&self, node: Node, offset: u32, buffer: &mut [u8]) -> Result<usize, Trouble> {
        let path = self.path(node);
        let file = match File::open(&path) {
            Err(error) if error.kind() == io::ErrorKind::NotFound => return Ok(0),
            opened => opened.map_err(|error| Trouble::file(&path, error))?,
        };
        let mut fetched = 0;
        while fetched < buffer.len() {
            match file.read_at(&mut buffer[fetched..], u64::from(offset) + fetched as u64) {
                Ok(0) => break,
                Ok(more) => fetched += more,
                Err(error) if error.kind() == io::ErrorKind::Interrupted => (),
                Err(error) => return Err(Trouble::file(&path, error)),
            }
        }
        Ok(fetched)
    }

    /// Lays a piece on the node's file. Past the file's end the system leaves a gap of zeros.
    pub fn lay(&self, node: Node, piece: &Piece) -> Result<(), Trouble> {
        let path = self.path(node);
        let opened = fs::create_dir_all(&self.folder)
            .and_then(|()| File::options().write(true).create(true).truncate(false).open(&path));
        opened
            .and_then(|file| file.write_all_at(piece.bytes, piece.offset.into()))
            .map_err(|error| Trouble::file(&path, error))
    }

    /// Sees that what was laid stays, even if the machine stops.
    pub fn sync(&self, node: Node) -> Result<(), Trouble> {
        let path = self.path(node);
        let synced = File::open(&path).and_then(|file| file.sync_all());
        synced.and_then(|()| File::open(&self.folder)?.sync_all()).map_err(|error| Trouble::file(&path, error))
    }

    fn path(&self, node: Node) -> PathBuf {
        self.folder.join(node.to_string())
    }
}
