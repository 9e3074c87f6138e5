//! Files as the shore keeps them, sparse: most places of a large file are never touched.

use std::collections::BTreeMap;

const PAGE: usize = 256;
type Page = [u8; PAGE];
const ZEROS: Page = [0; PAGE];

/// A file's length, and those of its pages that were ever written. Any other byte is zero.
#[derive(Clone, Default, Debug)]
pub struct File {
    length: u32,
    pages: BTreeMap<u32, Page>,
}

/// The files of all nodes; a node that isn't there has an empty one.
pub type Files = BTreeMap<u32, File>;

impl File {
    pub fn length(&self) -> u32 {
        self.length
    }

    /// A write past the end fills the gap with zeros, which are there already.
    pub fn write(&mut self, place: u32, bytes: &[u8]) {
        let mut at = place as usize;
        let mut rest = bytes;
        while !rest.is_empty() {
            let page = self.pages.entry((at / PAGE) as u32).or_insert(ZEROS);
            let (now, later) = rest.split_at(rest.len().min(PAGE - at % PAGE));
            page[at % PAGE..][..now.len()].copy_from_slice(now);
            at += now.len();
            rest = later;
        }
        if !bytes.is_empty() {
            self.length = self.length.max(at as u32);
        }
    }

    pub fn byte(&self, place: u32) -> u8 {
        self.page(place / PAGE as u32)[place as usize % PAGE]
    }

    /// As many of `count` bytes from `offset` on as the file has.
    pub fn read(&self, offset: u32, count: usize) -> Vec<u8> {
        let end = self.length.min(offset.saturating_add(count as u32));
        (offset..end).map(|place| self.byte(place)).collect()
    }

    fn page(&self, page: u32) -> &Page {
        self.pages.get(&page).unwrap_or(&ZEROS)
    }
}

impl PartialEq for File {
    fn eq(&self, other: &File) -> bool {
        let mut pages = self.pages.keys().chain(other.pages.keys());
        self.length == other.length && pages.all(|&page| self.page(page) == other.page(page))
    }
}

impl Eq for File {}
