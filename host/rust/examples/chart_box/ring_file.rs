//! The ring's file, mapped into memory: a byte that is stored there outlives the process, and a synced one the
//! machine.

use crate::trouble::Trouble;
use std::ffi::{c_int, c_void};
use std::fs::{self, File};
use std::io::{self, Write};
use std::os::fd::AsRawFd;
use std::path::Path;
use std::ptr::NonNull;
use std::slice;
use vibetorch::{Cache, SLOTS_LEAST, SLOTS_MOST, ring_bytes};

// As Linux has them.
const PROT_READ: c_int = 1;
const PROT_WRITE: c_int = 2;
const MAP_SHARED: c_int = 1;
const MS_SYNC: c_int = 4;
const LOCK_EX: c_int = 2;
const LOCK_NB: c_int = 4;
const LOCK_UN: c_int = 8;

unsafe extern "C" {
    fn mmap(at: *mut c_void, length: usize, protection: c_int, flags: c_int, file: c_int, from: i64) -> *mut c_void;
    fn munmap(at: *mut c_void, length: usize) -> c_int;
    fn msync(at: *mut c_void, length: usize, flags: c_int) -> c_int;
    safe fn flock(file: c_int, operation: c_int) -> c_int;
}

pub struct RingFile {
    start: NonNull<u8>,
    length: usize,
    /// Open as long as the ring is mapped, for its lock.
    file: File,
}

impl RingFile {
    /// Makes the file of an empty ring, and its folder. It gets its name only once it is whole, and never the name of
    /// a file that is there.
    pub fn make(path: &Path, slots: usize) -> Result<(), Trouble> {
        if !(SLOTS_LEAST..=SLOTS_MOST).contains(&slots) {
            return Err(Trouble::Words(format!("a ring has {SLOTS_LEAST} to {SLOTS_MOST} slots, and not {slots}")));
        }
        let mut ring = vec![0; ring_bytes(slots)];
        Cache::make(&mut ring)?;
        let name = |error: io::Error| Trouble::file(path, error);
        if path.try_exists().map_err(name)? {
            return Err(Trouble::file(path, "it is there already, and is left as it is"));
        }
        let folder = path.parent().unwrap_or(Path::new("."));
        fs::create_dir_all(folder).map_err(name)?;
        let new = path.with_extension("new");
        let mut file = File::create(&new).map_err(name)?;
        file.write_all(&ring).and_then(|()| file.sync_all()).map_err(name)?;
        let linked = fs::hard_link(&new, path).and_then(|()| File::open(folder)?.sync_all());
        fs::remove_file(&new).map_err(name)?;
        linked.map_err(name)
    }

    /// Maps the file of a ring, which nobody else has mapped this way. Where that can't be, nothing is written.
    pub fn open(path: &Path) -> Result<RingFile, Trouble> {
        let name = |error: io::Error| Trouble::file(path, error);
        let file = File::options().read(true).write(true).open(path).map_err(name)?;
        if flock(file.as_raw_fd(), LOCK_EX | LOCK_NB) != 0 {
            return Err(Trouble::file(path, format!("in use by another box: {}", io::Error::last_os_error())));
        }
        let length = file.metadata().map_err(name)?.len();
        let is_ring = |slots: usize| ring_bytes(slots) as u64 == length;
        if !(SLOTS_LEAST..=SLOTS_MOST).any(is_ring) {
            let least = ring_bytes(SLOTS_LEAST);
            let most = ring_bytes(SLOTS_MOST);
            let why = format!("{length} bytes: a ring has 16 + 256·N of them, from {least} to {most}");
            return Err(Trouble::file(path, why));
        }
        RingFile::map(file, length as usize).map_err(|error| Trouble::file(path, format!("can't be mapped: {error}")))
    }

    /// Maps the whole file, whose length this is.
    pub fn map(file: File, length: usize) -> io::Result<RingFile> {
        let (protection, file_number) = (PROT_READ | PROT_WRITE, file.as_raw_fd());
        // A new place is asked for, so no memory that is in use is mapped over.
        let start = unsafe { mmap(std::ptr::null_mut(), length, protection, MAP_SHARED, file_number, 0) };
        // Failure is the address -1.
        match NonNull::new(start.cast::<u8>()) {
            Some(start) if start.as_ptr().addr() != usize::MAX => Ok(RingFile { start, length, file }),
            _ => Err(io::Error::last_os_error()),
        }
    }

    pub fn bytes(&mut self) -> &mut [u8] {
        // The mapping is that long, lives as long as self, and is lent only here.
        unsafe { slice::from_raw_parts_mut(self.start.as_ptr(), self.length) }
    }
}

impl Drop for RingFile {
    fn drop(&mut self) {
        // Fails only for an address that isn't mapped.
        unsafe { munmap(self.start.as_ptr().cast(), self.length) };
        // A process that is just being started shares our open files for a moment, and would keep the lock as long.
        flock(self.file.as_raw_fd(), LOCK_UN);
    }
}

/// Sees that the bytes of a mapped ring are in the file even if the machine stops.
pub fn sync(ring: &[u8]) -> io::Result<()> {
    let start = ring.as_ptr().cast_mut().cast();
    match unsafe { msync(start, ring.len(), MS_SYNC) } {
        0 => Ok(()),
        _ => Err(io::Error::last_os_error()),
    }
}
