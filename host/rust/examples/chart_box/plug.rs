//! A plug that can be pulled, to try what a stop between two steps does.

use std::ffi::c_int;

unsafe extern "C" {
    /// Ends the process at once: nothing is flushed, dropped or unmapped.
    safe fn _exit(status: c_int) -> !;
}

/// The exit status of a box whose plug was pulled.
pub const PULLED: c_int = 9;

pub struct Plug {
    /// Steps until it is pulled, if it ever is.
    left: Option<u64>,
}

impl Plug {
    pub fn firm() -> Plug {
        Plug { left: None }
    }

    pub fn pulled_after(steps: u64) -> Plug {
        Plug { left: Some(steps) }
    }

    /// To be called between any two steps of the box.
    pub fn step(&mut self) {
        match &mut self.left {
            Some(0) => _exit(PULLED),
            Some(left) => *left -= 1,
            None => (),
        }
    }
}
