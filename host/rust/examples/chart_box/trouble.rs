//! What can go wrong, said by name.

use std::fmt;
use std::path::{Path, PathBuf};
use vibetorch::Refused;

#[derive(Debug)]
pub enum Trouble {
    /// A file that can't be used, and why.
    File {
        path: PathBuf,
        why: String,
    },
    Refused(Refused),
    /// The command isn't one.
    Words(String),
}

impl Trouble {
    pub fn file(path: &Path, why: impl fmt::Display) -> Trouble {
        Trouble::File { path: path.to_path_buf(), why: why.to_string() }
    }
}

impl From<Refused> for Trouble {
    fn from(refused: Refused) -> Trouble {
        Trouble::Refused(refused)
    }
}

impl fmt::Display for Trouble {
    fn fmt(&self, out: &mut fmt::Formatter) -> fmt::Result {
        match self {
            Trouble::File { path, why } => write!(out, "{}: {why}", path.display()),
            Trouble::Refused(refused) => write!(out, "{refused}"),
            Trouble::Words(text) => write!(out, "{text}"),
        }
    }
}
