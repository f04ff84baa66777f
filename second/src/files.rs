//! Where the keeper's files are: on disk for people, in memory for comparing.

use std::collections::BTreeMap;
use std::ffi::OsStr;
use std::fs::File;
use std::io::{Read, Write};
use std::os::unix::ffi::OsStrExt;

/// A file that couldn't be opened, read or written.
pub struct CantOpen;

pub trait Files {
    /// The first `most` bytes of a file, or all of it when it is shorter.
    fn read(&self, name: &[u8], most: usize) -> Result<Vec<u8>, CantOpen>;
    /// Makes or replaces a file.
    fn write(&mut self, name: &[u8], bytes: &[u8]) -> Result<(), CantOpen>;
}

pub struct Disk;

impl Files for Disk {
    fn read(&self, name: &[u8], most: usize) -> Result<Vec<u8>, CantOpen> {
        let file = File::open(OsStr::from_bytes(name)).map_err(|_| CantOpen)?;
        let mut bytes = Vec::new();
        file.take(most as u64).read_to_end(&mut bytes).map_err(|_| CantOpen)?;
        Ok(bytes)
    }

    fn write(&mut self, name: &[u8], bytes: &[u8]) -> Result<(), CantOpen> {
        let mut file = File::create(OsStr::from_bytes(name)).map_err(|_| CantOpen)?;
        file.write_all(bytes).map_err(|_| CantOpen)
    }
}

/// One folder in memory, without folders inside it. A name with a `/` or a zero byte,
/// and the folder itself (`.` and `..`), can't be opened.
#[derive(Clone, Debug, Default)]
pub struct Memory {
    pub files: BTreeMap<Vec<u8>, Vec<u8>>,
}

impl Files for Memory {
    fn read(&self, name: &[u8], most: usize) -> Result<Vec<u8>, CantOpen> {
        let bytes = self.files.get(name).ok_or(CantOpen)?;
        Ok(bytes[..bytes.len().min(most)].to_vec())
    }

    fn write(&mut self, name: &[u8], bytes: &[u8]) -> Result<(), CantOpen> {
        if name == b"." || name == b".." || name.contains(&b'/') || name.contains(&0) {
            return Err(CantOpen);
        }
        self.files.insert(name.to_vec(), bytes.to_vec());
        Ok(())
    }
}
