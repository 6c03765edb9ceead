//! Stands for the crate `memmap`, so that the original's lib.rs and record.rs are compiled unchanged. The
//! comparison maps no file: `map` refuses.

use std::{fs::File, io};

pub struct Mmap(Vec<u8>);

impl Mmap {
    /// # Safety
    /// This function is safe; it is marked unsafe because that of `memmap` is.
    pub unsafe fn map(_: &File) -> io::Result<Mmap> {
        Err(io::ErrorKind::Unsupported.into())
    }
}

impl std::ops::Deref for Mmap {
    type Target = [u8];

    fn deref(&self) -> &[u8] {
        &self.0
    }
}
