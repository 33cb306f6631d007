//! What the tests share: the repository, and descriptors that have numbers.

#![allow(dead_code)]

use std::fs::{self, File};
use std::io::Write;
use std::os::fd::{BorrowedFd, OwnedFd};
use std::os::unix::fs::FileExt;
use std::path::Path;
use std::sync::atomic::{AtomicU32, Ordering};

/// A descriptor of a file without a name, which says this number.
pub fn numbered(number: u32) -> OwnedFd {
    static MADE: AtomicU32 = AtomicU32::new(0);
    let place = (std::process::id(), MADE.fetch_add(1, Ordering::Relaxed));
    let path = std::env::temp_dir().join(format!("waywire-{}-{}", place.0, place.1));
    // A process with this number that was killed may have left it.
    let _ = fs::remove_file(&path);
    let mut file = File::options().read(true).write(true).create_new(true).open(&path).unwrap();
    fs::remove_file(&path).unwrap();
    file.write_all(&number.to_le_bytes()).unwrap();
    file.into()
}

/// The number that a descriptor says.
pub fn number_of(descriptor: BorrowedFd<'_>) -> u32 {
    let mut bytes = [0; 4];
    let file = File::from(descriptor.try_clone_to_owned().unwrap());
    file.read_exact_at(&mut bytes, 0).unwrap();
    u32::from_le_bytes(bytes)
}

pub fn repository() -> &'static Path {
    Path::new(env!("CARGO_MANIFEST_DIR")).ancestors().nth(2).unwrap()
}
