//! Statements that are too long for a line, in files of their own.

use std::collections::hash_map::RandomState;
use std::env;
use std::fs::{self, OpenOptions};
use std::hash::{BuildHasher, Hasher};
use std::io::{self, Write};
use std::os::unix::fs::OpenOptionsExt;
use std::path::{Path, PathBuf};
use std::process;
use std::sync::atomic::{AtomicU64, Ordering};

/// How many files this process has made.
static FILES: AtomicU64 = AtomicU64::new(0);

/// A file of octets that nobody else may read, removed in the end.
pub(crate) struct Spooled(PathBuf);

impl Spooled {
    pub(crate) fn new(octets: &[u8]) -> io::Result<Spooled> {
        let number = FILES.fetch_add(1, Ordering::Relaxed);
        // (of a name that nobody else makes, by chance or with intent)
        let random = RandomState::new().build_hasher().finish();
        let name = format!("x509check-{}-{number}-{random:016x}", process::id());
        let path = env::temp_dir().join(name);
        // (a file that is there already is another's, and an error)
        let mut file = OpenOptions::new()
            .write(true)
            .create_new(true)
            .mode(0o600)
            .open(&path)?;
        let spooled = Spooled(path);
        file.write_all(octets)?;
        Ok(spooled)
    }

    pub(crate) fn path(&self) -> &Path {
        &self.0
    }
}

impl Drop for Spooled {
    fn drop(&mut self) {
        // (somebody else may have removed it)
        let _ = fs::remove_file(&self.0);
    }
}
