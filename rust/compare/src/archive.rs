//! Where the archive is: DILBRETH_LIB, or crates/dilbreth/out of the repository.

use std::path::PathBuf;

/// The repository.
pub fn root() -> PathBuf {
    PathBuf::from(concat!(env!("CARGO_MANIFEST_DIR"), "/../.."))
}

/// The folder of libdilbreth.a.
pub fn folder() -> PathBuf {
    match std::env::var_os("DILBRETH_LIB") {
        Some(given) => PathBuf::from(given),
        None => root().join("crates/dilbreth/out"),
    }
}

pub fn path() -> PathBuf {
    folder().join("libdilbreth.a")
}
