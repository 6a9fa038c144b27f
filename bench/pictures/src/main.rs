//! The pictures of docs/, made from calls of the product's library, there or in another folder:
//!
//!     cargo run --release --offline --manifest-path bench/Cargo.toml -p pictures [FOLDER]

mod drift;
mod error;
mod outline;
mod svg;

use std::{env, fs, io, path::PathBuf};

fn main() -> io::Result<()> {
    let docs = concat!(env!("CARGO_MANIFEST_DIR"), "/../../docs");
    let folder = env::args_os().nth(1).map_or_else(|| docs.into(), PathBuf::from);
    fs::write(folder.join("drift.svg"), drift::picture())?;
    fs::write(folder.join("error.svg"), error::picture())?;
    fs::write(folder.join("outline.svg"), outline::picture())
}
