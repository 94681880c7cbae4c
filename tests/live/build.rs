//! Links the library's archive: CHILDBUS_ARCHIVE, or the one that scripts/archive makes.

use std::path::PathBuf;

fn main() {
    println!("cargo:rerun-if-env-changed=CHILDBUS_ARCHIVE");
    let named = std::env::var("CHILDBUS_ARCHIVE").unwrap_or_default();
    let path = if named.is_empty() { "../../target/staticlib/libchildbus.a".into() } else { named };
    match PathBuf::from(&path).canonicalize() {
        Ok(archive) => {
            println!("cargo:rerun-if-changed={}", archive.display());
            println!("cargo:rustc-link-arg={}", archive.display());
        }
        Err(e) => {
            eprintln!("{path}: {e}");
            std::process::exit(1);
        }
    }
}
