//! Says where the archive of the proved library is to be found.
//! Only `tests/compare.rs` and `tests/long.rs` ask for it; everything else builds without one.

use std::env;
use std::path::Path;

fn main() {
    let package = env::var("CARGO_MANIFEST_DIR").expect("cargo names the package's folder");
    let named = env::var("TIMPANIMIST_ARCHIVE").unwrap_or_else(|_| "../target/native".to_string());
    let folder = Path::new(&package).join(named);
    println!("cargo:rerun-if-env-changed=TIMPANIMIST_ARCHIVE");
    println!(
        "cargo:rerun-if-changed={}",
        folder.join("libtimpanimist.a").display()
    );
    println!("cargo:rustc-link-search=native={}", folder.display());
}
