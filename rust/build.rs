//! Links the archive of the proved library: in ../target/native, or in the folder that the environment
//! variable TIMPANIMIST_ARCHIVE names. A relative path counts from this package's folder.

use std::env;
use std::path::Path;
use std::process;

const ARCHIVE: &str = "libtimpanimist.a";

fn main() {
    let package = env::var("CARGO_MANIFEST_DIR").expect("cargo names the package's folder");
    let named = env::var("TIMPANIMIST_ARCHIVE").unwrap_or_else(|_| "../target/native".to_string());
    let folder = Path::new(&package).join(named);
    println!("cargo:rerun-if-env-changed=TIMPANIMIST_ARCHIVE");
    println!("cargo:rerun-if-changed={}", folder.join(ARCHIVE).display());
    if !folder.join(ARCHIVE).is_file() {
        missing(&folder);
    }
    println!("cargo:rustc-link-search=native={}", folder.display());
    println!("cargo:rustc-link-lib=static=timpanimist");
}

/// What to run, in place of the linker's own words.
fn missing(folder: &Path) -> ! {
    eprintln!(
        "There is no {ARCHIVE} in {}.\n\
         Make it by `tools/archive`, in the folder above this package (it needs the Rattle toolchain),\n\
         or set TIMPANIMIST_ARCHIVE to the folder that has one.",
        folder.display()
    );
    process::exit(1)
}
