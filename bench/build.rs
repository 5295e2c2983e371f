//! Compiles the C yardstick by `cc -O2`, or by the compiler that CC names, and says where the
//! proved library's archive is: in ../target/native, or in the folder TIMPANIMIST_ARCHIVE names.

use std::env;
use std::path::Path;
use std::process::Command;

/// The yardstick without its program, and what measures the stack.
const SOURCES: [&str; 8] = [
    "yardstick/accept",
    "yardstick/text",
    "yardstick/house",
    "yardstick/reading",
    "yardstick/lines",
    "yardstick/sheet",
    "yardstick/unsheet",
    "stack",
];

fn main() {
    let package = env::var("CARGO_MANIFEST_DIR").expect("cargo names the package's folder");
    archive(Path::new(&package));
    println!("cargo:rerun-if-changed=yardstick");
    println!("cargo:rerun-if-env-changed=CC");
    for source in SOURCES {
        compile(Path::new(&package), source);
    }
}

fn archive(package: &Path) {
    let named = env::var("TIMPANIMIST_ARCHIVE").unwrap_or_else(|_| "../target/native".to_string());
    let folder = package.join(named);
    println!("cargo:rerun-if-env-changed=TIMPANIMIST_ARCHIVE");
    println!(
        "cargo:rerun-if-changed={}",
        folder.join("libtimpanimist.a").display()
    );
    println!("cargo:rustc-link-search=native={}", folder.display());
}

fn compile(package: &Path, source: &str) {
    let path = package.join(source).with_extension("c");
    println!("cargo:rerun-if-changed={}", path.display());
    let compiler = env::var("CC").unwrap_or_else(|_| "cc".to_string());
    let folder = env::var("OUT_DIR").expect("cargo names a folder to build in");
    let object = Path::new(&folder)
        .join(source.replace('/', "_"))
        .with_extension("o");
    let status = Command::new(&compiler)
        .args(["-std=c11", "-O2", "-Wall", "-Wextra", "-c", "-o"])
        .arg(&object)
        .arg(path)
        .status();
    assert!(
        status.is_ok_and(|status| status.success()),
        "{compiler} does not compile {source}.c"
    );
    println!("cargo:rustc-link-arg={}", object.display());
}
