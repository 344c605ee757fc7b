//! Links libcut.a, the library of the proved code that is installed, which `make` builds, and a buyer's
//! calls of it in C.

use std::path::Path;
use std::process::Command;

fn run(command: &mut Command) {
    let status = command.status().expect("the command can be run");
    assert!(status.success(), "{command:?} failed");
}

/// Compiles the calls in C, with warnings as errors, into an archive of its own.
fn calls(package: &Path) {
    let out = std::env::var("OUT_DIR").expect("cargo names the folder for what is built");
    let out = Path::new(&out);
    let (source, include) = (package.join("src/proved.c"), package.join("../../c"));
    for file in ["refusal.h", "site.h", "zone.h"] {
        let header = include.join("cut").join(file);
        println!("cargo:rerun-if-changed={}", header.display());
    }
    println!("cargo:rerun-if-changed={}", source.display());
    let flags = [
        "-std=c11",
        "-Wall",
        "-Wextra",
        "-Wpedantic",
        "-Werror",
        "-O2",
        "-fPIC",
    ];
    let object = out.join("proved.o");
    run(Command::new("gcc")
        .args(flags)
        .arg("-I")
        .arg(&include)
        .arg("-c")
        .arg(&source)
        .arg("-o")
        .arg(&object));
    run(Command::new("ar")
        .arg("crs")
        .arg(out.join("libproved.a"))
        .arg(&object));
    println!("cargo:rustc-link-search=native={}", out.display());
    println!("cargo:rustc-link-lib=static=proved");
}

fn main() {
    let package = std::env::var("CARGO_MANIFEST_DIR").expect("cargo names the package's folder");
    let package = Path::new(&package);
    calls(package);
    let folder = package.join("../../target/lib");
    let archive = folder.join("libcut.a");
    println!("cargo:rerun-if-changed={}", archive.display());
    assert!(archive.exists(), "target/lib/libcut.a is missing: run make");
    println!("cargo:rustc-link-search=native={}", folder.display());
    println!("cargo:rustc-link-lib=static=cut");
}
