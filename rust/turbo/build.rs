// Links libcapi.a from TURBO_LIB_DIR, or from target/staticlib of the repository, where `scripts/library` writes it.
use std::env;
use std::path::PathBuf;

fn main() {
    println!("cargo:rerun-if-env-changed=TURBO_LIB_DIR");
    let dir = match env::var_os("TURBO_LIB_DIR") {
        Some(dir) => PathBuf::from(dir),
        None => PathBuf::from(env::var_os("CARGO_MANIFEST_DIR").unwrap()).join("../../target/staticlib"),
    };
    let archive = dir.join("libcapi.a");
    if !archive.is_file() {
        eprintln!("{} is not there: run `scripts/library`, or name its folder in TURBO_LIB_DIR", archive.display());
        std::process::exit(1);
    }
    println!("cargo:rerun-if-changed={}", archive.display());
    println!("cargo:rustc-link-search=native={}", dir.display());
    println!("cargo:rustc-link-lib=static=capi");
}
