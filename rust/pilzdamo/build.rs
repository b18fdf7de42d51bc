//! Links the engine's static library, `libengine.a`, and tells the tests where it
//! is.

use std::env;
use std::path::PathBuf;

fn main() {
    println!("cargo:rerun-if-env-changed=PILZDAMO_LIB");
    let folder = match env::var_os("PILZDAMO_LIB") {
        Some(folder) => PathBuf::from(folder),
        None => {
            let here = env::var_os("CARGO_MANIFEST_DIR").expect("cargo names the package's folder");
            PathBuf::from(here).join("../../target/staticlib")
        }
    };
    let archive = folder.join("libengine.a");
    if !archive.is_file() {
        eprintln!("{} isn't there.", archive.display());
        eprintln!("Build it with `./staticlib` at the root of the project,");
        eprintln!("or name its folder in PILZDAMO_LIB.");
        std::process::exit(1);
    }
    println!("cargo:rerun-if-changed={}", archive.display());
    println!("cargo:rustc-env=PILZDAMO_ARCHIVE={}", archive.display());
    println!("cargo:rustc-link-search=native={}", folder.display());
    println!("cargo:rustc-link-lib=static=engine");
}
