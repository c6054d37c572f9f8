//! Links the proved static library.

use std::{env, path::PathBuf, process::exit};

const LIBRARY: &str = "libwesknuft.a";

fn main() {
    println!("cargo:rerun-if-env-changed=WESKNUFT_LIB");
    println!("cargo:rerun-if-changed=build.rs");
    let package = PathBuf::from(env::var("CARGO_MANIFEST_DIR").unwrap());
    let folder = match env::var_os("WESKNUFT_LIB") {
        Some(folder) => package.join("..").join(folder),
        None => package.join("../../target/staticlib"),
    };
    let library = folder.join(LIBRARY);
    if !library.is_file() {
        eprintln!("The static library is missing: {}", library.display());
        eprintln!("Make it with `rt lib` in crates/wesknuft_c and copy it there from out/libwesknuft_c.a,");
        eprintln!("or set WESKNUFT_LIB to the folder that holds {LIBRARY}");
        eprintln!("(an absolute path, or one from the folder rust/).");
        exit(1);
    }
    println!("cargo:rerun-if-changed={}", library.display());
    println!("cargo:rustc-link-search=native={}", folder.display());
    println!("cargo:rustc-link-lib=static=wesknuft");
    // For the test that builds the C example.
    println!("cargo:rustc-env=LIBRARY_FOLDER={}", folder.display());
}
