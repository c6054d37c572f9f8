//! Finds the unchanged Rust and lays it out for `src/lib.rs` to include.
//!
//! `hir.rs` and `lir.rs` are named where they stand. `lir_lower.rs` needs
//! access functions inside its own module: the build takes its text as it is,
//! byte for byte, and adds one line behind it that includes `src/access.rs`.

use std::{
    env, fs,
    path::{Path, PathBuf},
    process::exit,
};

const FILES: [&str; 3] = ["hir.rs", "lir.rs", "lir_lower.rs"];

fn main() {
    println!("cargo:rerun-if-env-changed=WATERBEAR");
    println!("cargo:rerun-if-changed=build.rs");
    let package = PathBuf::from(env::var("CARGO_MANIFEST_DIR").unwrap());
    let wasm = find(&package);
    for file in FILES {
        println!("cargo:rerun-if-changed={}", wasm.join(file).display());
    }

    let out = PathBuf::from(env::var("OUT_DIR").unwrap());
    let mut text = fs::read_to_string(wasm.join("lir_lower.rs")).expect("lir_lower.rs is text");
    let access = package.join("src/access.rs");
    println!("cargo:rerun-if-changed={}", access.display());
    text.push_str(&format!("\ninclude!({access:?});\n"));
    fs::write(out.join("lir_lower.rs"), text).expect("the build folder can be written");

    let modules = format!(
        "#[path = {:?}]\npub mod hir;\n#[path = {:?}]\npub mod lir;\n#[path = {:?}]\npub mod lir_lower;\n",
        wasm.join("hir.rs"),
        wasm.join("lir.rs"),
        out.join("lir_lower.rs"),
    );
    fs::write(out.join("modules.rs"), modules).expect("the build folder can be written");
}

/// The folder `src/wasm` of the original.
fn find(package: &Path) -> PathBuf {
    let root = package.parent().expect("the package stands in rust/");
    let tried: Vec<PathBuf> = match env::var_os("WATERBEAR") {
        Some(folder) => vec![root.join(folder)],
        None => [
            "..",
            "../docs/src",
            "../../docs/src",
            "../../shared/docs/src",
        ]
        .iter()
        .map(|folder| root.join(folder))
        .collect(),
    };
    for folder in &tried {
        let wasm = folder.join("src/wasm");
        if FILES.iter().all(|file| wasm.join(file).is_file()) {
            return wasm.canonicalize().expect("a folder that is there");
        }
    }
    eprintln!("The Rust of wtetzner/waterbear (commit 9d7a2536ed) is not here.");
    for folder in &tried {
        for file in FILES {
            let path = folder.join("src/wasm").join(file);
            if !path.is_file() {
                eprintln!("  missing: {}", path.display());
            }
        }
    }
    eprintln!("Set WATERBEAR to the folder that holds src/wasm/{{hir,lir,lir_lower}}.rs");
    eprintln!("(an absolute path, or one from the folder rust/).");
    exit(1);
}
