//! Writes the `mod` lines by which src/rust_ppu.rs takes in the Rust sources where they lie.
//!
//! HARREVON_RUST names their folder, counted from the repository's top where it is no absolute
//! path; without it, it is ../shared/docs/src.

use std::env;
use std::fs;
use std::path::{Path, PathBuf};
use std::process::exit;

const ROOT: [&str; 8] = [
    "cgram",
    "constants",
    "oam",
    "ppu",
    "registers",
    "sprites",
    "vram",
    "write_twice",
];
const RENDERING: [&str; 4] = ["mode_0", "mode_1", "mode_3", "renderer"];

fn missing(path: &Path) -> ! {
    println!(
        "cargo::error={} is not there: HARREVON_RUST names the folder of the Rust sources",
        path.display()
    );
    exit(1)
}

/// A line that declares the module `name` at its file.
fn declare(file: &Path, name: &str) -> String {
    println!("cargo::rerun-if-changed={}", file.display());
    if !file.is_file() {
        missing(file);
    }
    format!("#[path = {file:?}]\npub mod {name};\n")
}

fn main() {
    println!("cargo::rerun-if-env-changed=HARREVON_RUST");
    let top = PathBuf::from(env::var_os("CARGO_MANIFEST_DIR").unwrap()).join("..");
    let given = env::var_os("HARREVON_RUST").unwrap_or_else(|| "../shared/docs/src".into());
    let folder = top.join(given);
    let Ok(sources) = folder.canonicalize() else {
        missing(&folder)
    };
    let ppu = sources.join("ppu/src");

    let mut text = declare(&sources.join("common/src/u16_split.rs"), "u16_split");
    for name in ROOT {
        text += &declare(&ppu.join(name).with_extension("rs"), name);
    }
    text += "pub mod rendering {\n";
    for name in RENDERING {
        text += &declare(&ppu.join("rendering").join(name).with_extension("rs"), name);
    }
    text += "}\n";
    let out = PathBuf::from(env::var_os("OUT_DIR").unwrap());
    fs::write(out.join("modules.rs"), text).unwrap();
}
