//! Links the static libraries, and takes the numbers of the C headers over, so that they stand once.

use std::env;
use std::fmt::Write;
use std::fs;
use std::path::Path;

/// A line such as `    OSTURDAM_FRAME = 136,  /* ... */` as name and number.
fn constant(line: &str) -> Option<(&str, u32)> {
    let (name, rest) = line.trim().strip_prefix("OSTURDAM_")?.split_once(" = ")?;
    let number = rest.split(|c: char| !c.is_ascii_alphanumeric()).next()?;
    let parsed = match number.strip_prefix("0x") {
        Some(digits) => u32::from_str_radix(digits, 16),
        None => number.parse(),
    };
    Some((name, parsed.ok()?))
}

/// The numbers of a header.
fn numbers(root: &Path, name: &str) -> String {
    let path = root.join("include").join(name);
    println!("cargo:rerun-if-changed={}", path.display());
    let text = fs::read_to_string(&path).expect("the header is read");
    let mut made = String::new();
    for (name, number) in text.lines().filter_map(constant) {
        writeln!(
            made,
            "#[allow(dead_code)]\npub const {name}: u32 = {number};"
        )
        .expect("a string is written to");
    }
    made
}

/// Links both libraries out of the folder that BOARD_LIB names.
fn link(root: &Path) {
    let folder = env::var("BOARD_LIB").map_or(root.join("target/staticlib"), Into::into);
    println!("cargo:rerun-if-env-changed=BOARD_LIB");
    println!("cargo:rustc-link-search=native={}", folder.display());
    for library in ["board", "poll"] {
        let file = folder.join(format!("lib{library}.a"));
        println!("cargo:rerun-if-changed={}", file.display());
        println!("cargo:rustc-link-lib=static={library}");
    }
}

fn main() {
    let root = Path::new(env!("CARGO_MANIFEST_DIR")).join("../..");
    link(&root);
    let made = numbers(&root, "osturdam.h") + &numbers(&root, "osturdam_poll.h");
    let place = Path::new(&env::var("OUT_DIR").expect("cargo tells OUT_DIR")).join("header.rs");
    fs::write(place, made).expect("header.rs is written");
}
