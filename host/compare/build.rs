//! Links the static libraries of the proved unit and of the proved master, which lie in the folder BOARD_LIB, and takes the numbers of the C
//! headers over, so that they stand once.

use std::env;
use std::fmt::Write;
use std::fs;
use std::path::Path;

/// A line such as `    OSTURDAM_FRAME = 136,  /* ... */` as name and number.
fn constant(line: &str) -> Option<(&str, usize)> {
    let (name, rest) = line.trim().strip_prefix("OSTURDAM_")?.split_once(" = ")?;
    let number = rest.split(|c: char| !c.is_ascii_alphanumeric()).next()?;
    let parsed = match number.strip_prefix("0x") {
        Some(digits) => usize::from_str_radix(digits, 16),
        None => number.parse(),
    };
    Some((name, parsed.ok()?))
}

/// The constants of an enum, or of all enums.
fn constants<'a>(header: &'a str, of: Option<&str>) -> Vec<(&'a str, usize)> {
    let part = match of {
        Some(name) => header.split(name).nth(1).and_then(|x| x.split('}').next()),
        None => Some(header),
    };
    let lines = part.expect("the header has the enum").lines();
    lines.filter_map(constant).collect()
}

/// The numbers as `usize`.
fn numbers(header: &str) -> String {
    let mut made = String::new();
    for (name, number) in constants(header, None) {
        writeln!(
            made,
            "#[allow(dead_code)]\npub const {name}: usize = {number};"
        )
        .unwrap();
    }
    made
}

/// The names of the kept numbers in their order, and the names of a unit's regions by their places.
fn names(header: &str) -> String {
    let mut made = String::new();
    let kept = constants(header, Some("enum osturdam_kept {"));
    let names = kept.iter().map(|x| x.0.to_lowercase());
    let names: Vec<String> = names.filter(|name| name != "kept").collect();
    writeln!(made, "pub const KEPT_NAMES: [&str; KEPT] = {names:?};").unwrap();
    let mut regions: Vec<(usize, String)> = constants(header, None)
        .iter()
        .filter_map(|(name, place)| Some((*place, name.strip_prefix("AT_")?.to_lowercase())))
        .collect();
    regions.sort_by_key(|x| x.0);
    writeln!(
        made,
        "pub const REGIONS: [(usize, &str); {}] = {regions:?};",
        regions.len()
    )
    .unwrap();
    made
}

/// Links both libraries out of the folder that BOARD_LIB names.
fn link(root: &Path) {
    let folder = env::var("BOARD_LIB").map_or(root.join("target/staticlib"), Into::into);
    println!("cargo:rerun-if-env-changed=BOARD_LIB");
    println!("cargo:rustc-link-search=native={}", folder.display());
    for library in ["board", "poll"] {
        let file = folder.join(format!("lib{library}.a"));
        println!("cargo:rerun-if-changed={}", file.display());
        println!("cargo:rustc-link-lib=static={library}");
    }
}

/// The text of a C header.
fn header(root: &Path, name: &str) -> String {
    let path = root.join("include").join(name);
    println!("cargo:rerun-if-changed={}", path.display());
    fs::read_to_string(&path).expect("the header is read")
}

fn main() {
    let root = Path::new(env!("CARGO_MANIFEST_DIR")).join("../..");
    link(&root);
    let unit = header(&root, "osturdam.h");
    let master = header(&root, "osturdam_poll.h");
    let made = env::var("OUT_DIR").expect("cargo tells OUT_DIR");
    let write = |name, text| fs::write(Path::new(&made).join(name), text).expect("it is written");
    write("header.rs", numbers(&unit) + &names(&unit));
    write("poll.rs", numbers(&master));
}
