//! Writes `table.rs` into `OUT_DIR`: the planets of `planets.txt` as a constant.

use std::{env, fs, path::Path};

/// One entry of the table, from a line with a name and the length of its year.
fn entry(line: &str) -> Option<String> {
    let (name, year) = line.split_once(' ')?;
    Some(format!("    Planet {{ name: {:?}, year: {year}_f64 }},\n", text::title(name)))
}

fn main() {
    println!("cargo::rerun-if-changed=build.rs");
    println!("cargo::rerun-if-changed=planets.txt");
    let lines = fs::read_to_string("planets.txt").expect("planets.txt stands beside the manifest");
    let entries: String = lines.lines().filter_map(entry).collect();
    let code = format!("/// All of them, from the sun outwards.\npub const PLANETS: &[Planet] = &[\n{entries}];\n");
    let folder = env::var("OUT_DIR").expect("a script has an OUT_DIR");
    fs::write(Path::new(&folder).join("table.rs"), code).expect("the script may write there");

    let decimals = env::var("DEP_M_DECIMALS").expect("math-sys tells it");
    println!("cargo::rustc-env=PLANETS_DECIMALS={decimals}");
    println!("cargo::rustc-link-search=native={folder}");
    println!("cargo::rustc-check-cfg=cfg(inner)");
    if lines.lines().count() < 8 {
        println!("cargo::rustc-cfg=inner");
    }
}
