//! Tells the compiler which library of the system to link, and the packages above how exact it is.

fn main() {
    println!("cargo::rerun-if-changed=build.rs");
    println!("cargo::rustc-link-lib=m");
    println!("cargo::metadata=decimals=3");
}
