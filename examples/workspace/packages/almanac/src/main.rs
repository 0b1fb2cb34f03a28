//! Prints the table.

fn main() {
    println!("{} {}", env!("CARGO_BIN_NAME"), env!("CARGO_PKG_VERSION"));
    println!("{}", almanac::heading());
    for row in almanac::rows() {
        println!("{row}");
    }
}
