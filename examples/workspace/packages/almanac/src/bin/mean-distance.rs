//! Prints the mean of the distances.

fn main() {
    if let Some(mean) = almanac::mean_distance() {
        println!("{}", text::row("mean", 10, mean));
    }
}
