//! The lines that the binaries print.

use sky::PLANETS;

/// What stands above the table.
pub fn heading() -> String {
    format!("Distances of {} from the sun, to {} decimals", sky::WHICH, sky::DECIMALS)
}

/// A row of the table for each planet.
pub fn rows() -> impl Iterator<Item = String> {
    PLANETS.iter().map(|planet| text::row(planet.name, 10, planet.distance()))
}

/// The mean of the distances.
#[cfg(feature = "mean")]
pub fn mean_distance() -> Option<f64> {
    let distances: Vec<f64> = PLANETS.iter().map(|planet| planet.distance()).collect();
    stats::mean(&distances)
}
