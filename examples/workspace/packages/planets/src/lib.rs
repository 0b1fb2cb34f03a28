//! Planets, and how far from the sun they are.

/// A planet, with the length of its year in years of the earth.
pub struct Planet {
    pub name: &'static str,
    pub year: f64,
}

impl Planet {
    /// The distance from the sun, where that of the earth is 1: the square of the year is the cube of the distance.
    pub fn distance(&self) -> f64 {
        math_sys::cube_root(self.year * self.year)
    }
}

/// How many decimals of a distance can be trusted.
pub const DECIMALS: &str = env!("PLANETS_DECIMALS");

/// Which planets these are.
pub const WHICH: &str = if cfg!(inner) { "the inner planets" } else { "all planets" };

include!(concat!(env!("OUT_DIR"), "/table.rs"));
