//! Test files: random valid ones, damaged ones, and large ones for measuring.

mod builder;
mod damaged;
mod rng;
mod sized;
mod valid;

pub use damaged::damaged;
pub use rng::Rng;
pub use sized::{sized, Shape};
pub use valid::valid;
