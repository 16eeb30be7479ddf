//! Evidence from outside the proofs (see the repository's README): `evidence` compares the station's library with an independent model
//! of docs/REQUIREMENTS.md, `bench` times it against C. The library is linked by build.rs; no outside crates.

pub mod boundary;
pub mod elimination;
pub mod exact;
pub mod fence;
pub mod header;
pub mod lists;
pub mod mirrors;
pub mod model;
pub mod options;
pub mod pairs;
pub mod pcuspl;
pub mod random;
pub mod room;
pub mod sheets;

pub use ::station;

/// Which library this program was linked with.
pub const LIBRARY: &str = env!("STATION_LIBRARY_NAME");
