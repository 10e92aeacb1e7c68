//! What the drivers share: a source of random numbers, calls as data, packets, and the two ways of comparing.
pub mod against;
#[cfg(feature = "c-library")]
pub mod c_library;
pub mod call;
pub mod crafted;
pub mod domain;
pub mod events;
pub mod exhaustive;
pub mod faults;
pub mod granted;
pub mod packets;
pub mod prng;
pub mod random_calls;
pub mod sample;
pub mod side;
mod starts;
pub mod two;
pub mod world;

/// What is compared: the C library where it is linked, else the plain reading.
#[cfg(feature = "c-library")]
pub type Compared = c_library::CLibrary;
#[cfg(not(feature = "c-library"))]
pub type Compared = plain::Plain;
