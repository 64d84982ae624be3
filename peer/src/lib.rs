//! The receipt journal of a cash register in plain Rust, written from the paper alone: the peer of libdevice.a, which it
//! is compared with.

pub mod base32;
pub mod base64;
#[cfg(feature = "device")]
pub mod bench;
pub mod calls;
pub mod code;
#[cfg(feature = "device")]
pub mod compare;
pub mod crypto;
#[cfg(feature = "device")]
pub mod device;
pub mod export;
#[cfg(feature = "device")]
pub mod filling;
#[cfg(feature = "device")]
pub mod fuzz;
#[cfg(feature = "jansson")]
pub mod jansson;
pub mod layout;
pub mod line;
pub mod model;
pub mod random;
pub mod receipt;
pub mod register;
#[cfg(feature = "device")]
pub mod rounds;
pub mod rows;
pub mod sample;
pub mod settings;
pub mod text;
