//! The tag tray in ordinary Rust, without proofs: what the program `tray` is measured against.
//!
//! There are two variants, which differ in [`ears`] alone.
#![forbid(unsafe_code)]

pub mod crc;
pub mod ears;
pub mod frames;
pub mod gauge;
pub mod link;
pub mod message;
pub mod program;
pub mod pump;
pub mod refusal;
pub mod replies;
pub mod run;
pub mod sheet;
pub mod stock;
pub mod tags;
pub mod text;
pub mod tray;
