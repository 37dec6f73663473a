//! Keys, whole and damaged, and points and sheets, all drawn from a seed.

// Each test program uses a part of these modules.
#![allow(dead_code)]

pub mod counted;
pub mod damage;
pub mod editions;
pub mod grown;
pub mod inputs;
pub mod keys;
pub mod limits;
pub mod moves;
pub mod path;
pub mod random;
pub mod rates;
pub mod variants;
pub mod windows;
pub mod within;
