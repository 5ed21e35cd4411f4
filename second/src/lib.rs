//! An independent second implementation of the net: programs, policies, passes and the listing.
//!
//! It is written from document 01 and the readings alone, and serves as the witness that the
//! other implementation is compared with.

#![forbid(unsafe_code)]

pub mod envelope;
pub mod listing;
pub mod net;
pub mod reply;
pub mod tree;
