//! Checks blocks of dm-verity and fs-verity before they are handed out, and builds their trees as data comes, by the
//! proved C library libverity. What each of its functions answers, what it is proved to do, and how much stack a call
//! takes, is said in `include/verity.h` and in verity(3); here stand its names. This prints a file's digest:
//!
//! ```
//! # #[cfg(feature = "std")] {
//! use std::{fs::File, io};
//! use verity::{FileDigest, FileSettings};
//!
//! let mut digest = FileDigest::new(&FileSettings::default())?;
//! io::copy(&mut File::open("Cargo.toml")?, &mut digest)?;
//! println!("{}", digest.digest()?);
//! # }
//! # Ok::<(), std::io::Error>(())
//! ```
//!
//! - [`Params`] and [`FileParams`] are checked when they are made, of a superblock or of [`Settings`] and
//!   [`FileSettings`]. Together with a [`Root`] they are what has to be trusted.
//! - A [`Block`] comes from a check alone: of a [`Path`], or of a `CheckedReader`, which is there with `std`.
//! - [`FileDigest`] is fed with a file and answers its [`Digest`]; [`TreeBuilder`] is fed with the data of dm-verity,
//!   and hands out each [`HashBlock`].
//!
//! Without the feature `std` the crate needs `alloc` alone.
#![no_std]
#![deny(unsafe_code, missing_docs)]

extern crate alloc;
#[cfg(any(feature = "std", test))]
extern crate std;

mod algorithm;
#[cfg(feature = "std")]
mod checked_reader;
mod error;
// Without `std` there is no reader, which alone checks links.
#[cfg_attr(not(feature = "std"), allow(dead_code))]
mod ffi;
mod file_digest;
mod hash;
#[cfg_attr(not(feature = "std"), allow(dead_code))]
mod library;
mod params;
mod path;
#[cfg(doctest)]
mod promises;
mod tree_builder;

pub use algorithm::Algorithm;
#[cfg(feature = "std")]
pub use checked_reader::CheckedReader;
pub use error::Error;
pub use file_digest::FileDigest;
pub use hash::{Digest, Root};
pub use params::{FileParams, FileSettings, Params, Settings, Tree};
pub use path::{Block, Path};
pub use tree_builder::{HashBlock, TreeBuilder};
