//! The calls, with slices and references in place of pointers. `unsafe` stands here alone.
//!
//! What verity.h asks of every caller holds for each call by the types of its wrapper:
//!   - a reference or a slice is not null, not even an empty one, is aligned, points to a whole struct or to as many
//!     bytes as its length says, and all of it has a value;
//!   - what is written to is a `&mut` or a local variable, so it overlaps nothing else, and nobody else changes or
//!     reads it; what is read is a `&` of plain numbers, which nobody changes while it is there;
//!   - the library keeps no pointer after a call.
//!
//! The lengths in what a feeding answers are used by safe code alone, which checks them once more.
#![allow(unsafe_code)]

use crate::error::Error;
use crate::ffi::{self, Build, Fed, FileParams, Params};

/// `Ok`, or what a status says that isn't `VERITY_DIFFERS`.
fn answer(status: i32) -> Result<(), Error> {
    match status {
        ffi::OK => Ok(()),
        fault => Err(Error::of_status(fault)),
    }
}

/// The same where `VERITY_DIFFERS` is the answer of a check at a level.
fn checked(status: i32, level: usize) -> Result<(), Error> {
    match status {
        ffi::DIFFERS => Err(Error::Differs { level }),
        other => answer(other),
    }
}

/// The calls that dm-verity and fs-verity both have.
pub trait Calls {
    fn level_count(&self) -> Result<usize, Error>;
    fn hash_block_start(&self, index: u64, level: usize) -> Result<u64, Error>;
    fn check_block(&self, index: u64, block: &[u8], path: &[u8], root: &[u8]) -> Result<(), Error>;
    fn check_link(&self, index: u64, level: usize, block: &[u8], above: &[u8]) -> Result<(), Error>;
    fn check_top(&self, index: u64, levels: usize, block: &[u8], root: &[u8]) -> Result<(), Error>;
}

macro_rules! calls {
    ($params:ty, $level_count:ident, $start:ident, $check_block:ident, $check_link:ident, $check_top:ident) => {
        impl Calls for $params {
            fn level_count(&self) -> Result<usize, Error> {
                let mut levels = 0;
                // SAFETY: a reference to a whole struct, and a local number to be written.
                answer(unsafe { ffi::$level_count(self, &mut levels) })?;
                Ok(levels)
            }

            fn hash_block_start(&self, index: u64, level: usize) -> Result<u64, Error> {
                let mut start = 0;
                // SAFETY: as above.
                answer(unsafe { ffi::$start(self, index, level, &mut start) })?;
                Ok(start)
            }

            fn check_block(&self, index: u64, block: &[u8], path: &[u8], root: &[u8]) -> Result<(), Error> {
                let mut level = 0;
                // SAFETY: each pointer with the length of its own slice, which is only read; a local number to be
                // written.
                let status = unsafe {
                    ffi::$check_block(
                        self,
                        index,
                        block.as_ptr(),
                        block.len(),
                        path.as_ptr(),
                        path.len(),
                        root.as_ptr(),
                        root.len(),
                        &mut level,
                    )
                };
                checked(status, level)
            }

            fn check_link(&self, index: u64, level: usize, block: &[u8], above: &[u8]) -> Result<(), Error> {
                // SAFETY: each pointer with the length of its own slice; nothing is written.
                let status = unsafe {
                    ffi::$check_link(self, index, level, block.as_ptr(), block.len(), above.as_ptr(), above.len())
                };
                checked(status, level)
            }

            fn check_top(&self, index: u64, levels: usize, block: &[u8], root: &[u8]) -> Result<(), Error> {
                // SAFETY: each pointer with the length of its own slice; nothing is written.
                let status =
                    unsafe { ffi::$check_top(self, index, block.as_ptr(), block.len(), root.as_ptr(), root.len()) };
                checked(status, levels)
            }
        }
    };
}

calls!(Params, verity_level_count, verity_hash_block_start, verity_check_block, verity_check_link, verity_check_top);
calls!(
    FileParams,
    fsverity_level_count,
    fsverity_hash_block_start,
    fsverity_check_block,
    fsverity_check_link,
    fsverity_check_top
);

/// Parameters of zeros, which no function takes: to be filled.
const NO_PARAMS: Params = Params {
    hash_algorithm: 0,
    hash_type: 0,
    data_block_size: 0,
    hash_block_size: 0,
    data_blocks: 0,
    hash_offset: 0,
    no_superblock: 0,
    salt_size: 0,
    salt: [0; 256],
    uuid: [0; 16],
};

/// Nothing taken and nothing handed out: to be filled.
const NOTHING_FED: Fed = Fed { taken: 0, block_length: 0, block_at: 0, block_start: 0, block_index: 0, block_level: 0 };

pub fn read_superblock(bytes: &[u8], hash_offset: u64) -> Result<Params, Error> {
    let mut params = NO_PARAMS;
    // SAFETY: a slice with its length, and a local struct to be written.
    answer(unsafe { ffi::verity_read_superblock(bytes.as_ptr(), bytes.len(), hash_offset, &mut params) })?;
    Ok(params)
}

pub fn write_superblock(params: &Params, bytes: &mut [u8]) -> Result<(), Error> {
    // SAFETY: a whole struct, and a slice with its length that nothing else can name.
    answer(unsafe { ffi::verity_write_superblock(params, bytes.as_mut_ptr(), bytes.len()) })
}

pub fn same_params(params: &Params, trusted: &Params) -> Result<bool, Error> {
    // SAFETY: two whole structs, perhaps the same, which are only read.
    match unsafe { ffi::verity_same_params(params, trusted) } {
        ffi::DIFFERS => Ok(false),
        other => answer(other).map(|()| true),
    }
}

pub fn hash_area_end(params: &Params) -> Result<u64, Error> {
    let mut end = 0;
    // SAFETY: a whole struct, and a local number to be written.
    answer(unsafe { ffi::verity_hash_area_end(params, &mut end) })?;
    Ok(end)
}

pub fn tree_size(params: &FileParams) -> Result<u64, Error> {
    let mut size = 0;
    // SAFETY: a whole struct, and a local number to be written.
    answer(unsafe { ffi::fsverity_tree_size(params, &mut size) })?;
    Ok(size)
}

pub fn file_digest(params: &FileParams, root: &[u8], digest: &mut [u8]) -> Result<(), Error> {
    // SAFETY: a whole struct, and two slices with their lengths; nothing else can name the one that is written.
    answer(unsafe { ffi::fsverity_file_digest(params, root.as_ptr(), root.len(), digest.as_mut_ptr(), digest.len()) })
}

pub fn build_memory(params: &Params) -> Result<usize, Error> {
    let mut length = 0;
    // SAFETY: a whole struct, and a local number to be written.
    answer(unsafe { ffi::verity_build_memory(params, &mut length) })?;
    Ok(length)
}

pub fn build_begin(params: &Params, memory: &mut [u8]) -> Result<Build, Error> {
    let mut build = Build { fed: 0, closed: 0 };
    // SAFETY: a whole struct, a local one to be written, and a slice with its length that nothing else can name.
    answer(unsafe { ffi::verity_build_begin(params, &mut build, memory.as_mut_ptr(), memory.len()) })?;
    Ok(build)
}

pub fn build_feed(params: &Params, build: &mut Build, memory: &mut [u8], piece: &[u8]) -> Result<Fed, Error> {
    let mut fed = NOTHING_FED;
    // SAFETY: whole structs and slices with their lengths; nothing else can name those that are written.
    answer(unsafe {
        ffi::verity_build_feed(params, build, memory.as_mut_ptr(), memory.len(), piece.as_ptr(), piece.len(), &mut fed)
    })?;
    Ok(fed)
}

pub fn build_last_block(params: &Params, build: &Build) -> Result<Fed, Error> {
    let mut fed = NOTHING_FED;
    // SAFETY: whole structs, and a local one to be written.
    answer(unsafe { ffi::verity_build_last_block(params, build, &mut fed) })?;
    Ok(fed)
}

pub fn build_end(params: &Params, build: &Build, memory: &mut [u8], root: &mut [u8]) -> Result<(), Error> {
    // SAFETY: whole structs, and two slices with their lengths that nothing else can name.
    answer(unsafe {
        ffi::verity_build_end(params, build, memory.as_mut_ptr(), memory.len(), root.as_mut_ptr(), root.len())
    })
}

pub fn file_build_memory(params: &FileParams) -> Result<usize, Error> {
    let mut length = 0;
    // SAFETY: a whole struct, and a local number to be written.
    answer(unsafe { ffi::fsverity_build_memory(params, &mut length) })?;
    Ok(length)
}

pub fn file_build_begin(params: &mut FileParams, memory: &mut [u8]) -> Result<(), Error> {
    // SAFETY: a whole struct, and a slice with its length; nothing else can name either.
    answer(unsafe { ffi::fsverity_build_begin(params, memory.as_mut_ptr(), memory.len()) })
}

pub fn file_build_feed(params: &mut FileParams, memory: &mut [u8], piece: &[u8]) -> Result<(), Error> {
    // SAFETY: a whole struct and two slices with their lengths; nothing else can name those that are written.
    answer(unsafe { ffi::fsverity_build_feed(params, memory.as_mut_ptr(), memory.len(), piece.as_ptr(), piece.len()) })
}

pub fn file_build_end(params: &FileParams, memory: &mut [u8], root: &mut [u8], digest: &mut [u8]) -> Result<(), Error> {
    // SAFETY: a whole struct and three slices with their lengths that nothing else can name.
    answer(unsafe {
        ffi::fsverity_build_end(
            params,
            memory.as_mut_ptr(),
            memory.len(),
            root.as_mut_ptr(),
            root.len(),
            digest.as_mut_ptr(),
            digest.len(),
        )
    })
}

pub fn digest_length(hash_algorithm: u32) -> Result<usize, Error> {
    let mut length = 0;
    // SAFETY: a local number to be written.
    answer(unsafe { ffi::verity_digest_length(hash_algorithm, &mut length) })?;
    Ok(length)
}

pub fn algorithm_name(hash_algorithm: u32, name: &mut [u8]) -> Result<usize, Error> {
    let mut length = 0;
    // SAFETY: a slice with its length that nothing else can name, and a local number to be written.
    answer(unsafe { ffi::verity_algorithm_name(hash_algorithm, name.as_mut_ptr(), name.len(), &mut length) })?;
    Ok(length)
}

pub fn algorithm_by_name(name: &[u8]) -> Result<u32, Error> {
    let mut hash_algorithm = 0;
    // SAFETY: a slice with its length, and a local number to be written.
    answer(unsafe { ffi::verity_algorithm_by_name(name.as_ptr(), name.len(), &mut hash_algorithm) })?;
    Ok(hash_algorithm)
}

pub fn status_text(status: i32, text: &mut [u8]) -> Result<usize, Error> {
    let mut length = 0;
    // SAFETY: a slice with its length that nothing else can name, and a local number to be written.
    answer(unsafe { ffi::verity_status_text(status, text.as_mut_ptr(), text.len(), &mut length) })?;
    Ok(length)
}
