//! The declarations of `include/verity.h`, as far as this crate calls them. `tests/bindings/rust.sh` compares each
//! with the header.

pub const OK: i32 = 0;
pub const DIFFERS: i32 = -1;
pub const NO_SUCH_BLOCK: i32 = -2;
pub const NO_SUCH_LEVEL: i32 = -3;
pub const BAD_LENGTH: i32 = -4;
pub const BAD_ROOT_LENGTH: i32 = -5;
pub const BAD_HASH_ALGORITHM: i32 = -6;
pub const BAD_HASH_TYPE: i32 = -7;
pub const BAD_DATA_BLOCK_SIZE: i32 = -8;
pub const BAD_HASH_BLOCK_SIZE: i32 = -9;
pub const BAD_SALT_SIZE: i32 = -10;
pub const BAD_HASH_OFFSET: i32 = -11;
pub const NO_DATA: i32 = -12;
pub const TOO_LARGE: i32 = -13;
pub const SHORT_SUPERBLOCK: i32 = -14;
pub const BAD_SIGNATURE: i32 = -15;
pub const BAD_VERSION: i32 = -16;
pub const TOO_LONG: i32 = -17;
pub const TOO_SHORT: i32 = -18;
pub const WAITING: i32 = -19;

pub const SHA256: u32 = 1;
pub const SHA512: u32 = 2;
pub const SHA1: u32 = 3;
pub const SHA224: u32 = 4;
pub const SHA384: u32 = 5;

pub const MAX_DIGEST_SIZE: usize = 64;
pub const MAX_TEXT_SIZE: usize = 64;

/// `struct verity_params`.
#[repr(C)]
#[derive(Clone, Copy)]
pub struct Params {
    pub hash_algorithm: u32,
    pub hash_type: u32,
    pub data_block_size: u32,
    pub hash_block_size: u32,
    pub data_blocks: u64,
    pub hash_offset: u64,
    pub no_superblock: u32,
    pub salt_size: u32,
    pub salt: [u8; 256],
    pub uuid: [u8; 16],
}

/// `struct fsverity_params`.
#[repr(C)]
#[derive(Clone, Copy)]
pub struct FileParams {
    pub hash_algorithm: u32,
    pub block_size: u32,
    pub size: u64,
    pub salt_size: u32,
    pub salt: [u8; 32],
}

/// `struct verity_build`.
#[repr(C)]
#[derive(Clone, Copy)]
pub struct Build {
    pub fed: u64,
    pub closed: usize,
}

/// `struct verity_fed`.
#[repr(C)]
#[derive(Clone, Copy)]
pub struct Fed {
    pub taken: usize,
    pub block_length: usize,
    pub block_at: usize,
    pub block_start: u64,
    pub block_index: u64,
    pub block_level: usize,
}

// An `int` has 32 bits wherever the library runs. Letters are bytes here.
extern "C" {
    pub fn verity_read_superblock(bytes: *const u8, length: usize, hash_offset: u64, params: *mut Params) -> i32;
    pub fn verity_write_superblock(params: *const Params, bytes: *mut u8, length: usize) -> i32;
    pub fn verity_same_params(params: *const Params, trusted: *const Params) -> i32;
    pub fn verity_level_count(params: *const Params, levels: *mut usize) -> i32;
    pub fn verity_hash_area_end(params: *const Params, end: *mut u64) -> i32;
    pub fn verity_hash_block_start(params: *const Params, index: u64, level: usize, start: *mut u64) -> i32;
    pub fn verity_check_block(
        params: *const Params,
        index: u64,
        block: *const u8,
        block_length: usize,
        path: *const u8,
        path_length: usize,
        root: *const u8,
        root_length: usize,
        level: *mut usize,
    ) -> i32;
    pub fn verity_check_link(
        params: *const Params,
        index: u64,
        level: usize,
        block: *const u8,
        block_length: usize,
        above: *const u8,
        above_length: usize,
    ) -> i32;
    pub fn verity_check_top(
        params: *const Params,
        index: u64,
        block: *const u8,
        block_length: usize,
        root: *const u8,
        root_length: usize,
    ) -> i32;
    pub fn fsverity_level_count(params: *const FileParams, levels: *mut usize) -> i32;
    pub fn fsverity_tree_size(params: *const FileParams, size: *mut u64) -> i32;
    pub fn fsverity_hash_block_start(params: *const FileParams, index: u64, level: usize, start: *mut u64) -> i32;
    pub fn fsverity_check_block(
        params: *const FileParams,
        index: u64,
        block: *const u8,
        block_length: usize,
        path: *const u8,
        path_length: usize,
        root: *const u8,
        root_length: usize,
        level: *mut usize,
    ) -> i32;
    pub fn fsverity_check_link(
        params: *const FileParams,
        index: u64,
        level: usize,
        block: *const u8,
        block_length: usize,
        above: *const u8,
        above_length: usize,
    ) -> i32;
    pub fn fsverity_check_top(
        params: *const FileParams,
        index: u64,
        block: *const u8,
        block_length: usize,
        root: *const u8,
        root_length: usize,
    ) -> i32;
    pub fn fsverity_file_digest(
        params: *const FileParams,
        root: *const u8,
        root_length: usize,
        digest: *mut u8,
        digest_length: usize,
    ) -> i32;
    pub fn verity_build_memory(params: *const Params, length: *mut usize) -> i32;
    pub fn verity_build_begin(params: *const Params, build: *mut Build, memory: *mut u8, memory_length: usize) -> i32;
    pub fn verity_build_feed(
        params: *const Params,
        build: *mut Build,
        memory: *mut u8,
        memory_length: usize,
        piece: *const u8,
        piece_length: usize,
        fed: *mut Fed,
    ) -> i32;
    pub fn verity_build_last_block(params: *const Params, build: *const Build, fed: *mut Fed) -> i32;
    pub fn verity_build_end(
        params: *const Params,
        build: *const Build,
        memory: *mut u8,
        memory_length: usize,
        root: *mut u8,
        root_length: usize,
    ) -> i32;
    pub fn fsverity_build_memory(params: *const FileParams, length: *mut usize) -> i32;
    pub fn fsverity_build_begin(params: *mut FileParams, memory: *mut u8, memory_length: usize) -> i32;
    pub fn fsverity_build_feed(
        params: *mut FileParams,
        memory: *mut u8,
        memory_length: usize,
        piece: *const u8,
        piece_length: usize,
    ) -> i32;
    pub fn fsverity_build_end(
        params: *const FileParams,
        memory: *mut u8,
        memory_length: usize,
        root: *mut u8,
        root_length: usize,
        digest: *mut u8,
        digest_length: usize,
    ) -> i32;
    pub fn verity_digest_length(hash_algorithm: u32, length: *mut usize) -> i32;
    pub fn verity_algorithm_name(hash_algorithm: u32, name: *mut u8, room: usize, length: *mut usize) -> i32;
    pub fn verity_algorithm_by_name(name: *const u8, length: usize, hash_algorithm: *mut u32) -> i32;
    pub fn verity_status_text(status: i32, text: *mut u8, room: usize, length: *mut usize) -> i32;
}

#[cfg(test)]
mod tests {
    use super::*;
    use core::mem::{align_of_val, size_of_val};
    use core::ptr;
    use std::println;

    /// Prints a struct's size and alignment, and the place and size of each field.
    macro_rules! shows {
        ($name:literal, $value:expr, $($field:ident),*) => {
            let value = $value;
            println!("struct {} {} {}", $name, size_of_val(&value), align_of_val(&value));
            $(println!(
                "field {}.{} {} {}",
                $name,
                stringify!($field),
                ptr::addr_of!(value.$field) as usize - ptr::addr_of!(value) as usize,
                size_of_val(&value.$field),
            );)*
        };
    }

    /// What a program in C says of the header, which the script compares with this.
    #[test]
    #[ignore = "tests/bindings/rust.sh reads what it prints"]
    fn structs() {
        let params = Params {
            hash_algorithm: 0,
            hash_type: 0,
            data_block_size: 0,
            hash_block_size: 0,
            data_blocks: 0,
            hash_offset: 0,
            no_superblock: 0,
            salt_size: 0,
            salt: [0; 256],
            uuid: [0; 16],
        };
        let file = FileParams { hash_algorithm: 0, block_size: 0, size: 0, salt_size: 0, salt: [0; 32] };
        let fed = Fed { taken: 0, block_length: 0, block_at: 0, block_start: 0, block_index: 0, block_level: 0 };
        shows!(
            "verity_params",
            params,
            hash_algorithm,
            hash_type,
            data_block_size,
            hash_block_size,
            data_blocks,
            hash_offset,
            no_superblock,
            salt_size,
            salt,
            uuid
        );
        shows!("fsverity_params", file, hash_algorithm, block_size, size, salt_size, salt);
        shows!("verity_build", Build { fed: 0, closed: 0 }, fed, closed);
        shows!("verity_fed", fed, taken, block_length, block_at, block_start, block_index, block_level);
    }
}
