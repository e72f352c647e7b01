use alloc::vec;
use alloc::vec::Vec;
use core::fmt;
use core::ops::Deref;

use crate::error::Error;
use crate::hash::Root;
use crate::params::Tree;

/// A data block that was checked, by the parameters and root hash of whoever had it checked; the type doesn't say
/// which. Only a check makes one, and while it is there, its bytes can't change. The last block of a file has the
/// file's bytes alone, without the zeros that fill it.
#[derive(Clone, Copy, Debug, PartialEq, Eq)]
pub struct Block<'a> {
    index: u64,
    bytes: &'a [u8],
}

impl<'a> Block<'a> {
    /// Takes the bytes of a whole block that was accepted.
    pub(crate) fn accepted(tree: &impl Tree, index: u64, whole: &'a [u8]) -> Block<'a> {
        Block { index, bytes: &whole[..length_of(tree, index)] }
    }

    /// Its number.
    pub fn index(&self) -> u64 {
        self.index
    }

    /// Its bytes.
    pub fn as_bytes(&self) -> &'a [u8] {
        self.bytes
    }
}

impl Deref for Block<'_> {
    type Target = [u8];

    fn deref(&self) -> &[u8] {
        self.bytes
    }
}

impl AsRef<[u8]> for Block<'_> {
    fn as_ref(&self) -> &[u8] {
        self.bytes
    }
}

/// How many bytes of a data block are the data's: all but in the last block of a file.
pub(crate) fn length_of(tree: &impl Tree, index: u64) -> usize {
    let size = tree.shape().data_block_size;
    let left = tree.data_size().saturating_sub(index.saturating_mul(size as u64));
    usize::try_from(left).map_or(size, |left| left.min(size))
}

/// The hash blocks above a data block, level 0 first. They needn't be right: [`Path::check`] finds that.
pub struct Path<'a, T> {
    tree: &'a T,
    index: u64,
    bytes: Vec<u8>,
}

impl<'a, T: Tree> Path<'a, T> {
    /// Reads them, each at the byte of the hash device, or of the file's tree, that `read` is handed
    /// (`verity_hash_block_start`, `fsverity_hash_block_start`).
    ///
    /// ```
    /// use std::io::{self, Read, Seek, SeekFrom};
    /// use verity::{Params, Path};
    ///
    /// # #[cfg(feature = "std")]
    /// fn path_of<'a>(params: &'a Params, index: u64, device: &mut std::fs::File) -> io::Result<Path<'a, Params>> {
    ///     Path::read(params, index, |start, bytes| {
    ///         device.seek(SeekFrom::Start(start))?;
    ///         device.read_exact(bytes)
    ///     })
    /// }
    /// ```
    pub fn read<E, F>(tree: &'a T, index: u64, mut read: F) -> Result<Path<'a, T>, E>
    where
        E: From<Error>,
        F: FnMut(u64, &mut [u8]) -> Result<(), E>,
    {
        has_block(tree, index)?;
        let shape = tree.shape();
        let mut bytes = vec![0; shape.levels * shape.hash_block_size];
        for (level, block) in bytes.chunks_exact_mut(shape.hash_block_size).enumerate() {
            read(shape.calls.hash_block_start(index, level)?, block)?;
        }
        Ok(Path { tree, index, bytes })
    }

    /// Takes their bytes, one after another.
    pub fn new(tree: &'a T, index: u64, bytes: Vec<u8>) -> Result<Path<'a, T>, Error> {
        has_block(tree, index)?;
        if bytes.len() != tree.shape().levels * tree.shape().hash_block_size {
            return Err(Error::BadLength);
        }
        Ok(Path { tree, index, bytes })
    }

    /// Checks the data block (`verity_check_block`, `fsverity_check_block`).
    pub fn check<'b>(&self, root: &Root, block: &'b [u8]) -> Result<Block<'b>, Error> {
        self.tree.shape().calls.check_block(self.index, block, &self.bytes, root.as_bytes())?;
        Ok(Block::accepted(self.tree, self.index, block))
    }
}

impl<T> Clone for Path<'_, T> {
    fn clone(&self) -> Self {
        Path { tree: self.tree, index: self.index, bytes: self.bytes.clone() }
    }
}

impl<T> fmt::Debug for Path<'_, T> {
    fn fmt(&self, to: &mut fmt::Formatter<'_>) -> fmt::Result {
        to.debug_struct("Path").field("index", &self.index).finish_non_exhaustive()
    }
}

fn has_block(tree: &impl Tree, index: u64) -> Result<(), Error> {
    match length_of(tree, index) {
        0 => Err(Error::NoSuchBlock),
        _ => Ok(()),
    }
}
