use alloc::vec;
use alloc::vec::Vec;
use core::fmt;
use core::ops::Deref;

use crate::error::Error;
use crate::hash::Root;
use crate::params::Params;
use crate::{ffi, library};

/// A hash block that is handed out, with its place: `struct verity_fed`.
#[derive(Clone, Copy, Debug)]
pub struct HashBlock<'a> {
    start: u64,
    index: u64,
    level: usize,
    bytes: &'a [u8],
}

impl<'a> HashBlock<'a> {
    /// `block_start`: the byte of the hash device at which it goes.
    pub fn start(&self) -> u64 {
        self.start
    }

    /// `block_index`.
    pub fn index(&self) -> u64 {
        self.index
    }

    /// `block_level`.
    pub fn level(&self) -> usize {
        self.level
    }

    /// Its bytes.
    pub fn as_bytes(&self) -> &'a [u8] {
        self.bytes
    }
}

impl Deref for HashBlock<'_> {
    type Target = [u8];

    fn deref(&self) -> &[u8] {
        self.bytes
    }
}

impl AsRef<[u8]> for HashBlock<'_> {
    fn as_ref(&self) -> &[u8] {
        self.bytes
    }
}

/// A dm-verity tree, while its data comes: `verity_build_begin`, `verity_build_feed` and `verity_build_end`. A clone
/// goes on by itself.
///
/// ```
/// use verity::{Error, Params, Settings, TreeBuilder};
/// let params = Params::new(&Settings { data_blocks: 130, has_superblock: false, ..Settings::default() })?;
/// let mut device = vec![0; params.hash_area_end() as usize];
/// let mut builder = TreeBuilder::new(&params)?;
/// for _ in 0..130 {
///     builder.update(&[7; 4096], |block| {
///         device[block.start() as usize..][..block.len()].copy_from_slice(&block);
///         Ok::<(), Error>(())
///     })?;
/// }
/// println!("{}", builder.root()?);
/// # Ok::<(), Error>(())
/// ```
#[derive(Clone)]
pub struct TreeBuilder {
    params: Params,
    build: ffi::Build,
    memory: Vec<u8>,
    /// Whether the hash block that was handed out last wasn't taken.
    is_left: bool,
}

impl TreeBuilder {
    /// Begins with no data.
    pub fn new(params: &Params) -> Result<TreeBuilder, Error> {
        let mut memory = vec![0; library::build_memory(&params.raw)?];
        let build = library::build_begin(&params.raw, &mut memory)?;
        Ok(TreeBuilder { params: params.clone(), build, memory, is_left: false })
    }

    /// Feeds the next bytes of the data, all of them, and hands `take` each hash block that closes. If `take` fails,
    /// the bytes up to that hash block were fed: the next call hands it out first, and is to go on with byte
    /// [`TreeBuilder::fed`] of the data.
    pub fn update<E, F>(&mut self, mut piece: &[u8], mut take: F) -> Result<(), E>
    where
        E: From<Error>,
        F: FnMut(HashBlock<'_>) -> Result<(), E>,
    {
        if self.is_left {
            let fed = library::build_last_block(&self.params.raw, &self.build)?;
            self.hand_out(&fed, &mut take)?;
        }
        loop {
            let fed = library::build_feed(&self.params.raw, &mut self.build, &mut self.memory, piece)?;
            piece = &piece[fed.taken..];
            if fed.block_length == 0 {
                return Ok(());
            }
            self.hand_out(&fed, &mut take)?;
        }
    }

    fn hand_out<E>(&mut self, fed: &ffi::Fed, take: &mut impl FnMut(HashBlock<'_>) -> Result<(), E>) -> Result<(), E> {
        // It stays so if `take` fails or panics.
        self.is_left = true;
        take(HashBlock {
            start: fed.block_start,
            index: fed.block_index,
            level: fed.block_level,
            bytes: &self.memory[fed.block_at..][..fed.block_length],
        })?;
        self.is_left = false;
        Ok(())
    }

    /// How many bytes were fed.
    pub fn fed(&self) -> u64 {
        self.build.fed
    }

    /// The root hash, when all data was fed and all hash blocks were taken; before that [`Error::TooShort`] or
    /// [`Error::Waiting`].
    pub fn root(&mut self) -> Result<Root, Error> {
        if self.is_left {
            return Err(Error::Waiting);
        }
        let mut root = Root::zeros(self.params.algorithm);
        library::build_end(&self.params.raw, &self.build, &mut self.memory, root.as_mut())?;
        Ok(root)
    }
}

impl fmt::Debug for TreeBuilder {
    fn fmt(&self, to: &mut fmt::Formatter<'_>) -> fmt::Result {
        to.debug_struct("TreeBuilder").field("fed", &self.fed()).finish_non_exhaustive()
    }
}
