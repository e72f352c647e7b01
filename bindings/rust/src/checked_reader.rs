use alloc::vec;
use alloc::vec::Vec;
use core::fmt;
use std::io::{self, Read, Seek, SeekFrom};

use crate::error::Error;
use crate::hash::Root;
use crate::params::Tree;
use crate::path::{length_of, Block};

/// So many hash blocks are kept: more than a tree has levels.
const KEPT: usize = 64;

/// A hash block that was accepted.
struct Kept {
    start: u64,
    used: u64,
    bytes: Vec<u8>,
}

/// Reads data that is checked before it is handed out, of a dm-verity image or of a file with its fs-verity tree: block
/// by block, or as a `Read` and `Seek`. Of the hash blocks that were accepted the 64 that were used last are kept, and
/// not read again.
///
/// Parameters and root hash have to be trusted; data and hash device may give anything, and something else each time. A
/// fault of a check is a `std::io::Error` that holds an [`Error`], of the kind `InvalidData` for [`Error::Differs`]. As
/// in `examples/checked_blocks.h`, its level is the highest one that differs: what is below isn't looked at.
///
/// Two readers need files that were opened for each: those of `File::try_clone` share their position.
///
/// Here parameters and root hash of an image are trusted, and of a file its digest alone: the root hash that is stored
/// beside the tree is right if it has that digest.
///
/// ```
/// use std::fs::File;
/// use std::io::{self, Read, Write};
/// use verity::{CheckedReader, Digest, FileParams, FileSettings, Params, Root};
///
/// fn copy_image(data: File, mut hashes: File, trusted: &Params, root: Root, to: &mut impl Write) -> io::Result<u64> {
///     let mut superblock = [0; 512];
///     hashes.read_exact(&mut superblock)?;
///     let params = Params::from_superblock(&superblock, 0, trusted)?;
///     io::copy(&mut CheckedReader::new(params, root, data, hashes)?, to)
/// }
///
/// fn copy_file(data: File, tree: File, trusted: Digest, stored: Root, to: &mut impl Write) -> io::Result<u64> {
///     let params = FileParams::new(&FileSettings::default(), data.metadata()?.len())?;
///     if params.digest(&stored)? != trusted {
///         return Err(io::ErrorKind::InvalidData.into());
///     }
///     io::copy(&mut CheckedReader::new(params, stored, data, tree)?, to)
/// }
/// ```
pub struct CheckedReader<T, D, H> {
    tree: T,
    root: Root,
    data: D,
    hashes: H,
    kept: Vec<Kept>,
    now: u64,
    /// The data block of this number was accepted and stands in `block`.
    accepted: Option<u64>,
    block: Vec<u8>,
    position: u64,
}

impl<T: Tree, D: Read + Seek, H: Read + Seek> CheckedReader<T, D, H> {
    /// Takes the data, and the hash device or the file's tree. Nothing is read yet.
    pub fn new(tree: T, root: Root, data: D, hashes: H) -> Result<Self, Error> {
        if root.algorithm() != tree.algorithm() {
            return Err(Error::BadRootLength);
        }
        let block = vec![0; tree.shape().data_block_size];
        Ok(CheckedReader { tree, root, data, hashes, kept: Vec::new(), now: 0, accepted: None, block, position: 0 })
    }

    /// Reads and checks a data block.
    pub fn block(&mut self, index: u64) -> io::Result<Block<'_>> {
        if self.accepted != Some(index) {
            self.accepted = None;
            self.read_and_check(index)?;
            self.accepted = Some(index);
        }
        Ok(Block::accepted(&self.tree, index, &self.block))
    }

    /// The parameters.
    pub fn tree(&self) -> &T {
        &self.tree
    }

    /// Gives back what [`CheckedReader::new`] took.
    pub fn into_inner(self) -> (D, H) {
        (self.data, self.hashes)
    }

    fn read_and_check(&mut self, index: u64) -> io::Result<()> {
        let length = length_of(&self.tree, index);
        if length == 0 {
            return Err(Error::NoSuchBlock.into());
        }
        let above = self.hash_block_above(index)?;
        let (bytes, filling) = self.block.split_at_mut(length);
        read_at(&mut self.data, index * self.tree.shape().data_block_size as u64, bytes)?;
        filling.fill(0);
        self.check(index, 0, &self.block, above)
    }

    /// The place of the hash block of level 0 above a data block; none if there are no levels.
    fn hash_block_above(&mut self, index: u64) -> io::Result<Option<usize>> {
        let mut above = None;
        let mut lowest = self.tree.shape().levels;
        for level in 0..lowest {
            let start = self.tree.shape().calls.hash_block_start(index, level)?;
            if let Some(place) = self.kept.iter().position(|kept| kept.start == start) {
                self.now += 1;
                self.kept[place].used = self.now;
                above = Some(place);
                lowest = level;
                break;
            }
        }
        for level in (0..lowest).rev() {
            let start = self.tree.shape().calls.hash_block_start(index, level)?;
            let mut bytes = vec![0; self.tree.shape().hash_block_size];
            read_at(&mut self.hashes, start, &mut bytes)?;
            self.check(index, level + 1, &bytes, above)?;
            above = Some(self.keep(start, bytes));
        }
        Ok(above)
    }

    /// Checks the block below a level: by the hash block of that level, which is kept, or if it is the top by the root.
    fn check(&self, index: u64, level: usize, block: &[u8], above: Option<usize>) -> io::Result<()> {
        let calls = self.tree.shape().calls;
        match above {
            Some(place) => calls.check_link(index, level, block, &self.kept[place].bytes)?,
            None => calls.check_top(index, level, block, self.root.as_bytes())?,
        }
        Ok(())
    }

    /// Keeps a hash block that was accepted, perhaps in place of the one that was used least recently.
    fn keep(&mut self, start: u64, bytes: Vec<u8>) -> usize {
        self.now += 1;
        let kept = Kept { start, used: self.now, bytes };
        if self.kept.len() < KEPT {
            self.kept.push(kept);
            return self.kept.len() - 1;
        }
        let place = (0..self.kept.len()).min_by_key(|place| self.kept[*place].used).unwrap_or(0);
        self.kept[place] = kept;
        place
    }
}

fn read_at(from: &mut (impl Read + Seek), start: u64, bytes: &mut [u8]) -> io::Result<()> {
    from.seek(SeekFrom::Start(start))?;
    from.read_exact(bytes)
}

impl<T: Tree, D: Read + Seek, H: Read + Seek> Read for CheckedReader<T, D, H> {
    fn read(&mut self, to: &mut [u8]) -> io::Result<usize> {
        if self.position >= self.tree.data_size() || to.is_empty() {
            return Ok(0);
        }
        let size = self.tree.shape().data_block_size as u64;
        let (index, skipped) = (self.position / size, (self.position % size) as usize);
        let block = self.block(index)?;
        let bytes = &block[skipped..];
        let count = bytes.len().min(to.len());
        to[..count].copy_from_slice(&bytes[..count]);
        self.position += count as u64;
        Ok(count)
    }
}

impl<T: Tree, D, H> Seek for CheckedReader<T, D, H> {
    fn seek(&mut self, to: SeekFrom) -> io::Result<u64> {
        let position = match to {
            SeekFrom::Start(start) => Some(start),
            SeekFrom::Current(by) => add(self.position, by),
            SeekFrom::End(by) => add(self.tree.data_size(), by),
        };
        self.position = position.ok_or_else(|| io::Error::from(io::ErrorKind::InvalidInput))?;
        Ok(self.position)
    }
}

fn add(from: u64, by: i64) -> Option<u64> {
    u64::try_from(i128::from(from) + i128::from(by)).ok()
}

impl<T, D, H> fmt::Debug for CheckedReader<T, D, H> {
    fn fmt(&self, to: &mut fmt::Formatter<'_>) -> fmt::Result {
        to.debug_struct("CheckedReader").field("position", &self.position).finish_non_exhaustive()
    }
}
