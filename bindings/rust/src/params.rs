use crate::algorithm::Algorithm;
use crate::error::Error;
use crate::ffi;
use crate::hash::{Digest, Root};
use crate::library::{self, Calls};

/// A dm-verity tree's settings, not checked: `struct verity_params`.
///
/// The default is that of `veritysetup format`, without salt, UUID and a number of data blocks:
///
/// ```
/// use verity::{Error, Params, Settings};
/// let params = Params::new(&Settings { data_blocks: 300, ..Settings::default() })?;
/// assert_eq!(params.levels(), 2);
/// assert_eq!(Params::new(&Settings::default()), Err(Error::NoData));
/// # Ok::<(), Error>(())
/// ```
#[derive(Clone, Copy, Debug, PartialEq, Eq)]
#[allow(missing_docs)]
pub struct Settings<'a> {
    pub algorithm: Algorithm,
    pub hash_type: u32,
    pub data_block_size: u32,
    pub hash_block_size: u32,
    pub data_blocks: u64,
    pub hash_offset: u64,
    pub has_superblock: bool,
    pub salt: &'a [u8],
    pub uuid: [u8; 16],
}

impl Default for Settings<'_> {
    fn default() -> Self {
        Settings {
            algorithm: Algorithm::Sha256,
            hash_type: 1,
            data_block_size: 4096,
            hash_block_size: 4096,
            data_blocks: 0,
            hash_offset: 0,
            has_superblock: true,
            salt: &[],
            uuid: [0; 16],
        }
    }
}

/// An fs-verity tree's settings, not checked and without the file's size: `struct fsverity_params`. The default is that
/// of `fsverity digest`.
#[derive(Clone, Copy, Debug, PartialEq, Eq)]
#[allow(missing_docs)]
pub struct FileSettings<'a> {
    pub algorithm: Algorithm,
    pub block_size: u32,
    pub salt: &'a [u8],
}

impl Default for FileSettings<'_> {
    fn default() -> Self {
        FileSettings { algorithm: Algorithm::Sha256, block_size: 4096, salt: &[] }
    }
}

/// The size and the first bytes of a salt, as the structs have them. A size that is too large is left to the library.
fn salt_of<const MOST: usize>(salt: &[u8]) -> (u32, [u8; MOST]) {
    let mut bytes = [0; MOST];
    let length = salt.len().min(MOST);
    bytes[..length].copy_from_slice(&salt[..length]);
    (u32::try_from(salt.len()).unwrap_or(u32::MAX), bytes)
}

/// The bytes of a salt that count.
fn salt_in(salt: &[u8], size: u32) -> &[u8] {
    usize::try_from(size).ok().and_then(|size| salt.get(..size)).unwrap_or(salt)
}

impl FileSettings<'_> {
    /// The struct for a file of this size, not checked.
    pub(crate) fn with_size(&self, size: u64) -> ffi::FileParams {
        let (salt_size, salt) = salt_of(self.salt);
        let hash_algorithm = self.algorithm.number();
        ffi::FileParams { hash_algorithm, block_size: self.block_size, size, salt_size, salt }
    }
}

/// Parameters of a dm-verity tree that no function refuses. `==` compares all settings, [`Params::are_same`] those that
/// the root hash needs.
#[derive(Clone)]
pub struct Params {
    pub(crate) raw: ffi::Params,
    pub(crate) algorithm: Algorithm,
    levels: usize,
}

impl Params {
    /// Checks these settings.
    pub fn new(settings: &Settings<'_>) -> Result<Params, Error> {
        let (salt_size, salt) = salt_of(settings.salt);
        Params::checked(ffi::Params {
            hash_algorithm: settings.algorithm.number(),
            hash_type: settings.hash_type,
            data_block_size: settings.data_block_size,
            hash_block_size: settings.hash_block_size,
            data_blocks: settings.data_blocks,
            hash_offset: settings.hash_offset,
            no_superblock: u32::from(!settings.has_superblock),
            salt_size,
            salt,
            uuid: settings.uuid,
        })
    }

    /// Reads a superblock that stands at `hash_offset` (`verity_read_superblock`): call this where others may have
    /// written it. [`Error::OtherParams`] if its parameters aren't the trusted ones, as [`Params::are_same`] compares
    /// them.
    pub fn from_superblock(bytes: &[u8], hash_offset: u64, trusted: &Params) -> Result<Params, Error> {
        let params = Params::from_trusted_superblock(bytes, hash_offset)?;
        if params.are_same(trusted) {
            Ok(params)
        } else {
            Err(Error::OtherParams)
        }
    }

    /// Reads a superblock that nobody else can have written (`verity_read_superblock`).
    pub fn from_trusted_superblock(bytes: &[u8], hash_offset: u64) -> Result<Params, Error> {
        Params::checked(library::read_superblock(bytes, hash_offset)?)
    }

    fn checked(raw: ffi::Params) -> Result<Params, Error> {
        let levels = raw.level_count()?;
        Ok(Params { raw, algorithm: Algorithm::of_number(raw.hash_algorithm)?, levels })
    }

    /// Whether they are the trusted ones in all that the root hash needs; hash offset, UUID and whether there is a
    /// superblock aren't compared (`verity_same_params`). Call this before parameters are used that others may have
    /// written.
    pub fn are_same(&self, trusted: &Params) -> bool {
        library::same_params(&self.raw, &trusted.raw) == Ok(true)
    }

    /// Their settings.
    pub fn settings(&self) -> Settings<'_> {
        Settings {
            algorithm: self.algorithm,
            hash_type: self.raw.hash_type,
            data_block_size: self.raw.data_block_size,
            hash_block_size: self.raw.hash_block_size,
            data_blocks: self.raw.data_blocks,
            hash_offset: self.raw.hash_offset,
            has_superblock: self.raw.no_superblock == 0,
            salt: salt_in(&self.raw.salt, self.raw.salt_size),
            uuid: self.raw.uuid,
        }
    }

    /// `verity_write_superblock`; `None` if the settings say that there is no superblock.
    pub fn superblock(&self) -> Option<[u8; 512]> {
        if self.raw.no_superblock != 0 {
            return None;
        }
        let mut bytes = [0; 512];
        library::write_superblock(&self.raw, &mut bytes).expect("the parameters were checked");
        Some(bytes)
    }

    /// `verity_level_count`.
    pub fn levels(&self) -> usize {
        self.levels
    }

    /// `verity_hash_area_end`.
    pub fn hash_area_end(&self) -> u64 {
        library::hash_area_end(&self.raw).expect("the parameters were checked")
    }
}

/// Parameters of a file's fs-verity tree that no function refuses. A file of no bytes has no tree.
#[derive(Clone)]
pub struct FileParams {
    raw: ffi::FileParams,
    algorithm: Algorithm,
    levels: usize,
}

impl FileParams {
    /// Checks these settings with the file's size.
    pub fn new(settings: &FileSettings<'_>, size: u64) -> Result<FileParams, Error> {
        let raw = settings.with_size(size);
        Ok(FileParams { raw, algorithm: settings.algorithm, levels: raw.level_count()? })
    }

    /// Their settings, without the size.
    pub fn settings(&self) -> FileSettings<'_> {
        let salt = salt_in(&self.raw.salt, self.raw.salt_size);
        FileSettings { algorithm: self.algorithm, block_size: self.raw.block_size, salt }
    }

    /// The file's size.
    pub fn size(&self) -> u64 {
        self.raw.size
    }

    /// `fsverity_file_digest`: parameters and root hash are right if this is the trusted digest. So a root hash that is
    /// stored beside the tree needn't be trusted, as `CheckedReader` shows.
    pub fn digest(&self, root: &Root) -> Result<Digest, Error> {
        let mut digest = Digest::zeros(self.algorithm);
        library::file_digest(&self.raw, root.as_bytes(), digest.as_mut())?;
        Ok(digest)
    }

    /// `fsverity_level_count`.
    pub fn levels(&self) -> usize {
        self.levels
    }

    /// `fsverity_tree_size`.
    pub fn tree_size(&self) -> u64 {
        library::tree_size(&self.raw).expect("the parameters were checked")
    }
}

impl PartialEq for Params {
    fn eq(&self, other: &Params) -> bool {
        self.settings() == other.settings()
    }
}

impl Eq for Params {}

impl core::fmt::Debug for Params {
    fn fmt(&self, to: &mut core::fmt::Formatter<'_>) -> core::fmt::Result {
        to.debug_tuple("Params").field(&self.settings()).finish()
    }
}

impl PartialEq for FileParams {
    fn eq(&self, other: &FileParams) -> bool {
        self.settings() == other.settings() && self.size() == other.size()
    }
}

impl Eq for FileParams {}

impl core::fmt::Debug for FileParams {
    fn fmt(&self, to: &mut core::fmt::Formatter<'_>) -> core::fmt::Result {
        to.debug_tuple("FileParams").field(&self.settings()).field(&self.size()).finish()
    }
}

/// Parameters of either kind of tree: [`Params`] or [`FileParams`].
pub trait Tree: sealed::Sealed {
    /// The size of the data, in bytes.
    fn data_size(&self) -> u64 {
        self.shape().data_size
    }

    /// The hash function.
    fn algorithm(&self) -> Algorithm {
        self.shape().algorithm
    }

    /// How many data blocks there are, with the last one of a file.
    fn data_blocks(&self) -> u64 {
        let (size, block_size) = (self.shape().data_size, self.shape().data_block_size as u64);
        size / block_size + u64::from(size % block_size > 0)
    }
}

impl Tree for Params {}
impl Tree for FileParams {}

pub(crate) mod sealed {
    use super::{Algorithm, Calls, FileParams, Params};

    /// It can't be named outside of the crate, and what it answers has nothing there.
    pub trait Sealed {
        fn shape(&self) -> Shape<'_>;
    }

    /// What paths and readers need of both kinds of tree.
    pub struct Shape<'a> {
        pub(crate) calls: &'a dyn Calls,
        pub(crate) algorithm: Algorithm,
        pub(crate) levels: usize,
        pub(crate) data_block_size: usize,
        pub(crate) hash_block_size: usize,
        pub(crate) data_size: u64,
    }

    impl Sealed for Params {
        fn shape(&self) -> Shape<'_> {
            Shape {
                calls: &self.raw,
                algorithm: self.algorithm,
                levels: self.levels,
                data_block_size: self.raw.data_block_size as usize,
                hash_block_size: self.raw.hash_block_size as usize,
                data_size: self.raw.data_blocks * u64::from(self.raw.data_block_size),
            }
        }
    }

    impl Sealed for FileParams {
        fn shape(&self) -> Shape<'_> {
            Shape {
                calls: &self.raw,
                algorithm: self.algorithm,
                levels: self.levels,
                data_block_size: self.raw.block_size as usize,
                hash_block_size: self.raw.block_size as usize,
                data_size: self.raw.size,
            }
        }
    }
}
