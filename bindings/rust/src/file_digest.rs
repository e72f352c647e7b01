use alloc::vec;
use alloc::vec::Vec;
use core::fmt;

use crate::algorithm::Algorithm;
use crate::error::Error;
use crate::hash::{Digest, Root};
use crate::params::FileSettings;
use crate::{ffi, library};

/// A file's fs-verity digest, while its bytes come: `fsverity_build_begin`, `fsverity_build_feed` and
/// `fsverity_build_end`. A clone goes on by itself. With `std` it is a `Write`, so that `std::io::copy` feeds it.
///
/// ```
/// use verity::{FileDigest, FileSettings};
/// let mut file = FileDigest::new(&FileSettings::default())?;
/// file.update(b"the first bytes")?;
/// println!("{}", file.digest()?);
/// file.update(b", and more")?;
/// println!("{} of {} bytes", file.digest()?, file.size());
/// # Ok::<(), verity::Error>(())
/// ```
#[derive(Clone)]
pub struct FileDigest {
    params: ffi::FileParams,
    algorithm: Algorithm,
    memory: Vec<u8>,
}

impl FileDigest {
    /// Begins with no bytes.
    pub fn new(settings: &FileSettings<'_>) -> Result<FileDigest, Error> {
        let mut params = settings.with_size(0);
        let mut memory = vec![0; library::file_build_memory(&params)?];
        library::file_build_begin(&mut params, &mut memory)?;
        Ok(FileDigest { params, algorithm: settings.algorithm, memory })
    }

    /// Feeds the next bytes, all of them.
    pub fn update(&mut self, piece: &[u8]) -> Result<(), Error> {
        library::file_build_feed(&mut self.params, &mut self.memory, piece)
    }

    /// How many bytes were fed.
    pub fn size(&self) -> u64 {
        self.params.size
    }

    /// The digest of the bytes so far, at any time. Feeding goes on.
    pub fn digest(&mut self) -> Result<Digest, Error> {
        self.end().map(|(_, digest)| digest)
    }

    /// The root hash of the bytes so far, in the same way: it is stored beside the file's tree.
    pub fn root(&mut self) -> Result<Root, Error> {
        self.end().map(|(root, _)| root)
    }

    fn end(&mut self) -> Result<(Root, Digest), Error> {
        let (mut root, mut digest) = (Root::zeros(self.algorithm), Digest::zeros(self.algorithm));
        library::file_build_end(&self.params, &mut self.memory, root.as_mut(), digest.as_mut())?;
        Ok((root, digest))
    }
}

impl fmt::Debug for FileDigest {
    fn fmt(&self, to: &mut fmt::Formatter<'_>) -> fmt::Result {
        to.debug_struct("FileDigest").field("size", &self.size()).finish_non_exhaustive()
    }
}

#[cfg(feature = "std")]
impl std::io::Write for FileDigest {
    fn write(&mut self, piece: &[u8]) -> std::io::Result<usize> {
        self.update(piece)?;
        Ok(piece.len())
    }

    fn flush(&mut self) -> std::io::Result<()> {
        Ok(())
    }
}
