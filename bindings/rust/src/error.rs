use core::fmt;

use crate::{ffi, library};

/// Why a call has no answer: the statuses of `enum verity_status`, whose texts `Display` shows, and two of this crate.
#[derive(Clone, Copy, Debug, PartialEq, Eq)]
#[non_exhaustive]
pub enum Error {
    /// `VERITY_DIFFERS` of a block.
    Differs {
        /// The level that `verity_check_block` answers; of a `CheckedReader` the one that `checked_read` in
        /// `examples/checked_blocks.h` answers.
        level: usize,
    },
    /// `VERITY_DIFFERS` of parameters.
    OtherParams,
    /// `VERITY_NO_SUCH_BLOCK`
    NoSuchBlock,
    /// `VERITY_NO_SUCH_LEVEL`
    NoSuchLevel,
    /// `VERITY_BAD_LENGTH`
    BadLength,
    /// `VERITY_BAD_ROOT_LENGTH`
    BadRootLength,
    /// `VERITY_BAD_HASH_ALGORITHM`
    BadHashAlgorithm,
    /// `VERITY_BAD_HASH_TYPE`
    BadHashType,
    /// `VERITY_BAD_DATA_BLOCK_SIZE`
    BadDataBlockSize,
    /// `VERITY_BAD_HASH_BLOCK_SIZE`
    BadHashBlockSize,
    /// `VERITY_BAD_SALT_SIZE`
    BadSaltSize,
    /// `VERITY_BAD_HASH_OFFSET`
    BadHashOffset,
    /// `VERITY_NO_DATA`
    NoData,
    /// `VERITY_TOO_LARGE`
    TooLarge,
    /// `VERITY_SHORT_SUPERBLOCK`
    ShortSuperblock,
    /// `VERITY_BAD_SIGNATURE`
    BadSignature,
    /// `VERITY_BAD_VERSION`
    BadVersion,
    /// `VERITY_TOO_LONG`
    TooLong,
    /// `VERITY_TOO_SHORT`
    TooShort,
    /// `VERITY_WAITING`
    Waiting,
    /// A text isn't that of a root hash or a file digest.
    BadText,
    /// A status that this crate doesn't know.
    Status(i32),
}

/// The statuses that have one meaning.
const STATUSES: [(i32, Error); 18] = [
    (ffi::NO_SUCH_BLOCK, Error::NoSuchBlock),
    (ffi::NO_SUCH_LEVEL, Error::NoSuchLevel),
    (ffi::BAD_LENGTH, Error::BadLength),
    (ffi::BAD_ROOT_LENGTH, Error::BadRootLength),
    (ffi::BAD_HASH_ALGORITHM, Error::BadHashAlgorithm),
    (ffi::BAD_HASH_TYPE, Error::BadHashType),
    (ffi::BAD_DATA_BLOCK_SIZE, Error::BadDataBlockSize),
    (ffi::BAD_HASH_BLOCK_SIZE, Error::BadHashBlockSize),
    (ffi::BAD_SALT_SIZE, Error::BadSaltSize),
    (ffi::BAD_HASH_OFFSET, Error::BadHashOffset),
    (ffi::NO_DATA, Error::NoData),
    (ffi::TOO_LARGE, Error::TooLarge),
    (ffi::SHORT_SUPERBLOCK, Error::ShortSuperblock),
    (ffi::BAD_SIGNATURE, Error::BadSignature),
    (ffi::BAD_VERSION, Error::BadVersion),
    (ffi::TOO_LONG, Error::TooLong),
    (ffi::TOO_SHORT, Error::TooShort),
    (ffi::WAITING, Error::Waiting),
];

impl Error {
    /// The error of a status that isn't `VERITY_OK`. What `VERITY_DIFFERS` is said of, its caller knows.
    pub(crate) fn of_status(status: i32) -> Error {
        let found = STATUSES.iter().find(|(number, _)| *number == status);
        found.map_or(Error::Status(status), |(_, error)| *error)
    }

    fn status(self) -> i32 {
        match self {
            Error::Differs { .. } | Error::OtherParams => ffi::DIFFERS,
            Error::Status(status) => status,
            other => STATUSES.iter().find(|(_, error)| *error == other).map_or(0, |(status, _)| *status),
        }
    }
}

impl fmt::Display for Error {
    fn fmt(&self, to: &mut fmt::Formatter<'_>) -> fmt::Result {
        if *self == Error::BadText {
            return to.write_str("not a root hash or file digest in hexadecimal");
        }
        let mut room = [0; ffi::MAX_TEXT_SIZE];
        let length = library::status_text(self.status(), &mut room).unwrap_or(0);
        to.write_str(room.get(..length).and_then(|text| core::str::from_utf8(text).ok()).unwrap_or(""))?;
        match self {
            Error::Differs { level } => write!(to, ", at level {level}"),
            Error::Status(status) => write!(to, " {status}"),
            _ => Ok(()),
        }
    }
}

#[cfg(feature = "std")]
impl std::error::Error for Error {}

#[cfg(feature = "std")]
impl From<Error> for std::io::Error {
    /// The kind is `InvalidData` for what only bytes that were read can have, and else `InvalidInput`. The error can be
    /// found again by `get_ref`.
    fn from(error: Error) -> std::io::Error {
        let kind = match error {
            Error::Differs { .. }
            | Error::OtherParams
            | Error::ShortSuperblock
            | Error::BadSignature
            | Error::BadVersion => std::io::ErrorKind::InvalidData,
            _ => std::io::ErrorKind::InvalidInput,
        };
        std::io::Error::new(kind, error)
    }
}
