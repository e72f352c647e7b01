use core::{fmt, str};

use crate::algorithm::Algorithm;
use crate::error::Error;
use crate::ffi::MAX_DIGEST_SIZE;

/// As many bytes as a digest of the hash function has; zeros after them.
#[derive(Clone, Copy, PartialEq, Eq, PartialOrd, Ord, Hash)]
struct Hash {
    algorithm: Algorithm,
    length: usize,
    bytes: [u8; MAX_DIGEST_SIZE],
}

impl Hash {
    fn zeros(algorithm: Algorithm) -> Hash {
        Hash { algorithm, length: algorithm.digest_length(), bytes: [0; MAX_DIGEST_SIZE] }
    }

    fn of_bytes(bytes: &[u8]) -> Option<Hash> {
        let mut hash = Hash::zeros(Algorithm::of_digest_length(bytes.len())?);
        hash.as_mut().copy_from_slice(bytes);
        Some(hash)
    }

    fn of_hex(text: &str) -> Option<Hash> {
        let digits = text.as_bytes();
        let mut hash = Hash::zeros(Algorithm::of_digest_length(digits.len() / 2)?);
        if digits.len() % 2 != 0 {
            return None;
        }
        for (byte, pair) in hash.as_mut().iter_mut().zip(digits.chunks_exact(2)) {
            let high = char::from(pair[0]).to_digit(16)?;
            *byte = (high * 16 + char::from(pair[1]).to_digit(16)?) as u8;
        }
        Some(hash)
    }

    fn as_mut(&mut self) -> &mut [u8] {
        &mut self.bytes[..self.length]
    }

    fn as_ref(&self) -> &[u8] {
        &self.bytes[..self.length]
    }
}

impl fmt::Display for Hash {
    fn fmt(&self, to: &mut fmt::Formatter<'_>) -> fmt::Result {
        self.as_ref().iter().try_for_each(|byte| write!(to, "{byte:02x}"))
    }
}

/// A root hash. It is shown and read as hexadecimal digits.
#[derive(Clone, Copy, PartialEq, Eq, PartialOrd, Ord, Hash)]
pub struct Root(Hash);

/// An fs-verity file digest. It is shown and read as `fsverity digest` writes it, as `sha256:` and hexadecimal digits.
#[derive(Clone, Copy, PartialEq, Eq, PartialOrd, Ord, Hash)]
pub struct Digest(Hash);

impl Root {
    /// Takes bytes as long as the digests of one of the hash functions; others are [`Error::BadRootLength`].
    pub fn new(bytes: &[u8]) -> Result<Root, Error> {
        Hash::of_bytes(bytes).map(Root).ok_or(Error::BadRootLength)
    }
}

impl Digest {
    /// Takes bytes as long as the digests of this hash function; others are [`Error::BadLength`].
    pub fn new(algorithm: Algorithm, bytes: &[u8]) -> Result<Digest, Error> {
        let hash = Hash::of_bytes(bytes).filter(|hash| hash.algorithm == algorithm);
        hash.map(Digest).ok_or(Error::BadLength)
    }
}

/// What both have.
macro_rules! has_bytes {
    ($name:ident) => {
        impl $name {
            pub(crate) fn zeros(algorithm: Algorithm) -> $name {
                $name(Hash::zeros(algorithm))
            }

            pub(crate) fn as_mut(&mut self) -> &mut [u8] {
                self.0.as_mut()
            }

            /// The hash function whose digests are so long.
            pub fn algorithm(&self) -> Algorithm {
                self.0.algorithm
            }

            /// Its bytes.
            pub fn as_bytes(&self) -> &[u8] {
                self.0.as_ref()
            }
        }

        impl AsRef<[u8]> for $name {
            fn as_ref(&self) -> &[u8] {
                self.as_bytes()
            }
        }

        impl fmt::Debug for $name {
            fn fmt(&self, to: &mut fmt::Formatter<'_>) -> fmt::Result {
                write!(to, "{}({self})", stringify!($name))
            }
        }
    };
}

has_bytes!(Root);
has_bytes!(Digest);

impl fmt::Display for Root {
    fn fmt(&self, to: &mut fmt::Formatter<'_>) -> fmt::Result {
        self.0.fmt(to)
    }
}

impl fmt::Display for Digest {
    fn fmt(&self, to: &mut fmt::Formatter<'_>) -> fmt::Result {
        write!(to, "{}:{}", self.0.algorithm, self.0)
    }
}

impl str::FromStr for Root {
    type Err = Error;

    fn from_str(text: &str) -> Result<Root, Error> {
        Hash::of_hex(text).map(Root).ok_or(Error::BadText)
    }
}

impl str::FromStr for Digest {
    type Err = Error;

    fn from_str(text: &str) -> Result<Digest, Error> {
        let (name, digits) = text.split_once(':').ok_or(Error::BadText)?;
        let hash = Hash::of_hex(digits).filter(|hash| name.parse() == Ok(hash.algorithm));
        hash.map(Digest).ok_or(Error::BadText)
    }
}
