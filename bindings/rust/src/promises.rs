//! What the types promise: of each pair the first compiles, and the second differs from it in one line and doesn't.
//! tests/bindings/rust.sh sees that it fails with just the error that is named.

/// Bytes that weren't checked aren't accepted where a block is asked for.
///
/// ```
/// use verity::{Block, Error, Params, Path, Root};
/// fn boot(_: Block<'_>) {}
/// fn run(path: &Path<'_, Params>, root: &Root, bytes: &[u8]) -> Result<(), Error> {
///     boot(path.check(root, bytes)?);
///     Ok(())
/// }
/// ```
///
/// ```compile_fail,E0308
/// use verity::{Block, Error, Params, Path, Root};
/// fn boot(_: Block<'_>) {}
/// fn run(path: &Path<'_, Params>, root: &Root, bytes: &[u8]) -> Result<(), Error> {
///     boot(bytes);
///     Ok(())
/// }
/// ```
struct Unchecked;

/// Nobody but a check makes a block.
///
/// ```
/// use verity::Block;
/// fn again<'a>(block: Block<'a>, bytes: &'a [u8]) -> Block<'a> {
///     block
/// }
/// ```
///
/// ```compile_fail,E0451
/// use verity::Block;
/// fn again<'a>(block: Block<'a>, bytes: &'a [u8]) -> Block<'a> {
///     Block { bytes, ..block }
/// }
/// ```
struct Forged;

/// While a block is there, its bytes stay as they were checked.
///
/// ```
/// use verity::{Error, Params, Path, Root};
/// fn run(path: &Path<'_, Params>, root: &Root, bytes: &mut [u8]) -> Result<u8, Error> {
///     let block = path.check(root, bytes)?;
///     let first = block[0];
///     bytes[0] = 0;
///     Ok(first)
/// }
/// ```
///
/// ```compile_fail,E0506
/// use verity::{Error, Params, Path, Root};
/// fn run(path: &Path<'_, Params>, root: &Root, bytes: &mut [u8]) -> Result<u8, Error> {
///     let block = path.check(root, bytes)?;
///     bytes[0] = 0;
///     let first = block[0];
///     Ok(first)
/// }
/// ```
struct Changed;

/// A block of a reader is gone when the next one is read.
///
/// ```
/// use std::{fs::File, io};
/// use verity::{CheckedReader, Params};
/// fn run(reader: &mut CheckedReader<Params, File, File>) -> io::Result<u8> {
///     let first = reader.block(0)?[0];
///     let second = reader.block(1)?;
///     Ok(first ^ second[0])
/// }
/// ```
///
/// ```compile_fail,E0499
/// use std::{fs::File, io};
/// use verity::{CheckedReader, Params};
/// fn run(reader: &mut CheckedReader<Params, File, File>) -> io::Result<u8> {
///     let first = reader.block(0)?;
///     let second = reader.block(1)?;
///     Ok(first[0] ^ second[0])
/// }
/// ```
#[cfg(feature = "std")]
struct Overwritten;

/// Settings that weren't checked aren't parameters.
///
/// ```
/// use verity::{Error, Params, Settings, TreeBuilder};
/// fn run(settings: &Settings<'_>) -> Result<TreeBuilder, Error> {
///     TreeBuilder::new(&Params::new(settings)?)
/// }
/// ```
///
/// ```compile_fail,E0308
/// use verity::{Error, Params, Settings, TreeBuilder};
/// fn run(settings: &Settings<'_>) -> Result<TreeBuilder, Error> {
///     TreeBuilder::new(settings)
/// }
/// ```
struct UncheckedSettings;

/// A superblock is compared with trusted parameters, or named trusted.
///
/// ```
/// use verity::{Error, Params};
/// fn run(superblock: &[u8], trusted: &Params) -> Result<Params, Error> {
///     Params::from_superblock(superblock, 0, trusted)
/// }
/// ```
///
/// ```compile_fail,E0061
/// use verity::{Error, Params};
/// fn run(superblock: &[u8], trusted: &Params) -> Result<Params, Error> {
///     Params::from_superblock(superblock, 0)
/// }
/// ```
struct Uncompared;

/// Bytes of any length aren't a root hash, and neither is a file digest.
///
/// ```
/// use verity::{Error, FileDigest, FileParams, Digest};
/// fn run(params: &FileParams, file: &mut FileDigest) -> Result<Digest, Error> {
///     params.digest(&file.root()?)
/// }
/// ```
///
/// ```compile_fail,E0308
/// use verity::{Error, FileDigest, FileParams, Digest};
/// fn run(params: &FileParams, file: &mut FileDigest) -> Result<Digest, Error> {
///     params.digest(&file.digest()?)
/// }
/// ```
struct Confused;

/// A hash block that is handed out can't be kept past the call: its bytes can.
///
/// ```
/// use verity::{Error, TreeBuilder};
/// fn run(builder: &mut TreeBuilder) -> Result<Vec<Vec<u8>>, Error> {
///     let mut kept = Vec::new();
///     builder.update(&[], |block| Ok::<(), Error>(kept.push(block.to_vec())))?;
///     Ok(kept)
/// }
/// ```
///
/// ```compile_fail,E0521
/// use verity::{Error, TreeBuilder};
/// fn run(builder: &mut TreeBuilder) -> Result<Vec<Vec<u8>>, Error> {
///     let mut kept = Vec::new();
///     builder.update(&[], |block| Ok::<(), Error>(kept.push(block)))?;
///     Ok(Vec::new())
/// }
/// ```
struct Kept;

/// What a tree says to paths and readers isn't said outside.
///
/// ```
/// use verity::Tree;
/// fn run(tree: &impl Tree) -> u64 {
///     tree.data_blocks()
/// }
/// ```
///
/// ```compile_fail,E0616
/// use verity::Tree;
/// fn run(tree: &impl Tree) -> usize {
///     tree.shape().levels
/// }
/// ```
struct Unsealed;

/// The library isn't called around the types.
///
/// ```
/// use verity::FileDigest;
/// ```
///
/// ```compile_fail,E0603
/// use verity::ffi;
/// ```
struct Around;
