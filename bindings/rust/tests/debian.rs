//! Images and files over random settings beside Debian's `veritysetup` and `fsverity`, which have to be there: trees,
//! root hashes, digests, and what is refused of them when one bit is another. SEED=N draws others.
#![cfg(feature = "std")]

mod support;

use std::cell::Cell;
use std::io::{self, copy, Cursor, Read, Seek, SeekFrom};
use std::panic::{catch_unwind, resume_unwind, AssertUnwindSafe};

use support::{fsverity, veritysetup, Random};
use verity::{
    CheckedReader, Digest, Error, FileDigest, FileParams, FileSettings, Params, Path, Root, Settings, Tree, TreeBuilder,
};

/// The level of `Error::Differs` that a reader's fault holds.
fn level_of(fault: &io::Error) -> Option<usize> {
    assert_eq!(fault.kind(), io::ErrorKind::InvalidData, "{fault}");
    match fault.get_ref()?.downcast_ref::<Error>()? {
        Error::Differs { level } => Some(*level),
        _ => None,
    }
}

fn path_of<'a, T: Tree>(tree: &'a T, index: u64, hashes: &[u8]) -> Path<'a, T> {
    Path::read(tree, index, |start, bytes| {
        bytes.copy_from_slice(&hashes[start as usize..][..bytes.len()]);
        Ok::<(), Error>(())
    })
    .unwrap()
}

fn flipped(random: &mut Random, bytes: &[u8]) -> Vec<u8> {
    let mut other = bytes.to_vec();
    let at = random.below(bytes.len());
    other[at] ^= 1 << random.below(8);
    other
}

/// A device of these bytes; `change` has the last word on what is read at a place.
struct Device<'a, F>(Cursor<&'a [u8]>, F);

impl<'a, F: FnMut(usize, &mut [u8]) -> io::Result<()>> Device<'a, F> {
    fn new(bytes: &'a [u8], change: F) -> Self {
        Device(Cursor::new(bytes), change)
    }
}

impl<F: FnMut(usize, &mut [u8]) -> io::Result<()>> Read for Device<'_, F> {
    fn read(&mut self, to: &mut [u8]) -> io::Result<usize> {
        let start = self.0.position() as usize;
        let count = self.0.read(to)?;
        (self.1)(start, &mut to[..count])?;
        Ok(count)
    }
}

impl<F> Seek for Device<'_, F> {
    fn seek(&mut self, to: SeekFrom) -> io::Result<u64> {
        self.0.seek(to)
    }
}

/// A device that gives each byte once as it is, and with a bit flipped from then on.
fn changing(bytes: &[u8]) -> impl Read + Seek + '_ {
    let mut given = vec![0; bytes.len()];
    Device::new(bytes, move |start, read| {
        for (byte, flip) in read.iter_mut().zip(&mut given[start..]) {
            *byte ^= *flip;
            *flip = 1;
        }
        Ok(())
    })
}

/// What holds of either kind of tree: `data` and `hashes` are what Debian's program has read and written, and `size`
/// that of the data's blocks.
struct Made<'a, T> {
    tree: &'a T,
    data: &'a [u8],
    hashes: &'a [u8],
    root: Root,
    size: usize,
    hash_block_size: usize,
    levels: usize,
}

impl<T: Tree + Clone> Made<'_, T> {
    fn count(&self) -> u64 {
        (self.data.len() as u64 + self.size as u64 - 1) / self.size as u64
    }

    /// A block's bytes, and the zeros that fill it.
    fn whole(&self, index: u64) -> Vec<u8> {
        let mut bytes = self.data(index).to_vec();
        bytes.resize(self.size, 0);
        bytes
    }

    fn data(&self, index: u64) -> &[u8] {
        let rest = &self.data[index as usize * self.size..];
        &rest[..rest.len().min(self.size)]
    }

    fn reader<'b>(&self, data: &'b [u8], hashes: &'b [u8]) -> CheckedReader<T, Cursor<&'b [u8]>, Cursor<&'b [u8]>> {
        CheckedReader::new(self.tree.clone(), self.root, Cursor::new(data), Cursor::new(hashes)).unwrap()
    }

    fn paths(&self, random: &mut Random) {
        let other_root = Root::new(&flipped(random, self.root.as_bytes())).unwrap();
        let count = self.count();
        for index in [0, count / 2, count - 1, random.below(count as usize) as u64] {
            let (whole, path) = (self.whole(index), path_of(self.tree, index, self.hashes));
            let block = path.check(&self.root, &whole).unwrap();
            assert_eq!((block.index(), block.as_bytes()), (index, self.data(index)));
            assert_eq!(&block[..], self.data(index));
            let wrong = flipped(random, &whole);
            assert_eq!(path.check(&self.root, &wrong), Err(Error::Differs { level: 0 }));
            assert_eq!(path.check(&other_root, &whole), Err(Error::Differs { level: self.levels }));
            assert_eq!(path.check(&self.root, &whole[1..]), Err(Error::BadLength));
            assert_eq!(path.check(&self.root, &[]), Err(Error::BadLength));
            for length in [20, 28, 32, 48, 64] {
                if length != self.root.as_bytes().len() {
                    let root = Root::new(&vec![0; length]).unwrap();
                    assert_eq!(path.check(&root, &whole), Err(Error::BadRootLength));
                }
            }
            for level in 0..self.levels {
                let mut bytes = Vec::new();
                let _ = Path::read(self.tree, index, |start, block| {
                    block.copy_from_slice(&self.hashes[start as usize..][..block.len()]);
                    bytes.extend_from_slice(block);
                    Ok::<(), Error>(())
                });
                bytes[level * self.hash_block_size + random.below(self.hash_block_size)] ^= 1;
                let changed = Path::new(self.tree, index, bytes).unwrap();
                match changed.check(&self.root, &whole) {
                    Err(Error::Differs { level: found }) => assert!(found == level || found == level + 1),
                    other => panic!("{other:?}"),
                }
            }
        }
        let length = self.levels * self.hash_block_size;
        assert!(Path::new(self.tree, 0, vec![0; length]).is_ok());
        assert!(matches!(Path::new(self.tree, 0, vec![0; length + 1]), Err(Error::BadLength)));
        for index in [count, count + 1, u64::MAX] {
            assert!(matches!(Path::new(self.tree, index, vec![0; length]), Err(Error::NoSuchBlock)));
            let read = Path::read(self.tree, index, |_, _| Ok::<(), Error>(()));
            assert!(matches!(read, Err(Error::NoSuchBlock)));
        }
    }

    fn readers(&self, random: &mut Random) {
        let count = self.count();
        let mut all = Vec::new();
        let mut reader = self.reader(self.data, self.hashes);
        assert_eq!((reader.tree().data_size(), reader.tree().data_blocks()), (self.data.len() as u64, count));
        reader.read_to_end(&mut all).unwrap();
        assert!(all == self.data);
        assert_eq!(*reader.into_inner().0.get_ref(), self.data);

        // From anywhere, and block by block in any order.
        let mut reader = self.reader(self.data, self.hashes);
        for _ in 0..20 {
            let at = random.below(self.data.len() + 1);
            let mut some = vec![0; random.below(3 * self.size).min(self.data.len() - at)];
            let to = match random.below(3) {
                0 => SeekFrom::Start(at as u64),
                1 => SeekFrom::End(at as i64 - self.data.len() as i64),
                _ => SeekFrom::Current(at as i64 - reader.stream_position().unwrap() as i64),
            };
            assert_eq!(reader.seek(to).unwrap(), at as u64);
            reader.read_exact(&mut some).unwrap();
            assert!(some == self.data[at..][..some.len()]);
            let index = random.below(count as usize) as u64;
            assert!(reader.block(index).unwrap().as_bytes() == self.data(index));
        }
        assert!(reader.seek(SeekFrom::End(-1 - self.data.len() as i64)).is_err());
        assert_eq!(reader.seek(SeekFrom::End(1)).unwrap(), self.data.len() as u64 + 1);
        assert_eq!(reader.read(&mut [0]).unwrap(), 0);
        assert_eq!(reader.block(count).unwrap_err().kind(), io::ErrorKind::InvalidInput);

        // A changed bit of the data: that block alone, each time it is asked for, and what was accepted before it is
        // right after it.
        let wrong = flipped(random, self.data);
        let changed = (0..wrong.len()).find(|at| wrong[*at] != self.data[*at]).unwrap() / self.size;
        let level = if self.levels == 0 { self.levels } else { 0 };
        let mut reader = self.reader(&wrong, self.hashes);
        for index in [changed as u64, count - 1, changed as u64, count - 1, 0, changed as u64, 0] {
            match reader.block(index) {
                Ok(block) => assert!(index != changed as u64 && block.as_bytes() == self.data(index)),
                Err(fault) => assert_eq!((index, level_of(&fault)), (changed as u64, Some(level))),
            }
        }
        let mut before = Vec::new();
        let fault = self.reader(&wrong, self.hashes).read_to_end(&mut before).unwrap_err();
        assert_eq!(level_of(&fault), Some(level));
        assert!(before == self.data[..changed * self.size]);

        // A changed bit of a hash block: the data blocks below it, and no others.
        let index = random.below(count as usize) as u64;
        for level in 0..self.levels {
            let mut starts = Vec::new();
            let _ = Path::read(self.tree, index, |start, _| {
                starts.push(start);
                Ok::<(), Error>(())
            });
            let mut hashes = self.hashes.to_vec();
            hashes[starts[level] as usize + random.below(self.hash_block_size)] ^= 0x80;
            let mut reader = self.reader(self.data, &hashes);
            for _ in 0..2 {
                assert_eq!(level_of(&reader.block(index).unwrap_err()), Some(level + 1));
            }
            for other in [0, count - 1] {
                let mut is_below = false;
                let _ = Path::read(self.tree, other, |start, _| {
                    is_below |= start == starts[level];
                    Ok::<(), Error>(())
                });
                assert_eq!(reader.block(other).is_err(), is_below);
            }
        }

        // Another root hash, and devices that end too soon.
        let root = Root::new(&flipped(random, self.root.as_bytes())).unwrap();
        let reader = CheckedReader::new(self.tree.clone(), root, Cursor::new(self.data), Cursor::new(self.hashes));
        assert_eq!(level_of(&reader.unwrap().block(0).unwrap_err()), Some(self.levels));
        let mut reader = self.reader(&self.data[..self.data.len() - 1], self.hashes);
        assert_eq!(reader.block(count - 1).unwrap_err().kind(), io::ErrorKind::UnexpectedEof);
        if self.levels > 0 {
            let mut reader = self.reader(self.data, &[]);
            assert_eq!(reader.block(0).unwrap_err().kind(), io::ErrorKind::UnexpectedEof);
        }
        for length in [20, 28, 32, 48, 64] {
            let root = Root::new(&vec![0; length]).unwrap();
            let reader = CheckedReader::new(self.tree.clone(), root, io::empty(), io::empty());
            assert_eq!(reader.err(), Some(Error::BadRootLength).filter(|_| length != self.root.as_bytes().len()));
        }
    }

    /// Devices that give something else each time, or fail: what is handed out is the data.
    fn devices(&self, random: &mut Random) {
        // In order each block is read once, so that all are right.
        let count = self.count();
        let (data, hashes) = (changing(self.data), changing(self.hashes));
        let mut reader = CheckedReader::new(self.tree.clone(), self.root, data, hashes).unwrap();
        for index in 0..count {
            assert!(reader.block(index).unwrap().as_bytes() == self.data(index));
        }
        // The last one was accepted, and the others are read again.
        assert!(reader.block(count - 1).unwrap().as_bytes() == self.data(count - 1));
        for _ in 0..count.min(5) {
            let index = random.below(count as usize) as u64;
            if index < count - 1 {
                assert_eq!(reader.block(index).unwrap_err().kind(), io::ErrorKind::InvalidData);
            }
        }

        // A device that fails or panics when other bytes were read. A reader goes on with what it has accepted.
        for panics in [false, true] {
            let is_broken = Cell::new(false);
            let data = Device::new(self.data, |_, read| {
                if !is_broken.get() {
                    return Ok(());
                }
                read.iter_mut().for_each(|byte| *byte ^= 1);
                if panics {
                    resume_unwind(Box::new("the device"));
                }
                Err(io::ErrorKind::TimedOut.into())
            });
            let mut reader = CheckedReader::new(self.tree.clone(), self.root, data, Cursor::new(self.hashes)).unwrap();
            for index in 1..count.min(3) {
                assert!(reader.block(0).unwrap().as_bytes() == self.data(0));
                is_broken.set(true);
                match catch_unwind(AssertUnwindSafe(|| reader.block(index).unwrap_err().kind())) {
                    Ok(kind) => assert!(!panics && kind == io::ErrorKind::TimedOut),
                    Err(what) => assert!(panics && what.is::<&str>()),
                }
                is_broken.set(false);
                assert!(reader.block(0).unwrap().as_bytes() == self.data(0));
            }
        }
    }
}

/// Feeds data in random pieces. Now and then a hash block isn't taken, and comes again.
fn builds(random: &mut Random, params: &Params, data: &[u8], device: &mut [u8]) -> Root {
    let mut builder = TreeBuilder::new(params).unwrap();
    let longest = 1 + random.below(10 * params.settings().data_block_size as usize);
    let fails = random.below(2) == 0;
    let (mut handed, mut failed) = (Vec::new(), None);
    loop {
        let at = builder.fed() as usize;
        let length = random.below(longest + 1).min(data.len() - at);
        let mut is_first = failed.is_some();
        let fed = builder.update(&data[at..][..length], |block| {
            let place = (block.level(), block.index(), block.start());
            if is_first {
                assert_eq!(Some(place), failed, "the hash block that wasn't taken comes first");
                is_first = false;
            } else {
                assert!(!handed.contains(&place));
            }
            failed = Some(place);
            if fails && random.below(3) == 0 {
                return Err(io::Error::from(io::ErrorKind::WriteZero));
            }
            failed = None;
            handed.push(place);
            device[block.start() as usize..][..block.len()].copy_from_slice(&block);
            Ok(())
        });
        match fed {
            Ok(()) if builder.fed() == data.len() as u64 => break,
            Ok(()) => {
                assert_eq!(builder.fed(), (at + length) as u64);
                assert_eq!(builder.root(), Err(Error::TooShort));
            }
            Err(fault) => {
                assert_eq!(fault.kind(), io::ErrorKind::WriteZero);
                assert_eq!(builder.root(), Err(Error::Waiting));
            }
        }
    }
    assert!(builder.update(&[0], |_| Err(Error::NoData)) == Err(Error::TooLong));
    let root = builder.root().unwrap();
    assert_eq!(builder.root(), Ok(root));
    assert_eq!(builder.clone().root(), Ok(root));
    root
}

#[test]
fn images() {
    let mut random = Random::of_seed();
    for _ in 0..support::count(24) {
        let salt = random.some(&[0, 1, 32, 256, 77]);
        let sizes = [512, 1024, 2048, 4096];
        let (data_block_size, hash_block_size) = (sizes[random.below(4)], sizes[random.below(4)]);
        let has_superblock = random.below(3) > 0;
        let data_blocks = [1, 2, 16, 17, 128, 129, 257, 1 + random.below(700) as u64][random.below(8)];
        let settings = Settings {
            algorithm: ["sha256", "sha512", "sha1", "sha224", "sha384"][random.below(5)].parse().unwrap(),
            hash_type: random.below(2) as u32,
            data_block_size,
            hash_block_size,
            data_blocks,
            // veritysetup takes no other places for each of these.
            hash_offset: 4096 * random.below(3) as u64,
            has_superblock,
            salt: &salt,
            uuid: if has_superblock { random.bytes(16).try_into().unwrap() } else { [0; 16] },
        };
        let data = random.bytes((data_blocks * u64::from(data_block_size)) as usize);
        let (root, hashes) = veritysetup(&settings, &data);
        let params = Params::new(&settings).unwrap();
        assert_eq!(params.settings(), settings);

        let (start, end) = (settings.hash_offset as usize, params.hash_area_end() as usize);
        let mut device = vec![0; end];
        assert_eq!(params.superblock().is_some(), has_superblock);
        if let Some(superblock) = params.superblock() {
            device[start..][..512].copy_from_slice(&superblock);
            assert!(superblock[..] == hashes[start..][..512]);
            let read = Params::from_trusted_superblock(&superblock, settings.hash_offset).unwrap();
            assert_eq!(read, params);
            assert_eq!(Params::from_superblock(&superblock, settings.hash_offset, &params), Ok(read));
            let others = [
                Settings { data_blocks: data_blocks + 1, ..settings },
                Settings { data_block_size: 8192, ..settings },
                Settings { hash_block_size: 8192, hash_offset: 0, ..settings },
                Settings { hash_type: 1 - settings.hash_type, ..settings },
                Settings { salt: b"another", ..settings },
            ];
            for other in others {
                let trusted = Params::new(&other).unwrap();
                assert!(!params.are_same(&trusted));
                let read = Params::from_superblock(&superblock, settings.hash_offset, &trusted);
                assert_eq!(read, Err(Error::OtherParams));
            }
            let elsewhere = Params::new(&Settings { hash_offset: 1 << 20, uuid: [1; 16], ..settings }).unwrap();
            assert!(params.are_same(&elsewhere) && params != elsewhere);
        }

        assert_eq!(builds(&mut random, &params, &data, &mut device).to_string(), root);
        // A single data block has no hash block: then the device may end before.
        assert!(device[..hashes.len().min(end)] == hashes[..hashes.len().min(end)]);
        assert!(params.levels() == 0 || hashes.len() >= end);

        let made = Made {
            tree: &params,
            data: &data,
            hashes: &hashes,
            root: root.parse().unwrap(),
            size: data_block_size as usize,
            hash_block_size: hash_block_size as usize,
            levels: params.levels(),
        };
        made.paths(&mut random);
        made.readers(&mut random);
        made.devices(&mut random);
    }
}

#[test]
fn files() {
    let mut random = Random::of_seed();
    for _ in 0..support::count(24) {
        let salt = random.some(&[0, 1, 16, 32]);
        let block_size = [1024, 2048, 4096][random.below(3)];
        let settings =
            FileSettings { algorithm: ["sha256", "sha512"][random.below(2)].parse().unwrap(), block_size, salt: &salt };
        let size = [0, 1, 1023, 4096, 4097, 524288, 524289, random.below(1 << 20)][random.below(8)];
        let data = random.bytes(size);
        let half = random.below(size + 1);
        let (digest, tree) = fsverity(&settings, &data);
        let (half_digest, _) = fsverity(&settings, &data[..half]);

        // In pieces, with a digest in between, and with a clone that goes on by itself.
        let mut file = FileDigest::new(&settings).unwrap();
        let longest = 1 + random.below(100_000);
        for part in [&data[..half], &data[half..]] {
            let mut rest = part;
            while !rest.is_empty() {
                let (piece, after) = rest.split_at(random.below(longest + 1).min(rest.len()));
                file.update(piece).unwrap();
                rest = after;
            }
            let expected = if file.size() == size as u64 { &digest } else { &half_digest };
            assert_eq!(&file.digest().unwrap().to_string(), expected);
            assert_eq!(&file.digest().unwrap().to_string(), expected);
            assert_eq!(file.digest(), expected.parse::<Digest>());
            let mut other = file.clone();
            other.update(b"more").unwrap();
            assert_ne!(&other.digest().unwrap().to_string(), expected);
        }
        assert_eq!(file.size(), size as u64);
        let mut copied = FileDigest::new(&settings).unwrap();
        assert_eq!(copy(&mut &data[..], &mut copied).unwrap(), size as u64);
        assert_eq!(copied.digest().unwrap().to_string(), digest);

        let root = file.root().unwrap();
        assert_eq!(copied.root(), Ok(root));
        if size == 0 {
            assert!(root.as_bytes().iter().all(|byte| *byte == 0));
            assert_eq!(FileParams::new(&settings, 0), Err(Error::NoData));
            continue;
        }
        let params = FileParams::new(&settings, size as u64).unwrap();
        assert_eq!((params.settings(), params.size()), (settings, size as u64));
        assert_eq!(params.digest(&root).unwrap().to_string(), digest);
        assert_eq!(params.tree_size(), tree.len() as u64);
        let made = Made {
            tree: &params,
            data: &data,
            hashes: &tree,
            root,
            size: block_size as usize,
            hash_block_size: block_size as usize,
            levels: params.levels(),
        };
        made.paths(&mut random);
        made.readers(&mut random);
        made.devices(&mut random);
    }
}

/// In order each hash block is read once, of more than a reader keeps; in any order none is taken for another.
#[test]
fn kept() {
    let settings = Settings { data_block_size: 512, hash_block_size: 512, data_blocks: 2000, ..Settings::default() };
    let mut random = Random::of_seed();
    let data = random.bytes(512 * 2000);
    let (root, hashes) = veritysetup(&settings, &data);
    let params = Params::new(&settings).unwrap();
    let reads = Cell::new(0);
    let device = Device::new(&hashes, |_, _| {
        reads.set(reads.get() + 1);
        Ok(())
    });
    let mut reader = CheckedReader::new(params, root.parse().unwrap(), Cursor::new(&data), device).unwrap();
    let mut all = Vec::new();
    reader.read_to_end(&mut all).unwrap();
    assert!(all == data);
    // 16 digests in each: 125 hash blocks, 8 above them, and one above these.
    assert_eq!(reads.get(), 134);
    assert!(reader.block(1999).is_ok() && reader.block(1984).is_ok());
    assert_eq!(reads.get(), 134);
    for _ in 0..1000 {
        let index = random.below(2000);
        assert!(reader.block(index as u64).unwrap().as_bytes() == &data[512 * index..][..512]);
    }
    assert!(reads.get() > 134);
}
