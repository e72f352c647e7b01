//! Each error, by a case that has just this one; texts; and what the types are.

use std::collections::{BTreeSet, HashSet};
use std::panic::{catch_unwind, AssertUnwindSafe};

use verity::{
    Algorithm, Block, Digest, Error, FileDigest, FileParams, FileSettings, HashBlock, Params, Path, Root, Settings,
    Tree, TreeBuilder,
};

fn usual() -> Settings<'static> {
    Settings { data_blocks: 300, ..Settings::default() }
}

#[test]
fn parameters() {
    let salt = [7; 257];
    let refused = [
        (Settings { hash_type: 2, ..usual() }, Error::BadHashType),
        (Settings { data_block_size: 1000, ..usual() }, Error::BadDataBlockSize),
        (Settings { data_block_size: 1 << 20, ..usual() }, Error::BadDataBlockSize),
        (Settings { hash_block_size: 256, ..usual() }, Error::BadHashBlockSize),
        (Settings { salt: &salt, ..usual() }, Error::BadSaltSize),
        (Settings { hash_offset: 1, ..usual() }, Error::BadHashOffset),
        (Settings { hash_offset: 512, has_superblock: false, ..usual() }, Error::BadHashOffset),
        (Settings { data_blocks: 0, ..usual() }, Error::NoData),
        (Settings { data_blocks: u64::MAX, ..usual() }, Error::TooLarge),
        (Settings { data_blocks: 1 << 51, ..usual() }, Error::TooLarge),
    ];
    for (settings, error) in refused {
        assert_eq!(Params::new(&settings), Err(error), "{settings:?}");
    }
    for settings in [
        Settings { salt: &salt[..256], ..usual() },
        Settings { hash_offset: 512, ..usual() },
        Settings { data_blocks: (1 << 51) - (1 << 45), ..usual() },
    ] {
        assert_eq!(Params::new(&settings).unwrap().settings(), settings);
    }
    let file = FileSettings::default();
    for (settings, error) in [
        (FileSettings { algorithm: Algorithm::Sha1, ..file }, Error::BadHashAlgorithm),
        (FileSettings { block_size: 63, ..file }, Error::BadDataBlockSize),
        (FileSettings { salt: &salt[..33], ..file }, Error::BadSaltSize),
    ] {
        assert_eq!(FileParams::new(&settings, 1), Err(error));
        assert_eq!(FileDigest::new(&settings).err(), Some(error));
    }
    assert_eq!(FileParams::new(&file, 0), Err(Error::NoData));
    assert_eq!(FileParams::new(&file, 1 << 63), Err(Error::TooLarge));
    assert_eq!(FileParams::new(&file, 1).unwrap().levels(), 0);
    assert_eq!(FileParams::new(&file, 4097).unwrap().levels(), 1);
}

#[test]
fn superblocks() {
    let params = Params::new(&usual()).unwrap();
    let right = params.superblock().unwrap();
    let read = |change: &dyn Fn(&mut [u8; 512])| {
        let mut bytes = right;
        change(&mut bytes);
        Params::from_trusted_superblock(&bytes, 0)
    };
    assert_eq!(read(&|_| ()), Ok(params.clone()));
    // The places of fields are those of the format: signature 0, version 8, hash type 12, algorithm 32, sizes 64 and
    // 68, data blocks 72, salt size 80.
    assert_eq!(read(&|bytes| bytes[0] ^= 1), Err(Error::BadSignature));
    assert_eq!(read(&|bytes| bytes[8] = 2), Err(Error::BadVersion));
    assert_eq!(read(&|bytes| bytes[12] = 2), Err(Error::BadHashType));
    assert_eq!(read(&|bytes| bytes[32] = b'x'), Err(Error::BadHashAlgorithm));
    assert_eq!(read(&|bytes| bytes[64] = 1), Err(Error::BadDataBlockSize));
    assert_eq!(read(&|bytes| bytes[68] = 1), Err(Error::BadHashBlockSize));
    assert_eq!(read(&|bytes| bytes[72..80].fill(0)), Err(Error::NoData));
    assert_eq!(read(&|bytes| bytes[72..80].fill(255)), Err(Error::TooLarge));
    assert_eq!(read(&|bytes| bytes[80..82].fill(255)), Err(Error::BadSaltSize));
    assert_eq!(Params::from_trusted_superblock(&right[..511], 0), Err(Error::ShortSuperblock));
    assert_eq!(Params::from_trusted_superblock(&right, 1), Err(Error::BadHashOffset));
    assert_eq!(Params::from_superblock(&[], 0, &params), Err(Error::ShortSuperblock));
    let other = Params::new(&Settings { data_blocks: 301, ..usual() }).unwrap();
    assert_eq!(Params::from_superblock(&right, 0, &other), Err(Error::OtherParams));
}

#[test]
fn texts() {
    // The only text that verity.h states.
    assert_eq!(Error::NoSuchBlock.to_string(), "no such data block");
    let all = [
        Error::OtherParams,
        Error::NoSuchBlock,
        Error::NoSuchLevel,
        Error::BadLength,
        Error::BadRootLength,
        Error::BadHashAlgorithm,
        Error::BadHashType,
        Error::BadDataBlockSize,
        Error::BadHashBlockSize,
        Error::BadSaltSize,
        Error::BadHashOffset,
        Error::NoData,
        Error::TooLarge,
        Error::ShortSuperblock,
        Error::BadSignature,
        Error::BadVersion,
        Error::TooLong,
        Error::TooShort,
        Error::Waiting,
        Error::BadText,
        Error::Differs { level: 1 },
        Error::Differs { level: 2 },
        Error::Status(-99),
    ];
    let mut texts: Vec<String> = all.iter().map(Error::to_string).collect();
    assert_eq!(texts[texts.len() - 1], "unknown status -99");
    assert!(texts[texts.len() - 2].ends_with(", at level 2"));
    texts.sort();
    texts.dedup();
    assert_eq!(texts.len(), all.len());
    assert!(texts.iter().all(|text| text.len() > 5));
}

#[test]
fn hashes() {
    for (name, length) in [("sha256", 32), ("sha512", 64), ("sha1", 20), ("sha224", 28), ("sha384", 48)] {
        let algorithm: Algorithm = name.parse().unwrap();
        assert_eq!((algorithm.to_string(), algorithm.digest_length()), (name.into(), length));
        let bytes: Vec<u8> = (0..length).map(|byte| (byte as u8).wrapping_mul(37) + 1).collect();
        let text: String = bytes.iter().map(|byte| format!("{byte:02x}")).collect();
        let root = Root::new(&bytes).unwrap();
        assert_eq!((root.as_bytes(), root.to_string()), (&bytes[..], text.clone()));
        assert_eq!((text.parse(), text.to_uppercase().parse()), (Ok(root), Ok(root)));
        assert_eq!((root.as_ref(), root.algorithm()), (&bytes[..], algorithm));
        let digest: Digest = format!("{name}:{text}").parse().unwrap();
        assert_eq!((digest.as_ref(), digest.algorithm()), (&bytes[..], algorithm));
        assert_eq!(Digest::new(algorithm, &bytes), Ok(digest));
        assert_eq!(Digest::new(algorithm, &bytes[1..]), Err(Error::BadLength));
        let mut last = bytes.clone();
        last[length - 1] ^= 1;
        let last = Root::new(&last).unwrap();
        assert_eq!([root, last, root].into_iter().collect::<HashSet<Root>>().len(), 2);
        assert_eq!([digest, digest].into_iter().collect::<BTreeSet<Digest>>().len(), 1);
        assert_eq!((digest.as_bytes(), digest.to_string()), (&bytes[..], format!("{name}:{text}")));
        let other = if name == "sha1" { "sha256" } else { "sha1" };
        assert_eq!(Digest::new(other.parse().unwrap(), &bytes), Err(Error::BadLength));
        for wrong in [format!("{other}:{text}"), text.clone(), format!("{name}:{text}0"), format!("{name}:")] {
            assert_eq!(wrong.parse::<Digest>(), Err(Error::BadText));
        }
        for wrong in [&text[1..], &text[2..], &text.replace('1', "g"), &text.replace("01", "+1"), ""] {
            assert_eq!(wrong.parse::<Root>(), Err(Error::BadText), "{wrong}");
        }
    }
    for length in [0, 1, 31, 33, 65, 1000] {
        assert_eq!(Root::new(&vec![0; length]), Err(Error::BadRootLength));
    }
    assert_eq!("md5".parse::<Algorithm>(), Err(Error::BadHashAlgorithm));
    assert_eq!("".parse::<Algorithm>(), Err(Error::BadHashAlgorithm));
}

/// A hash block whose taking panics comes again, too.
#[test]
fn panics() {
    let params = Params::new(&Settings { data_blocks: 129, ..Settings::default() }).unwrap();
    let mut builder = TreeBuilder::new(&params).unwrap();
    let data = vec![5; 129 * 4096];
    let stopped = catch_unwind(AssertUnwindSafe(|| builder.update(&data, |_| -> Result<(), Error> { panic!() })));
    assert!(stopped.is_err());
    assert_eq!(builder.root(), Err(Error::Waiting));
    let mut places = Vec::new();
    let rest = &data[builder.fed() as usize..];
    builder
        .update(rest, |block| {
            places.push((block.level(), block.index()));
            Ok::<(), Error>(())
        })
        .unwrap();
    assert_eq!(places, [(0, 0), (0, 1), (1, 0)]);

    let mut whole = TreeBuilder::new(&params).unwrap();
    whole.update(&data, |_| Ok::<(), Error>(())).unwrap();
    assert_eq!(builder.root().unwrap(), whole.root().unwrap());
}

/// What only bytes that were read can have has a kind of its own.
#[cfg(feature = "std")]
#[test]
fn kinds() {
    use std::io::{self, ErrorKind};
    for error in [
        Error::Differs { level: 1 },
        Error::OtherParams,
        Error::ShortSuperblock,
        Error::BadSignature,
        Error::BadVersion,
    ] {
        let fault = io::Error::from(error);
        assert_eq!(fault.kind(), ErrorKind::InvalidData);
        assert_eq!(fault.get_ref().unwrap().downcast_ref(), Some(&error));
    }
    for error in [Error::NoSuchBlock, Error::BadLength, Error::BadHashType, Error::Waiting, Error::BadText] {
        assert_eq!(io::Error::from(error).kind(), ErrorKind::InvalidInput);
    }
}

/// A path of parameters that aren't known to have a clone has one.
#[test]
fn clones() {
    fn twice<'a, T: Tree>(path: &Path<'a, T>) -> Path<'a, T> {
        path.clone()
    }
    let params = Params::new(&Settings { data_blocks: 1, ..usual() }).unwrap();
    let path = twice(&Path::new(&params, 0, Vec::new()).unwrap());
    let root = Root::new(&[0; 32]).unwrap();
    assert_eq!(path.check(&root, &[1; 4096]), Err(Error::Differs { level: 0 }));
}

/// Each type may go to another thread and be looked at by several.
#[test]
fn threads() {
    fn is<T: Send + Sync>() {}
    is::<(Params, FileParams, Root, Digest, Error, Algorithm, Settings<'_>, FileSettings<'_>)>();
    is::<(FileDigest, TreeBuilder, HashBlock<'_>, Block<'_>, Path<'_, Params>, Path<'_, FileParams>)>();
    #[cfg(feature = "std")]
    is::<verity::CheckedReader<Params, std::fs::File, std::fs::File>>();

    let mut file = FileDigest::new(&FileSettings::default()).unwrap();
    file.update(&[1; 5000]).unwrap();
    let mut other = file.clone();
    let here = file.digest().unwrap();
    let there = std::thread::spawn(move || other.digest().unwrap()).join().unwrap();
    assert_eq!(here, there);
}
