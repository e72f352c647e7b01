//! Copies a folder with all that is in it, and prints the fs-verity digest of each file's copy, as `fsverity digest`
//! does, in the order of names. Each file is read once. Run:
//!
//!     copy_tree [--hash-alg=NAME] [--block-size=BYTES] [--salt=HEX] FROM TO
//!
//! TO must not be there. What is neither a file nor a folder ends the run with status 1, and so does a fault.
use std::fs::{self, File};
use std::io::{self, Read, Write};
use std::path::Path;
use std::{env, process};

use verity::{Digest, FileDigest, FileSettings};

fn copy_file(settings: &FileSettings<'_>, from: &Path, to: &Path) -> io::Result<Digest> {
    let (mut reader, mut writer) = (File::open(from)?, File::create(to)?);
    let mut digest = FileDigest::new(settings)?;
    let mut piece = vec![0; 1 << 16];
    loop {
        match reader.read(&mut piece)? {
            0 => return Ok(digest.digest()?),
            count => {
                writer.write_all(&piece[..count])?;
                digest.update(&piece[..count])?;
            }
        }
    }
}

fn copy_folder(settings: &FileSettings<'_>, from: &Path, to: &Path) -> io::Result<()> {
    fs::create_dir(to)?;
    let mut entries = fs::read_dir(from)?.collect::<io::Result<Vec<_>>>()?;
    entries.sort_by_key(|entry| entry.file_name());
    for entry in entries {
        let (kind, target) = (entry.file_type()?, to.join(entry.file_name()));
        if kind.is_dir() {
            copy_folder(settings, &entry.path(), &target)?;
        } else if kind.is_file() {
            println!("{} {}", copy_file(settings, &entry.path(), &target)?, target.display());
        } else {
            let message = format!("{}: neither a file nor a folder", entry.path().display());
            return Err(io::Error::new(io::ErrorKind::InvalidInput, message));
        }
    }
    Ok(())
}

fn bytes_of(hex: &str) -> Option<Vec<u8>> {
    let digits: Option<Vec<u32>> = hex.chars().map(|digit| digit.to_digit(16)).collect();
    let pairs = digits.filter(|digits| digits.len() % 2 == 0)?;
    Some(pairs.chunks(2).map(|pair| (pair[0] * 16 + pair[1]) as u8).collect())
}

fn usage() -> ! {
    eprintln!("usage: copy_tree [--hash-alg=NAME] [--block-size=BYTES] [--salt=HEX] FROM TO");
    process::exit(2)
}

fn main() {
    let (mut settings, mut salt, mut names) = (FileSettings::default(), Vec::new(), Vec::new());
    for word in env::args().skip(1) {
        match word.split_once('=') {
            Some(("--hash-alg", name)) => settings.algorithm = name.parse().unwrap_or_else(|_| usage()),
            Some(("--block-size", size)) => settings.block_size = size.parse().unwrap_or_else(|_| usage()),
            Some(("--salt", hex)) => salt = bytes_of(hex).unwrap_or_else(|| usage()),
            _ if word.starts_with("--") => usage(),
            _ => names.push(word),
        }
    }
    settings.salt = &salt;
    let [from, to] = <[String; 2]>::try_from(names).unwrap_or_else(|_| usage());
    if let Err(fault) = copy_folder(&settings, Path::new(&from), Path::new(&to)) {
        eprintln!("copy_tree: {fault}");
        process::exit(1)
    }
}
