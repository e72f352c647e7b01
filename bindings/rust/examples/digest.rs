//! Prints the fs-verity digest of a file, as `fsverity digest --compact` does: `digest FILE [copy]`. The file is fed in
//! pieces of 64 KiB, or with the word `copy` by `std::io::copy`.
use std::fs::File;
use std::io::{self, Read};
use std::{env, process};

use verity::{FileDigest, FileSettings};

fn run(name: &str, copies: bool) -> io::Result<()> {
    let mut file = File::open(name)?;
    let mut digest = FileDigest::new(&FileSettings::default())?;
    if copies {
        io::copy(&mut file, &mut digest)?;
    } else {
        let mut piece = vec![0; 1 << 16];
        loop {
            match file.read(&mut piece)? {
                0 => break,
                count => digest.update(&piece[..count])?,
            }
        }
    }
    println!("{}", digest.digest()?);
    Ok(())
}

fn main() {
    let words: Vec<String> = env::args().skip(1).collect();
    let words: Vec<&str> = words.iter().map(String::as_str).collect();
    let ran = match words[..] {
        [name] => run(name, false),
        [name, "copy"] => run(name, true),
        _ => {
            eprintln!("usage: digest FILE [copy]");
            process::exit(2)
        }
    };
    if let Err(fault) = ran {
        eprintln!("digest: {}: {fault}", words[0]);
        process::exit(1)
    }
}
