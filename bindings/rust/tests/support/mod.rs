//! Random numbers, and Debian's programs.
#![allow(dead_code)]

use std::path::PathBuf;
use std::process::Command;
use std::sync::atomic::{AtomicU32, Ordering};
use std::{env, fs, io, process};

use verity::{FileSettings, Settings};

/// Numbers that follow from a seed (xorshift64*).
pub struct Random(u64);

impl Random {
    pub fn of_seed() -> Random {
        let seed = env::var("SEED").map_or(1, |seed| seed.parse().expect("SEED is a number"));
        Random(0x9e37_79b9_7f4a_7c15 ^ seed)
    }

    fn next(&mut self) -> u64 {
        self.0 ^= self.0 >> 12;
        self.0 ^= self.0 << 25;
        self.0 ^= self.0 >> 27;
        self.0.wrapping_mul(0x2545_f491_4f6c_dd1d)
    }

    /// A number below another.
    pub fn below(&mut self, limit: usize) -> usize {
        ((self.next() >> 11) % limit as u64) as usize
    }

    /// As many bytes as one of the numbers says.
    pub fn some(&mut self, counts: &[usize]) -> Vec<u8> {
        let count = counts[self.below(counts.len())];
        self.bytes(count)
    }

    pub fn bytes(&mut self, count: usize) -> Vec<u8> {
        (0..count).map(|_| (self.next() >> 56) as u8).collect()
    }
}

/// How many cases are tried: so many, or as CASES says.
pub fn count(usual: usize) -> usize {
    env::var("CASES").map_or(usual, |cases| cases.parse().expect("CASES is a number"))
}

/// A folder of its own, which is gone when it is dropped.
pub struct Folder(PathBuf);

impl Folder {
    pub fn new() -> Folder {
        static NEXT: AtomicU32 = AtomicU32::new(0);
        let name = format!("{}-{}", process::id(), NEXT.fetch_add(1, Ordering::Relaxed));
        let folder = PathBuf::from(env!("CARGO_TARGET_TMPDIR")).join(name);
        fs::create_dir_all(&folder).unwrap();
        Folder(folder)
    }

    pub fn file(&self, name: &str) -> PathBuf {
        self.0.join(name)
    }
}

impl Drop for Folder {
    fn drop(&mut self) {
        let _ = fs::remove_dir_all(&self.0);
    }
}

pub fn hex(bytes: &[u8]) -> String {
    bytes.iter().map(|byte| format!("{byte:02x}")).collect()
}

/// Runs one of Debian's programs, and answers what it prints.
fn said(command: &mut Command) -> String {
    let path = format!("{}:/usr/sbin:/sbin", env::var("PATH").unwrap_or_default());
    let out = command.env("PATH", path).output().unwrap_or_else(|fault| match fault.kind() {
        io::ErrorKind::NotFound => panic!("install cryptsetup-bin and fsverity: the tests compare with their programs"),
        _ => panic!("{command:?}: {fault}"),
    });
    assert!(out.status.success(), "{command:?}: {}", String::from_utf8_lossy(&out.stderr));
    String::from_utf8(out.stdout).unwrap()
}

/// The root hash in hexadecimal, and the bytes of the hash device.
pub fn veritysetup(settings: &Settings<'_>, data: &[u8]) -> (String, Vec<u8>) {
    let folder = Folder::new();
    let (data_file, hash_file) = (folder.file("data"), folder.file("hashes"));
    fs::write(&data_file, data).unwrap();
    let mut command = Command::new("veritysetup");
    command
        .arg("format")
        .arg(format!("--hash={}", settings.algorithm))
        .arg(format!("--format={}", settings.hash_type))
        .arg(format!("--data-block-size={}", settings.data_block_size))
        .arg(format!("--hash-block-size={}", settings.hash_block_size))
        .arg(format!("--salt={}", if settings.salt.is_empty() { "-".into() } else { hex(settings.salt) }))
        .arg(format!("--hash-offset={}", settings.hash_offset));
    if settings.has_superblock {
        let id = hex(&settings.uuid);
        command.arg(format!("--uuid={}-{}-{}-{}-{}", &id[..8], &id[8..12], &id[12..16], &id[16..20], &id[20..]));
    } else {
        command.arg("--no-superblock");
    }
    let report = said(command.arg(&data_file).arg(&hash_file));
    let root = report.lines().find_map(|line| line.strip_prefix("Root hash:")).expect("a root hash").trim();
    (root.into(), fs::read(&hash_file).unwrap())
}

/// The digest as `fsverity digest` writes it, and the bytes of the tree.
pub fn fsverity(settings: &FileSettings<'_>, data: &[u8]) -> (String, Vec<u8>) {
    let folder = Folder::new();
    let (file, tree) = (folder.file("file"), folder.file("tree"));
    fs::write(&file, data).unwrap();
    let mut command = Command::new("fsverity");
    command
        .arg("digest")
        .arg(format!("--hash-alg={}", settings.algorithm))
        .arg(format!("--block-size={}", settings.block_size))
        .arg(format!("--salt={}", hex(settings.salt)))
        .arg(format!("--out-merkle-tree={}", tree.display()))
        .arg(&file);
    let line = said(&mut command);
    (line.split(' ').next().unwrap().into(), fs::read(&tree).unwrap())
}
