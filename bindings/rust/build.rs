//! Finds the library: in the folder VERITY_LIB_DIR, or else by pkg-config. VERITY_STATIC=1 links the static one.
use std::path::{Path, PathBuf};
use std::process::{exit, Command};
use std::{env, fs};

fn main() {
    for name in ["VERITY_LIB_DIR", "VERITY_STATIC", "PKG_CONFIG_PATH", "PKG_CONFIG_LIBDIR"] {
        println!("cargo:rerun-if-env-changed={name}");
    }
    let is_static = match env::var("VERITY_STATIC").as_deref() {
        Ok("1") => true,
        Ok("0" | "") | Err(_) => false,
        Ok(other) => stop(&format!("VERITY_STATIC is 1 or 0, not {other}")),
    };
    let folders = match env::var_os("VERITY_LIB_DIR") {
        // Cargo runs this in the folder of the crate, which the user needn't know.
        Some(folder) if Path::new(&folder).is_relative() => {
            stop(&format!("VERITY_LIB_DIR is an absolute path, not {}", folder.to_string_lossy()))
        }
        Some(folder) => vec![PathBuf::from(folder)],
        None => by_pkg_config(),
    };
    if is_static {
        println!("cargo:rustc-link-lib=static=verity");
        search(&folders);
    } else {
        let folder = linked(&folders);
        println!("cargo:rustc-link-lib=dylib=verity");
        // For this crate's own tests and examples: older versions of cargo don't tell the loader of those in the
        // documentation where the library is.
        println!("cargo:rustc-link-arg=-Wl,-rpath,{}", folder.display());
        search(&[folder]);
    }
}

fn stop(why: &str) -> ! {
    eprintln!("verity: {why}");
    exit(1)
}

fn search(folders: &[PathBuf]) {
    for folder in folders {
        println!("cargo:rustc-link-search=native={}", folder.display());
        println!("cargo:rerun-if-changed={}", folder.display());
    }
}

/// The folders that pkg-config names, those of the system too.
fn by_pkg_config() -> Vec<PathBuf> {
    let mut command = Command::new("pkg-config");
    command.args(["--libs-only-L", "verity >= 2"]).env("PKG_CONFIG_ALLOW_SYSTEM_LIBS", "1");
    match command.output() {
        Ok(said) if said.status.success() => String::from_utf8_lossy(&said.stdout)
            .split_whitespace()
            .filter_map(|word| word.strip_prefix("-L").map(PathBuf::from))
            .collect(),
        _ => stop("pkg-config doesn't find `verity >= 2`: set VERITY_LIB_DIR to the folder of libverity.so.2"),
    }
}

/// A folder with the shared library alone, under the names that linker and loader want: the folder of a library that
/// was built and not installed lacks the first, and cargo hands the loader no folder but those in its own.
fn linked(folders: &[PathBuf]) -> PathBuf {
    let found = folders.iter().map(|folder| folder.join("libverity.so.2")).find(|file| file.exists());
    let library = match found.and_then(|file| fs::canonicalize(file).ok()) {
        Some(library) => library,
        None => stop(&format!("libverity.so.2 is not in {folders:?}")),
    };
    let folder = Path::new(&env::var_os("OUT_DIR").expect("cargo sets it")).join("shared");
    fs::create_dir_all(&folder).expect("cargo's folder takes a folder");
    for name in ["libverity.so", "libverity.so.2"] {
        let link = folder.join(name);
        let _ = fs::remove_file(&link);
        if let Err(fault) = std::os::unix::fs::symlink(&library, &link) {
            stop(&format!("{}: {fault}", link.display()));
        }
    }
    folder
}
