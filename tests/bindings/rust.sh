#!/usr/bin/env bash
# The crate of bindings/rust, by Debian's cargo if it is installed: its tests beside Debian's programs, linked with the
# shared library and with the static one, with std and without; what the types promise; its documentation, README's
# example and its programs; its declarations beside the header. valgrind watches the tests, as it sees reads and writes
# of the library too. LIB=FOLDER takes the library of another folder, SEED=N draws other images.
set -u
cd "$(dirname "$0")/../.."
. tests/lib/checks.sh
. tests/lib/c_programs.sh
. tests/lib/random_images.sh
PATH=/usr/bin:$PATH
needs cargo cargo
needs rustc rustc
needs cc gcc
needs python3 python3
needs pkg-config pkg-config
needs readelf binutils
needs_other veritysetup cryptsetup-bin
needs_other fsverity fsverity
LIB=$(realpath "$LIB")
has_library "$LIB/libverity.a"
has_library "$LIB/libverity.so.2"
crate=$PWD/bindings/rust
manifest=(--quiet --offline --manifest-path "$crate/Cargo.toml")
# What the user has set changes nothing here.
unset RUSTC RUSTDOC RUSTC_WRAPPER RUSTDOCFLAGS RUSTC_BOOTSTRAP VERITY_STATIC CARGO_BUILD_TARGET LD_LIBRARY_PATH
export CARGO_HOME=$scratch/cargo CARGO_TARGET_DIR=$scratch/shared VERITY_LIB_DIR=$LIB RUSTFLAGS='-D warnings' SEED
export CARGO_INCREMENTAL=0 CARGO_PROFILE_DEV_DEBUG=0
host=$(rustc -vV | sed -n 's/^host: //p')
echo "$(cargo --version), $(rustc --version)"

# in_static COMMAND..: runs a command by which the static library is linked.
in_static() {
    CARGO_TARGET_DIR=$scratch/static VERITY_STATIC=1 "$@"
}

# tests NAME LEAST WORD..: adds up what `cargo test` says, which are so many tests at least.
tests() {
    local name=$1 least=$2 status=0 passed
    shift 2
    cargo test "${manifest[@]}" --locked "$@" >"$scratch/.tests" 2>&1 </dev/null || status=$?
    passed=$(awk '/^test result:/ { sum += $4 } END { print sum + 0 }' "$scratch/.tests")
    checked=$((checked + passed))
    if [ $status -eq 0 ] && [ "$passed" -ge "$least" ]; then
        echo "$name: $passed tests"
    else
        fail "$name" "status $status, $passed tests passed, of at least $least" "$(tail -n 60 "$scratch/.tests")"
    fi
}

# package NAME SOURCE [LINE..]: makes a package that uses the crate, of one source, which comes from standard input. The
# lines are added to the dependency.
package() {
    mkdir -p "$scratch/$1/src"
    printf '%s\n' '[package]' "name = \"$1\"" 'version = "1.0.0"' 'edition = "2021"' '[dependencies.verity]' \
        "path = \"$crate\"" "${@:3}" >"$scratch/$1/Cargo.toml"
    cat >"$scratch/$1/src/$2"
}

# needed FILE: whether a program needs the shared library, as `yes` or `no`.
needed() {
    if readelf -d "$1" | grep -q 'NEEDED.*\[libverity\.so\.2\]'; then echo yes; else echo no; fi
}

# ------------------------------------------------ Declarations ------------------------------------------------

adds 'the declarations' tests/bindings/rust_declarations.py include/verity.h "$crate/src/ffi.rs"
tests/bindings/rust_declarations.py include/verity.h "$crate/src/ffi.rs" structs >"$scratch/structs.c"
if compiles "$scratch/structs" cc "$scratch/structs.c"; then
    cargo test "${manifest[@]}" --locked --lib -- --ignored --nocapture structs 2>&1 |
        grep -E '^(struct|field) ' >"$scratch/structs.rust"
    "$scratch/structs" >"$scratch/structs.header"
    same_bytes 'the places of fields' "$scratch/structs.header" "$scratch/structs.rust"
fi
same 'files with unsafe' "$crate/src/library.rs" "$(grep -rlE 'unsafe (\{|fn|impl|extern|trait)' "$crate" | sort)"
# Directly above the statement, which may go on in the next line.
same 'unsafe without its reason' '' "$(awk '/unsafe \{/ && !has_reason { print FNR ": " $0 }
    /\/\/ SAFETY: / { has_reason = 1 } !/^ *\/\/|=$/ { has_reason = 0 }' "$crate/src/library.rs")"

# --------------------------------------------------- Tests ----------------------------------------------------

# With the examples of the documentation, and the promises. Which error a program that doesn't compile has is compared
# only where unstable features may be used.
RUSTC_BOOTSTRAP=1 tests 'all, shared, with std' 37
tests 'all, shared, without std' 30 --no-default-features
CASES=8 in_static tests 'static' 3 --test debian
PATH=$(path_without fsverity) cargo test "${manifest[@]}" --locked --test debian files \
    >"$scratch/.tests" 2>&1 </dev/null
same "without Debian's programs: status" 101 $?
same "without Debian's programs" 1 \
    "$(grep -c 'install cryptsetup-bin and fsverity: the tests compare with their programs' "$scratch/.tests")"
RUSTDOCFLAGS='-D warnings' runs 'the documentation' 0 '' '' cargo doc "${manifest[@]}" --locked --no-deps
runs 'the documentation is there' 0 any '' ls "$CARGO_TARGET_DIR/doc/verity/struct.Block.html"

# no_std FEATURES: compiles a program that has its own panic handler, as one with std can't.
no_std() {
    package no_std lib.rs 'default-features = false' "features = [$1]" <<'EOR'
#![no_std]

#[panic_handler]
fn panic(_: &core::panic::PanicInfo<'_>) -> ! {
    loop {}
}

pub fn digest_of(file: &mut verity::FileDigest) -> Result<verity::Digest, verity::Error> {
    file.digest()
}
EOR
    cargo build --quiet --offline --manifest-path "$scratch/no_std/Cargo.toml" >"$scratch/.no_std" 2>&1
}
no_std ''
same 'without std' 0 $?
no_std '"std"'
same 'with std there are two panic handlers' yes \
    "$(grep -q '^error\[E0152\].*panic_impl' "$scratch/.no_std" && echo yes)"

mkdir "$scratch/.loaded"
cp "$LIB/libverity.so.2" "$scratch/.loaded"
# valgrind sees what the library reads and writes, which a sanitizer sees only where it has compiled the code.
# That it sees such a read in a program of Rust is shown first: what is said to be a root hash of 64 bytes has fewer.
if command -v valgrind >/dev/null; then
    package overrun main.rs <<'EOR'
use verity as _;

extern "C" {
    fn fsverity_file_digest(params: *const u64, root: *const u8, length: usize, digest: *mut u8, size: usize) -> i32;
}

fn main() {
    let missing: usize = std::env::args().nth(1).unwrap().parse().unwrap();
    // struct fsverity_params: SHA-512, blocks and a size of 4096 bytes, no salt.
    let params = [2 | 4096 << 32, 4096, 0, 0, 0, 0, 0];
    let (root, mut digest) = (vec![1; 64 - missing], [0; 64]);
    let status = unsafe { fsverity_file_digest(params.as_ptr(), root.as_ptr(), 64, digest.as_mut_ptr(), 64) };
    assert_eq!(status, 0);
}
EOR
    runs 'a program that reads too far' 0 '' '' \
        cargo build --quiet --offline --manifest-path "$scratch/overrun/Cargo.toml"
    watched=(env "LD_LIBRARY_PATH=$scratch/.loaded" valgrind -q --error-exitcode=9 "$CARGO_TARGET_DIR/debug/overrun")
    runs 'all of a root hash, under valgrind' 0 '' '' "${watched[@]}" 0
    runs 'a root hash that lacks a byte, under valgrind' 9 '' any "${watched[@]}" 1
    CASES=1 tests 'under valgrind' 10 --lib --tests \
        --config "target.$host.runner=['valgrind', '-q', '--error-exitcode=9']" -- --skip kept
else
    echo 'left out: valgrind over the tests: it is not installed'
fi

# -------------------------------------------------- Programs --------------------------------------------------

cargo build "${manifest[@]}" --locked --examples
in_static cargo build "${manifest[@]}" --locked --examples
programs=("$scratch/shared/debug/examples" "$scratch/static/debug/examples")
same 'linked with the shared library' yes "$(needed "${programs[0]}/digest")"
same 'linked with the static library' no "$(needed "${programs[1]}/digest")"

mkdir -p "$scratch/from/a folder/deep" "$scratch/from/b"
for length in 0 1 1023 4096 4097 $((128 * 4096)) $((128 * 4096 + 1)) 3000001; do
    sample "$length" >"$scratch/from/a folder/deep/$length bytes"
done
sample 70000 >"$scratch/from/a folder/é.bin"
sample 5000 >"$scratch/from/z"

# copies PROGRAM OPTION..: a tree is copied, and each copy has the digest that Debian's fsverity gives it.
copies() {
    local program=$1 files
    shift
    rm -rf "$scratch/to"
    "$program" "$@" "$scratch/from" "$scratch/to" >"$scratch/copied" 2>&1
    same "copy_tree $*: status" 0 $?
    same "copy_tree $*: the copy" '' "$(diff -r "$scratch/from" "$scratch/to" 2>&1)"
    mapfile -t files < <(find "$scratch/to" -type f | sort)
    fsverity digest "$@" "${files[@]}" >"$scratch/expected"
    same_bytes "copy_tree $*" "$scratch/expected" "$scratch/copied"
}
export LD_LIBRARY_PATH=$scratch/.loaded
for folder in "${programs[@]}"; do
    copies "$folder/copy_tree"
    copies "$folder/copy_tree" --hash-alg=sha512 --block-size=1024
    copies "$folder/copy_tree" --block-size=2048 --salt=00112233445566778899aabbccddeeff
    runs 'copy_tree: the copy is there' 1 '' any "$folder/copy_tree" "$scratch/from" "$scratch/to"
    for file in "$scratch"/from/a\ folder/deep/*; do
        digest=$(fsverity digest --compact --hash-alg=sha256 "$file")
        runs "digest of ${file##*/}" 0 "sha256:${digest#sha256:}" '' "$folder/digest" "$file"
        runs "digest of ${file##*/}, by io::copy" 0 "sha256:${digest#sha256:}" '' "$folder/digest" "$file" copy
    done
done
rm -rf "$scratch/to"
runs 'copy_tree: an unknown option' 2 '' any "${programs[0]}/copy_tree" --block-sise=1024 "$scratch/from" "$scratch/to"
runs 'copy_tree: a block size of 63' 1 '' 'copy_tree: invalid data block size' "${programs[0]}/copy_tree" \
    --block-size=63 "$scratch/from" "$scratch/to"
ln -s z "$scratch/from/link"
rm -rf "$scratch/to"
runs 'copy_tree: a link' 1 any any "${programs[0]}/copy_tree" "$scratch/from" "$scratch/to"
unset LD_LIBRARY_PATH

# README's example, in a package of its own. The library is the one that pkg-config names.
mkdir -p "$scratch/installed/lib/pkgconfig"
cp "$LIB/libverity.a" "$LIB/libverity.so.2" "$scratch/installed/lib"
printf '%s\n' "prefix=$scratch/installed" 'Name: libverity' 'Description: as installed' 'Version: 2.0.0' \
    'Libs: -L"${prefix}/lib" -lverity' >"$scratch/installed/lib/pkgconfig/verity.pc"
sed -n '/^```rust$/,/^```$/p' "$crate/README.md" | sed '1d;$d' | package user main.rs
user=(cargo run --quiet --offline --manifest-path "$scratch/user/Cargo.toml" -- "$scratch/from/z")
unset VERITY_LIB_DIR
export PKG_CONFIG_LIBDIR=$scratch/installed/lib/pkgconfig
expected=$(fsverity digest "$scratch/from/z")
same "README's example has at most twelve lines" yes \
    "$([ "$(grep -c . "$scratch/user/src/main.rs")" -le 12 ] && echo yes)"
runs "README's example, by pkg-config" 0 "$expected" '' "${user[@]}"
same "README's example, by pkg-config" yes "$(needed "$CARGO_TARGET_DIR/debug/user")"
in_static runs "README's example, by pkg-config, static" 0 "$expected" '' "${user[@]}"
same "README's example, by pkg-config, static" no "$(needed "$scratch/static/debug/user")"

# builds_not NAME TEXT COMMAND..: the crate isn't built, and says this.
builds_not() {
    local name=$1 text=$2
    shift 2
    if "$@" >"$scratch/.built" 2>&1; then
        fail "$name" 'it was built'
    else
        same "$name" yes "$(grep -qF "verity: $text" "$scratch/.built" && echo yes)"
    fi
}
# In a folder of its own: cargo asks pkg-config again where a variable is another.
mkdir "$scratch/old"
sed 's/^Version: .*/Version: 1.4.0/' "$PKG_CONFIG_LIBDIR/verity.pc" >"$scratch/old/verity.pc"
export PKG_CONFIG_LIBDIR=$scratch/old
builds_not 'a library that is too old' "pkg-config doesn't find" "${user[@]}"
export PKG_CONFIG_LIBDIR=$scratch/none
builds_not 'no library' "pkg-config doesn't find" "${user[@]}"
VERITY_LIB_DIR=lib builds_not 'a relative folder' 'VERITY_LIB_DIR is an absolute path, not lib' "${user[@]}"
VERITY_LIB_DIR=$scratch builds_not 'a folder without the library' 'libverity.so.2 is not in' "${user[@]}"
VERITY_LIB_DIR=$LIB VERITY_STATIC=yes builds_not 'VERITY_STATIC=yes' 'VERITY_STATIC is 1 or 0' "${user[@]}"
finish
