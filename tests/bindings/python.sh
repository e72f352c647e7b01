#!/usr/bin/env bash
# The binding for Python, with the shared library of LIB: its own tests, its types by mypy, the examples of its page, a
# copied tree of files and random settings, images and changed bytes beside Debian's programs, and what is installed, by
# `make install-python` and by pip. PYTHON=PROGRAM takes another interpreter, SEED=N draws other settings, RUNS=all four
# times as many of them, and HUGE=yes adds more than 4 GiB that are hashed at once.
set -u
cd "$(dirname "$0")/../.."
. tests/lib/checks.sh
. tests/lib/c_programs.sh
. tests/lib/random_images.sh
PYTHON=${PYTHON:-$(PATH=/usr/bin:$PATH type -P python3)}
needs "${PYTHON:-python3}" python3
needs cc gcc
needs_other fsverity fsverity
needs_other veritysetup cryptsetup-bin
has_library "$LIB/libverity.so.2"
binding=bindings/python
# Nothing is left in the repository, and no module is taken from elsewhere.
export PYTHONDONTWRITEBYTECODE=1 PYTHONPATH=$PWD/$binding
export VERITY_LIBRARY=$PWD/$LIB/libverity.so.2
if [[ $LIB = /* ]]; then VERITY_LIBRARY=$LIB/libverity.so.2; fi
unset LD_LIBRARY_PATH
# left: what building and running may leave in the repository.
left() {
    find $binding tests/bindings -name '__pycache__' -o -name build -o -name '*.egg-info' | sort
}
left >"$scratch/left"

adds "$binding/tests" "$PYTHON" $binding/tests
if [ "${HUGE:-}" = yes ]; then adds $binding/tests/huge.py "$PYTHON" $binding/tests/huge.py; fi
adds 'beside Debian' "$PYTHON" tests/bindings/beside_debian.py "$scratch" "$SEED" "$(few 15 60)" "$(few 10 40)"

# ------------------------------------------------ how the library is found ------------------------------------------

# imports NAME WORD..: what an interpreter with this environment says of the module.
imports() {
    local name=$1
    shift
    env "$@" "$PYTHON" -c 'import verity; print(verity.FileDigest(b"a").hexdigest())' >"$scratch/said" 2>&1
    echo "$name: $? $(tail -n 1 "$scratch/said")"
}

# library NAME CODE: a library of this name that is none of ours.
library() {
    mkdir -p "$scratch/$1"
    echo "$2" | cc -shared -fPIC -x c - -o "$scratch/$1/libverity.so.2" || fail "$1" "it can't be built"
}

same 'by its path' "path: 0 $DIGEST_OF_A" "$(imports path A=)"
mkdir "$scratch/loaded"
cp "$VERITY_LIBRARY" "$scratch/loaded"
same 'by the loader' "loader: 0 $DIGEST_OF_A" "$(imports loader -u VERITY_LIBRARY LD_LIBRARY_PATH="$scratch/loaded")"
same 'an empty variable' "empty: 0 $DIGEST_OF_A" "$(imports empty VERITY_LIBRARY= LD_LIBRARY_PATH="$scratch/loaded")"
missing=$scratch/missing/libverity.so.2
same 'no library' "missing: 1 ImportError: verity needs the library libverity.so.2, by the loader or at \
VERITY_LIBRARY: $missing: cannot open shared object file: No such file or directory" \
    "$(imports missing VERITY_LIBRARY="$missing")"
library older 'unsigned verity_version(void) { return 10400; }'
older=$scratch/older/libverity.so.2
same 'an older library' "older: 1 ImportError: verity needs version 2 of libverity.so.2, and $older has version 1" \
    "$(imports older VERITY_LIBRARY="$older")"
library newer 'unsigned verity_version(void) { return 30000; }'
newer=$scratch/newer/libverity.so.2
same 'a newer library' "newer: 1 ImportError: verity needs version 2 of libverity.so.2, and $newer has version 3" \
    "$(imports newer VERITY_LIBRARY="$newer")"
for code in 'int other;' 'unsigned verity_version(void) { return 20000; }'; do
    library another "$code"
    said=$(imports another VERITY_LIBRARY="$scratch/another/libverity.so.2")
    same "another library: $code" 'another: 1 ImportError: verity needs' "${said:0:36}"
done

# ------------------------------------------------ types and style ---------------------------------------------------

if command -v mypy >/dev/null; then
    for version in 3.9 3.11; do
        runs "mypy for $version" 0 'Success: no issues found in 9 source files' '' \
            mypy --strict --python-version $version --cache-dir=/dev/null $binding/verity
    done
    # A call with wrong types is one that mypy sees.
    echo 'import verity; verity.FileDigest(5); verity.TreeBuilder(7); verity.FileDigest().digest().hexdigest()' \
        >"$scratch/wrong.py"
    MYPYPATH=$binding mypy --strict --cache-dir=/dev/null "$scratch/wrong.py" >"$scratch/said"
    same 'mypy over wrong calls' 'Found 3 errors in 1 file (checked 1 source file)' "$(tail -n 1 "$scratch/said")"
else
    echo 'left out: types: mypy is not installed (Debian: mypy)'
fi
if command -v pyflakes3 >/dev/null; then
    runs pyflakes 0 '' '' pyflakes3 $binding tests/bindings
else
    echo 'left out: pyflakes: pyflakes3 is not installed (Debian: pyflakes3)'
fi
same 'longest lines' '' "$(find $binding tests/bindings -name '*.py' -exec grep -nE '^.{121}' {} +)"

# ------------------------------------------------ example and program -----------------------------------------------

# The page's example, and what Debian's programs say of the same files.
mkdir "$scratch/page"
sed -n '/^    import verity$/,/^[^ ]/p' $binding/README.md | sed -n 's/^    //p; s/^$//p' >"$scratch/page/example.py"
sample $((300 * 4096)) >"$scratch/page/image"
(cd "$scratch/page" && "$PYTHON" example.py >said 2>&1)
same 'the example: status' 0 $?
root=$(sed -n 1p "$scratch/page/said")
same 'the example: bytes' $((300 * 4096)) "$(sed -n 2p "$scratch/page/said")"
same 'the example: digest' "$(fsverity digest --compact "$scratch/page/image")" "$(sed -n 3p "$scratch/page/said")"
same "the example: Debian's root hash" "$root" \
    "$(veritysetup format --salt=73616c74 "$scratch/page/image" "$scratch/page/other" | root_in)"
runs "the example: Debian's program takes the image" 0 '' '' \
    veritysetup verify "$scratch/page/image" "$scratch/page/image.hash" "$root"
# The page's way to an image that is there, with the hash device of Debian's program.
sed -n '/^    from verity import/,/^[^ ]/p' $binding/README.md |
    sed -n 's/^    //p; s/^$//p' >"$scratch/page/reading.py"
cat >>"$scratch/page/reading.py" <<'END'
import sys
with open("image", "rb") as image, open("other", "rb") as hashes:
    trusted = Params(300, salt=sys.argv[1].encode())
    sys.stdout.buffer.write(opened(image, hashes, trusted, bytes.fromhex(sys.argv[2])).read())
END
(cd "$scratch/page" && "$PYTHON" reading.py salt "$root" >read 2>said)
same 'an image that is there: status' 0 $?
same_bytes 'an image that is there: bytes' "$scratch/page/image" "$scratch/page/read"
(cd "$scratch/page" && "$PYTHON" reading.py other "$root" >read 2>said)
same 'other trusted parameters: status' 1 $?
same 'other trusted parameters: why' 'verity._errors.Differs: block, root hash or parameters differ' \
    "$(tail -n 1 "$scratch/page/said")"
is_text 'other trusted parameters: bytes' '' "$scratch/page/read"

# A copied tree of files.
mkdir -p "$scratch/tree/deep/deeper" "$scratch/tree/empty folder"
: >"$scratch/tree/empty"
for size in 1 4095 4096 4097 524288 524289 3000000; do
    sample $size >"$scratch/tree/deep/$size"
    sample $((size / 2)) >"$scratch/tree/deep/deeper/a name of $size"
done
"$PYTHON" $binding/examples/copy_tree.py "$scratch/tree" "$scratch/copy" >"$scratch/said" 2>&1
same 'copy_tree.py: status' 0 $?
same 'copy_tree.py: files' 15 "$(wc -l <"$scratch/said")"
find "$scratch/tree" -type f | sed "s|^$scratch/tree|$scratch/copy|" | sort | tr '\n' '\0' |
    xargs -0 fsverity digest >"$scratch/stated"
same 'copy_tree.py: digests' "$(sort -k 2 "$scratch/stated")" "$(sort -k 2 "$scratch/said")"
same 'copy_tree.py: the copy' '' "$(diff -r "$scratch/tree" "$scratch/copy" 2>&1)"
"$PYTHON" $binding/examples/copy_tree.py "$scratch/tree" "$scratch/copy" >"$scratch/said" 2>&1
same 'copy_tree.py: over another copy' 1 $?
same 'copy_tree.py: the other copy stays' '' "$(diff -r "$scratch/tree" "$scratch/copy" 2>&1)"

# ------------------------------------------------ what is installed -------------------------------------------------

unset PYTHONPATH
modules=$(cd $binding && printf '644 %s\n' verity/*.py verity/py.typed)

# installed NAME FOLDER: the module in this folder can be used; it is what an interpreter imports elsewhere.
installed() {
    (cd "$scratch" && PYTHONPATH=$2 "$PYTHON" -c 'import sys, verity
print(verity.__file__, verity.FileDigest(b"a").hexdigest())' >said 2>&1)
    same "$1: used from there" "$2/verity/__init__.py $DIGEST_OF_A" "$(cat "$scratch/said")"
}

to=$("$PYTHON" -I -c 'import sysconfig; print(sysconfig.get_path("purelib"))')
words=(make -s --no-print-directory PYTHON="$PYTHON" DESTDIR="$scratch/made")
runs 'make install-python' 0 '' '' "${words[@]}" install-python
same 'make install-python: files' "$modules" "$(cd "$scratch/made$to" && find . -type f -printf '%m %P\n' | sort -k 2)"
same 'make install-python: nothing else' "$scratch/made$to/verity" \
    "$(find "$scratch/made" -type f -printf '%h\n' | sort -u)"
installed 'make install-python' "$scratch/made$to"
(cd "$scratch" && PYTHONPATH=$scratch/made$to PYTHONDONTWRITEBYTECODE='' "$PYTHON" -c 'import verity')
same 'make install-python: it is compiled' yes "$([ -e "$scratch/made$to/verity/__pycache__" ] && echo yes)"
runs 'make uninstall-python' 0 '' '' "${words[@]}" uninstall-python
same 'make uninstall-python: what is left' '' "$(find "$scratch/made" -type f -o -name 'verity')"
runs 'make uninstall-python, twice' 0 '' '' "${words[@]}" uninstall-python
runs 'make install-python, another folder' 0 '' '' "${words[@]}" PYTHONDIR='/opt/our modules' install-python
installed 'make install-python, another folder' "$scratch/made/opt/our modules"
: >"$scratch/made/opt/our modules/verity/other"
runs 'make uninstall-python, another folder' 0 '' '' "${words[@]}" PYTHONDIR='/opt/our modules' uninstall-python
same 'make uninstall-python, another folder: what is left' "$scratch/made/opt/our modules/verity/other" \
    "$(find "$scratch/made" -type f)"
# What was compiled in the sources isn't installed, and is no hindrance.
mkdir -p "$scratch/sources/bindings"
cp Makefile ./*.sh "$scratch/sources"
cp -r $binding "$scratch/sources/bindings"
(cd "$scratch" && PYTHONPATH=$scratch/sources/$binding PYTHONDONTWRITEBYTECODE='' "$PYTHON" -c 'import verity')
same 'compiled sources: they are compiled' yes "$([ -e "$scratch/sources/$binding/verity/__pycache__" ] && echo yes)"
words=(make -s --no-print-directory -C "$scratch/sources" PYTHON="$PYTHON" DESTDIR="$scratch/compiled")
runs 'compiled sources: make install-python' 0 '' '' "${words[@]}" install-python
same 'compiled sources: files' "$modules" "$(cd "$scratch/compiled$to" && find . -type f -printf '%m %P\n' | sort -k 2)"
runs 'compiled sources: make uninstall-python' 0 '' '' "${words[@]}" uninstall-python
same 'compiled sources: what is left' '' "$(find "$scratch/compiled" -type f -o -name 'verity')"
runs 'make install-python without an interpreter' 2 '' any \
    make -s --no-print-directory PYTHON=/nowhere/python3 DESTDIR="$scratch/none" install-python
same 'make install-python without an interpreter: why' \
    "install.sh: /nowhere/python3 doesn't run: PYTHON is the interpreter, or PYTHONDIR the folder of its modules" \
    "$(head -n 1 "$scratch/.err")"
absent 'make install-python without an interpreter' "$scratch/none"

# By pip, of a copy, since setuptools leaves files beside what it builds.
if "$PYTHON" -c 'import setuptools, wheel, pip' 2>/dev/null; then
    cp -r $binding "$scratch/binding"
    (cd "$scratch" && "$PYTHON" -m pip --disable-pip-version-check install --quiet --no-cache-dir --no-index --no-deps \
        --no-build-isolation --root-user-action=ignore --target "$scratch/pip" ./binding >said 2>&1 </dev/null)
    same 'pip install: status' 0 $?
    is_text 'pip install: what it says' '' "$scratch/said"
    same 'pip install: files' "$(sed 's/^644 //' <<<"$modules")" \
        "$(cd "$scratch/pip" && find verity -type f ! -name '*.pyc' | sort)"
    installed 'pip install' "$scratch/pip"
else
    echo "left out: pip: it, setuptools or wheel is not installed (Debian: python3-pip, python3-setuptools, \
python3-wheel)"
fi
same 'nothing is left in the repository' "$(cat "$scratch/left")" "$(left)"
finish
