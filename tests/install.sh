#!/usr/bin/env bash
# Runs `make install` into folders, with a space in their names too, and compares the files there, their modes and bytes
# with what docs/BUILDING.md says; man finds the pages there, and they and the completion speak of the installed names.
# If the library for C is built, it is installed too; one for 64-bit ARM stays where it is. After `make uninstall` just
# these files are gone. `make dist` gives the same bytes of the same commit.
set -u
cd "$(dirname "$0")/.."
. tests/lib/checks.sh
. tests/lib/installing.sh
unset SHA
has_program fsverity
has_program veritysetup
needs make make
if ! is_built x86_64; then echo 'left out: the library for C: it is not built'; fi

# speaks PAGE FILE SUFFIX: an installed page is that of man/ with the names in its headings, its footer, its
# examples and its references.
speaks() {
    local page=$1 file=$2 suffix=$3 name=${1%.*} other
    case $name in
    fsverity) other='veritysetup 8' ;;
    *) other='fsverity 1' ;;
    esac
    same "$page$suffix: heading" ".Dt $(tr '[:lower:]' '[:upper:]' <<<"$name$suffix") ${page#*.}" \
        "$(grep '^\.Dt' "$file")"
    same "$page$suffix: name" ".Nm $name$suffix" "$(grep '^\.Nm [a-z]' "$file")"
    same "$page$suffix: footer" ".Os $name$suffix $version" "$(grep '^\.Os' "$file")"
    same "$page$suffix: the other page" ".Xr ${other% *}$suffix ${other#* }" \
        "$(grep "^\.Xr ${other% *}" "$file" | sed 's/ ,$//')"
    same "$page$suffix: examples" "$(grep -c "^\\$ $name " "man/$page")" "$(grep -c "^\\$ $name$suffix " "$file")"
    # Elsewhere a page is as it was.
    same "$page$suffix: other lines" "$(unlike "man/$page")" "$(unlike "$file")"
}

# unlike PAGE: the lines of a page in which no program is named by its installed name.
unlike() {
    grep -vE '^\.(Dt|Nm|Os|Xr) |^\$ (fsverity|veritysetup)' "$1"
}

# completes NAME BASH ZSH FISH: the files of completion are for the installed name alone, and elsewhere as they were.
completes() {
    local plain=${1%%-*}
    same "completion of $1" "complete -F _complete_$plain $1" "$(bash -c '. "$1" && complete -p' - "$2")"
    same "completion of $1 for zsh" "#compdef $1" "$(head -n 1 "$3")"
    same_bytes "completion of $1 for zsh" <(tail -n +2 "completions/_$plain") <(tail -n +2 "$3")
    same "completion of $1 for fish" "complete -c $1" "$(grep -oE '^complete -c [^ ]*' "$4" | sort -u)"
    same_bytes "completion of $1 for fish" "completions/$plain.fish" \
        <(sed "s/^complete -c $1 /complete -c $plain /" "$4")
}

# installs FOLDER PREFIX SUFFIX WORD..: `make install` with these words puts the ten files there, and those of the
# library, and nothing else. `programs`, `admin`, `manuals`, `words`, `words_of_zsh`, `words_of_fish`, `libraries` and
# `includes` are the folders of the programs of section 1 and 8, of the pages, the completions, the library and the
# header, if they aren't those below PREFIX.
installs() {
    local folder=$scratch/$1 prefix=$2 suffix=$3 completions zsh fish pages name
    shift 3
    pages=${manuals:-$prefix/share/man} completions=${words:-$prefix/share/bash-completion/completions}
    zsh=${words_of_zsh:-$prefix/share/zsh/site-functions} fish=${words_of_fish:-$prefix/share/fish/vendor_completions.d}
    (umask 022 && make -s install DESTDIR="$folder" "$@") >"$scratch/.made" 2>&1 </dev/null
    is_text "$folder: what make says" '' "$scratch/.made"
    same "$folder: files" "$({
        printf '755 %s\n' "${programs:-$prefix/bin}/fsverity$suffix" "${admin:-$prefix/sbin}/veritysetup$suffix"
        printf '644 %s\n' "$completions/"{fsverity,veritysetup}"$suffix" "$zsh/_"{fsverity,veritysetup}"$suffix" \
            "$fish/"{fsverity,veritysetup}"$suffix.fish" \
            "$pages/man1/fsverity$suffix.1" "$pages/man8/veritysetup$suffix.8"
        if is_built x86_64; then library_files x86_64 "$prefix"; fi
    } | sort -k 2)" "$(listed "$folder")"
    if [[ " $* " != *' STRIP=yes '* ]]; then
        same_bytes "$folder: fsverity" bin/fsverity "$folder/${programs:-$prefix/bin}/fsverity$suffix"
        same_bytes "$folder: veritysetup" bin/veritysetup "$folder/${admin:-$prefix/sbin}/veritysetup$suffix"
    fi
    pages=$folder/$pages
    speaks fsverity.1 "$pages/man1/fsverity$suffix.1" "$suffix"
    speaks veritysetup.8 "$pages/man8/veritysetup$suffix.8" "$suffix"
    if is_built x86_64; then
        same "verity.3: the programs' pages$suffix" ".Xr fsverity$suffix 1 .Xr veritysetup$suffix 8" \
            "$(grep -E '^\.Xr (fsverity|veritysetup)' "$pages/man3/verity.3" | sed 's/ ,$//' | sort -u | paste -sd ' ')"
    fi
    for name in {fsverity,veritysetup}"$suffix"; do
        completes "$name" "$folder/$completions/$name" "$folder/$zsh/_$name" "$folder/$fish/$name.fish"
    done
    if command -v mandoc >/dev/null; then
        same "$folder: mandoc -T lint" '' "$(mandoc -T lint -W warning "$pages"/man[1-8]/* 2>/dev/null)"
    fi
}

# asks_for FILE: of a program, the libraries that it needs and the newest glibc that it asks for.
asks_for() {
    local library
    for library in $(readelf -d "$1" | sed -n 's/.*(NEEDED).*\[\(.*\)\]/\1/p'); do printf '%s ' "$library"; done
    readelf -V "$1" | grep -o 'GLIBC_[0-9.]*' | sort -uV | tail -n 1
}

# archive_for HEADING: the archive's name, with COMMIT for the commit's date and number, where the changes begin by this
# heading and are longer than a pipe holds.
archive_for() {
    local clone=$scratch/headed
    if [ ! -e "$clone" ]; then
        git clone -q . "$clone" 2>/dev/null
        seq 100000 >>"$clone/CHANGELOG.md"
    fi
    sed -i "0,/^## .*/s//## $1/" "$clone/CHANGELOG.md"
    git -C "$clone" -c user.name=name -c user.email=name@localhost commit -qam "$1" --allow-empty
    make -s -C "$clone" --no-print-directory dist | sed "s/$(commit_in "$clone")/COMMIT/"
}

# finds_page FOLDER SECTION NAME: man finds the installed page.
finds_page() {
    same "man $2 $3" "$1/man$2/$3.$2" "$(MANPATH=$1 man -w "$2" "$3" 2>&1)"
}

version=$(sed -nE 's/^## ([0-9.]+) .*/\1/p' CHANGELOG.md | head -n 1)
installs plain usr/local -proved
installs named usr '' PREFIX=/usr SUFFIX=
installs 'a space  and "quotes"' 'opt/our programs' -x.y PREFIX='/opt/our programs' SUFFIX=-x.y
# Folders as packagers set them: one word each, in place of those below PREFIX.
packaged=(PREFIX=/usr SUFFIX= BINDIR=/usr/tools SBINDIR=/usr/bin 'MANDIR=/usr/man pages'
    BASHCOMPDIR=/etc/bash_completion.d ZSHCOMPDIR=/opt/zsh FISHCOMPDIR='/opt/fish words'
    LIBDIR=/usr/lib/x86_64-linux-gnu INCLUDEDIR=/opt/headers)
programs=usr/tools admin=usr/bin manuals='usr/man pages' words=etc/bash_completion.d words_of_zsh=opt/zsh \
    words_of_fish='opt/fish words' \
    libraries=usr/lib/x86_64-linux-gnu includes=opt/headers installs packaged usr '' "${packaged[@]}"
# A folder that is there keeps its mode, and one that is made has the usual one.
mkdir -p "$scratch/kept/usr/local/"{bin,sbin,share/man/man1}
chmod 2775 "$scratch/kept/usr/local/"{bin,sbin}
chmod 700 "$scratch/kept/usr/local/share/man/man1"
installs kept usr/local -proved
same 'modes of folders' '2775 2775 700 755' \
    "$(cd "$scratch/kept/usr/local" && stat -c %a bin sbin share/man/man1 share/man/man8 | tr '\n' ' ' | sed 's/ $//')"
# Up to version 1.3.0 veritysetup was in the other folder.
older=$scratch/kept/usr/local/bin/veritysetup-proved
: >"$older"
runs 'an older veritysetup' 0 '' \
    "$older may be of an older version: remove it then, for the new one is in $scratch/kept/usr/local/sbin" \
    make -s --no-print-directory install DESTDIR="$scratch/kept"
rm "$older"
# Where one folder has both names, the one that was just installed isn't an older one.
mkdir -p "$scratch/linked/usr/local/bin"
ln -s bin "$scratch/linked/usr/local/sbin"
runs 'sbin is bin' 0 '' '' make -s --no-print-directory install DESTDIR="$scratch/linked"
same_bytes 'sbin is bin: veritysetup' bin/veritysetup "$scratch/linked/usr/local/bin/veritysetup-proved"
runs 'sbin is bin, once more' 0 '' '' make -s --no-print-directory install DESTDIR="$scratch/linked"
if command -v strip >/dev/null && command -v readelf >/dev/null; then
    installs stripped usr/local -proved STRIP=yes
    is_stripped bin/fsverity "$scratch/stripped/usr/local/bin/fsverity-proved"
    is_stripped bin/veritysetup "$scratch/stripped/usr/local/sbin/veritysetup-proved"
    printf a >"$scratch/one"
    runs 'a stripped program' 0 "sha256:$DIGEST_OF_A $scratch/one" '' \
        "$scratch/stripped/usr/local/bin/fsverity-proved" digest "$scratch/one"
    for file in bin/fsverity bin/veritysetup bin/any/* bin/aarch64/{fsverity,veritysetup}; do
        if [ -x "$file" ]; then
            same "$file: what docs/BUILDING.md says that it needs" "libc.so.6 GLIBC_2.34" "$(asks_for "$file")"
        fi
    done
    if is_built x86_64; then is_stripped lib/libverity.so.2 "$scratch/stripped/usr/local/lib/libverity.so.2"; fi
else
    echo 'left out: stripped programs: strip or readelf is not installed'
fi
if man --version 2>/dev/null | grep -q '^man [0-9]'; then
    finds_page "$scratch/plain/usr/local/share/man" 1 fsverity-proved
    finds_page "$scratch/plain/usr/local/share/man" 8 veritysetup-proved
else
    echo 'left out: man is not installed'
fi
uninstalls plain
uninstalls named PREFIX=/usr SUFFIX=
uninstalls 'a space  and "quotes"' PREFIX='/opt/our programs' SUFFIX=-x.y
uninstalls packaged "${packaged[@]}"
uninstalls kept
# Without the library's own file of pkg-config, a header of its name is another library's.
mkdir -p "$scratch/other/usr/local/"{include,lib/pkgconfig}
: >"$scratch/other/usr/local/include/verity.h"
: >"$scratch/other/usr/local/lib/libverity.so"
others="$(listed "$scratch/other")"
runs "another library's files" 0 '' '' make -s --no-print-directory uninstall DESTDIR="$scratch/other"
same "another library's files stay" "$others" "$(listed "$scratch/other")"
echo 'Name: another verity' >"$scratch/other/usr/local/lib/pkgconfig/verity.pc"
others="$(listed "$scratch/other")"
runs "another library's files, with its file of pkg-config" 0 '' '' \
    make -s --no-print-directory uninstall DESTDIR="$scratch/other"
same "another library's files stay, with its file of pkg-config" "$others" "$(listed "$scratch/other")"
if [ -e "$scratch/stripped" ]; then uninstalls stripped STRIP=yes; fi
refuses 'a suffix with a slash' 'SUFFIX may have letters, digits and . _ + - alone' install SUFFIX=/x
refuses 'a STRIP that is neither yes nor no' 'STRIP is yes or no' install STRIP=1
for variable in PREFIX BINDIR SBINDIR MANDIR BASHCOMPDIR ZSHCOMPDIR FISHCOMPDIR LIBDIR INCLUDEDIR; do
    refuses "a $variable that doesn't begin with /" "$variable has to begin with /" install "$variable=usr"
done
# The library goes and comes back without the programs.
if is_built x86_64; then
    installed=$(listed "$scratch/linked")
    runs 'make uninstall-library' 0 '' '' make -s --no-print-directory uninstall-library DESTDIR="$scratch/linked"
    same 'make uninstall-library: the programs stay' \
        "$(grep -vxF "$(library_files x86_64 usr/local)" <<<"$installed")" "$(listed "$scratch/linked")"
    runs 'make install-library' 0 '' '' make -s --no-print-directory install-library DESTDIR="$scratch/linked"
    same 'make install-library, beside programs' "$installed" "$(listed "$scratch/linked")"
fi
# Without programs in bin/ nothing is installed, and without a shared library the programs alone: here, over copies of
# what makes them.
mkdir "$scratch/empty"
cp -r Makefile install.sh building.sh include man completions "$scratch/empty"
refuses 'without programs' "run 'make programs' first" -C "$scratch/empty" install
mkdir "$scratch/empty/"{bin,lib}
cp bin/{fsverity,veritysetup} "$scratch/empty/bin"
: >"$scratch/empty/lib/libverity.a"
runs 'without a shared library' 0 '' "libverity.so.2 isn't built, so the library is left out" \
    make -s -C "$scratch/empty" --no-print-directory install DESTDIR="$scratch/no_library"
same 'without a shared library: files' \
    "$(printf '%s\n' {fsverity,veritysetup}-proved{,,.fish} _{fsverity,veritysetup}-proved fsverity-proved.1 \
        veritysetup-proved.8 | sort)" \
    "$(find "$scratch/no_library" ! -type d -printf '%f\n' | sort)"
# Without the one for x86-64-v3 too.
: >"$scratch/empty/lib/libverity.so.2"
runs 'without the library for x86-64-v3' 0 '' \
    "glibc-hwcaps/x86-64-v3/libverity.so.2 isn't built, so the library is left out" \
    make -s -C "$scratch/empty" --no-print-directory install DESTDIR="$scratch/no_library"
# The library for 64-bit ARM is neither replaced nor removed: here, over files in its place. The programs are removed.
mkdir -p "$scratch/empty/lib/"{glibc-hwcaps/x86-64-v3,aarch64}
: >"$scratch/empty/lib/glibc-hwcaps/x86-64-v3/libverity.so.2"
for file in libverity.a libverity-strict-align.a libverity.so.2; do : >"$scratch/empty/lib/aarch64/$file"; done
runs 'the library for 64-bit ARM beside programs' 0 '' '' make -s -C "$scratch/empty" --no-print-directory \
    install-library TARGET=aarch64 DESTDIR="$scratch/no_library"
refuses_in no_library 'make install over the library for 64-bit ARM' \
    "the library in $scratch/no_library/usr/local/lib is for aarch64: give that for x86_64 a LIBDIR of its own" \
    -C "$scratch/empty" install
runs 'make uninstall beside the library for 64-bit ARM' 0 '' '' \
    make -s -C "$scratch/empty" --no-print-directory uninstall DESTDIR="$scratch/no_library"
same 'make uninstall beside the library for 64-bit ARM: what stays' "$(library_files aarch64 usr/local | sort -k 2)" \
    "$(listed "$scratch/no_library")"

# Programs of another target and static ones come from their own folders, with their own library if it is built: here,
# files in their place.
kind_installs() {
    local folder=$1 says=$2 name to
    shift 2
    to=$scratch/kinds-${folder//\//-}
    refuses "$says, not built" "run 'make programs $*' first" -C "$scratch/empty" install "$@"
    mkdir -p "$scratch/empty/$folder"
    for name in fsverity veritysetup; do
        echo "$name of $folder" >"$scratch/empty/$folder/$name"
        chmod 755 "$scratch/empty/$folder/$name"
    done
    runs "$says" 0 '' '' make -s -C "$scratch/empty" --no-print-directory install DESTDIR="$to" "$@"
    for name in bin/fsverity sbin/veritysetup; do
        is_text "$says: ${name#*/}" "${name#*/} of $folder" "$to/usr/local/$name-proved"
    done
    same "$says: the library" "target=$library_target" "$(grep '^target=' "$to/usr/local/lib/pkgconfig/verity.pc")"
    runs "$says: make uninstall" 0 '' '' make -s -C "$scratch/empty" --no-print-directory uninstall DESTDIR="$to" "$@"
    same "$says: what make uninstall leaves" '' "$(listed "$to")"
}
library_target=x86_64 kind_installs bin/static 'make install STATIC=yes' STATIC=yes
library_target=aarch64 kind_installs bin/aarch64 'make install for 64-bit ARM' TARGET=aarch64
library_target=aarch64 kind_installs bin/aarch64/static 'make install for 64-bit ARM, static' TARGET=aarch64 STATIC=yes
# With CPU what is built for another processor is refused, programs or library.
echo x86-64-v2 | tee "$scratch/empty/bin/"{fsverity,veritysetup}.made >/dev/null
echo 'any, static' | tee "$scratch/empty/bin/static/"{fsverity,veritysetup}.made >/dev/null
echo x86-64 >"$scratch/empty/lib/libverity.a.made"
refuses 'programs for another processor' "bin/fsverity isn't built with CPU=any: run 'make programs CPU=any' first" \
    -C "$scratch/empty" install CPU=any
refuses 'the library for another processor' \
    "lib/libverity.a isn't built with CPU=x86-64-v2: run 'make library CPU=x86-64-v2' first" \
    -C "$scratch/empty" install CPU=x86-64-v2
runs 'what is for every processor' 0 '' '' \
    make -s -C "$scratch/empty" --no-print-directory install STATIC=yes CPU=any DESTDIR="$scratch/for_any"
runs 'a CPU in the environment' 0 '' '' \
    env CPU=any make -s -C "$scratch/empty" --no-print-directory install DESTDIR="$scratch/for_any"
refuses 'another CPU' 'CPU is x86-64, x86-64-v2, x86-64-v3 or any' install CPU=x86-64-v4
refuses 'a STATIC that is neither yes nor no' 'STATIC is yes or no' install STATIC=1
refuses 'a SHA that is neither yes nor no' 'SHA is yes or no' install SHA=1
refuses 'programs with SHA instructions' \
    "bin/fsverity isn't built with SHA=no: run 'make programs SHA=no' first" -C "$scratch/empty" install SHA=no
echo 'x86-64-v2, without SHA instructions' | tee "$scratch/empty/bin/"{fsverity,veritysetup}.made >/dev/null
echo 'x86-64, without SHA instructions' >"$scratch/empty/lib/libverity.a.made"
refuses 'programs without SHA instructions' "bin/fsverity isn't built with SHA=yes: run 'make programs SHA=yes' first" \
    -C "$scratch/empty" install SHA=yes
refuses 'another TARGET' 'TARGET is x86_64 or aarch64' install TARGET=arm

# The archive of the sources: the same bytes from a clone, later and with other settings, and what was committed, but
# debian/. Only the first commit in which the version has a date has an archive without the commit's number.
if [ -e .git ] && command -v git >/dev/null; then
    number=$(git show HEAD:include/verity.h | header_version)
    name=verity-$number
    same 'make dist: before the release' "dist/$name~COMMIT.tar.gz" "$(archive_for "$number (not yet released)")"
    same 'make dist: without a number' "dist/$name~COMMIT.tar.gz" "$(archive_for 'Not yet released')"
    same 'make dist: the release' "dist/$name.tar.gz" "$(archive_for "$number (2026-11-30)")"
    same 'make dist: after the release' "dist/$name+COMMIT.tar.gz" "$(archive_for "$number (2026-11-30)")"
    same 'make dist: another date' "dist/$name+COMMIT.tar.gz" "$(archive_for "$number (2026-12-01)")"
    git clone -q --depth 1 "file://$scratch/headed" "$scratch/shallow"
    runs 'make dist, without the commit before' 2 '' any make -s -C "$scratch/shallow" --no-print-directory dist
    same 'make dist, without the commit before: why' \
        "dist.sh: $(git -C "$scratch/headed" rev-parse HEAD^), the commit before, isn't here" \
        "$(head -n 1 "$scratch/.err")"
    runs 'make dist' 0 any '' make -s --no-print-directory dist DIST="$scratch/dist"
    name=$(basename "$(cat "$scratch/.out")" .tar.gz)
    same 'make dist: its name' "verity-$number" "${name%[~+]"$(commit_in .)"}"
    git clone -q . "$scratch/clone" 2>/dev/null
    git -C "$scratch/clone" config tar.umask 0077
    mkdir -p "$scratch/home/.config/git"
    printf '%s\n' '* text eol=crlf' 'docs export-ignore' >"$scratch/home/.config/git/attributes"
    mkdir -p "$scratch/clone/.git/info"
    echo 'tests export-ignore' >"$scratch/clone/.git/info/attributes"
    sleep 1
    (
        umask 077
        export TZ=Asia/Tokyo HOME=$scratch/home XDG_CONFIG_HOME=$scratch/home/.config GZIP=--rsyncable
        make -s -C "$scratch/clone" --no-print-directory dist
    ) >"$scratch/.made" 2>&1
    is_text 'make dist, of a clone' "dist/$name.tar.gz" "$scratch/.made"
    same_bytes 'make dist, twice' "$scratch/dist/$name.tar.gz" "$scratch/clone/dist/$name.tar.gz"
    mkdir "$scratch/unpacked"
    tar -xzf "$scratch/dist/$name.tar.gz" -C "$scratch/unpacked"
    same 'make dist: its folder' "$name" "$(ls "$scratch/unpacked")"
    rm -rf "$scratch/clone/"{dist,debian,.git}
    runs 'make dist: what was committed' 0 '' '' diff -r "$scratch/clone" "$scratch/unpacked/$name"
    runs 'make dist, without a repository' 2 '' any make -s -C "$scratch/unpacked/$name" --no-print-directory dist
else
    echo 'left out: the archive of the sources: git or the repository is not here'
fi
finish
