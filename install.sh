#!/usr/bin/env bash
# install.sh install|uninstall: puts the programs of bin/, their manual pages and the completion of their words in bash,
# zsh and fish below DESTDIR and PREFIX, with SUFFIX at the end of their names; or removes just these files. BINDIR,
# SBINDIR, MANDIR, BASHCOMPDIR, ZSHCOMPDIR, FISHCOMPDIR, LIBDIR and INCLUDEDIR are folders in place of those below
# PREFIX, and DESTDIR stands before them too. A folder that is there keeps its mode. With STRIP=yes the programs and the
# shared libraries are stripped. With TARGET=aarch64 it is the programs of bin/aarch64, and with STATIC=yes those of
# bin/static or bin/aarch64/static. With CPU those that are built for another processor are refused, with SHA=no those
# that have SHA instructions, and with SHA=yes those that have none. The pages and the completion speak of the programs
# by these names. If the library for C is built for TARGET, that goes there too, by its own names, with its header, its
# page, also under the name of each function, and what pkg-config says of it. install.sh install-library|uninstall-library does this with the
# library alone. Its page speaks of the programs by their plain names then. One target's library doesn't take the place
# of another's, and isn't removed in place of it. install.sh install-python|uninstall-python does it with the module of
# bindings/python, below DESTDIR in PYTHONDIR, or where the interpreter PYTHON looks for what is installed. Nothing is
# built here, so that no proof runs as root.
set -euo pipefail
cd "$(dirname "$0")"
. ./building.sh
prefix=${PREFIX-/usr/local}
suffix=${SUFFIX--proved}

if [[ $suffix = *[!A-Za-z0-9._+-]* ]]; then refuse 'SUFFIX may have letters, digits and . _ + - alone'; fi
case ${STRIP:=no} in
yes | no) ;;
*) refuse 'STRIP is yes or no' ;;
esac
case ${STATIC:=no} in
yes | no) ;;
*) refuse 'STATIC is yes or no' ;;
esac
case ${SHA:=} in
yes | no | '') ;;
*) refuse 'SHA is yes or no' ;;
esac
# The files of the library in the folder where it is built, and what links and strips them.
case ${TARGET:=x86_64} in
x86_64)
    built=lib compiler=cc strip=strip
    archives=(libverity.a) shared=(libverity.so.2 glibc-hwcaps/x86-64-v3/libverity.so.2)
    ;;
aarch64)
    built=lib/aarch64 compiler=aarch64-linux-gnu-gcc strip=aarch64-linux-gnu-strip
    archives=(libverity.a libverity-strict-align.a) shared=(libverity.so.2)
    ;;
*) refuse 'TARGET is x86_64 or aarch64' ;;
esac
programs=$(place "$TARGET" "$STATIC")
if [ -n "${CPU:=}" ]; then wrong=$(in_order "$TARGET" "$CPU" "$STATIC") || refuse "$wrong"; fi
for name in PREFIX BINDIR SBINDIR MANDIR BASHCOMPDIR ZSHCOMPDIR FISHCOMPDIR LIBDIR INCLUDEDIR PYTHONDIR; do
    case ${!name-/} in
    '' | /*) ;;
    *) refuse "$name has to begin with /" ;;
    esac
done
libdir=${LIBDIR:-$prefix/lib}
includedir=${INCLUDEDIR:-$prefix/include}
bin=${DESTDIR-}${BINDIR:-$prefix/bin}
sbin=${DESTDIR-}${SBINDIR:-$prefix/sbin}
pages=${DESTDIR-}${MANDIR:-$prefix/share/man}
bash_words=${DESTDIR-}${BASHCOMPDIR:-$prefix/share/bash-completion/completions}
zsh_words=${DESTDIR-}${ZSHCOMPDIR:-$prefix/share/zsh/site-functions}
fish_words=${DESTDIR-}${FISHCOMPDIR:-$prefix/share/fish/vendor_completions.d}
libraries=${DESTDIR-}$libdir
headers=${DESTDIR-}$includedir
pkg_config=$libraries/pkgconfig/verity.pc

# Prints a page with the installed names in its headings, footer, examples and references.
page() {
    sed -E -e "s/^\.Dt (FSVERITY|VERITYSETUP) /.Dt \1${suffix^^} /" \
        -e "s/^\.(Nm|Os) (fsverity|veritysetup)\b/&$suffix/" \
        -e "s/^\.Xr (fsverity|veritysetup) /.Xr \1$suffix /" -e "s/^\\$ (fsverity|veritysetup) /$ \1$suffix /" "$1"
}

# Prints a completion for the installed name, as each shell has it said.
completion() {
    sed -E -e "s/^(complete .*|#compdef) (fsverity|veritysetup)\$/&$suffix/" \
        -e "s/^complete -c (fsverity|veritysetup) /complete -c \1$suffix /" "$1"
}

# make_folder FOLDER: makes a folder, unless it is there.
make_folder() {
    if [ ! -d "$1" ]; then install -d "$1"; fi
}

# put MODE FILE: makes a file of standard input.
put() {
    make_folder "$(dirname "$2")"
    install -m "$1" /dev/stdin "$2"
}

# put_built FILE: the same for what runs, stripped if that is wanted.
put_built() {
    local words=()
    if [ "$STRIP" = yes ]; then words=(-s "--strip-program=$strip"); fi
    make_folder "$(dirname "$1")"
    install "${words[@]}" -m 755 /dev/stdin "$1"
}

# below_prefix FOLDER: prints a folder as pkg-config's file names it, by its variable if it lies below PREFIX.
below_prefix() {
    case $1 in
    "$prefix"/*) echo "\${prefix}${1#"$prefix"}" ;;
    *) echo "$1" ;;
    esac
}

# described: prints what pkg-config is told of the library, with the version that its header has. The target is for this
# script alone.
described() {
    local version
    version=$(header_version <include/verity.h)
    cat <<END
prefix=$prefix
libdir=$(below_prefix "$libdir")
includedir=$(below_prefix "$includedir")
target=$TARGET

Name: libverity
Description: checks blocks of dm-verity and fs-verity, and builds their trees as data comes
Version: $version
Libs: -L"\${libdir}" -lverity
Cflags: -I"\${includedir}"
END
}

# lacks FILE..: prints the first of these files of the library that isn't built. Fails if all are there.
lacks() {
    local file
    for file; do
        if [ ! -e "$built/$file" ]; then
            echo "$file"
            return
        fi
    done
    return 1
}

# is_for FILE KIND MAKE: refuses a file that is of another kind, if a CPU is asked for, or one that has SHA instructions
# or hasn't, where SHA asks for another.
is_for() {
    local kind without=', without SHA instructions' sha=
    kind=$(head -n 1 "$1.made" 2>/dev/null) || true
    if [ -n "$CPU" ] && [ "${kind%"$without"}" != "$2" ]; then refuse "$1 isn't built with CPU=$CPU: run '$3' first"; fi
    case $kind in *"$without") sha=no ;; ?*) sha=yes ;; esac
    if [ -n "$SHA" ] && [ "$SHA" != "$sha" ]; then refuse "$1 isn't built with SHA=$SHA: run '$3' first"; fi
}

# making GOAL: prints by which command of make that is built.
making() {
    local make="make $1"
    if [ "$TARGET" != x86_64 ]; then make+=" TARGET=$TARGET"; fi
    if [ "$1:$STATIC" = programs:yes ]; then make+=' STATIC=yes'; fi
    echo "$make${CPU:+ CPU=$CPU}${SHA:+ SHA=$SHA}"
}

# installed_target: prints for which target a library is installed there, if one is: a file of pkg-config that doesn't
# say so is of an older version, which was for x86_64 alone. A header of this name may be another library's.
installed_target() {
    local there
    if ! grep -qsx 'Name: libverity' "$pkg_config"; then return; fi
    there=$(sed -n 's/^target=//p' "$pkg_config")
    echo "${there:-x86_64}"
}

# takes_place: refuses to install over the library for another target, or one for another processor.
takes_place() {
    local there
    is_for "$built/libverity.a" "${CPU/any/x86-64}" "$(making library)"
    there=$(installed_target)
    if [ "${there:-$TARGET}" != "$TARGET" ]; then
        refuse "the library in $libraries is for $there: give that for $TARGET a LIBDIR of its own"
    fi
}

# page_links: prints the names under which the page stands, too: one for each function.
page_links() {
    awk '$1 == ".Fn" { print $2 ".3" }' man/verity.3 | sort -u
}

# put_library: puts the library there, and first what pkg-config says of it, by which it is known when it is removed.
put_library() {
    local file
    described | put 644 "$pkg_config"
    for file in "${archives[@]}"; do put 644 "$libraries/$file" <"$built/$file"; done
    for file in "${shared[@]}"; do put_built "$libraries/$file" <"$built/$file"; done
    ln -sfn libverity.so.2 "$libraries/libverity.so"
    put 644 "$headers/verity.h" <include/verity.h
    page man/verity.3 | put 644 "$pages/man3/verity.3"
    for file in $(page_links); do ln -sfn verity.3 "$pages/man3/$file"; done
}

remove_library() {
    local file
    for file in $(page_links); do rm -f "$pages/man3/$file"; done
    rm -f "${archives[@]/#/$libraries/}" "${shared[@]/#/$libraries/}" "$libraries/libverity.so"
    rm -f "$headers/verity.h" "$pages/man3/verity.3" "$pkg_config"
}

install_library() {
    # There may be no programs beside it, so its page names them by their plain names.
    local make file suffix=
    make=$(making library)
    if lacks "${archives[@]}" >/dev/null; then refuse "run '$make' first"; fi
    if file=$(lacks "${shared[@]}"); then refuse "$file isn't built: install $compiler and run '$make' first"; fi
    takes_place
    put_library
}

uninstall_library() {
    local there
    there=$(installed_target)
    case $there in
    "$TARGET") remove_library ;;
    '') ;;
    *) refuse "the library in $libraries is for $there: use 'make uninstall-library TARGET=$there'" ;;
    esac
}

python_files=(bindings/python/verity/*.py bindings/python/verity/py.typed)

# python_module: prints the folder of the installed module.
python_module() {
    local folder=${PYTHONDIR-} python=${PYTHON:-python3}
    if [ -z "$folder" ]; then
        folder=$("$python" -I -c 'import sysconfig; print(sysconfig.get_path("purelib"))' 2>/dev/null) ||
            refuse "$python doesn't run: PYTHON is the interpreter, or PYTHONDIR the folder of its modules"
    fi
    echo "${DESTDIR-}$folder/verity"
}

install_python() {
    local module file
    module=$(python_module)
    for file in "${python_files[@]}"; do
        put 644 "$module/${file##*/}" <"$file"
    done
}

# What an interpreter has compiled of it goes, too. An empty folder would be a module.
uninstall_python() {
    local module file name
    module=$(python_module)
    for file in "${python_files[@]}"; do
        name=${file##*/}
        rm -f "$module/$name" "$module/__pycache__/${name%.py}".*.pyc
    done
    for file in "$module/__pycache__" "$module"; do
        if [ -d "$file" ]; then rmdir --ignore-fail-on-non-empty "$file"; fi
    done
}

install_all() {
    local make name section file has_library=no
    make=$(making programs)
    if [ ! -x "$programs/fsverity" ] || [ ! -x "$programs/veritysetup" ]; then refuse "run '$make' first"; fi
    for name in "$programs/"{fsverity,veritysetup}; do
        is_for "$name" "$(kind_of "$TARGET" "$CPU" "$STATIC" yes)" "$make"
    done
    if ! lacks "${archives[@]}" >/dev/null; then
        if file=$(lacks "${shared[@]}"); then
            echo "$file isn't built, so the library is left out" >&2
        else
            takes_place
            has_library=yes
        fi
    fi
    put_built "$bin/fsverity$suffix" <"$programs/fsverity"
    put_built "$sbin/veritysetup$suffix" <"$programs/veritysetup"
    for name in fsverity.1 veritysetup.8; do
        section=${name#*.} name=${name%.*}
        page "man/$name.$section" | put 644 "$pages/man$section/$name$suffix.$section"
        completion "completions/$name" | put 644 "$bash_words/$name$suffix"
        completion "completions/_$name" | put 644 "$zsh_words/_$name$suffix"
        completion "completions/$name.fish" | put 644 "$fish_words/$name$suffix.fish"
    done
    # Up to version 1.3.0 it went to the folder of section 1.
    if ! [ "$bin" -ef "$sbin" ] && [ -e "$bin/veritysetup$suffix" ]; then
        echo "$bin/veritysetup$suffix may be of an older version: remove it then, for the new one is in $sbin" >&2
    fi
    if [ $has_library = yes ]; then put_library; fi
}

uninstall_all() {
    local name
    rm -f "$bin/fsverity$suffix" "$pages/man1/fsverity$suffix.1"
    rm -f "$sbin/veritysetup$suffix" "$pages/man8/veritysetup$suffix.8"
    for name in fsverity veritysetup; do
        rm -f "$bash_words/$name$suffix" "$zsh_words/_$name$suffix" "$fish_words/$name$suffix.fish"
    done
    if [ "$(installed_target)" = "$TARGET" ]; then remove_library; fi
}

if [[ ${1-} = install* ]] && [ "$STRIP" = yes ] && ! type -P "$strip" >/dev/null; then
    refuse "$strip isn't installed, which STRIP=yes needs"
fi
case ${1-} in
install | uninstall) "$1_all" ;;
install-library | uninstall-library | install-python | uninstall-python) "${1/-/_}" ;;
*)
    echo "usage: install.sh [un]install|[un]install-library|[un]install-python" >&2
    exit 1
    ;;
esac
