# What tests/install.sh and tests/library/install.sh share: what is built, installed, stripped, removed again and
# refused. Sourced after tests/lib/checks.sh.

# listed FOLDER: the files below a folder with their modes, in order.
listed() {
    (cd "$1" && find . -type f -printf '%m %P\n' | sort -k 2)
}

# built_files TARGET: the files of the library in the folder where it is built, with the modes that they get.
built_files() {
    printf '%s\n' '644 libverity.a' '755 libverity.so.2'
    case $1 in
    x86_64) echo '755 glibc-hwcaps/x86-64-v3/libverity.so.2' ;;
    aarch64) echo '644 libverity-strict-align.a' ;;
    esac
}

# built_in TARGET: the folder where the library is built.
built_in() {
    case $1 in
    x86_64) echo lib ;;
    aarch64) echo lib/aarch64 ;;
    esac
}

# is_built TARGET: whether the library is built.
is_built() {
    local file
    while read -r _ file; do
        if [ ! -e "$(built_in "$1")/$file" ]; then return 1; fi
    done < <(built_files "$1")
}

# library_files TARGET PREFIX: the files of the library with their modes.
library_files() {
    built_files "$1" | sed "s|^\([0-9]*\) |\1 ${libraries:-$2/lib}/|"
    printf '644 %s\n' "${includes:-$2/include}/verity.h" "${libraries:-$2/lib}/pkgconfig/verity.pc" \
        "${manuals:-$2/share/man}/man3/verity.3"
}

# is_stripped FILE INSTALLED [PROGRAM]: an installed program or library is that of bin/ or lib/ without its symbols, as
# strip or another program removes them.
is_stripped() {
    cp "$1" "$scratch/without_symbols"
    "${3:-strip}" "$scratch/without_symbols"
    same_bytes "$2: as strip leaves it" "$scratch/without_symbols" "$2"
    same "$2: symbols" 0 "$(readelf -S "$2" | grep -c '\.symtab')"
}

# uninstalls FOLDER WORD..: `make uninstall`, or `make uninstall-library` as `goal` says, removes what was installed,
# and nothing that stands beside it.
uninstalls() {
    local folder=$scratch/$1 installed file beside
    shift
    installed=$(listed "$folder")
    while read -r _ file; do
        : >"$folder/${file%/*}/other"
        : >"$folder/$file.other"
    done <<<"$installed"
    beside=$(listed "$folder" | grep -vxF "$installed")
    make -s "${goal:-uninstall}" DESTDIR="$folder" "$@" >"$scratch/.made" 2>&1 </dev/null
    is_text "$folder: what make ${goal:-uninstall} says" '' "$scratch/.made"
    same "$folder: what ${goal:-uninstall} leaves" "$beside" "$(listed "$folder")"
    same "$folder: links after ${goal:-uninstall}" '' "$(find "$folder" -type l)"
}

# refuses NAME MESSAGE WORD..: make with these words ends with an error that install.sh names, and nothing is installed.
refuses() {
    refuses_in none "$@"
    absent "$1" "$scratch/none"
}

# refuses_in FOLDER NAME MESSAGE WORD..: the same below this folder, where all stays as it is.
refuses_in() {
    local folder=$scratch/$1 before=
    if [ -e "$folder" ]; then before=$(listed "$folder"); fi
    runs "$2" 2 '' any make -s --no-print-directory "${@:4}" DESTDIR="$folder"
    same "$2: why" "install.sh: $3" "$(head -n 1 "$scratch/.err")"
    if [ -n "$before" ]; then same "$2: all stays" "$before" "$(listed "$folder")"; fi
}
