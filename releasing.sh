# What release.sh and deb.sh share. Sourced at the repository's root, by bash.

. ./building.sh

# The settings of other commands change nothing.
unset BIN LIB TARGET STATIC CPU KEPT OVER_GATE TAR_OPTIONS GZIP
export LC_ALL=C SHA=yes
umask 022
scratch=$(mktemp -d)
trap 'rm -rf "$scratch"' EXIT

# as_committed: refuses what isn't a commit, or has changed since, for what is made has the commit's name or version.
as_committed() {
    local changed
    if [ ! -e .git ] || ! git rev-parse --verify --quiet 'HEAD^{commit}' >/dev/null; then
        refuse 'this is made of a commit, and no git repository is here'
    fi
    changed=$(git diff --name-only HEAD && git ls-files --others --exclude-standard crates instructions)
    if [ -n "$changed" ]; then refuse "$(head -n 1 <<<"$changed") is not committed, and this is made of a commit"; fi
}

# needs PROGRAM PACKAGE: refuses if a tool isn't there.
needs() {
    if ! type -P "$1" >/dev/null; then refuse "$1 isn't installed (Debian: $2)"; fi
}

# builds_libraries: builds the library for C for both targets, if something has changed: static for every processor.
builds_libraries() {
    local file
    ./library.sh x86_64
    ./library.sh aarch64
    for file in lib/libverity.so.2 lib/glibc-hwcaps/x86-64-v3/libverity.so.2 lib/aarch64/libverity.so.2; do
        if [ ! -e "$file" ]; then refuse "$file isn't built: its C compiler isn't installed or can't link"; fi
    done
}
