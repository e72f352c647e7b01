#!/usr/bin/env bash
# deb.sh: makes Debian's packages of what is committed, for amd64 and arm64, and their source package, in the folder
# DIST, and prints the names. Programs and libraries that aren't built yet are built first; the packages are those that
# debian/ describes. Their version is that of the archive of the sources, which dist.sh makes and which is part of the
# source package. The same commit gives the same bytes, as release.sh has it, by the same debhelper and dpkg.
set -euo pipefail
cd "$(dirname "$0")"
. ./releasing.sh
as_committed
needs dh debhelper
needs dpkg-buildpackage dpkg-dev
needs gcc gcc
needs aarch64-linux-gnu-gcc gcc-aarch64-linux-gnu
dist=${DIST:-dist}
debian=$(dpkg-parsechangelog -S Version)
release=$(header_version <include/verity.h)
if [ "${debian%-*}" != "$release" ]; then
    refuse "debian/changelog has version $debian, and include/verity.h $release"
fi
for program in fsverity veritysetup; do
    BIN=bin/any ./build.sh "${program}_cli" "$program" any
    TARGET=aarch64 ./build.sh "${program}_cli" "$program"
done
builds_libraries

# The sources, as they are handed out.
sources=$(DIST=$scratch ./dist.sh)
version=${sources##*/verity-}
version=${version%.tar.gz}
time=$(dpkg-parsechangelog -S Timestamp)
if [ "$version" != "$release" ]; then time=$(git show -s --format=%ct HEAD); fi
export SOURCE_DATE_EPOCH=$time
mv "$sources" "$scratch/verity_$version.orig.tar.gz"

# unpacks FOLDER: unpacks the sources, and debian/ with the version and the time of the packages.
unpacks() {
    local to=$scratch/$1/verity-$version
    mkdir -p "$to"
    tar -xzf "$scratch/verity_$version.orig.tar.gz" -C "$to" --strip-components=1
    archived HEAD debian | tar -x -C "$to"
    if [ "$version" != "$release" ]; then
        sed -i -e "1s/(.*)/($version-${debian##*-})/" \
            -e "0,/^ -- /s/^\( -- .*>  \).*/\1$(date -u -R -d "@$time")/" "$to/debian/changelog"
    fi
}

# takes FOLDER TO: programs or libraries that are built, and what is known of them.
takes() {
    mkdir -p "$2"
    find "$1" -maxdepth 1 ! -type d -exec cp -P -t "$2" {} +
}

# makes FOLDER WORD..: runs a command in the unpacked sources. What it says is shown if it fails.
makes() {
    (
        cd "$scratch/$1/verity-$version"
        unset MAKEFLAGS MAKELEVEL MFLAGS
        DEB_BUILD_OPTIONS=nocheck DEB_BUILD_PROFILES=nocheck exec "${@:2}"
    ) >"$scratch/said" 2>&1 </dev/null || failed "${*:2} has failed"
}

unpacks source
cp "$scratch/verity_$version.orig.tar.gz" "$scratch/source"
makes source dpkg-source -b .
for architecture in amd64 arm64; do
    unpacks $architecture
    to=$scratch/$architecture/verity-$version
    case $architecture in
    amd64)
        takes bin/any "$to/bin"
        takes lib "$to/lib"
        takes lib/glibc-hwcaps/x86-64-v3 "$to/lib/glibc-hwcaps/x86-64-v3"
        ;;
    arm64)
        takes bin/aarch64 "$to/bin/aarch64"
        takes lib/aarch64 "$to/lib/aarch64"
        ;;
    esac
    # Nothing is compiled, so packages that a build for another architecture depends on aren't asked for.
    makes $architecture dpkg-buildpackage -d -us -uc -b "-a$architecture"
done
mkdir -p "$dist"
files=("$scratch"/source/verity_* "$scratch"/a*64/*.deb)
cp "${files[@]}" "$dist"
printf "$dist/%s\n" "${files[@]##*/}"
