#!/usr/bin/env bash
# `make deb` makes packages of a commit. Their files, what they depend on and their version are those of
# docs/PACKAGING.md, and lintian has no error and no warning. With RUNS=all they are made again: in another folder,
# later and by a user with other settings, with the same bytes; and of a version that is released. For each architecture
# dpkg installs them into a root that has a C library alone; there the programs run, and debian/tests with what stands
# there, for arm64 by qemu; and once they are purged the root is what it was.
set -u
cd "$(dirname "$0")/.."
. tests/lib/checks.sh
. tests/lib/releasing.sh
needs git git
needs dh debhelper
needs dpkg-buildpackage dpkg-dev
needs lintian lintian
needs cc gcc
needs strip binutils
needs readelf binutils
needs aarch64-linux-gnu-gcc gcc-aarch64-linux-gnu
needs qemu-aarch64 qemu-user
needs pkg-config pkg-config
if [ ! -e debian ]; then
    echo "$0: debian/ isn't here, as in the archive of the sources"
    exit $LEFT_OUT
fi
has_programs deb bin/any bin/aarch64
needs_root

release=$(header_version <include/verity.h)
revision=$(dpkg-parsechangelog -S Version)
same 'debian/changelog: the version' "$release" "${revision%-*}"
revision=${revision##*-}

# headed FOLDER HEADING: commits changes that begin with this heading.
headed() {
    sed -i "0,/^## .*/s//## $2/" "$1/CHANGELOG.md"
    commits "$1" "$2"
}

# names VERSION: the names of what is made, in order.
names() {
    printf '%s\n' "verity_$1-$revision."{debian.tar.xz,dsc} "verity_$1.orig.tar.gz" \
        {libverity-dev,libverity2,verity-proved}_"$1-$revision"_{amd64,arm64}.deb | sort
}

# makes NAME FOLDER DIST VERSION: `make deb` in a folder makes the packages of this version, and nothing else, and says
# so. Nothing is built anew.
makes() {
    make -s -C "$2" --no-print-directory deb DIST="$3" >"$scratch/.made" 2>&1 </dev/null
    same "$1: status" 0 $?
    same "$1: what it says" "$(names "$4" | sed "s|^|$3/|")" \
        "$(grep -v ', and nothing has changed$' "$scratch/.made" | sort)"
    same "$1: files" "$(names "$4")" "$(ls -A "$3" | sort)"
}

one=$scratch/one other=$scratch/other debs=$scratch/debs
as_a_commit "$one"
headed "$one" "$release (not yet released)"
: >"$one/crates/new"
refuses 'a file that is not committed' 'crates/new is not committed, and this is made of a commit' "$one" deb
rm "$one/crates/new"
cp -r "$one" "$other"
sed -i "1s/$release/0.9/" "$other/debian/changelog"
commits "$other" 'Another version of the packages'
refuses 'a version that differs' "debian/changelog has version 0.9-$revision, and include/verity.h $release" \
    "$other" deb
rm -rf "$other"

version=$release~$(commit_in "$one")
makes 'make deb' "$one" "$debs" "$version"
if [ ! -e "$debs" ]; then
    cat "$scratch/.made"
    finish
    exit
fi
runs 'a version that is released comes after what was before' 0 '' '' \
    dpkg --compare-versions "$version-$revision" lt "$release-$revision"
runs 'what comes after a version that is released' 0 '' '' \
    dpkg --compare-versions "$release-$revision" lt "$release+$(commit_in "$one")-$revision"

# again: what is made the second time.
again() {
    local file
    cp -r "$one" "$other"
    sleep 1
    (
        umask 077
        export TZ=Asia/Tokyo LC_ALL=C.UTF-8 GZIP=--rsyncable TAR_OPTIONS=--exclude=*.md BIN=none LIB=none PREFIX=/opt \
            SUFFIX=x STRIP=yes LIBDIR=/lib64 TARGET=none STATIC=no SHA=no DEB_BUILD_OPTIONS='nostrip parallel=3' \
            SOURCE_DATE_EPOCH=1 DEB_HOST_ARCH=i386
        make -s -C "$other" --no-print-directory deb
    ) >"$scratch/.made" 2>&1 </dev/null
    same 'make deb, elsewhere: status' 0 $?
    for file in $(names "$version"); do same_bytes "make deb, elsewhere: $file" "$debs/$file" "$other/dist/$file"; done
    headed "$other" "$release (2026-11-30)"
    makes 'make deb, of a version that is released' "$other" "$scratch/released" "$release"
    runs 'make dist, of the same commit' 0 any '' make -s -C "$other" --no-print-directory dist DIST="$scratch/dist"
    same_bytes 'make dist, of the same commit' "$scratch/dist/verity-$release.tar.gz" \
        "$scratch/released/verity_$release.orig.tar.gz"
    packages+=("$scratch/released"/*.{deb,dsc})
}

packages=("$debs"/*.{deb,dsc})
if [ "${RUNS:-}" = all ]; then again; fi
runs 'lintian: errors, warnings, and what is overridden' 0 '' '' \
    lintian --allow-root --no-cfg --show-overrides --fail-on error,warning,override "${packages[@]}"

# package NAME: the file of a package for the architecture.
package() {
    echo "$debs/$1_$version-${revision}_$architecture.deb"
}

# fields NAME FIELD..: what a package says of itself.
fields() {
    dpkg-deb -f "$(package "$1")" "${@:2}" | paste -sd '|'
}

# files NAME: the files that a package is to have, with their modes, in order.
files() {
    {
        printf -- "-rw-r--r-- usr/share/doc/$1/%s\n" changelog.Debian.gz changelog.gz copyright
        case $1 in
        verity-proved)
            printf -- '-rwxr-xr-x %s\n' usr/bin/fsverity-proved usr/sbin/veritysetup-proved
            printf -- '-rw-r--r-- usr/share/%s\n' bash-completion/completions/{fsverity,veritysetup}-proved \
                fish/vendor_completions.d/{fsverity,veritysetup}-proved.fish \
                zsh/vendor-completions/_{fsverity,veritysetup}-proved \
                man/man1/fsverity-proved.1.gz man/man8/veritysetup-proved.8.gz
            ;;
        libverity2)
            echo "-rw-r--r-- $libraries/libverity.so.2"
            if [ $architecture = amd64 ]; then
                echo "-rw-r--r-- $libraries/glibc-hwcaps/x86-64-v3/libverity.so.2"
            fi
            ;;
        libverity-dev)
            printf -- '-rw-r--r-- %s\n' usr/include/verity.h "$libraries/libverity.a" "$libraries/pkgconfig/verity.pc" \
                usr/share/man/man3/verity.3.gz
            echo "lrwxrwxrwx $libraries/libverity.so libverity.so.2"
            header_functions | sed 's|.*|lrwxrwxrwx usr/share/man/man3/&.3.gz verity.3.gz|'
            if [ $architecture = arm64 ]; then echo "-rw-r--r-- $libraries/libverity-strict-align.a"; fi
            ;;
        esac
    } | sed 's| | 0/0 |' | sort -k 3
}

# beside TEXT: the files of all packages, beside others, in order.
beside() {
    { echo "$1" && files verity-proved && files libverity2 && files libverity-dev; } | sort -k 3
}

# newest PROGRAM..: the newest glibc that programs ask for.
newest() {
    readelf -V "$@" | grep -o 'GLIBC_[0-9.]*' | sort -uV | tail -n 1 | cut -d _ -f 2
}

# known FOLDER ARCHITECTURE PACKAGE: has dpkg in a root take the C library for installed, in the version of a package
# that is installed here.
known() {
    echo /. >"$1/var/lib/dpkg/info/libc6:$2.list"
    printf '%s\n' 'Package: libc6' 'Status: install ok installed' 'Maintainer: none' "Architecture: $2" \
        'Multi-Arch: same' "Version: $(dpkg-query -W -f '${Version}' "$3")" 'Description: C library' '' \
        >>"$1/var/lib/dpkg/status"
}

# in_dpkg FOLDER WORD..: dpkg in a root. Its log isn't this system's, and settings that leave out pages don't count.
in_dpkg() {
    as_root dpkg --root="$1" --log="$scratch/dpkg.log" --force-unsafe-io --path-include='*' "${@:2}"
}

# standing FOLDER: what stands in a root beside what dpkg writes down.
standing() {
    listing "$1" | grep -v ' var/l[io][bg]/dpkg'
}

# in_root PROGRAM WORD..: runs an installed program in its root, or by qemu beside it.
in_root() {
    case $architecture in
    amd64) as_root chroot "$there" "/$1" "${@:2}" ;;
    arm64) qemu-aarch64 -L "$there" "$there/$1" "${@:2}" ;;
    esac
}

printf a >"$scratch/a"
for architecture in amd64 arm64; do
    there=$scratch/$architecture
    case $architecture in
    amd64)
        triplet=x86_64-linux-gnu tools= built=bin/any of=libc6:amd64
        runs=(env LD_LIBRARY_PATH="$there/usr/lib/$triplet") begins=()
        from=/lib/x86_64-linux-gnu loader=lib64/ld-linux-x86-64.so.2
        ;;
    arm64)
        triplet=aarch64-linux-gnu tools=aarch64-linux-gnu- built=bin/aarch64 of=libc6-arm64-cross
        runs=(qemu-aarch64 -L "$there" -E LD_LIBRARY_PATH="/usr/lib/$triplet") begins=(qemu-aarch64 -L "$there")
        from=/usr/aarch64-linux-gnu/lib loader=lib/ld-linux-aarch64.so.1
        ;;
    esac
    libraries=usr/lib/$triplet
    of_programs=$(newest "$built"/{fsverity,veritysetup})
    # For arm64 debian/shlibs.cross knows no better.
    of_library=$of_programs
    if [ $architecture = amd64 ]; then of_library=$(newest lib/libverity.so.2); fi
    same "$architecture: verity-proved" \
        "Architecture: $architecture|Depends: libc6 (>= $of_programs)|Multi-Arch: foreign" \
        "$(fields verity-proved Architecture Depends Multi-Arch)"
    same "$architecture: libverity2" "Architecture: $architecture|Depends: libc6 (>= $of_library)|Multi-Arch: same" \
        "$(fields libverity2 Architecture Depends Multi-Arch Pre-Depends)"
    same "$architecture: libverity-dev" \
        "Architecture: $architecture|Depends: libverity2 (= $version-$revision)|Multi-Arch: same" \
        "$(fields libverity-dev Architecture Depends Multi-Arch)"
    for name in verity-proved libverity2 libverity-dev; do
        mkdir -p "$there.files/$name"
        dpkg-deb --fsys-tarfile "$(package "$name")" | as_root tar -xp -C "$there.files/$name"
        same "$architecture: files of $name" "$(files "$name")" \
            "$(listing "$there.files/$name")"
        more=
        if [ $name = libverity2 ]; then more=' shlibs symbols triggers'; fi
        same "$architecture: what $name has beside files" "control md5sums$more" \
            "$(dpkg-deb --ctrl-tarfile "$(package "$name")" | tar -t | sed 's|^\./||' | grep . | sort | paste -sd ' ')"
    done
    # What is built, stripped as dh_strip does.
    while read -r program installed; do
        cp "$program" "$scratch/stripped"
        "${tools}strip" --remove-section=.comment --remove-section=.note "$scratch/stripped"
        same_bytes "$architecture: $installed" "$scratch/stripped" "$there.files/$installed"
    done <<END
$built/fsverity verity-proved/usr/bin/fsverity-proved
$built/veritysetup verity-proved/usr/sbin/veritysetup-proved
END

    # A root with a C library, and nothing else.
    mkdir -p "$there/var/lib/dpkg/"{info,updates} "$there/$(dirname $loader)" "$there/lib/$triplet"
    printf '%s\n' amd64 arm64 >"$there/var/lib/dpkg/arch"
    cp "/${loader/#lib\/ld-linux-aarch64/usr/aarch64-linux-gnu/lib/ld-linux-aarch64}" "$there/$loader"
    cp "$from/libc.so.6" "$there/lib/$triplet"
    : >"$there/var/lib/dpkg/status"
    runs "$architecture: without a C library" 1 any any in_dpkg "$there" -i "$(package verity-proved)"
    same "$architecture: without a C library: why" 1 \
        "$(grep -c "verity-proved.* depends on libc6 (>= $of_programs)" "$scratch/.err")"
    runs "$architecture: purging what wasn't set up" 0 any '' in_dpkg "$there" -P verity-proved
    known "$there" $architecture $of
    before=$(standing "$there")
    runs "$architecture: libverity-dev without libverity2" 1 any any \
        in_dpkg "$there" -i "$(package libverity-dev)"
    same "$architecture: libverity-dev without libverity2: why" 1 \
        "$(grep -c "libverity-dev.* depends on libverity2 (= $version-$revision)" "$scratch/.err")"
    runs "$architecture: installing" 0 any '' in_dpkg "$there" -i \
        "$(package verity-proved)" "$(package libverity2)" "$(package libverity-dev)"
    same "$architecture: what is installed" \
        "$(beside "$before")" "$(standing "$there")"
    cp "$scratch/a" "$there"
    at=
    if [ $architecture = arm64 ]; then at=$there; fi
    runs "$architecture: an installed program" 0 "sha256:$DIGEST_OF_A $at/a" '' \
        in_root usr/bin/fsverity-proved digest "$at/a"
    rm "$there/a"

    # debian/tests, with what is installed there.
    mkdir "$there.commands"
    for name in usr/bin/fsverity-proved usr/sbin/veritysetup-proved; do
        printf '#!/bin/sh\nexec %s"$@"\n' "$(printf '%q ' "${begins[@]}" "$there/$name")" \
            >"$there.commands/${name##*/}"
        chmod +x "$there.commands/${name##*/}"
    done
    with_installed=(env PATH="$there.commands:$PATH" PKG_CONFIG_LIBDIR="$there/$libraries/pkgconfig"
        PKG_CONFIG_SYSROOT_DIR="$there" PKG_CONFIG_ALLOW_SYSTEM_CFLAGS=1 PKG_CONFIG_ALLOW_SYSTEM_LIBS=1
        CC="${tools}gcc" RUN="${runs[*]}")
    for name in $(sed -n 's/^Tests: *//p' debian/tests/control); do
        runs "$architecture: debian/tests/$name" 0 '' '' "${with_installed[@]}" "debian/tests/$name"
    done

    # The loader takes the library that is fastest on the processor.
    if [ $architecture = amd64 ]; then
        best=
        if [ "$(./processor.sh)" = x86-64-v3 ]; then best=glibc-hwcaps/x86-64-v3/; fi
        echo 'int main(void) { return verity_version() == 0; }' | "${with_installed[@]}" sh -c \
            'gcc -include verity.h -x c - -x none $(pkg-config --cflags --libs verity) -o "$1"' - "$there/user"
        same 'what the loader takes' "/usr/lib/$triplet/${best}libverity.so.2" \
            "$(as_root chroot "$there" "/$loader" --list /user | sed -n 's/.*libverity.so.2 => \([^ ]*\) .*/\1/p')"
        rm -f "$there/user"
    fi

    # Both architectures' libraries may be there at once.
    if [ $architecture = arm64 ]; then
        known "$there" amd64 libc6:amd64
        architecture=amd64
        runs 'libraries for both architectures' 0 any '' \
            in_dpkg "$there" -i "$(package libverity2)" "$(package libverity-dev)"
        runs 'libraries for one architecture' 0 any '' in_dpkg "$there" -P libverity-dev:amd64 libverity2:amd64
        architecture=arm64
        same 'libraries for one architecture: what stays' \
            "$(beside "$before")" "$(standing "$there")"
    fi
    runs "$architecture: removing" 0 any '' in_dpkg "$there" -P verity-proved libverity2 libverity-dev
    same "$architecture: what is left" "$before" "$(standing "$there")"
    same "$architecture: folders that are left" '' "$(find "$there/usr" 2>/dev/null)"
    same "$architecture: what dpkg knows" libc6 \
        "$(in_dpkg "$there" -l | awk '/^[a-z]/ { print $2 }' | sed 's/:.*//' | sort -u)"
done
finish
