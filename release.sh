#!/usr/bin/env bash
# release.sh: makes what is handed out of a version, in the folder DIST, and prints the names:
#   verity-VERSION.tar.gz           the sources, by dist.sh
#   verity-VERSION-x86_64.tar.gz    static programs for every x86-64 processor, their pages and completion, and the
#                                   library for C with its header and page, as `make install` has them below a prefix
#   verity-VERSION-aarch64.tar.gz   the same for 64-bit ARM
#   SHA256SUMS                      the sums of these
# Each archive for a target has a file SHA256SUMS, too, over all its files. What isn't built yet is built, which needs
# the C compilers of both targets. Only what is committed goes in, and the times are the commit's, so that the same
# commit gives the same bytes, by the same toolchain and the same packages of C compilers, C libraries, binutils, tar
# and gzip.
set -euo pipefail
cd "$(dirname "$0")"
. ./releasing.sh
as_committed
needs gcc gcc
needs aarch64-linux-gnu-gcc gcc-aarch64-linux-gnu
dist=${DIST:-dist}
for program in fsverity veritysetup; do
    STATIC=yes ./build.sh "${program}_cli" "$program" any
    TARGET=aarch64 STATIC=yes ./build.sh "${program}_cli" "$program"
done
builds_libraries
sources=$(DIST=$dist ./dist.sh)
name=$(basename "$sources" .tar.gz)
time=$(git show -s --format=%ct HEAD)
archives=("$name.tar.gz")
for target in x86_64 aarch64; do
    folder=$scratch/$name-$target
    env -i PATH="$PATH" TARGET=$target STATIC=yes STRIP=yes PREFIX= DESTDIR="$folder" ./install.sh install
    # Wherever it is unpacked, pkg-config finds it.
    sed -i 's|^prefix=.*|prefix=${pcfiledir}/../..|' "$folder/lib/pkgconfig/verity.pc"
    install -D -m 644 -t "$folder/share/doc/verity" README.md CHANGELOG.md
    (cd "$folder" && find . -type f -printf '%P\0' | sort -z | xargs -0 sha256sum) >"$scratch/sums"
    mv "$scratch/sums" "$folder/SHA256SUMS"
    tar -c --format=gnu --sort=name --mtime="@$time" --owner=0 --group=0 --numeric-owner --mode=u=rwX,go=rX \
        -C "$scratch" "$name-$target" | gzip -9 -n >"$dist/$name-$target.tar.gz.new"
    mv "$dist/$name-$target.tar.gz.new" "$dist/$name-$target.tar.gz"
    archives+=("$name-$target.tar.gz")
done
(cd "$dist" && sha256sum "${archives[@]}") >"$dist/SHA256SUMS.new"
mv "$dist/SHA256SUMS.new" "$dist/SHA256SUMS"
printf "$dist/%s\n" "${archives[@]}" SHA256SUMS
