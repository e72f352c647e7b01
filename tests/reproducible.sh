#!/usr/bin/env bash
# Builds both programs once more, in another folder, and compares their bytes with those in bin/, and in bin/static,
# bin/aarch64 and bin/aarch64/static as far as they are built. All libraries are compiled there too. What earlier builds
# have proved is copied, so that it isn't proved anew: with PROVED=no nothing is copied but the sources, and all is
# proved again.
set -u
cd "$(dirname "$0")/.."
. tests/lib/checks.sh
. ./building.sh
unset TARGET STATIC SHA
BIN=bin
has_program fsverity
has_program veritysetup
needs rt 'none: the Rattle toolchain'

copy=$scratch/elsewhere/checkout
mkdir -p "$copy"
left_out=(--exclude='crates/*/out/rlib' --exclude='crates/*_cli/out/*_cli*')
if [ "${PROVED:-}" = no ]; then left_out=(--exclude='crates/*/out'); fi
tar -c "${left_out[@]}" crates.txt HANDLES {build,building}.sh {any_processor,runtime_for_arm}.c instructions crates |
    tar -x -C "$copy"
for target in x86_64 aarch64; do
    for static in no yes; do
        folder=$(place $target $static)
        if [ ! -e "$folder/fsverity.made" ] || [ ! -e "$folder/veritysetup.made" ]; then continue; fi
        for name in fsverity veritysetup; do
            kind=$(head -n 1 "$folder/$name.made")
            cpu=${kind%, without SHA instructions} sha=yes
            if [ "$cpu" != "$kind" ]; then sha=no; fi
            cpu=${cpu%, static}
            if env -u BIN TARGET=$target STATIC=$static SHA=$sha "$copy/build.sh" "${name}_cli" "$name" ${cpu#aarch64}; then
                same_bytes "$name for $kind" "$folder/$name" "$copy/$folder/$name"
            else
                fail "$name for $kind" 'it was not built a second time'
            fi
        done
        sha256sum "$folder"/{fsverity,veritysetup}
    done
done
finish
