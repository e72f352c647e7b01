#!/usr/bin/env bash
# Runs both programs as the gate does: on the words and the input that stand in their crates, with the output and the
# status that stand there too.
set -u
cd "$(dirname "$0")/../.."
. tests/lib/checks.sh

for name in fsverity veritysetup; do
    has_program "$name"
    found=0
    program=$(realpath "$BIN/$name")
    stored=$PWD/crates/${name}_cli
    mapfile -t words <"$stored/args"
    mkdir "$scratch/$name"
    if [ -e "$stored/data" ]; then cp -r "$stored/data/." "$scratch/$name"; fi
    input=/dev/null
    if [ -e "$stored/stdin" ]; then input=$stored/stdin; fi
    (cd "$scratch/$name" && exec "$program" "${words[@]}") <"$input" >"$scratch/out" 2>"$scratch/err" || found=$?
    same "$name ${words[*]}: status" "$(cat "$stored/status" 2>/dev/null || echo 0)" $found
    if [ -e "$stored/stdout" ]; then cp "$stored/stdout" "$scratch/expected"; else : >"$scratch/expected"; fi
    same_bytes "$name ${words[*]}: standard output" "$scratch/expected" "$scratch/out"
done
finish
