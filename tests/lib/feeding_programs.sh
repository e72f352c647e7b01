# What the scripts of tests/library share that build trees: how the programs that feed data are built and run, and with
# which files. Sourced after tests/lib/random_images.sh.

# The sources of each program, beside its own.
feeding_sources=(tests/library/{disturbed_parts,part_calls,feeding_calls,calls,images,shapes,cuts,support}.c)
# The block sizes of images that are fed.
fed_sizes=(512 512 1024 2048 4096 8192 16384 32768 65536)

# fed_file MOST: makes a file of so many bytes at most, with blocks of all sizes, as fsverity_image does.
fed_file() {
    local hash block size
    one_of 256 256 512
    hash=$chosen
    block=$(((hash / 4) << (RANDOM % (hash == 256 ? 11 : 10))))
    random_salt 32
    random_size "$block" "$(fan_out "sha$hash" "$block")" "$1"
    fsverity_file "sha$hash" "$block" "$size"
}

# feeds_settings NAME PROGRAM MOST-BYTES MOST-EACH-WAY [WORD..]: feeds trees over all settings; and feeds_large those of
# blocks from 131072 bytes to LARGEST.
feeds_settings() {
    local name=$1 program=$2 most=$3
    draws_trees settings "$most" "$4"
    adds "$name" "${@:5}" "$program" "$SEED" "${trees[@]}" 512 $((most < 65536 ? most : 65536))
}

feeds_large() {
    local name=$1 program=$2 largest=$3 size
    # One after another, each of which ends in time on a slow machine too.
    for ((size = 131072; size <= largest; size *= 2)); do
        draws_trees large "$size"
        adds "$name of $size bytes" "${@:4}" "$program" "$SEED" "${trees[@]}" "$size" "$size"
    done
}

# feeds_images PROGRAM VERITY FSVERITY MOST-BYTES [WORD..]: feeds so many images and files, after WORD.., an emulator,
# and compares with what `veritysetup` and `fsverity` make of them. What one is missing for is left out.
feeds_images() {
    local program=$1 verity=$2 fsverity=$3 most=$4 i verity_sizes=("${fed_sizes[@]}")
    shift 4
    if command -v veritysetup >/dev/null; then
        for ((i = 0; i < verity; i++)); do
            if verity_image "$most"; then
                adds "feeding, image $i: $made" "$@" "$program" "$SEED" "${words[@]}"
            fi
        done
    else
        echo 'left out: feeding of images: veritysetup is not installed'
    fi
    if command -v fsverity >/dev/null; then
        for ((i = 0; i < fsverity; i++)); do
            if fed_file "$most"; then adds "feeding, file $i: $made" "$@" "$program" "$SEED" "${words[@]}"; fi
        done
    else
        echo 'left out: feeding of files: fsverity is not installed'
    fi
}

# tries_stored PROGRAM MOST-BYTES [WORD..]: stores trees of up to so many bytes after each of their calls.
tries_stored() {
    local program=$1 most=$2
    shift 2
    draws_trees stored "$most"
    adds 'stored after each call' "$@" "$program" "$SEED" "${trees[@]}"
    grep '^stored ' "$scratch/.ran"
}

# tries_refused NAME PROGRAM [WORD..]: runs a build of feeding_refused.c.
tries_refused() {
    local name=$1 program=$2
    draws_trees refused
    adds "$name" "${@:3}" "$program" "${trees[@]}"
}

# one_call_each NAME PROGRAM: builds the tree of `words` by a process for each call. What is kept between two calls
# stands in a file, and hash blocks go to $scratch/device.
one_call_each() {
    local name=$1 program=$2 call before=$failed
    rm -f "$scratch/state"
    for ((call = 0; call < 2000; call++)); do
        adds "$name, process $call" "$program" $((SEED + call)) "${words[@]}" "$scratch/state" "$scratch/device"
        if [ "$failed" -gt "$before" ] || grep -qx ended "$scratch/.ran"; then return; fi
    done
    fail "$name" 'its end was never asked for'
}

# stores_images PROGRAM VERITY FSVERITY MOST-BYTES: the same for so many images and files, beside Debian's programs: the
# hash device, root hash and file digest are theirs. What one is missing for is left out.
stores_images() {
    local program=$1 verity=$2 fsverity=$3 most=$4 i verity_sizes=("${fed_sizes[@]}")
    if command -v veritysetup >/dev/null; then
        for ((i = 0; i < verity; i++)); do
            if verity_image "$most"; then
                head -c "${made##* }" "$scratch/hashes" >"$scratch/device"
                one_call_each "one call a process, image $i: $made" "$program"
                # A superblock alone has zeros behind it.
                truncate -s ">$(stat -c %s "$scratch/hashes")" "$scratch/device"
                same_bytes "one call a process, image $i: hash device" "$scratch/hashes" "$scratch/device"
            fi
        done
    else
        echo 'left out: images with one call a process: veritysetup is not installed'
    fi
    if command -v fsverity >/dev/null; then
        : >"$scratch/device"
        for ((i = 0; i < fsverity; i++)); do
            if fsverity_image "$most"; then
                one_call_each "one call a process, file $i: $made" "$program"
            fi
        done
    else
        echo 'left out: files with one call a process: fsverity is not installed'
    fi
}

# tries_feedings PROGRAM COUNT [WORD..]: runs a build of feeding_fuzz.c for so many feedings, of some thousand trees.
tries_feedings() {
    local program=$1 count=$2
    shift 2
    draws_trees fuzz 5000
    adds "feedings of seed $SEED" "$@" "$program" "$SEED" "$count" "${trees[@]}"
    echo "seed $SEED: $(grep ' feedings, ' "$scratch/.ran")"
    grep ', disturbed [0-9]*$' "$scratch/.ran" | sed 's/^/    /'
}

# builds_parts NAME PROGRAM MOST-BYTES MOST-EACH-WAY [WORD..]: builds trees over all settings from the parts of each
# level, after WORD.., an emulator; and breaks_parts NAME PROGRAM [WORD..] with each mistake of the caller's.
builds_parts() {
    local name=$1 program=$2 most=$3
    draws_trees parts "$most" "$4"
    adds "$name" "${@:5}" "$program" "$SEED" "${trees[@]}" all
}

breaks_parts() {
    local name=$1 program=$2
    draws_trees mistakes
    adds "$name" "${@:3}" "$program" "$SEED" "${trees[@]}" mistakes
}
