# The images of tests/kernel.sh, and what is asked about each. Sourced after tests/kernel/machine.sh.

number=0

# image PLACE OFFSET FUNCTION HASH-TYPE DATA-BLOCK HASH-BLOCK SALT BLOCKS: makes an image, with one of these places:
# `superblock`, `bare` for none, `behind` for one behind the data in its own file. Sets `name`, the settings by their
# names, `data` and `hash` for the files, `root`, `tree` for the byte at which the tree begins, and `where` for the
# options that say where it is.
image() {
    local offset=$2 settings
    function=$3 hash_type=$4 data_block=$5 hash_block=$6 salt=$7 blocks=$8
    name="$1 at $2, $3, hash type $4, blocks of $5 and $6, a salt of $((${#7} / 2)) bytes, $8 data blocks"
    number=$((number + 1))
    data=$guest/images/$number/data
    hash=$guest/images/$number/hash
    hash_device=/dev/loop1
    tree=$(((offset + 512 + hash_block - 1) / hash_block * hash_block))
    where=(--hash-offset "$offset")
    settings=(--hash "$3" --format "$4" --data-block-size "$5" --hash-block-size "$6" --salt "$7" --data-blocks "$8")
    case $1 in
    bare)
        tree=$offset
        where+=(--no-superblock)
        ;;
    behind)
        hash=$data
        hash_device=/dev/loop0
        ;;
    esac
    mkdir -p "${data%/*}"
    # If the number of blocks is odd there is a tail, which isn't covered.
    sample $((blocks * data_block + blocks % 2 * 512)) >"$data"
    "$BIN/veritysetup" format "${settings[@]}" "${where[@]}" "$data" "$hash" >"$scratch/report" ||
        fail "$name" 'no image was made'
    root=$(root_in "$scratch/report")
    if [ "$1" = bare ]; then where+=("${settings[@]}"); fi
}

# without FIRST END: what `whole` of the guest prints if the blocks from FIRST on and before END are refused.
without() {
    {
        head -c $(($1 * data_block)) "$data"
        head -c $((blocks * data_block)) "$data" | tail -c +$(($2 * data_block + 1))
    } >"$scratch/others"
    echo "$(($2 - $1)) refused, the others $(sha256 "$scratch/others")"
}

# by_table ROOT SALT: sets `command` to what opens the image by the kernel's own form of the settings.
by_table() {
    local table="0 $((blocks * data_block / 512)) verity $hash_type /dev/loop0 $hash_device"
    table+=" $data_block $hash_block $blocks $((tree / hash_block)) $function $1 $2"
    command=(opened "$data_block" dmsetup create image --readonly --table "$table")
}

# padded SIZE: has the hash device made longer.
padded() {
    plan truncate -s "$1" "${hash#"$guest"}"
    plan images "$number"
}

# ask_each: asks for the image as it is, and with a change in the data and in each level.
ask_each() {
    local all command
    all=$(without 0 0)
    by_table "$root" "$salt"
    plan images "$number"
    if [ "$(stat -c %s "$hash")" -lt "$tree" ]; then
        ask "$name: not padded" 'not opened: Argument list too long' "${command[@]}"
        padded "$tree"
    fi
    ask "$name: table" "$all" "${command[@]}"
    ask_changes
    # veritysetup wants a hash device that is longer than the hash offset.
    if [ "$(stat -c %s "$hash")" -le "${where[1]}" ]; then padded $((tree + 512)); fi
    ask "$name: open" "$all" opened "$data_block" veritysetup open "${where[@]}" /dev/loop0 image "$hash_device" "$root"
}

# ask_changes: asks for the image with one bit turned in a data block, which is refused then, and in the last hash block
# of each level, with which all data blocks beneath are.
ask_changes() {
    local fan counts=() count=$blocks at=$tree level middle=$((blocks / 2))
    ask "$name: data" "$(without $middle $((middle + 1)))" changed data $((middle * data_block + 7)) "${command[@]}"
    fan=$(fan_out "$function" "$hash_block")
    while [ "$count" -gt 1 ]; do
        count=$(((count + fan - 1) / fan))
        counts+=("$count")
    done
    # The highest level stands first.
    for ((level = ${#counts[@]} - 1; level >= 0; level--)); do
        at=$((at + counts[level] * hash_block))
        ask "$name: level $level" "$(without $(((counts[level] - 1) * fan ** (level + 1))) "$blocks")" \
            changed "${hash##*/}" $((at - hash_block)) "${command[@]}"
    done
}

# ask_others: asks for the image with another root hash and with another salt: each block is refused.
ask_others() {
    local command other=0${root:1}
    if [ "$other" = "$root" ]; then other=1${root:1}; fi
    by_table "$other" "$salt"
    ask "$name: another root hash" "$(without 0 "$blocks")" "${command[@]}"
    by_table "$root" "${salt/#-}cd"
    ask "$name: another salt" "$(without 0 "$blocks")" "${command[@]}"
}
