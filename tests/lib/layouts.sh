# The layouts of a superblock of dm-verity, by cryptsetup's page on the on-disk format, and of a descriptor of
# fs-verity, by the kernel's page on fs-verity. Sourced after tests/lib/checks.sh.
# shellcheck disable=SC2034

# Where the fields of a superblock stand, pads among them.
SUPERBLOCK_SIZE=512
SIGNATURE_AT=0
VERSION_AT=8
HASH_TYPE_AT=12
UUID_AT=16
ALGORITHM_AT=32
DATA_BLOCK_SIZE_AT=64
HASH_BLOCK_SIZE_AT=68
DATA_BLOCKS_AT=72
SALT_SIZE_AT=80
FIRST_PAD_AT=82
SALT_AT=88
LAST_PAD_AT=344

# Where the root hash and the salt stand in a descriptor.
DESCRIPTOR_SIZE=256
ROOT_AT=16
FILE_SALT_AT=80

# The UUID of images, unless a script has another.
UUID=00112233-4455-4677-8899-aabbccddeeff

# filled SIZE: standard input, and zeros up to so many bytes.
filled() {
    { cat && zeros "$1"; } | head -c "$1"
}

# superblock DATA-BLOCK HASH-BLOCK BLOCKS SALT-HEX: the bytes of a superblock, with the function $ALGORITHM, the hash
# type $HASH_TYPE and $UUID.
superblock() {
    {
        printf verity | filled $VERSION_AT
        little_endian 4 1
        little_endian 4 "$HASH_TYPE"
        bytes "${UUID//-/}"
        printf %s "$ALGORITHM" | filled $((DATA_BLOCK_SIZE_AT - ALGORITHM_AT))
        little_endian 4 "$1"
        little_endian 4 "$2"
        little_endian 8 "$3"
        little_endian 2 $((${#4} / 2)) | filled $((SALT_AT - SALT_SIZE_AT))
        bytes "$4"
    } | filled $SUPERBLOCK_SIZE
}

# descriptor HEAD-HEX SIZE ROOT-HEX SALT-HEX: the bytes of a descriptor. HEAD is the version, the hash function, the
# logarithm of the block size and the size of the salt, each in one byte.
descriptor() {
    {
        bytes "${1}00000000"
        little_endian 8 "$2"
        bytes "$3" | filled $((FILE_SALT_AT - ROOT_AT))
        bytes "$4"
    } | filled $DESCRIPTOR_SIZE
}
