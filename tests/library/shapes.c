/* What verity.h says of parameters and superblocks; see shapes.h. */
#define _DEFAULT_SOURCE
#include "shapes.h"

#include <string.h>

__extension__ typedef unsigned __int128 wide;

static const struct {
    const char *name;
    uint32_t digest_size;
} functions[] = {{NULL, 0}, {"sha256", 32}, {"sha512", 64}, {"sha1", 20}, {"sha224", 28}, {"sha384", 48}};

uint32_t digest_size_of(uint32_t hash_algorithm)
{
    return hash_algorithm <= 5 ? functions[hash_algorithm].digest_size : 0;
}

uint32_t digest_size_of_tree(const struct tree *tree)
{
    return digest_size_of(tree->is_file ? tree->file.hash_algorithm : tree->device.hash_algorithm);
}

const char *name_of(uint32_t hash_algorithm)
{
    return hash_algorithm <= 5 ? functions[hash_algorithm].name : NULL;
}

static bool is_power_up_to_limit(uint32_t size, uint32_t least)
{
    uint32_t power;

    for (power = 1; power <= 524288; power *= 2)
        if (size == power)
            return size >= least;
    return false;
}

/* Where the levels stand, from a hash block on: level l has as many blocks as n / fan-out^(l+1), rounded up. */
static void set_levels(struct shape *shape, wide base)
{
    wide power = 1, end = base, before;
    size_t level;

    shape->levels = 0;
    while (power < shape->data_blocks) {
        power *= shape->fan_out;
        shape->blocks[shape->levels] = (uint64_t)((shape->data_blocks + power - 1) / power);
        end += shape->blocks[shape->levels++];
    }
    if ((wide)shape->data_blocks * shape->data_block_size > LARGEST || end * shape->hash_block_size > LARGEST) {
        shape->status = VERITY_TOO_LARGE;
        return;
    }
    before = base;
    for (level = shape->levels; level-- > 0;) {
        shape->starts[level] = (uint64_t)(before * shape->hash_block_size);
        before += shape->blocks[level];
    }
}

static void set_slots(struct shape *shape, bool wide_slots)
{
    shape->fan_out = 1;
    while (shape->fan_out * 2 <= shape->hash_block_size / shape->digest_size)
        shape->fan_out *= 2;
    shape->slot_width = shape->digest_size;
    if (wide_slots) {
        shape->slot_width = 1;
        while (shape->slot_width < shape->digest_size)
            shape->slot_width *= 2;
    }
}

static int device_fault(const struct verity_params *params)
{
    uint32_t unit = params->no_superblock ? params->hash_block_size : SUPERBLOCK_SIZE;

    if (digest_size_of(params->hash_algorithm) == 0)
        return VERITY_BAD_HASH_ALGORITHM;
    if (params->hash_type > 1)
        return VERITY_BAD_HASH_TYPE;
    if (!is_power_up_to_limit(params->data_block_size, 512))
        return VERITY_BAD_DATA_BLOCK_SIZE;
    if (!is_power_up_to_limit(params->hash_block_size, 512))
        return VERITY_BAD_HASH_BLOCK_SIZE;
    if (params->salt_size > 256)
        return VERITY_BAD_SALT_SIZE;
    if (params->hash_offset % unit != 0)
        return VERITY_BAD_HASH_OFFSET;
    if (params->data_blocks == 0)
        return VERITY_NO_DATA;
    return VERITY_OK;
}

static int file_fault(const struct fsverity_params *params)
{
    if (params->hash_algorithm != VERITY_SHA256 && params->hash_algorithm != VERITY_SHA512)
        return VERITY_BAD_HASH_ALGORITHM;
    if (!is_power_up_to_limit(params->block_size, 2 * digest_size_of(params->hash_algorithm)))
        return VERITY_BAD_DATA_BLOCK_SIZE;
    if (params->salt_size > 32)
        return VERITY_BAD_SALT_SIZE;
    if (params->size == 0)
        return VERITY_NO_DATA;
    return VERITY_OK;
}

struct shape shape_of(const struct tree *tree)
{
    struct shape shape = {.status = VERITY_OK};
    const struct verity_params *device = &tree->device;
    const struct fsverity_params *file = &tree->file;
    wide base = 0;

    shape.status = tree->is_file ? file_fault(file) : device_fault(device);
    if (shape.status != VERITY_OK)
        return shape;
    if (tree->is_file) {
        shape.digest_size = digest_size_of(file->hash_algorithm);
        shape.data_block_size = shape.hash_block_size = file->block_size;
        shape.data_blocks = file->size / file->block_size + (file->size % file->block_size != 0);
        set_slots(&shape, false);
    } else {
        shape.digest_size = digest_size_of(device->hash_algorithm);
        shape.data_block_size = device->data_block_size;
        shape.hash_block_size = device->hash_block_size;
        shape.data_blocks = device->data_blocks;
        set_slots(&shape, device->hash_type == 1);
        base = device->hash_offset;
        if (device->no_superblock == 0)
            base += SUPERBLOCK_SIZE;
        if (base > LARGEST) {
            shape.status = VERITY_TOO_LARGE;
            return shape;
        }
        base = (base + shape.hash_block_size - 1) / shape.hash_block_size;
    }
    set_levels(&shape, base);
    return shape;
}

size_t tree_length(const struct shape *shape)
{
    size_t level, blocks = 0;

    for (level = 0; level < shape->levels; level++)
        blocks += shape->blocks[level];
    return blocks * shape->hash_block_size;
}

uint64_t slot_number(const struct shape *shape, uint64_t index, size_t level)
{
    while (level-- > 0)
        index /= shape->fan_out;
    return index % shape->fan_out;
}

struct verity_fed block_above(const struct shape *shape, size_t level, size_t below, uint64_t number)
{
    struct verity_fed fed = {.block_length = shape->hash_block_size, .block_level = level, .block_index = number};

    for (; below <= level; below++)
        fed.block_index /= shape->fan_out;
    fed.block_start = shape->starts[level] + fed.block_index * fed.block_length;
    return fed;
}

static uint64_t number_at(const uint8_t *bytes, size_t width)
{
    uint64_t number = 0;

    while (width-- > 0)
        number = number << 8 | bytes[width];
    return number;
}

static void put_number(uint8_t *bytes, size_t width, uint64_t number)
{
    size_t i;

    for (i = 0; i < width; i++)
        bytes[i] = (uint8_t)(number >> 8 * i);
}

static uint32_t named(const uint8_t field[ALGORITHM_SIZE])
{
    char name[ALGORITHM_SIZE + 1] = "";
    uint32_t algorithm;

    memcpy(name, field, ALGORITHM_SIZE);
    for (algorithm = 5; algorithm > 0; algorithm--)
        if (strcmp(name, functions[algorithm].name) == 0)
            break;
    return algorithm;
}

int superblock_says(struct bytes bytes, uint64_t hash_offset, struct verity_params *params)
{
    struct verity_params said = {.hash_offset = hash_offset};
    const uint8_t *at = bytes.at;

    if (bytes.length < SUPERBLOCK_SIZE)
        return VERITY_SHORT_SUPERBLOCK;
    if (memcmp(at + SIGNATURE_AT, "verity\0\0", SIGNATURE_SIZE) != 0)
        return VERITY_BAD_SIGNATURE;
    if (number_at(at + VERSION_AT, 4) != 1)
        return VERITY_BAD_VERSION;
    said.hash_type = (uint32_t)number_at(at + HASH_TYPE_AT, 4);
    if (said.hash_type > 1)
        return VERITY_BAD_HASH_TYPE;
    said.data_block_size = (uint32_t)number_at(at + DATA_BLOCK_SIZE_AT, 4);
    if (!is_power_up_to_limit(said.data_block_size, 512))
        return VERITY_BAD_DATA_BLOCK_SIZE;
    said.hash_block_size = (uint32_t)number_at(at + HASH_BLOCK_SIZE_AT, 4);
    if (!is_power_up_to_limit(said.hash_block_size, 512))
        return VERITY_BAD_HASH_BLOCK_SIZE;
    said.hash_algorithm = named(at + ALGORITHM_AT);
    if (said.hash_algorithm == 0)
        return VERITY_BAD_HASH_ALGORITHM;
    said.salt_size = (uint32_t)number_at(at + SALT_SIZE_AT, 2);
    if (said.salt_size > SALT_ROOM)
        return VERITY_BAD_SALT_SIZE;
    said.data_blocks = number_at(at + DATA_BLOCKS_AT, 8);
    if (said.data_blocks == 0)
        return VERITY_NO_DATA;
    if ((wide)said.data_blocks * said.data_block_size > LARGEST)
        return VERITY_TOO_LARGE;
    memcpy(said.uuid, at + UUID_AT, UUID_SIZE);
    memcpy(said.salt, at + SALT_AT, said.salt_size);
    *params = said;
    return VERITY_OK;
}

void write_superblock(uint8_t superblock[SUPERBLOCK_SIZE], const struct verity_params *params, const char *name)
{
    memset(superblock, 0, SUPERBLOCK_SIZE);
    memcpy(superblock + SIGNATURE_AT, "verity", 6);
    put_number(superblock + VERSION_AT, 4, 1);
    put_number(superblock + HASH_TYPE_AT, 4, params->hash_type);
    memcpy(superblock + UUID_AT, params->uuid, UUID_SIZE);
    memcpy(superblock + ALGORITHM_AT, name, strnlen(name, ALGORITHM_SIZE));
    put_number(superblock + DATA_BLOCK_SIZE_AT, 4, params->data_block_size);
    put_number(superblock + HASH_BLOCK_SIZE_AT, 4, params->hash_block_size);
    put_number(superblock + DATA_BLOCKS_AT, 8, params->data_blocks);
    put_number(superblock + SALT_SIZE_AT, 2, params->salt_size);
    memcpy(superblock + SALT_AT, params->salt, SALT_ROOM);
}
