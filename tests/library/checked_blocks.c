/*
 * Calls examples/checked_blocks.c over an image that Debian's veritysetup has made: checked_blocks SEED DATA HASH ROOT.
 * The devices are in memory: they count what is read, change bytes, fail halfway, and give other bytes each time. What
 * is handed out is always the data, and otherwise zeros are; no block is read twice where it need not be, and none is
 * kept that was refused.
 */
#include "../../examples/checked_blocks.h"

#include <inttypes.h>
#include <stdlib.h>
#include <string.h>

#include "support.h"

/* What a level is before a call, and stays where the call doesn't say one. */
#define UNTOUCHED ((size_t)-7)

/* No byte of a device, and no block. */
#define NOWHERE UINT64_MAX

struct device {
    uint8_t *bytes;
    uint64_t length;
    uint64_t reads;
    uint64_t fails_at; /* a read from here on fails, when it has given half of its bytes */
    uint64_t changed;  /* each read of this byte gives another one */
    uint64_t lies;     /* one in so many reads has a changed byte, and one in so many fails; 0 for none */
};

static struct device data, hash;
static struct checked_image image;
static struct checked_place *places;
static uint8_t *room, root[VERITY_MAX_DIGEST_SIZE], *block;
static struct verity_params params;
static size_t root_length, levels, all_places;

static int read_device(void *which, uint64_t start, uint8_t *bytes, size_t length)
{
    struct device *device = which;

    device->reads++;
    memset(bytes, 0x5a, length);
    if (start > device->length || length > device->length - start)
        return -1;
    if (start == device->fails_at || (device->lies > 0 && once_in(device->lies))) {
        memcpy(bytes, device->bytes + start, length / 2);
        return 7;
    }
    memcpy(bytes, device->bytes + start, length);
    if (device->changed >= start && device->changed - start < length)
        bytes[device->changed - start] ^= 1;
    if (device->lies > 0 && once_in(device->lies))
        bytes[random_below(length)] ^= (uint8_t)(1u << random_below(8));
    return 0;
}

/* Begins anew with so many places, and devices that tell the truth. */
static void begin(size_t count)
{
    uint64_t size = params.hash_block_size;

    free(places);
    free(room);
    places = malloc(count * sizeof *places);
    room = malloc(count * size);
    if (places == NULL || room == NULL)
        give_up("no memory");
    memset(places, 0xa5, count * sizeof *places);
    memset(room, 0xa5, count * size);
    data.reads = hash.reads = data.lies = hash.lies = 0;
    data.fails_at = hash.fails_at = data.changed = hash.changed = NOWHERE;
    image = (struct checked_image){.params = params, .root = root, .root_length = root_length, .read = read_device,
                                   .data_device = &data, .hash_device = &hash, .places = count, .place = places,
                                   .hash_blocks = room, .levels = 99, .now = 99};
    check(checked_begin(&image) == 0, "%zu places: begin", count);
}

/* Whether the block has the data's bytes of this number, or without a number zeros. */
static bool holds(uint64_t index)
{
    static const uint8_t zeros[524288];

    return memcmp(block, index == NOWHERE ? zeros : data.bytes + index * params.data_block_size,
                  params.data_block_size) == 0;
}

/* A block is handed out, and its data is read once. */
static void gives(const char *what, uint64_t index)
{
    size_t level = UNTOUCHED;
    uint64_t before = data.reads;
    int ret;

    memset(block, 0x33, params.data_block_size);
    ret = checked_read(&image, index, block, params.data_block_size, &level);
    check(ret == 0 && holds(index), "%s, block %" PRIu64 ": status %d", what, index, ret);
    check(level == UNTOUCHED, "%s, block %" PRIu64 ": level %zu", what, index, level);
    check(data.reads == before + 1, "%s, block %" PRIu64 ": its data is read %" PRIu64 " times", what, index,
          data.reads - before);
}

/* A block isn't handed out: zeros are. */
static void refuses(const char *what, uint64_t index, int status, size_t at)
{
    size_t level = UNTOUCHED;
    int ret;

    memset(block, 0x33, params.data_block_size);
    ret = checked_read(&image, index, block, params.data_block_size, &level);
    check(ret == status, "%s, block %" PRIu64 ": status %d, not %d", what, index, ret, status);
    check(level == at, "%s, block %" PRIu64 ": level %zu, not %zu", what, index, level, at);
    check(holds(NOWHERE), "%s, block %" PRIu64 ": what is left", what, index);
}

/* How many hash blocks were read since the last time. */
static void reads_hash_blocks(const char *what, uint64_t count)
{
    check(hash.reads == count, "%s: %" PRIu64 " hash blocks are read, not %" PRIu64, what, hash.reads, count);
    hash.reads = 0;
}

/* The start of the hash block of a level above a data block. */
static uint64_t start_above(uint64_t index, size_t level)
{
    uint64_t start = 0;

    if (verity_hash_block_start(&params, index, level, &start) < 0)
        give_up("no such hash block");
    return start;
}

/* All blocks, one after another and in any order, with much room and little. */
static void reads_all(uint64_t hash_blocks)
{
    const size_t rooms[] = {levels < 2 ? levels : 2, levels < 2 ? 2 : levels, levels + 3, all_places};
    size_t i;
    uint64_t index;

    for (i = 0; i < sizeof rooms / sizeof *rooms; i++) {
        begin(rooms[i]);
        for (index = 0; index < params.data_blocks; index++)
            gives("in order", index);
        if (i > 0)
            reads_hash_blocks("in order", hash_blocks);
        hash.reads = 0;
        for (index = 0; index < 200; index++)
            gives("in any order", random_below(params.data_blocks));
        if (rooms[i] == all_places)
            reads_hash_blocks("all are kept", 0);
    }
}

/* What is asked for isn't there: nothing is read. */
static void asks_wrongly(void)
{
    const uint64_t size = params.data_block_size;
    size_t level = UNTOUCHED, length;

    begin(2);
    refuses("past the end", params.data_blocks, VERITY_NO_SUCH_BLOCK, UNTOUCHED);
    refuses("the largest number", UINT64_MAX, VERITY_NO_SUCH_BLOCK, UNTOUCHED);
    for (length = 0; length < size; length += size / 4 + 1)
        check(checked_read(&image, 0, block, length, &level) == VERITY_BAD_LENGTH, "a buffer of %zu bytes", length);
    check(level == UNTOUCHED && data.reads == 0 && hash.reads == 0, "nothing is read");
    image.root_length--;
    refuses("a short root hash", 0, VERITY_BAD_ROOT_LENGTH, UNTOUCHED);
    image.root_length++;
    root[0] ^= 1;
    refuses("another root hash", 0, VERITY_DIFFERS, levels);
    root[0] ^= 1;
    gives("the root hash again", 0);
    for (image.places = 0; image.places < (levels < 2 ? levels : 2); image.places++)
        check(checked_begin(&image) == CHECKED_NO_ROOM, "%zu places", image.places);
    image.params.hash_type = 2;
    check(checked_begin(&image) == VERITY_BAD_HASH_TYPE, "a wrong hash type");
}

/* The data of a block is changed, or isn't there. */
static void changes_data(uint64_t index)
{
    const uint64_t size = params.data_block_size;

    begin(all_places);
    data.changed = index * size + random_below(size);
    refuses("changed data", index, VERITY_DIFFERS, 0);
    if (params.data_blocks > 1)
        gives("beside changed data", index == 0 ? 1 : index - 1);
    data.changed = NOWHERE;
    data.fails_at = index * size;
    refuses("data that can't be read", index, CHECKED_NOT_READ, 0);
    data.fails_at = NOWHERE;
    gives("data as it was", index);
}

/* A hash block above a data block is changed, or can't be read: it isn't kept, those above it are. */
static void changes_hash_block(uint64_t index, size_t level, size_t count)
{
    const uint64_t start = start_above(index, level), byte = start + random_below(params.hash_block_size);
    size_t i;

    begin(count);
    hash.changed = byte;
    refuses("a changed hash block", index, VERITY_DIFFERS, level + 1);
    reads_hash_blocks("a changed hash block", levels - level);
    for (i = 0; i < 2; i++) {
        refuses("a changed hash block, again", index, VERITY_DIFFERS, level + 1);
        if (count >= levels)
            reads_hash_blocks("a changed hash block, again", 1);
    }
    hash.changed = NOWHERE;
    hash.fails_at = start;
    refuses("a hash block that can't be read", index, CHECKED_NOT_READ, level + 1);
    hash.fails_at = NOWHERE;
    hash.reads = 0;
    gives("a hash block as it was", index);
    if (count >= levels)
        reads_hash_blocks("a hash block as it was", level + 1);
    hash.changed = byte;
    hash.reads = 0;
    gives("a hash block that changes when it is kept", index);
    if (count >= levels)
        reads_hash_blocks("a hash block that changes when it is kept", 0);
}

/* The place of a hash block that is kept is taken by one that can't be read or is refused: the first is read again. */
static void loses_a_place(void)
{
    uint64_t last = params.data_blocks - 1;
    int round;

    if (levels < 2)
        return;
    for (round = 0; round < 2; round++) {
        begin(2);
        gives("the first block", 0);
        gives("the first block, once more", 0);
        reads_hash_blocks("the first block, twice", levels);
        *(round == 0 ? &hash.fails_at : &hash.changed) = start_above(last, 0);
        refuses("the last block", last, round == 0 ? CHECKED_NOT_READ : VERITY_DIFFERS, 1);
        gives("the first block, after the last", 0);
        check(hash.reads > 1, "the first block, after the last: %" PRIu64 " hash blocks are read", hash.reads);
        hash.fails_at = hash.changed = NOWHERE;
        gives("the last block, as it was", last);
    }
}

/* Devices that give anything: what is handed out is the data, and nothing wrong is kept. */
static void reads_lies(size_t count)
{
    uint64_t i, index, given = 0, refused = 0;
    size_t level;
    int ret;

    begin(count);
    for (i = 0; i < 4000; i++) {
        data.lies = hash.lies = 1 + random_below(20);
        index = random_below(params.data_blocks);
        memset(block, 0x33, params.data_block_size);
        ret = checked_read(&image, index, block, params.data_block_size, &level);
        check(holds(ret == 0 ? index : NOWHERE), "lies, block %" PRIu64 ": status %d", index, ret);
        check(ret == 0 || ret == VERITY_DIFFERS || ret == CHECKED_NOT_READ, "lies: status %d", ret);
        given += ret == 0;
        refused += ret != 0;
    }
    check(given > 100 && refused > 100, "lies: %" PRIu64 " given, %" PRIu64 " refused", given, refused);
    data.lies = hash.lies = 0;
    for (index = 0; index < params.data_blocks; index++)
        gives("after lies", index);
}

/* The file of this name. */
static void take_file(struct device *device, const char *name)
{
    struct bytes content = content_of(name);

    device->bytes = (uint8_t *)content.at;
    device->length = content.length;
}

int main(int count, char **words)
{
    const char *digits;
    uint64_t hash_blocks = 0, blocks = 0, start = 0, index;
    size_t level;

    if (count != 5)
        give_up("usage: checked_blocks SEED DATA HASH ROOT");
    seed_random(number_of(words[1]));
    take_file(&data, words[2]);
    take_file(&hash, words[3]);
    for (digits = words[4]; *digits != 0 && root_length < sizeof root; digits += 2)
        root[root_length++] = (uint8_t)strtoul((char[]){digits[0], digits[1], 0}, NULL, 16);
    if (verity_read_superblock(hash.bytes, hash.length, 0, &params) < 0 || verity_level_count(&params, &levels) < 0)
        give_up("no superblock");
    for (level = 0; level < levels; level++) {
        if (verity_level_start(&params, level, &start, &blocks) < 0)
            give_up("no level");
        hash_blocks += blocks;
    }
    all_places = hash_blocks + 2;
    block = malloc(params.data_block_size);
    if (block == NULL)
        give_up("no memory");
    reads_all(hash_blocks);
    asks_wrongly();
    for (index = 0; index < params.data_blocks; index += params.data_blocks / 3 + 1) {
        changes_data(index);
        for (level = 0; level < levels; level++) {
            changes_hash_block(index, level, 2);
            changes_hash_block(index, level, levels < 2 ? 2 : levels);
            changes_hash_block(index, level, all_places);
        }
    }
    loses_a_place();
    reads_lies(2);
    reads_lies(levels + 2);
    free(block);
    free(places);
    free(room);
    free(data.bytes);
    free(hash.bytes);
    return finish();
}
