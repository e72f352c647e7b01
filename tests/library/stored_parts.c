/*
 * Makes one call of a tree that is built from parts, with what a file keeps, and stores there what is to be kept: so
 * each call can be made by another process, and by another of the libraries.
 *
 *   stored_parts SEED DATA TREES STATE DEVICE
 *
 * TREES is a file of tree_files.py, whose first tree is built of the bytes of the file DATA: from the parts of a level,
 * which is chosen when the file STATE isn't there yet, the last part first, and then joined. Hash blocks are written to
 * the file DEVICE, each by the next process after the one that it was handed out to, and have to be the tree's. The
 * line `ended` says that the end of the join was asked for: then the superblock is written too. What doesn't hold is
 * printed in lines that begin with FAILED; the last line is 'N passed, M failed'.
 */
#include <inttypes.h>
#include <stdio.h>
#include <stdlib.h>
#include <string.h>

#include "feeding_calls.h"
#include "images.h"
#include "part_calls.h"
#include "support.h"

/* What is kept between two calls. After it stand the digests of all parts, and the memory. */
struct kept {
    struct tree tree;
    size_t level, memory_length;
    /* The part that is built; all after it are. Or the join, once they all are. */
    uint64_t number, parts;
    bool is_joining;
    struct verity_part part;
    struct verity_join join;
};

static struct kept kept;
static uint8_t *digests, *memory;
static struct image image;
static FILE *device;

static size_t digest_size(void)
{
    return image.shape.digest_size;
}

/* The part, or the join, as the calls take them; and what they leave. */
static struct part_building part_now(void)
{
    return (struct part_building){.tree = kept.tree, .part = kept.part, .memory = memory,
                                  .memory_length = kept.memory_length};
}

static struct joining join_now(void)
{
    return (struct joining){.tree = kept.tree, .join = kept.join, .memory = memory,
                            .memory_length = kept.memory_length};
}

/* Memory of another length, in which anything stands. */
static void take_memory(size_t length)
{
    free(memory);
    memory = memory_of(length);
    random_bytes(memory, length);
    kept.memory_length = length;
}

static void begin_part(uint64_t number)
{
    struct part_building part;
    size_t length = 0;

    check(call_part_memory(&kept.tree, kept.level, &length) == VERITY_OK, "the memory of a part");
    take_memory(length);
    kept.number = number;
    part = part_now();
    check(call_part_begin(&part, kept.level, number) == VERITY_OK, "part %" PRIu64 " isn't begun", number);
    kept.part = part.part;
}

static void begin_join(void)
{
    struct joining join;
    size_t length = 0;

    check(call_join_memory(&kept.tree, kept.level, &length) == VERITY_OK, "the memory of the join");
    take_memory(length);
    kept.is_joining = true;
    join = join_now();
    check(call_join_begin(&join, kept.level) == VERITY_OK, "the join isn't begun");
    kept.join = join.join;
}

static void begin(uint64_t seed)
{
    uint64_t blocks = 0;

    kept.tree = image.tree;
    kept.level = (size_t)((seed + image.shape.data_blocks) % (image.shape.levels + 1));
    check(call_part_count(&kept.tree, kept.level, &kept.parts, &blocks) == VERITY_OK, "the parts");
    digests = memory_of(kept.parts * digest_size());
    begin_part(kept.parts - 1);
}

/* The hash block that was handed out last, which nobody has written. */
static void write_last_block(void)
{
    struct part_building part = part_now();
    struct joining join = join_now();
    struct verity_fed fed = {0};
    int status = kept.is_joining ? call_join_last_block(&join, &fed) : call_part_last_block(&part, &fed);
    uint64_t at = fed.block_start - image.first;

    check(status == VERITY_OK, "the last block: status %d", status);
    if (status != VERITY_OK || fed.block_length == 0)
        return;
    if (fed.block_length != image.shape.hash_block_size || fed.block_start < image.first ||
        at > image.hashes_length - fed.block_length || fed.block_at > kept.memory_length - fed.block_length ||
        memcmp(memory + fed.block_at, image.hashes + at, fed.block_length) != 0) {
        check(false, "block %" PRIu64 " of level %zu at %" PRIu64, fed.block_index, fed.block_level, fed.block_start);
        return;
    }
    if (fseek(device, (long)fed.block_start, SEEK_SET) != 0 ||
        fwrite(memory + fed.block_at, fed.block_length, 1, device) != 1)
        give_up("a hash block can't be written");
}

/* A call of the part: a piece, or its end, after which the part before it is begun, or the join. */
static void step_part(void)
{
    struct part_building part = part_now();
    struct part_shape shape = part_shape_of(&kept.tree, kept.level, kept.number);
    uint64_t left = shape.bytes - kept.part.fed;
    size_t length = random_below(shape.bytes + 1);
    struct verity_fed fed = {0};
    int status;

    if (part_end_says(&shape, &kept.part, kept.memory_length, digest_size()) == VERITY_OK) {
        status = call_part_end(&part, digests + kept.number * digest_size(), digest_size());
        check(status == VERITY_OK, "the digest of part %" PRIu64 ": status %d", kept.number, status);
        if (kept.number > 0)
            begin_part(kept.number - 1);
        else
            begin_join();
        return;
    }
    if (length > left)
        length = (size_t)left;
    status = call_part_feed(&part, bytes_of(image.data + shape.start + kept.part.fed, length), &fed);
    check(status == VERITY_OK, "%zu bytes of part %" PRIu64 ": status %d", length, kept.number, status);
    kept.part = part.part;
}

/* The end of all: whether it is that of the tree. */
static void end(struct joining *join)
{
    uint8_t root[VERITY_MAX_DIGEST_SIZE] = {0}, digest[VERITY_MAX_DIGEST_SIZE] = {0};
    size_t file_size = kept.tree.is_file ? digest_size() : 0;
    uint8_t superblock[SUPERBLOCK_SIZE];

    check(call_join_end(join, root, digest_size(), digest, file_size) == VERITY_OK, "the end");
    check(memcmp(root, image.root, digest_size()) == 0, "the root hash");
    check(memcmp(digest, image.digest, file_size) == 0, "the file digest");
    printf("ended\n");
    if (kept.tree.is_file || kept.tree.device.no_superblock != 0)
        return;
    check(call_write_superblock(&kept.tree.device, superblock, SUPERBLOCK_SIZE) == VERITY_OK, "the superblock");
    if (fseek(device, (long)kept.tree.device.hash_offset, SEEK_SET) != 0 ||
        fwrite(superblock, SUPERBLOCK_SIZE, 1, device) != 1)
        give_up("the superblock can't be written");
}

/* A call of the join: some digests, or the end. */
static void step_join(void)
{
    struct joining join = join_now();
    struct join_shape shape = join_shape_of(&kept.tree, kept.level);
    uint64_t left = kept.parts - kept.join.taken, count = random_below(kept.parts + 1);
    struct verity_fed fed = {0};
    int status;

    if (join_end_says(&shape, &kept.join, kept.memory_length, digest_size(), digest_size()) == VERITY_OK) {
        end(&join);
        return;
    }
    if (count > left)
        count = left;
    status = call_join_feed(&join, bytes_of(digests + kept.join.taken * digest_size(), count * digest_size()), &fed);
    check(status == VERITY_OK, "%" PRIu64 " digests: status %d", count, status);
    kept.join = join.join;
}

static void read_state(const char *name)
{
    struct bytes bytes = content_of(name);
    size_t length;

    if (bytes.length < sizeof kept)
        give_up("the state is too short");
    memcpy(&kept, bytes.at, sizeof kept);
    length = kept.parts * digest_size();
    if (bytes.length != sizeof kept + length + kept.memory_length)
        give_up("the state has another length");
    digests = memory_of(length);
    memcpy(digests, bytes.at + sizeof kept, length);
    memory = memory_of(kept.memory_length);
    memcpy(memory, bytes.at + sizeof kept + length, kept.memory_length);
}

static void write_state(const char *name)
{
    FILE *file = fopen(name, "wb");
    size_t length = kept.parts * digest_size();

    if (file == NULL || fwrite(&kept, sizeof kept, 1, file) != 1 || fwrite(digests, 1, length, file) != length ||
        fwrite(memory, 1, kept.memory_length, file) != kept.memory_length || fclose(file) != 0)
        give_up("the state can't be written");
}

int main(int count, char **words)
{
    struct images images;
    FILE *state;

    if (count != 6)
        give_up("usage: stored_parts SEED DATA TREES STATE DEVICE");
    seed_random(number_of(words[1]));
    images = open_images(words[3], words[2]);
    if (!next_image(&images, &image))
        give_up("there is no tree");
    /* A file of no bytes has no parts. */
    if (image.shape.status != VERITY_OK) {
        check(image.shape.status == VERITY_NO_DATA, "parameters with status %d", image.shape.status);
        printf("ended\n");
        return finish();
    }
    state = fopen(words[4], "rb");
    if (state == NULL) {
        begin(number_of(words[1]));
    } else {
        fclose(state);
        read_state(words[4]);
        device = fopen(words[5], "r+b");
        if (device == NULL)
            give_up("the hash device can't be opened");
        write_last_block();
        if (kept.is_joining)
            step_join();
        else
            step_part();
        if (fclose(device) != 0)
            give_up("the hash device can't be written");
    }
    write_state(words[4]);
    return finish();
}
