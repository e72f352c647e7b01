/*
 * Builds trees that are stored between two calls, and go on from what was stored alone, as verity.h says.
 *
 *   stored SEED DATA TREES
 *   stored SEED DATA TREES STATE DEVICE
 *
 * TREES is a file of tree_files.py, whose trees are of the bytes of the file DATA. Hash blocks, root hashes and file
 * digests are those that it says.
 *
 * The first builds all of its trees. After a call parameters, struct and memory are copied, what they were copied from
 * is overwritten, another tree is begun, and the first one goes on in other memory: in one build after each call, and
 * in further ones after the first call, the second, and so on. A hash block that such a call hands out isn't written
 * before.
 *
 * The second makes one call of the first tree, with what the file STATE keeps, and stores it there again; without that
 * file it is the beginning. Hash blocks are written to the file DEVICE, each by the next process after the one that it
 * was handed out to. The line `ended` says that the end was asked for after all data: then the superblock is written
 * too.
 *
 * SEED draws all that is random. What doesn't hold is printed in lines that begin with FAILED; the last line is
 * 'N passed, M failed'.
 */
#include <inttypes.h>
#include <stdio.h>
#include <stdlib.h>
#include <string.h>

#include "calls.h"
#include "feeding_calls.h"
#include "images.h"
#include "shapes.h"
#include "support.h"

/* A build. fed is what the last call has handed out, which isn't written yet. */
struct work {
    const struct image *image;
    struct building building;
    struct verity_fed fed;
    /* The hash device from the tree's first block on, or a file. */
    uint8_t *hashes;
    FILE *device;
    size_t longest_piece;
};

static uint64_t points, unwritten;

/* How many files have known ends before their last byte, and how many such ends were asked for. */
static uint64_t with_ends, ends_asked_for;

/* Storing. */

/* How long the parameters are, and of a device the struct with them: what stands before the memory. */
static size_t length_of_structs(bool is_file)
{
    return is_file ? sizeof(struct fsverity_params) : sizeof(struct verity_params) + sizeof(struct verity_build);
}

/* All that is kept between two calls. Where it stood, other bytes stand then. */
static struct bytes stored(struct building *building)
{
    bool is_file = building->tree.is_file;
    size_t memory_at = length_of_structs(is_file);
    uint8_t *bytes = memory_of(memory_at + building->memory_length);

    if (is_file) {
        memcpy(bytes, &building->tree.file, memory_at);
    } else {
        memcpy(bytes, &building->tree.device, sizeof building->tree.device);
        memcpy(bytes + sizeof building->tree.device, &building->build, sizeof building->build);
    }
    memcpy(bytes + memory_at, building->memory, building->memory_length);
    random_bytes((uint8_t *)&building->tree.file, sizeof building->tree.file);
    random_bytes((uint8_t *)&building->tree.device, sizeof building->tree.device);
    random_bytes((uint8_t *)&building->build, sizeof building->build);
    random_bytes(building->memory, building->memory_length);
    return bytes_of(bytes, memory_at + building->memory_length);
}

/* The same in other memory, whose length the parameters say. */
static void restore(struct building *building, struct bytes bytes)
{
    bool is_file = building->tree.is_file;
    size_t memory_at = length_of_structs(is_file);

    if (bytes.length < memory_at)
        give_up("what was stored is too short");
    if (is_file) {
        memcpy(&building->tree.file, bytes.at, memory_at);
    } else {
        memcpy(&building->tree.device, bytes.at, sizeof building->tree.device);
        memcpy(&building->build, bytes.at + sizeof building->tree.device, sizeof building->build);
    }
    if (call_build_memory(&building->tree, &building->memory_length) != VERITY_OK ||
        bytes.length != memory_at + building->memory_length)
        give_up("what was stored has another length");
    building->memory = memory_of(building->memory_length);
    memcpy(building->memory, bytes.at + memory_at, building->memory_length);
}

/* Writes the hash block that is handed out to the hash device. */
static void write_block(struct work *work)
{
    const struct verity_fed *fed = &work->fed;
    const struct shape *shape = &work->image->shape;
    const uint8_t *block = work->building.memory + fed->block_at;
    uint64_t first = work->image->first, at = fed->block_start - first;

    if (fed->block_length != shape->hash_block_size || shape->levels == 0 || fed->block_start < first ||
        at > tree_length(shape) - fed->block_length ||
        fed->block_at > work->building.memory_length - fed->block_length) {
        check(false, "a hash block of %zu bytes at %" PRIu64, fed->block_length, fed->block_start);
        return;
    }
    if (work->device == NULL)
        memcpy(work->hashes + at, block, fed->block_length);
    else if (fseek(work->device, (long)fed->block_start, SEEK_SET) != 0 ||
             fwrite(block, fed->block_length, 1, work->device) != 1)
        give_up("a hash block can't be written");
}

/* What has to be done before more is fed: the last hash block is written, since it might not have been. */
static void resume(struct work *work)
{
    if (work->building.tree.is_file)
        return;
    check(call_build_last_block(&work->building, &work->fed) == VERITY_OK && work->fed.taken == 0, "the last block");
    if (work->fed.block_length > 0)
        write_block(work);
}

/* Another build with the same parameters, so that nothing that was kept anywhere else is left. */
static void build_another(const struct work *work)
{
    static const uint8_t data[600] = "other bytes";
    struct building other = {.memory_length = work->building.memory_length};
    struct verity_fed fed;

    memcpy(&other.tree, &work->image->tree, sizeof other.tree);
    other.memory = memory_of(other.memory_length);
    check(call_build_begin(&other) == VERITY_OK &&
                  feed_once(&other, bytes_of(data, random_below(512)), &fed) == VERITY_OK, "another build");
    free(other.memory);
}

/* Stores the build, and goes on with it elsewhere. */
static void move(struct work *work)
{
    uint8_t *memory = work->building.memory;
    struct bytes bytes = stored(&work->building);

    points++;
    unwritten += work->fed.block_length > 0;
    random_bytes((uint8_t *)&work->fed, sizeof work->fed);
    build_another(work);
    restore(&work->building, bytes);
    free(memory);
    free((void *)bytes.at);
    resume(work);
}

/* Building. */

static void begin(struct work *work, const struct image *image, size_t longest_piece)
{
    memset(work, 0, sizeof *work);
    work->image = image;
    work->longest_piece = longest_piece;
    memcpy(&work->building.tree, &image->tree, sizeof image->tree);
    check(call_build_memory(&image->tree, &work->building.memory_length) == VERITY_OK, "the memory");
    work->building.memory = memory_of(work->building.memory_length);
    random_bytes(work->building.memory, work->building.memory_length);
    check(call_build_begin(&work->building) == VERITY_OK, "the beginning");
}

static uint64_t bytes_fed(const struct building *building)
{
    return building->tree.is_file ? building->tree.file.size : building->build.fed;
}

/* The end, of a file at any size. Where the image says root hash and digest, they are these. */
static void end(struct work *work)
{
    const struct image *image = work->image;
    bool is_file = image->tree.is_file;
    size_t length = digest_size_of_tree(&image->tree);
    uint8_t root[VERITY_MAX_DIGEST_SIZE] = {0}, digest[VERITY_MAX_DIGEST_SIZE] = {0};
    uint64_t size = bytes_fed(&work->building);
    const struct end *expected = end_at(image, size);

    check(call_build_end(&work->building, root, length, digest, is_file ? length : 0) == VERITY_OK, "the end");
    if (!is_file) {
        check(memcmp(root, image->root, length) == 0, "the root hash");
        return;
    }
    check(expected != NULL || size < image->size, "an end that isn't known");
    ends_asked_for += expected != NULL && size < image->size;
    if (expected != NULL)
        check(memcmp(root, expected->root, length) == 0 && memcmp(digest, expected->digest, length) == 0,
              "root hash and digest of %" PRIu64 " bytes", size);
}

/*
 * The next call, by what is kept alone: a piece, or the end once all is fed and handed out, or of a file in between.
 * Answers whether it was the end of all.
 */
static bool step(struct work *work)
{
    struct building *building = &work->building;
    uint64_t at = bytes_fed(building), left = work->image->size - at;
    size_t length = random_below(work->longest_piece + 1), levels = 0;

    work->fed.block_length = 0;
    if (building->tree.is_file) {
        /* Some pieces end where the end is known, which is asked for there. */
        if (length > next_end(work->image, at) - at && !once_in(4))
            length = (size_t)(next_end(work->image, at) - at);
        if (left == 0 || once_in(end_at(work->image, at) != NULL ? 2 : 8)) {
            end(work);
            return left == 0;
        }
    } else {
        check(call_level_count(&building->tree, &levels) == VERITY_OK, "the levels");
        if (left == 0 && building->build.closed == levels) {
            end(work);
            return true;
        }
    }
    if (length > left)
        length = left;
    check(feed_once(building, bytes_of(work->image->data + at, length), &work->fed) == VERITY_OK &&
                  bytes_fed(building) == at + work->fed.taken && work->fed.taken <= length,
          "%zu bytes after %" PRIu64, length, at);
    return false;
}

static void check_hashes(const struct work *work)
{
    if (!work->image->tree.is_file)
        check(memcmp(work->hashes, work->image->hashes, tree_length(&work->image->shape)) == 0, "the hash blocks");
}

/* Stored after each call, the end too. */
static void store_after_each(const struct image *image, uint8_t *hashes, size_t longest_piece)
{
    struct work work;

    begin(&work, image, longest_piece);
    work.hashes = hashes;
    memset(hashes, 0x5a, tree_length(&image->shape));
    do
        move(&work);
    while (!step(&work));
    check_hashes(&work);
    move(&work);
    check(step(&work), "the end isn't the end");
    free(work.building.memory);
}

/* Stored after one call, if there are as many: whether it was. */
static bool store_after_one(const struct image *image, uint8_t *hashes, size_t longest_piece, uint64_t stop)
{
    struct work work;
    uint64_t calls = 0;

    begin(&work, image, longest_piece);
    work.hashes = hashes;
    memset(hashes, 0x5a, tree_length(&image->shape));
    do {
        if (++calls == stop)
            move(&work);
        else if (work.fed.block_length > 0)
            write_block(&work);
    } while (!step(&work));
    check_hashes(&work);
    free(work.building.memory);
    return calls >= stop;
}

static void store_image(const struct image *image)
{
    uint8_t *device = memory_of(image->hashes_length);
    uint64_t stop = 1;

    check(has_place(image), "the place of the tree");
    store_after_each(image, device, 1 + random_below(image->size / 8 + 2));
    while (store_after_one(image, device, 1 + image->size / 8, stop))
        stop++;
    free(device);
}

/* One call of a build that is kept in a file. */

static void write_superblock_of(struct work *work)
{
    const struct verity_params *params = &work->building.tree.device;
    uint8_t superblock[SUPERBLOCK_SIZE];

    if (work->building.tree.is_file || params->no_superblock)
        return;
    check(call_write_superblock(params, superblock, SUPERBLOCK_SIZE) == VERITY_OK, "the superblock");
    if (fseek(work->device, (long)params->hash_offset, SEEK_SET) != 0 ||
        fwrite(superblock, SUPERBLOCK_SIZE, 1, work->device) != 1)
        give_up("the superblock can't be written");
}

static void make_call(const struct image *image, const char *state, const char *device)
{
    struct work work = {.image = image, .building.tree.is_file = image->tree.is_file};
    FILE *file = fopen(state, "rb");
    struct bytes bytes;

    if (file == NULL) {
        begin(&work, image, 0);
    } else {
        fclose(file);
        restore(&work.building, content_of(state));
        work.longest_piece = 1 + image->size / 16;
        work.device = fopen(device, "r+b");
        if (work.device == NULL)
            give_up("the hash device can't be opened");
        resume(&work);
        if (step(&work)) {
            write_superblock_of(&work);
            printf("ended\n");
        }
        if (fclose(work.device) != 0)
            give_up("the hash device can't be written");
    }
    bytes = stored(&work.building);
    file = fopen(state, "wb");
    if (file == NULL || fwrite(bytes.at, bytes.length, 1, file) != 1 || fclose(file) != 0)
        give_up("the state can't be written");
}

int main(int count, char **words)
{
    struct images images;
    struct image image;

    if (count != 4 && count != 6)
        give_up("usage: stored SEED DATA TREES [STATE DEVICE]");
    seed_random(number_of(words[1]));
    images = open_images(words[3], words[2]);
    if (count == 6) {
        if (!next_image(&images, &image))
            give_up("there is no tree");
        make_call(&image, words[4], words[5]);
        return finish();
    }
    while (next_image(&images, &image)) {
        store_image(&image);
        with_ends += image.tree.is_file && image.end_count > 1;
        free_image(&image);
    }
    printf("stored %" PRIu64 " times, %" PRIu64 " of them with a hash block not written\n", points, unwritten);
    check(unwritten > 0 && points > unwritten, "nothing was stored");
    check(with_ends < 20 || ends_asked_for > 0, "no end was asked for that is known");
    return finish();
}
