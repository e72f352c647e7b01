/*
 * Feeds data to trees of small blocks, in random pieces and with random calls between them, the same for the same seed.
 *
 *   feeding_fuzz SEED FEEDINGS DATA TREES
 *
 * TREES is a file of tree_files.py, whose trees are of the bytes of the file DATA: each feeding is of any of them.
 * Between any two calls the end may be asked for, and the last hash block; pieces of no bytes come, and such as are too
 * long; a building is begun anew, or stored, and an older state is put back, from which feeding goes on. In some
 * feedings struct, memory and parameters are disturbed on the way: then statuses, how much is taken and which hash
 * block is named are still those of verity.h, and nothing else is read or written than what is handed in. In all others
 * what comes of it is compared with what the file says, and checked by the library's functions that check blocks.
 * At the end the program says how many of each there were, none of which may be 0, and 'N passed, M failed'.
 */
#include <inttypes.h>
#include <stdio.h>
#include <stdlib.h>
#include <string.h>

#include "calls.h"
#include "feeding_calls.h"
#include "images.h"
#include "shapes.h"
#include "support.h"

#define MOST_DATA ((size_t)1 << 18)
#define MOST_MEMORY ((size_t)1 << 16)

/* A feeding takes fewer calls, and is begun anew or put back as often at most. */
#define MOST_STEPS 20000
#define MOST_TURNS 3

/* All trees, and the data that they are of. */
static struct image *all_images;
static size_t image_count;
static struct bytes source;

/* What the hash blocks that were handed out make of the tree's. */
static uint8_t hashes[MOST_DATA];

/* What is done beside feeding the next piece, and how often, undisturbed and disturbed. */
enum act {
    END_TOO_SHORT,
    END_WAITING,
    END_OF_TREE,
    END_OF_FILE,
    END_KNOWN,
    END_AGAIN,
    LAST_BLOCK,
    NO_LAST_BLOCK,
    NO_BYTES,
    TOO_LONG,
    AFTER_END,
    BEGUN_ANEW,
    STORED,
    STORED_UNWRITTEN,
    PUT_BACK,
    GONE_ON,
    ACTS
};
static const char *const acts[] = {[END_TOO_SHORT] = "ends before all is fed",
                                   [END_WAITING] = "ends while a hash block waits",
                                   [END_OF_TREE] = "ends of trees",
                                   [END_OF_FILE] = "ends of files",
                                   [END_KNOWN] = "ends of files that are known",
                                   [END_AGAIN] = "ends once more",
                                   [LAST_BLOCK] = "last hash blocks",
                                   [NO_LAST_BLOCK] = "last hash blocks where there is none",
                                   [NO_BYTES] = "pieces of no bytes",
                                   [TOO_LONG] = "pieces that are too long",
                                   [AFTER_END] = "pieces after the end of a tree",
                                   [BEGUN_ANEW] = "beginnings anew",
                                   [STORED] = "stored states",
                                   [STORED_UNWRITTEN] = "stored states, a hash block not written",
                                   [PUT_BACK] = "states put back",
                                   [GONE_ON] = "files that go on after their end"};
static uint64_t made[2][ACTS], feedings, disturbed;

/* One feeding. */
struct feeding {
    struct building building;
    /* The undisturbed tree. A file may become longer. */
    const struct image *image;
    struct shape shape;
    uint64_t size;
    /* How many bytes were taken, how many of the present piece are left, and how many hash blocks were handed out. */
    uint64_t at;
    size_t left;
    uint64_t blocks;
    /* A hash block was handed out, so that perhaps more are, even for no bytes. */
    bool is_waiting;
    /* Nothing was fed since the end was answered. */
    bool has_ended;
    bool is_disturbed;
    bool are_params_disturbed;
};

/* A state that can be put back, with the hash blocks that were written before it was stored. */
static struct {
    bool is_there;
    struct feeding feeding;
    uint8_t memory[MOST_MEMORY];
    uint8_t hashes[MOST_DATA];
} stored;

static void count(const struct feeding *feeding, enum act act)
{
    made[feeding->is_disturbed][act]++;
}

static void draw(struct feeding *feeding)
{
    memset(feeding, 0, sizeof *feeding);
    feeding->image = &all_images[random_below(image_count)];
    memcpy(&feeding->building.tree, &feeding->image->tree, sizeof feeding->building.tree);
    feeding->shape = feeding->image->shape;
    feeding->size = feeding->image->size;
}

/* The state of no bytes. No hash block is on the hash device. */
static void forget(struct feeding *feeding)
{
    feeding->at = feeding->left = feeding->blocks = 0;
    feeding->is_waiting = feeding->has_ended = false;
    memset(hashes, 0x5a, tree_length(&feeding->shape));
}

/* Begins in memory that stands where memory ends; some calls are watched, and most are not. */
static void begin(struct feeding *feeding)
{
    struct building *building = &feeding->building;
    size_t length = 0, start = random_below(MOST_DATA);

    check(call_build_memory(&building->tree, &length) == VERITY_OK && length == memory_length_of(&building->tree),
          "memory of %zu bytes", length);
    if (length > MOST_MEMORY)
        give_up("the memory is too long");
    building->memory_length = length;
    building->memory = place(KEPT, source.at + start, length);
    building->build = (struct verity_build){random_number(), random_number()};
    check(call_build_begin(building) == VERITY_OK, "the beginning");
    forget(feeding);
}

/* About a limit, below it, or any. */
static uint64_t some_number(uint64_t limit)
{
    switch (random_below(4)) {
    case 0:
        return limit - 2 + random_below(5);
    case 1:
        return random_number();
    default:
        return random_below(limit < MOST_DATA ? limit + 2 : MOST_DATA);
    }
}

/* Changes something that has to be left alone. What parameters become may be refused. */
static void disturb(struct feeding *feeding)
{
    struct building *building = &feeding->building;
    struct verity_params *device = &building->tree.device;
    struct fsverity_params *file = &building->tree.file;

    feeding->is_disturbed = building->is_disturbed = true;
    switch (random_below(6)) {
    case 0:
        building->build.closed = (size_t)some_number(feeding->shape.levels);
        file->size = some_number(feeding->size);
        break;
    case 1:
        building->build.fed = some_number(feeding->size);
        file->size = once_in(2) ? LARGEST - random_below(5000) : random_number();
        break;
    case 2:
        random_bytes(building->memory, building->memory_length);
        break;
    case 3:
        feeding->are_params_disturbed = true;
        device->hash_type ^= 1;
        device->salt_size = (uint32_t)random_below(258);
        file->salt_size = (uint32_t)random_below(34);
        break;
    case 4:
        feeding->are_params_disturbed = true;
        device->hash_algorithm = file->hash_algorithm = (uint32_t)random_below(7);
        device->data_blocks = some_number(device->data_blocks);
        break;
    default:
        building->memory[random_below(building->memory_length)] ^= (uint8_t)(1 + random_below(255));
        building->memory[random_below(building->memory_length)] ^= (uint8_t)(1 + random_below(255));
        break;
    }
}

/* What verity.h says of each call. */

/* The fault of the parameters, and without one how the tree is. */
static int params_say(const struct building *building, struct shape *shape)
{
    *shape = shape_of(&building->tree);
    if (building->tree.is_file && (shape->status == VERITY_NO_DATA || shape->status == VERITY_TOO_LARGE))
        shape->status = VERITY_OK;
    return shape->status;
}

/* The fault of parameters and memory, which is that of the beginning. */
static int begin_says(const struct building *building, struct shape *shape)
{
    const struct tree *tree = &building->tree;
    size_t length = 0, expected_length;
    int status = params_say(building, shape);

    if (status != VERITY_OK)
        return status;
    status = tree->is_file ? fsverity_build_memory(&tree->file, &length) : verity_build_memory(&tree->device, &length);
    expected_length = memory_length_of(tree);
    check(status == VERITY_OK && length == expected_length, "the length of the memory: status %d, %zu bytes", status,
          length);
    return expected_length != building->memory_length ? VERITY_BAD_LENGTH : VERITY_OK;
}

/* A file of so many bytes is too large. */
static bool is_too_large(const struct building *building, uint64_t more)
{
    struct tree tree;

    memcpy(&tree, &building->tree, sizeof tree);
    tree.file.size += more;
    return tree.file.size < more || shape_of(&tree).status == VERITY_TOO_LARGE;
}

/* How many bytes a device without a fault has. */
static uint64_t bytes_of_device(const struct building *building)
{
    return building->tree.device.data_blocks * building->tree.device.data_block_size;
}

/* The fault of the struct of a device, with so many bytes more. */
static int build_says(const struct building *building, const struct shape *shape, uint64_t more)
{
    uint64_t wanted = bytes_of_device(building);

    if (building->build.closed > shape->levels)
        return VERITY_NO_SUCH_LEVEL;
    return building->build.fed > wanted || more > wanted - building->build.fed ? VERITY_TOO_LONG : VERITY_OK;
}

/* The status that a piece has to have. */
static int feeding_says(const struct building *building, uint64_t length)
{
    struct shape shape;
    int status = begin_says(building, &shape);

    if (status != VERITY_OK)
        return status;
    if (building->tree.is_file)
        return is_too_large(building, length) ? VERITY_TOO_LARGE : VERITY_OK;
    return build_says(building, &shape, length);
}

/* The status that the end has to have. */
static int end_says(const struct building *building, size_t root_length, size_t digest_length)
{
    struct shape shape;
    int status = begin_says(building, &shape);
    size_t right = digest_size_of_tree(&building->tree);

    if (status != VERITY_OK)
        return status;
    if (root_length != right)
        return VERITY_BAD_ROOT_LENGTH;
    if (building->tree.is_file && digest_length != right)
        return VERITY_BAD_LENGTH;
    if (building->tree.is_file)
        return is_too_large(building, 0) ? VERITY_TOO_LARGE : VERITY_OK;
    status = build_says(building, &shape, 0);
    if (status != VERITY_OK)
        return status;
    if (building->build.fed < bytes_of_device(building))
        return VERITY_TOO_SHORT;
    return building->build.closed < shape.levels ? VERITY_WAITING : VERITY_OK;
}

/*
 * The hash block that was handed out last by what the struct says: that of the level that was closed last, above the
 * last byte that was fed. All is 0 if there is none.
 */
static struct verity_fed last_block(const struct verity_build *build, const struct shape *shape)
{
    struct verity_fed fed = {0};

    if (build->fed == 0 || build->closed == 0)
        return fed;
    fed = block_above(shape, build->closed - 1, 0, (build->fed - 1) / shape->data_block_size);
    fed.block_at = fed.block_level * fed.block_length;
    return fed;
}

/* The status that the question for the last hash block has to have, and its answer. */
static int last_block_says(const struct building *building, struct verity_fed *fed)
{
    struct shape shape;
    int status = params_say(building, &shape);

    if (status == VERITY_OK)
        status = build_says(building, &shape, 0);
    if (status == VERITY_OK)
        *fed = last_block(&building->build, &shape);
    return status;
}

/*
 * Whatever stands in the struct: a hash block that is handed out, or named once more, is the last one that it says, and
 * stands in memory of the right length. The function that says where the hash blocks above a data block stand agrees.
 */
static void check_block(const struct building *building, const struct verity_fed *fed)
{
    const struct verity_build *build = &building->build;
    struct shape shape = shape_of(&building->tree);
    struct verity_fed last;
    uint64_t start = 0;
    int status;

    if (shape.status != VERITY_OK || build->closed > shape.levels) {
        check(false, "a block of level %zu of no tree", fed->block_level);
        return;
    }
    last = last_block(build, &shape);
    last.taken = fed->taken;
    check(memcmp(&last, fed, sizeof last) == 0 && last.block_length > 0 &&
                  last.block_at + last.block_length <= memory_length_of(&building->tree),
          "block %" PRIu64 " of level %zu at %" PRIu64 ", after %" PRIu64 " bytes with %zu levels closed",
          fed->block_index, fed->block_level, fed->block_start, build->fed, build->closed);
    status = verity_hash_block_start(&building->tree.device, (build->fed - 1) / shape.data_block_size,
                                     fed->block_level, &start);
    check(status == VERITY_OK && start == fed->block_start, "a block at %" PRIu64 ", by its number at %" PRIu64,
          fed->block_start, start);
}

/* Writes a hash block to the hash device. Undisturbed it is the tree's at its place. */
static void write_block(const struct feeding *feeding, const struct verity_fed *fed)
{
    uint64_t first = feeding->image->first, at = fed->block_start - first;

    check_block(&feeding->building, fed);
    if (feeding->is_disturbed)
        return;
    if (fed->block_start < first || at > feeding->image->hashes_length - fed->block_length ||
        memcmp(feeding->building.memory + fed->block_at, feeding->image->hashes + at, fed->block_length) != 0) {
        check(false, "block %" PRIu64 " of level %zu isn't the tree's", fed->block_index, fed->block_level);
        return;
    }
    memcpy(hashes + at, feeding->building.memory + fed->block_at, fed->block_length);
}

static void store(const struct feeding *feeding)
{
    stored.is_there = true;
    memcpy(&stored.feeding, feeding, sizeof stored.feeding);
    memcpy(stored.memory, feeding->building.memory, feeding->building.memory_length);
    memcpy(stored.hashes, hashes, tree_length(&feeding->shape));
}

/* The hash block that was handed out last, once more, which is written again. Undisturbed it is really that. */
static void ask_last_block(struct feeding *feeding)
{
    struct verity_fed fed, says = {0};
    int status, expected_status = last_block_says(&feeding->building, &says);

    status = call_build_last_block(&feeding->building, &fed);
    check(status == expected_status, "the last block: status %d, expected %d", status, expected_status);
    if (status != VERITY_OK)
        return;
    check(memcmp(&fed, &says, sizeof fed) == 0, "the last block: %zu bytes, block %" PRIu64 " of level %zu",
          fed.block_length, fed.block_index, fed.block_level);
    count(feeding, fed.block_length > 0 ? LAST_BLOCK : NO_LAST_BLOCK);
    if (fed.block_length > 0)
        write_block(feeding, &fed);
}

/*
 * All that came after the state was stored is lost. The last hash block is written, since it might not have been, and
 * feeding goes on after the bytes that the state says.
 */
static void put_back(struct feeding *feeding)
{
    uint8_t *memory = feeding->building.memory;

    memcpy(feeding, &stored.feeding, sizeof *feeding);
    feeding->building.memory = memory;
    memcpy(memory, stored.memory, feeding->building.memory_length);
    memcpy(hashes, stored.hashes, tree_length(&feeding->shape));
    count(feeding, PUT_BACK);
    if (!feeding->building.tree.is_file)
        ask_last_block(feeding);
    feeding->left = 0;
    feeding->is_waiting = true;
    if (!feeding->is_disturbed)
        feeding->at = feeding->building.tree.is_file ? feeding->building.tree.file.size : feeding->building.build.fed;
}

/* What was disturbed in struct and memory alone is mended by it. */
static void begin_anew(struct feeding *feeding)
{
    struct shape shape;
    int says = begin_says(&feeding->building, &shape), status = call_build_begin(&feeding->building);

    check(status == says, "a beginning anew: status %d, expected %d", status, says);
    if (status != VERITY_OK)
        return;
    count(feeding, BEGUN_ANEW);
    if (!feeding->are_params_disturbed)
        feeding->is_disturbed = feeding->building.is_disturbed = false;
    forget(feeding);
}

/* One call that feeds. Undisturbed all is taken up to the next hash block that closes, and nothing is refused. */
static void feed(struct feeding *feeding)
{
    struct building *building = &feeding->building;
    struct bytes piece = bytes_of(feeding->image->data + feeding->at, feeding->left);
    int says = feeding_says(building, feeding->left), status;
    uint64_t before = building->tree.is_file ? building->tree.file.size : building->build.fed, after;
    struct verity_fed fed;

    memset(&fed, 0xa5, sizeof fed);
    status = once_in(16) ? call_build_feed(building, piece, &fed) : feed_once(building, piece, &fed);
    check(status == says && (status == VERITY_OK || feeding->is_disturbed), "feeding: status %d, expected %d", status,
          says);
    if (feeding->left == 0)
        count(feeding, NO_BYTES);
    feeding->is_waiting = feeding->has_ended = false;
    if (status == VERITY_OK) {
        after = building->tree.is_file ? building->tree.file.size : building->build.fed;
        if (fed.taken > feeding->left || (fed.block_length == 0 && fed.taken < feeding->left) ||
            after != before + fed.taken) {
            check(false, "%zu bytes of %zu are taken", fed.taken, feeding->left);
        } else if (fed.block_length > 0) {
            feeding->at += fed.taken;
            feeding->left -= fed.taken;
            feeding->blocks++;
            feeding->is_waiting = true;
            if (once_in(16)) {
                store(feeding);
                count(feeding, STORED_UNWRITTEN);
            }
            write_block(feeding, &fed);
            return;
        }
    }
    feeding->at += feeding->left;
    feeding->left = 0;
}

/* More bytes than a device has. Nothing comes of it. */
static void feed_too_much(struct feeding *feeding)
{
    struct building *building = &feeding->building;
    uint64_t wanted = bytes_of_device(building), most = building->build.fed > wanted ? 0 : wanted - building->build.fed;
    struct verity_fed fed;
    size_t length;
    int says, status;

    if (building->tree.is_file || most >= MOST_DATA)
        return;
    length = most + 1 + random_below(MOST_DATA - most < 600 ? MOST_DATA - most : 600);
    says = feeding_says(building, length);
    status = call_build_feed(building, bytes_of(source.at, length), &fed);
    check(status == says && status != VERITY_OK, "too many bytes: status %d, expected %d", status, says);
    if (status == VERITY_TOO_LONG)
        count(feeding, feeding->has_ended ? AFTER_END : TOO_LONG);
}

/*
 * The end, whose status is known; and what it gives, if nothing was disturbed. Feeding goes on as if it hadn't been
 * asked for. Answers the status.
 */
static int end(struct feeding *feeding, bool has_right_lengths)
{
    struct building *building = &feeding->building;
    bool is_file = building->tree.is_file;
    size_t size = digest_size_of_tree(&building->tree);
    size_t root_length = has_right_lengths ? size : random_below(65);
    size_t digest_length = !is_file ? 0 : has_right_lengths ? size : random_below(65);
    uint8_t root[65] = {0}, digest[65] = {0};
    const struct end *known;
    int says = end_says(building, root_length, digest_length);
    int status = call_build_end(building, root, root_length, digest, digest_length);

    check(status == says, "the end: status %d, expected %d", status, says);
    if (status == VERITY_TOO_SHORT)
        count(feeding, END_TOO_SHORT);
    else if (status == VERITY_WAITING)
        count(feeding, END_WAITING);
    else if (status == VERITY_OK)
        count(feeding, feeding->has_ended ? END_AGAIN : is_file ? END_OF_FILE : END_OF_TREE);
    feeding->has_ended = feeding->has_ended || status == VERITY_OK;
    if (status != VERITY_OK || feeding->is_disturbed)
        return status;
    if (!is_file) {
        check(memcmp(root, feeding->image->root, size) == 0, "the root hash");
        return status;
    }
    check(building->tree.file.size == feeding->at, "the size");
    known = end_at(feeding->image, feeding->at);
    if (known != NULL) {
        check(memcmp(root, known->root, size) == 0 && memcmp(digest, known->digest, size) == 0,
              "root hash and digest of %" PRIu64 " bytes", feeding->at);
        count(feeding, END_KNOWN);
    }
    return status;
}

/* The library's own functions accept a data block with the hash blocks that were handed out, or a file's. */
static void accepts(const struct feeding *feeding)
{
    static uint8_t path[64 * 1024], block[1024];
    const struct shape *shape = &feeding->shape;
    uint64_t index = random_below(shape->data_blocks), above = index, at = index * shape->data_block_size;
    const uint8_t *from = feeding->building.tree.is_file ? feeding->image->hashes : hashes;
    size_t level, found = 0, size = shape->hash_block_size;
    int status;

    for (level = 0; level < shape->levels; level++) {
        above /= shape->fan_out;
        memcpy(path + level * size, from + (shape->starts[level] - feeding->image->first) + above * size, size);
    }
    memset(block, 0, sizeof block);
    memcpy(block, feeding->image->data + at,
           feeding->size - at < shape->data_block_size ? feeding->size - at : shape->data_block_size);
    status = call_check_block(&feeding->building.tree, index, bytes_of(block, shape->data_block_size),
                              bytes_of(path, shape->levels * size), bytes_of(feeding->image->root, shape->digest_size),
                              &found);
    check(status == VERITY_OK, "block %" PRIu64 " isn't accepted: status %d", index, status);
}

/* All was fed. Undisturbed each hash block was handed out once, and all of them are on the hash device. */
static void end_all(struct feeding *feeding)
{
    uint64_t blocks = 0;
    size_t level;
    int status = end(feeding, true);

    if (feeding->is_disturbed)
        return;
    check(status == VERITY_OK, "the end of all: status %d", status);
    if (!feeding->building.tree.is_file) {
        for (level = 0; level < feeding->shape.levels; level++)
            blocks += feeding->shape.blocks[level];
        check(feeding->blocks == blocks, "%" PRIu64 " hash blocks of %" PRIu64, feeding->blocks, blocks);
        check(memcmp(hashes, feeding->image->hashes, tree_length(&feeding->shape)) == 0,
              "the hash blocks on the hash device");
    }
    if (feeding->size > 0 && feeding->size == feeding->image->size && once_in(4))
        accepts(feeding);
}

/* A call, or two, between those that feed. turns counts those after which feeding has to be done again. */
static void act(struct feeding *feeding, int *turns)
{
    switch (random_below(8)) {
    case 0:
    case 1:
        end(feeding, !once_in(8));
        break;
    case 2:
    case 3:
        if (!feeding->building.tree.is_file)
            ask_last_block(feeding);
        break;
    case 4:
        feed_too_much(feeding);
        break;
    case 5:
        store(feeding);
        count(feeding, STORED);
        break;
    case 6:
        if (stored.is_there && *turns < MOST_TURNS) {
            put_back(feeding);
            ++*turns;
        }
        break;
    default:
        if (*turns < MOST_TURNS && once_in(4)) {
            begin_anew(feeding);
            ++*turns;
        }
        break;
    }
}

static size_t some_length(const struct feeding *feeding)
{
    size_t length = once_in(4) ? random_below(4) : once_in(4) ? random_below(70) : random_below(5000);

    /* Most pieces end where the end is known, if they would go beyond. */
    if (length > next_end(feeding->image, feeding->at) - feeding->at && !once_in(4))
        length = (size_t)(next_end(feeding->image, feeding->at) - feeding->at);
    return length > feeding->size - feeding->at ? feeding->size - feeding->at : length;
}

/* A file may go on after its end, and is longer then: up to where the end is known, if there is such. */
static bool goes_on(struct feeding *feeding)
{
    uint64_t next = next_end(feeding->image, feeding->size);

    if (!feeding->building.tree.is_file || feeding->size > MOST_DATA / 2 || !once_in(4))
        return false;
    feeding->size = next == UINT64_MAX || once_in(4) ? feeding->size + 1 + random_below(600) : next;
    count(feeding, GONE_ON);
    return true;
}

static bool is_all_fed(const struct feeding *feeding)
{
    return feeding->at == feeding->size && feeding->left == 0 && !feeding->is_waiting;
}

static void try_feeding(void)
{
    struct feeding feeding;
    bool is_to_be_disturbed = once_in(4), was_disturbed = false;
    uint64_t acts_left, steps;
    int turns = 0;

    draw(&feeding);
    begin(&feeding);
    stored.is_there = false;
    for (steps = 0; steps < MOST_STEPS; steps++) {
        if (once_in(feeding.is_waiting ? 2 : 4))
            act(&feeding, &turns);
        if (is_to_be_disturbed && once_in(was_disturbed ? 16 : is_all_fed(&feeding) ? 1 : 4)) {
            disturb(&feeding);
            was_disturbed = true;
        }
        if (is_all_fed(&feeding)) {
            end_all(&feeding);
            for (acts_left = random_below(4); acts_left > 0 && is_all_fed(&feeding); acts_left--)
                act(&feeding, &turns);
            if (is_all_fed(&feeding) && !goes_on(&feeding))
                break;
        }
        if (feeding.left == 0 && !(feeding.is_waiting && once_in(2)))
            feeding.left = some_length(&feeding);
        feed(&feeding);
    }
    check(steps < MOST_STEPS, "hash blocks without end");
    feedings++;
    disturbed += was_disturbed;
}

static void read_images(const char *trees, const char *data)
{
    struct images images = open_images(trees, data);
    struct image image;

    source = images.data;
    while (next_image(&images, &image)) {
        all_images = realloc(all_images, (image_count + 1) * sizeof *all_images);
        if (all_images == NULL || image.size > MOST_DATA || image.hashes_length > MOST_DATA)
            give_up("a tree is too large");
        check(has_place(&image), "the place of the tree");
        all_images[image_count++] = image;
    }
    if (image_count == 0 || source.length < 3 * MOST_DATA)
        give_up("there is no tree, or too few data");
}

int main(int words_count, char **words)
{
    uint64_t wanted;
    int i;

    if (words_count != 5)
        give_up("usage: feeding_fuzz SEED FEEDINGS DATA TREES");
    seed_random(number_of(words[1]));
    wanted = number_of(words[2]);
    read_images(words[4], words[3]);
    while (feedings < wanted)
        try_feeding();
    for (i = 0; i < ACTS; i++) {
        printf("%s: %" PRIu64 ", disturbed %" PRIu64 "\n", acts[i], made[0][i], made[1][i]);
        check(made[0][i] > 0 && (made[1][i] > 0 || i == END_KNOWN), "%s: none", acts[i]);
    }
    printf("%" PRIu64 " feedings, %" PRIu64 " of them disturbed, %" PRIu64 " calls\n", feedings, disturbed, calls_made);
    return finish();
}
