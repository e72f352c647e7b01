/*
 * Builds trees from the parts of each of their levels, and compares what comes of it with trees by trees.py or by
 * Debian's programs.
 *
 *   parts SEED DATA TREES [all|mistakes]
 *
 * TREES is a file of tree_files.py, whose trees are of the bytes of the file DATA. Each tree is built from the parts of
 * each level, from 0, where each data block is one, up to the level above the top, where the one part is all of it.
 * Parts are built from the first to the last, from the last to the first, and several at a time; in pieces of several
 * lengths; and stored after some calls or after each, so that they go on in other memory. So are their joins, whose
 * digests come one at a time, several and all at once. Each hash block is to be handed out once, at its place, by the
 * part or the join that it belongs to, and each part's digest is the one that stands in the tree.
 *
 * With `all` each case that is listed here has to come. With `mistakes` the caller makes one in each tree, of each kind
 * that is listed here, and each has to be noticed by what the program checks. SEED draws all that is random. What
 * doesn't hold is printed in lines that begin with FAILED; the last line is 'N passed, M failed'.
 */
#include <inttypes.h>
#include <stdarg.h>
#include <stdio.h>
#include <stdlib.h>
#include <string.h>

#include "calls.h"
#include "cuts.h"
#include "disturbed_parts.h"
#include "images.h"
#include "part_calls.h"
#include "shapes.h"
#include "support.h"

/* Pieces of one byte, of a few, of nearly a block; of any length, and all at once. */
static const size_t cuts[] = {1, 7, 511, 512, 513, 4096, ANY, WHOLE};
enum { CUTS = sizeof cuts / sizeof *cuts };

/* As many bytes are cut so that pieces have less than a hundred, or fewer if the memory is large; then their length is
   any. */
static size_t most_cut_small(size_t memory_length)
{
    return 4000 / (1 + memory_length / 8192);
}

/* How many digests come at once: one, two, a few, any number, and all. */
static const size_t counts[] = {1, 2, 5, ANY, WHOLE};
enum { COUNTS = sizeof counts / sizeof *counts };

/* In which order parts are built. What is mixed is built up to so many parts at a time. */
enum order { FIRST_TO_LAST, LAST_TO_FIRST, MIXED, ORDERS };
enum { AT_A_TIME = 4 };

/* After which calls a part and the join are stored, and go on elsewhere. */
enum storing { NEVER, SOMETIMES, ALWAYS, STORINGS };

/* What a caller could do wrong. */
enum mistake {
    NONE,
    SWAPPED_DIGESTS,
    DIGEST_LEFT_OUT,
    ANOTHER_LEVEL,
    LAST_AS_FULL,
    FILLED_WITH_ZEROS,
    BEGUN_IN_THE_MIDDLE,
    ANOTHER_NUMBER,
    ANOTHER_SALT,
    BLOCK_NOT_WRITTEN,
    PLACE_IN_THE_PART,
    REST_DROPPED,
    FED_AGAIN,
    NOT_FED_TO_THE_END,
    ANOTHER_MEMORY,
    LAST_BLOCK_FORGOTTEN,
    MISTAKES
};

static const char *const mistakes[] = {[SWAPPED_DIGESTS] = "the digests of two parts are joined in another order",
                                       [DIGEST_LEFT_OUT] = "the digest of a part is left out",
                                       [ANOTHER_LEVEL] = "parts are joined at another level",
                                       [LAST_AS_FULL] = "the last part is taken as a full one",
                                       [FILLED_WITH_ZEROS] = "the last block of a file is fed with zeros behind it",
                                       [BEGUN_IN_THE_MIDDLE] = "a part is begun in the middle of its data",
                                       [ANOTHER_NUMBER] = "a part is begun by another number",
                                       [ANOTHER_SALT] = "a part is built with another salt",
                                       [BLOCK_NOT_WRITTEN] = "a hash block is not written",
                                       [PLACE_IN_THE_PART] = "a hash block goes where it is in its part",
                                       [REST_DROPPED] = "the rest of a piece is not fed after a hash block",
                                       [FED_AGAIN] = "a piece is fed again from its start after a hash block",
                                       [NOT_FED_TO_THE_END] = "a part ends while a hash block is still to come",
                                       [ANOTHER_MEMORY] = "a part goes on in memory that is not its own",
                                       [LAST_BLOCK_FORGOTTEN] = "the last hash block is not asked for"};

/* How often each mistake was made. */
static uint64_t times_made[MISTAKES];

/* What has to come. */
enum kind {
    ONE_DATA_BLOCK,
    LEVEL_0,
    WHOLE_TREE,
    LAST_OF_ONE_BLOCK,
    LAST_WITH_FEWER_LEVELS,
    LAST_NOT_WHOLE,
    BUILT_AT_A_TIME,
    STORED_PART,
    STORED_JOIN,
    STORED_UNWRITTEN,
    STORED_AFTER_END,
    PART_TOO_SHORT,
    PART_WAITING,
    JOIN_TOO_SHORT,
    JOIN_WAITING,
    FILE_DIGEST,
    KINDS
};

static const char *const kinds[] = {[ONE_DATA_BLOCK] = "trees of one data block",
                                    [LEVEL_0] = "trees from their data blocks",
                                    [WHOLE_TREE] = "trees of one part",
                                    [LAST_OF_ONE_BLOCK] = "last parts of one data block",
                                    [LAST_WITH_FEWER_LEVELS] = "last parts of fewer levels than their own",
                                    [LAST_NOT_WHOLE] = "last parts that end in a data block",
                                    [BUILT_AT_A_TIME] = "calls of one part while another is built",
                                    [STORED_PART] = "stored parts",
                                    [STORED_JOIN] = "stored joins",
                                    [STORED_UNWRITTEN] = "stored ones, a hash block not written",
                                    [STORED_AFTER_END] = "stored ones after the last call that feeds",
                                    [PART_TOO_SHORT] = "ends of parts before all is fed",
                                    [PART_WAITING] = "ends of parts while a hash block waits",
                                    [JOIN_TOO_SHORT] = "ends of joins before all is joined",
                                    [JOIN_WAITING] = "ends of joins while a hash block waits",
                                    [FILE_DIGEST] = "file digests"};

static uint64_t seen[KINDS];

/* All bytes of the file DATA. */
static struct bytes source;

/* How a tree is built. */
struct way {
    size_t cut;
    size_t count;
    enum order order;
    enum storing storing;
    enum mistake mistake;
};

/* A part that is built. */
struct part_work {
    struct part_building building;
    struct part_shape shape;
    uint64_t number;
    /* Its bytes, how many they are, how many the caller has behind it, and how many of the present piece are left. */
    const uint8_t *data;
    uint8_t *filled;
    uint64_t size, at;
    size_t left;
    /* The last call has handed out a hash block, so that perhaps more are, even for no bytes. */
    bool is_waiting;
    /* What its last_block has to answer, and how many hash blocks of each level were handed out. */
    struct verity_fed last;
    uint64_t handed_out[64];
};

/* A tree that is built. */
struct work {
    const struct image *image;
    const struct way *way;
    size_t level;
    uint64_t parts, blocks;
    /* The digests of the parts, the hash blocks that were written, and how often each was handed out. */
    uint8_t *digests, *hashes, *times;
    uint64_t fed;
    /* In which part a mistake is made; and whether one was, noticed, or so that the rest can't be built. */
    uint64_t mistaken;
    bool is_made, is_noticed, has_stopped;
};

static struct work work;

/* Of a tree that is built right a check. A mistake has to be noticed by one at least. */
static bool expect(bool holds, const char *format, ...) __attribute__((format(printf, 2, 3)));

static bool expect(bool holds, const char *format, ...)
{
    char text[300];
    va_list values;

    if (work.way->mistake != NONE) {
        work.is_noticed = work.is_noticed || !holds;
        return holds;
    }
    if (!holds) {
        va_start(values, format);
        vsnprintf(text, sizeof text, format, values);
        va_end(values);
        check(false, "%s, level %zu: %s", work.image->tree.is_file ? "file" : "device", work.level, text);
        return false;
    }
    check(true, "%s", format);
    return true;
}

/* The call before was refused, or has done what can't be gone on from. */
static bool stops(bool holds)
{
    work.has_stopped = work.has_stopped || !holds;
    return work.has_stopped;
}

static bool makes(enum mistake mistake, const struct part_work *part)
{
    return work.way->mistake == mistake && (part == NULL || part->number == work.mistaken);
}

static bool makes_now(enum mistake mistake, const struct part_work *part)
{
    if (!makes(mistake, part))
        return false;
    work.is_made = true;
    return true;
}

static size_t digest_size(void)
{
    return work.image->shape.digest_size;
}

/* Memory of just so many bytes, which are random. */
static uint8_t *some_memory(size_t length)
{
    uint8_t *bytes = malloc(length);

    if (bytes == NULL)
        give_up("no memory");
    random_bytes(bytes, length);
    return bytes;
}

/* Hash blocks. */

/* How many data blocks a hash block of a level has below it, or all if it would be more. */
static uint64_t blocks_below(size_t level)
{
    const struct shape *shape = &work.image->shape;
    uint64_t blocks = 1;

    for (level++; level > 0; level--)
        blocks = blocks > shape->data_blocks / shape->fan_out ? shape->data_blocks : blocks * shape->fan_out;
    return blocks;
}

/* The place of a hash block among all of the tree, or SIZE_MAX if it would be none. */
static size_t place_of(const struct verity_fed *fed)
{
    const struct shape *shape = &work.image->shape;
    uint64_t first = work.image->first, width = shape->hash_block_size;

    if (fed->block_length != width || fed->block_level >= shape->levels || fed->block_start < first ||
        (fed->block_start - first) % width != 0 || fed->block_start - first >= work.image->hashes_length)
        return SIZE_MAX;
    return (size_t)((fed->block_start - first) / width);
}

/* A hash block is handed out once, with its place. Nothing else is written there. */
static bool note_block(const struct verity_fed *fed, uint64_t index, size_t at, size_t memory_length)
{
    const struct shape *shape = &work.image->shape;
    size_t place = place_of(fed);

    if (!expect(place != SIZE_MAX && fed->block_at == at && fed->block_length <= memory_length &&
                        at <= memory_length - fed->block_length && fed->block_index == index &&
                        index < shape->blocks[fed->block_level] &&
                        fed->block_start == shape->starts[fed->block_level] + index * shape->hash_block_size,
                "block %" PRIu64 " of level %zu, expected %" PRIu64 ", %zu bytes at %zu and %" PRIu64,
                fed->block_index, fed->block_level, index, fed->block_length, fed->block_at, fed->block_start))
        return false;
    expect(++work.times[place] == 1, "block %" PRIu64 " of level %zu is handed out again", index, fed->block_level);
    return true;
}

/* Writes a hash block that stands in the memory of a part, or of the join: it is the tree's at its place. */
static void write_block(const struct verity_fed *fed, struct bytes memory, const struct part_work *part)
{
    size_t place = place_of(fed), width = work.image->shape.hash_block_size;
    const uint8_t *block = memory.at + fed->block_at;

    if (place == SIZE_MAX || memory.length < width || fed->block_at > memory.length - width)
        return;
    expect(memcmp(block, work.image->hashes + place * width, width) == 0,
           "block %" PRIu64 " of level %zu isn't the tree's", fed->block_index, fed->block_level);
    if (part != NULL && makes_now(BLOCK_NOT_WRITTEN, part))
        return;
    if (part != NULL && makes(PLACE_IN_THE_PART, part)) {
        uint64_t first = part->number * work.blocks / blocks_below(fed->block_level);

        work.is_made = work.is_made || first > 0;
        place -= first < place ? first : 0;
    }
    memcpy(work.hashes + place * width, block, width);
}

/* No hash block is handed out, and the numbers of one are 0. */
static bool is_none(const struct verity_fed *fed)
{
    return fed->block_length == 0 && fed->block_at == 0 && fed->block_start == 0 && fed->block_index == 0 &&
           fed->block_level == 0;
}

/* What the last hash block is, after a call that did this. */
static void set_last(struct verity_fed *last, const struct verity_fed *fed)
{
    if (fed->block_length == 0 && fed->taken == 0)
        return;
    *last = *fed;
    last->taken = 0;
}

/* Parts. */

/* The digest of a part in the tree that is expected: it stands in the hash block above, or is the root hash. */
static const uint8_t *expected_digest(uint64_t number)
{
    const struct shape *shape = &work.image->shape;
    uint64_t at;

    if (work.level == shape->levels)
        return work.image->root;
    at = shape->starts[work.level] - work.image->first + number / shape->fan_out * shape->hash_block_size;
    return work.image->hashes + at + number % shape->fan_out * shape->slot_width;
}

/* The caller's mistakes in what it feeds. */
static void mistake_data(struct part_work *part)
{
    uint64_t full = work.blocks * work.image->shape.data_block_size, rest;
    size_t block = work.image->shape.data_block_size;

    if (makes(LAST_AS_FULL, part) && part->size < full && part->data + full <= source.at + source.length) {
        work.is_made = true;
        part->size = full;
    }
    rest = part->size % block;
    if (makes(FILLED_WITH_ZEROS, part) && rest > 0) {
        work.is_made = true;
        part->filled = memory_of(part->size + block);
        memcpy(part->filled, part->data, part->size);
        part->data = part->filled;
        part->size += block - rest;
    }
    if (makes(BEGUN_IN_THE_MIDDLE, part) && part->size >= 2 * block) {
        work.is_made = true;
        part->data += part->size / 2;
        part->size -= part->size / 2;
    }
}

static void count_part(const struct part_work *part)
{
    const struct part_shape *shape = &part->shape;
    uint64_t block = shape->tree.data_block_size;

    if (part->number + 1 < work.parts)
        return;
    seen[LAST_OF_ONE_BLOCK] += work.blocks > 1 && shape->bytes <= block;
    seen[LAST_WITH_FEWER_LEVELS] += shape->own_levels < work.level;
    seen[LAST_NOT_WHOLE] += shape->bytes % block != 0;
}

static void begin_part(struct part_work *part, uint64_t number)
{
    struct part_building *building = &part->building;
    struct tree *tree = &building->tree;
    uint64_t begun = number;
    size_t length = PAINT;

    memset(part, 0, sizeof *part);
    part->number = number;
    *tree = work.image->tree;
    part->shape = part_shape_of(tree, work.level, number);
    part->data = work.image->data + part->shape.start;
    part->size = part->shape.bytes;
    count_part(part);
    mistake_data(part);
    if (makes_now(ANOTHER_SALT, part)) {
        tree->device.salt[0] ^= 1;
        tree->file.salt[0] ^= 1;
        tree->device.salt_size += tree->device.salt_size == 0;
        tree->file.salt_size += tree->file.salt_size == 0;
    }
    if (work.level > 0 && work.parts > 1 && makes_now(ANOTHER_NUMBER, part))
        begun = (number + 1) % work.parts;
    expect(call_part_memory(tree, work.level, &length) == VERITY_OK && length == part->shape.memory_length,
           "memory of %zu bytes for a part", length);
    building->memory_length = part->shape.memory_length;
    building->memory = some_memory(building->memory_length);
    random_bytes((uint8_t *)&building->part, sizeof building->part);
    stops(expect(call_part_begin(building, work.level, begun) == VERITY_OK, "part %" PRIu64 " isn't begun", number));
}

/* A hash block is the part's next one of its level, and comes with the last byte below it, after those below it. */
static void note_block_of_part(struct part_work *part, const struct verity_fed *fed)
{
    const struct shape *shape = &part->shape.tree;
    size_t level = fed->block_level;
    uint64_t below, index, end;

    if (level >= work.level) {
        expect(false, "a part hands out a block of level %zu", level);
        return;
    }
    below = blocks_below(level);
    index = part->handed_out[level];
    end = (index + 1) * below * shape->data_block_size;
    if (!note_block(fed, part->number * work.blocks / below + index, level * shape->hash_block_size,
                    part->building.memory_length))
        return;
    expect(part->building.part.fed == (end < part->shape.bytes ? end : part->shape.bytes) &&
                   part->building.part.closed == level + 1,
           "block %" PRIu64 " of level %zu of part %" PRIu64 " comes after %" PRIu64 " bytes, with %zu levels closed",
           index, level, part->number, part->building.part.fed, part->building.part.closed);
    if (level > 0)
        expect(part->handed_out[level - 1] == (index + 1) * shape->fan_out ||
                       part->building.part.fed == part->shape.bytes,
               "block %" PRIu64 " of level %zu of part %" PRIu64 " comes early", index, level, part->number);
    part->handed_out[level]++;
}

/* The end of a part, whose status is known, and its digest if it has one. */
static void end_part(struct part_work *part, uint8_t *digest)
{
    struct part_building *building = &part->building;
    int says = part_end_says(&part->shape, &building->part, building->memory_length, digest_size());
    int status = call_part_end(building, digest, digest_size());

    check(status == says || work.way->mistake != NONE, "the end of a part: status %d, expected %d", status, says);
    seen[PART_TOO_SHORT] += status == VERITY_TOO_SHORT;
    seen[PART_WAITING] += status == VERITY_WAITING;
    if (status == VERITY_OK)
        expect(memcmp(digest, expected_digest(part->number), digest_size()) == 0, "the digest of part %" PRIu64,
               part->number);
}

/* The hash block that a part has handed out last: struct and memory have to be left alone. */
static struct verity_fed last_of_part(const struct part_work *part)
{
    struct verity_fed fed;
    int status = call_part_last_block(&part->building, &fed);

    if (status != VERITY_OK)
        memset(&fed, 0, sizeof fed);
    expect(status == VERITY_OK && memcmp(&fed, &part->last, sizeof fed) == 0, "the last block of part %" PRIu64
           ": status %d, block %" PRIu64 " of level %zu", part->number, status, fed.block_index, fed.block_level);
    return fed;
}

/*
 * Stores a part and goes on with it in other memory, where nothing else of it is left: the hash block that was handed
 * out last is written first, since it might not have been.
 */
static void move_part(struct part_work *part, bool is_written)
{
    struct part_building *building = &part->building;
    struct tree tree = building->tree;
    struct verity_part kept = building->part;
    uint8_t *memory = some_memory(building->memory_length);
    struct verity_fed fed;

    if (!(kept.fed > 0 && kept.fed < part->shape.bytes && makes_now(ANOTHER_MEMORY, part)))
        memcpy(memory, building->memory, building->memory_length);
    random_bytes(building->memory, building->memory_length);
    random_bytes((uint8_t *)building, sizeof *building);
    *building = (struct part_building){.tree = tree, .part = kept, .memory = memory,
                                       .memory_length = part->shape.memory_length};
    seen[STORED_PART]++;
    seen[STORED_UNWRITTEN] += !is_written;
    seen[STORED_AFTER_END] += kept.fed == part->shape.bytes && kept.closed == work.level;
    fed = last_of_part(part);
    if (makes(LAST_BLOCK_FORGOTTEN, part))
        work.is_made = work.is_made || !is_written;
    else if (fed.block_length > 0)
        write_block(&fed, bytes_of(building->memory, building->memory_length), part);
}

/* A part that moves leaves its memory behind. */
static void store_part(struct part_work *part, bool is_written)
{
    uint8_t *memory = part->building.memory;

    move_part(part, is_written);
    free(memory);
}

/* What is stored after each call is so after some if its memory is large. */
static bool is_to_be_stored(size_t memory_length)
{
    return work.way->storing != NEVER && once_in((work.way->storing == ALWAYS ? 1 : 4) + memory_length / 16384);
}

/* How far the caller goes after a call, and what is left of its piece. */
static void goes_on(struct part_work *part, const struct verity_fed *fed)
{
    size_t taken = fed->taken;

    if (fed->block_length > 0 && taken < part->left && makes_now(REST_DROPPED, part))
        taken = part->left;
    if (fed->block_length > 0 && taken > 0 && makes_now(FED_AGAIN, part))
        taken = 0;
    part->at += taken;
    part->left -= taken;
    part->is_waiting = fed->block_length > 0;
    work.fed += taken;
}

/* One call that feeds. Some are made with everything watched, and some with none of the bytes that are left. */
static void feed_part(struct part_work *part)
{
    struct part_building *building = &part->building;
    uint64_t before = building->part.fed, times = 1 + building->memory_length / 512;
    struct bytes piece = bytes_of(part->data + part->at, once_in(8) ? 0 : part->left);
    struct verity_fed fed;
    int status;
    bool is_stored;

    memset(&fed, 0xa5, sizeof fed);
    status = once_in(times) ? call_part_feed(building, piece, &fed) : feed_part_once(building, piece, &fed);
    if (stops(expect(status == VERITY_OK && fed.taken <= piece.length && building->part.fed == before + fed.taken,
                     "%zu bytes after %" PRIu64 " of part %" PRIu64 ": status %d", piece.length, before, part->number,
                     status)))
        return;
    set_last(&part->last, &fed);
    is_stored = is_to_be_stored(building->memory_length);
    if (fed.block_length > 0) {
        expect(fed.taken < piece.length || building->part.fed == part->shape.bytes,
               "a block is handed out with the last byte of a piece");
        note_block_of_part(part, &fed);
        if (!is_stored)
            write_block(&fed, bytes_of(building->memory, building->memory_length), part);
    } else {
        expect(is_none(&fed) && fed.taken == piece.length, "no block, and %zu bytes of %zu are taken", fed.taken,
               piece.length);
    }
    goes_on(part, &fed);
    if (is_stored)
        store_part(part, fed.block_length == 0);
    else if (once_in(4))
        last_of_part(part);
}

/* The caller has fed all, and no hash block is handed out any more. */
static bool is_fed(struct part_work *part)
{
    if (part->at < part->size)
        return false;
    if (part->is_waiting && part->building.part.closed < work.level && makes_now(NOT_FED_TO_THE_END, part))
        return true;
    return !part->is_waiting;
}

/* A call of a part: its next piece, or the rest of the present one. Answers whether it was the last. */
static bool step_part(struct part_work *part)
{
    uint8_t digest[VERITY_MAX_DIGEST_SIZE];

    if (once_in(16))
        end_part(part, digest);
    if (part->left == 0 && !part->is_waiting)
        part->left = next_length(work.way->cut, work.fed >= most_cut_small(part->building.memory_length),
                                 part->size - part->at);
    feed_part(part);
    return work.has_stopped || is_fed(part);
}

static void forget_part(struct part_work *part)
{
    free(part->filled);
    free(part->building.memory);
}

/* The digest of a part that was built, which can be asked for again. */
static void finish_part(struct part_work *part)
{
    uint8_t *digest = work.digests + part->number * digest_size();
    size_t level;
    int times;

    for (times = 0; times < 2 && !work.has_stopped; times++) {
        int status = call_part_end(&part->building, digest, digest_size());

        if (stops(expect(status == VERITY_OK && memcmp(digest, expected_digest(part->number), digest_size()) == 0,
                         "the digest of part %" PRIu64 ": status %d", part->number, status)))
            break;
        if (is_to_be_stored(part->building.memory_length))
            store_part(part, true);
        last_of_part(part);
    }
    for (level = 0; level < work.level; level++) {
        uint64_t size = blocks_below(level) * part->shape.tree.data_block_size;

        expect(part->handed_out[level] == (part->shape.bytes - 1) / size + 1,
               "%" PRIu64 " blocks of level %zu of part %" PRIu64, part->handed_out[level], level, part->number);
    }
    forget_part(part);
}

/* The number of the part that is built as the next one. */
static uint64_t number_of_next(uint64_t next, const uint64_t *mixed)
{
    switch (work.way->order) {
    case FIRST_TO_LAST:
        return next;
    case LAST_TO_FIRST:
        return work.parts - 1 - next;
    default:
        return mixed[next];
    }
}

/* All numbers of parts, in any order. */
static uint64_t *mixed_numbers(void)
{
    uint64_t *numbers = memory_of(work.parts * sizeof *numbers), i, other, kept;

    for (i = 0; i < work.parts; i++)
        numbers[i] = i;
    for (i = work.parts - 1; i > 0; i--) {
        other = random_below(i + 1);
        kept = numbers[i];
        numbers[i] = numbers[other];
        numbers[other] = kept;
    }
    return numbers;
}

/* Builds all parts, some of them at a time. */
static void build_parts(void)
{
    static struct part_work building[AT_A_TIME];
    uint64_t *mixed = mixed_numbers(), next = 0;
    size_t most = work.way->order == MIXED ? AT_A_TIME : 1, count = 0, chosen;

    while (next < work.parts || count > 0) {
        while (next < work.parts && count < most && !work.has_stopped)
            begin_part(&building[count++], number_of_next(next++, mixed));
        if (work.has_stopped)
            break;
        chosen = random_below(count);
        seen[BUILT_AT_A_TIME] += count > 1;
        if (step_part(&building[chosen])) {
            finish_part(&building[chosen]);
            building[chosen] = building[--count];
        }
    }
    while (count > 0)
        forget_part(&building[--count]);
    free(mixed);
}

/* The join. */

struct join_work {
    struct joining joining;
    struct join_shape shape;
    /* How many digests the caller has behind it, and how many of those that it hands in are left. */
    uint64_t at, left;
    bool is_waiting;
    struct verity_fed last;
    uint64_t handed_out[64];
};

static void begin_join(struct join_work *join)
{
    struct joining *joining = &join->joining;
    size_t level = work.level, length = PAINT;

    memset(join, 0, sizeof *join);
    joining->tree = work.image->tree;
    if (work.image->shape.levels > 0 && makes_now(ANOTHER_LEVEL, NULL))
        level += level < work.image->shape.levels ? 1 : -1;
    join->shape = join_shape_of(&joining->tree, level);
    expect(call_join_memory(&joining->tree, level, &length) == VERITY_OK && length == join->shape.memory_length,
           "memory of %zu bytes for a join", length);
    joining->memory_length = join->shape.memory_length;
    joining->memory = some_memory(joining->memory_length);
    random_bytes((uint8_t *)&joining->join, sizeof joining->join);
    stops(expect(call_join_begin(joining, level) == VERITY_OK, "the join isn't begun"));
}

/* A hash block is the next one of its level, and comes with the last digest below it, after those below it. */
static void note_block_of_join(struct join_work *join, const struct verity_fed *fed)
{
    const struct shape *shape = &join->shape.tree;
    size_t level = fed->block_level, above, i;
    uint64_t index, end = 1;

    if (level < work.level || level >= shape->levels) {
        expect(false, "a join hands out a block of level %zu", level);
        return;
    }
    above = level - work.level;
    index = join->handed_out[level];
    if (!note_block(fed, index, above * shape->hash_block_size, join->joining.memory_length))
        return;
    for (i = 0; i <= above; i++)
        end *= shape->fan_out;
    end *= index + 1;
    expect(join->joining.join.taken == (end < work.parts ? end : work.parts) && join->joining.join.closed == above + 1,
           "block %" PRIu64 " of level %zu comes after %" PRIu64 " digests, with %zu levels closed", index, level,
           join->joining.join.taken, join->joining.join.closed);
    if (above > 0)
        expect(join->handed_out[level - 1] == (index + 1) * shape->fan_out ||
                       join->handed_out[level - 1] == shape->blocks[level - 1],
               "block %" PRIu64 " of level %zu comes early", index, level);
    join->handed_out[level]++;
}

static struct verity_fed last_of_join(const struct join_work *join)
{
    struct verity_fed fed;
    int status = call_join_last_block(&join->joining, &fed);

    if (status != VERITY_OK)
        memset(&fed, 0, sizeof fed);
    expect(status == VERITY_OK && memcmp(&fed, &join->last, sizeof fed) == 0, "the last block of the join: status %d, "
           "block %" PRIu64 " of level %zu", status, fed.block_index, fed.block_level);
    return fed;
}

/* Stores the join and goes on with it in other memory, as a part does. */
static void store_join(struct join_work *join, bool is_written)
{
    struct joining *joining = &join->joining, kept = *joining;
    uint8_t *memory = some_memory(kept.memory_length);
    struct verity_fed fed;

    memcpy(memory, kept.memory, kept.memory_length);
    random_bytes(kept.memory, kept.memory_length);
    random_bytes((uint8_t *)joining, sizeof *joining);
    free(kept.memory);
    kept.memory = memory;
    *joining = kept;
    seen[STORED_JOIN]++;
    seen[STORED_UNWRITTEN] += !is_written;
    seen[STORED_AFTER_END] += kept.join.taken == work.parts && kept.join.closed == join->shape.levels;
    fed = last_of_join(join);
    if (fed.block_length > 0)
        write_block(&fed, bytes_of(joining->memory, joining->memory_length), NULL);
}

/* The end of the join, whose status is known, and root hash and file digest if it has them. */
static int end_join(struct join_work *join)
{
    const struct image *image = work.image;
    struct joining *joining = &join->joining;
    uint8_t root[VERITY_MAX_DIGEST_SIZE] = {0}, digest[VERITY_MAX_DIGEST_SIZE] = {0};
    size_t size = digest_size(), file_size = image->tree.is_file ? size : 0;
    int says = join_end_says(&join->shape, &joining->join, joining->memory_length, size, file_size);
    int status = call_join_end(joining, root, size, digest, file_size);

    check(status == says, "the end of a join: status %d, expected %d", status, says);
    seen[JOIN_TOO_SHORT] += status == VERITY_TOO_SHORT;
    seen[JOIN_WAITING] += status == VERITY_WAITING;
    if (status == VERITY_OK) {
        expect(memcmp(root, image->root, size) == 0, "the root hash");
        expect(memcmp(digest, image->digest, file_size) == 0, "the file digest");
        seen[FILE_DIGEST] += file_size > 0;
    }
    return status;
}

/* One call that joins. */
static void feed_join(struct join_work *join, uint64_t count)
{
    struct joining *joining = &join->joining;
    uint64_t before = joining->join.taken, times = 1 + joining->memory_length / 512;
    size_t size = digest_size();
    struct bytes digests = bytes_of(work.digests + join->at * size, join->left * size);
    struct verity_fed fed;
    int status;
    bool is_stored;

    memset(&fed, 0xa5, sizeof fed);
    status = once_in(times) ? call_join_feed(joining, digests, &fed) : feed_join_once(joining, digests, &fed);
    if (stops(expect(status == VERITY_OK && fed.taken <= digests.length && fed.taken % size == 0 &&
                             joining->join.taken == before + fed.taken / size,
                     "%" PRIu64 " digests after %" PRIu64 " of %" PRIu64 ": status %d", join->left, before, count,
                     status)))
        return;
    set_last(&join->last, &fed);
    is_stored = is_to_be_stored(joining->memory_length);
    if (fed.block_length > 0) {
        note_block_of_join(join, &fed);
        if (!is_stored)
            write_block(&fed, bytes_of(joining->memory, joining->memory_length), NULL);
    } else {
        expect(is_none(&fed) && fed.taken == digests.length, "no block, and %zu bytes of %zu are taken", fed.taken,
               digests.length);
    }
    join->at += fed.taken / size;
    join->left -= fed.taken / size;
    join->is_waiting = fed.block_length > 0;
    if (is_stored)
        store_join(join, fed.block_length == 0);
    else if (once_in(4))
        last_of_join(join);
}

/* The next number of digests that come at once, of those that are left. */
static uint64_t next_count(uint64_t left)
{
    uint64_t count = work.way->count == ANY ? random_below(left + 1) : work.way->count;

    if (once_in(8))
        return 0;
    return count < left ? count : left;
}

/* The caller's mistakes in the digests that it joins: how many it hands in. */
static uint64_t mistake_digests(void)
{
    uint64_t first = random_below(work.parts), second = (first + 1 + random_below(work.parts)) % work.parts;
    uint8_t kept[VERITY_MAX_DIGEST_SIZE], *digests = work.digests;
    size_t size = digest_size();

    if (work.parts > 1 && first != second && makes_now(SWAPPED_DIGESTS, NULL)) {
        memcpy(kept, digests + first * size, size);
        memcpy(digests + first * size, digests + second * size, size);
        memcpy(digests + second * size, kept, size);
    }
    if (!makes_now(DIGEST_LEFT_OUT, NULL))
        return work.parts;
    memmove(digests + first * size, digests + (first + 1) * size, (work.parts - first - 1) * size);
    return work.parts - 1;
}

static void join_parts(void)
{
    static struct join_work join;
    uint64_t count = mistake_digests();
    size_t level;

    begin_join(&join);
    while (!work.has_stopped && (join.at < count || join.is_waiting)) {
        if (once_in(16))
            end_join(&join);
        if (join.left == 0 && !join.is_waiting)
            join.left = next_count(count - join.at);
        feed_join(&join, count);
    }
    if (!work.has_stopped) {
        expect(end_join(&join) == VERITY_OK, "the end of the join");
        if (is_to_be_stored(join.joining.memory_length))
            store_join(&join, true);
        expect(end_join(&join) == VERITY_OK, "the end of the join, once more");
        for (level = work.level; level < join.shape.tree.levels; level++)
            expect(join.handed_out[level] == join.shape.tree.blocks[level], "%" PRIu64 " blocks of level %zu",
                   join.handed_out[level], level);
    }
    free(join.joining.memory);
}

/* Trees. */

/* The parts of this level, as the library says it. */
static void count_parts(void)
{
    const struct tree *tree = &work.image->tree;
    struct part_shape shape = part_shape_of(tree, work.level, 0);

    work.parts = work.blocks = PAINT;
    check(call_part_count(tree, work.level, &work.parts, &work.blocks) == VERITY_OK && work.parts == shape.parts &&
                  work.blocks == shape.blocks,
          "%" PRIu64 " parts of %" PRIu64 " data blocks", work.parts, work.blocks);
    work.parts = shape.parts;
    work.blocks = shape.blocks;
}

/* Every hash block was handed out once, and all of them stand where they have to. */
static void check_whole(void)
{
    const struct image *image = work.image;
    size_t i, count = image->hashes_length / image->shape.hash_block_size;
    bool is_once = true;

    for (i = 0; i < count; i++)
        is_once = is_once && work.times[i] == 1;
    expect(is_once && memcmp(work.hashes, image->hashes, image->hashes_length) == 0, "the hash blocks");
}

/* Builds a tree from the parts of a level. Answers whether the mistake was made that the way has, if it has one. */
static bool build(const struct image *image, size_t level, const struct way *way)
{
    work = (struct work){.image = image, .way = way, .level = level};
    count_parts();
    work.mistaken = way->mistake == LAST_AS_FULL || way->mistake == FILLED_WITH_ZEROS ? work.parts - 1
                                                                                       : random_below(work.parts);
    work.digests = memory_of(work.parts * digest_size());
    work.hashes = memory_of(image->hashes_length);
    memset(work.hashes, 0x5a, image->hashes_length);
    work.times = memory_of(image->hashes_length / image->shape.hash_block_size);
    build_parts();
    if (!work.has_stopped)
        join_parts();
    if (!work.has_stopped)
        check_whole();
    seen[ONE_DATA_BLOCK] += image->shape.data_blocks == 1;
    seen[LEVEL_0] += level == 0 && work.parts > 1;
    seen[WHOLE_TREE] += level == image->shape.levels && level > 0;
    free(work.digests);
    free(work.hashes);
    free(work.times);
    return work.is_made;
}

/* What a tree has no parts of is refused, and nothing is filled. */
static void refuses_levels(const struct image *image)
{
    size_t level = image->shape.levels + 1, length = PAINT;
    uint64_t parts = PAINT, blocks = PAINT;

    for (; level != 0; level = level == SIZE_MAX ? 0 : SIZE_MAX) {
        check(call_part_count(&image->tree, level, &parts, &blocks) == VERITY_NO_SUCH_LEVEL && parts == PAINT &&
                      blocks == PAINT, "parts of level %zu", level);
        check(call_part_memory(&image->tree, level, &length) == VERITY_NO_SUCH_LEVEL && length == PAINT,
              "memory for parts of level %zu", level);
        check(call_join_memory(&image->tree, level, &length) == VERITY_NO_SUCH_LEVEL && length == PAINT,
              "memory for a join of level %zu", level);
    }
}

/* A file of no bytes has no tree, and so no parts. */
static void refuses_no_data(const struct image *image)
{
    uint64_t parts = PAINT, blocks = PAINT;
    size_t length = PAINT;

    check(call_part_count(&image->tree, 0, &parts, &blocks) == VERITY_NO_DATA && parts == PAINT && blocks == PAINT,
          "parts of no data");
    check(call_part_memory(&image->tree, 0, &length) == VERITY_NO_DATA && length == PAINT, "memory for no data");
    check(call_join_memory(&image->tree, 0, &length) == VERITY_NO_DATA && length == PAINT, "a join of no data");
}

/* Each length of pieces with each number of digests, and any order. */
static struct way next_way(void)
{
    static uint64_t next;
    struct way way = {.cut = cuts[next % CUTS], .count = counts[next % COUNTS],
                      .order = (enum order)random_below(ORDERS), .storing = (enum storing)random_below(STORINGS)};

    next++;
    return way;
}

/* A tree from the parts of each of its levels: in several ways, or if it is large in one. */
static void try_image(const struct image *image)
{
    size_t level, times = image->is_one ? 1 : CUTS, i;
    struct way way;

    for (level = 0; level <= image->shape.levels; level++) {
        for (i = 0; i < times; i++) {
            way = next_way();
            build(image, level, &way);
        }
        try_disturbed_part(&image->tree, level);
        try_disturbed_join(&image->tree, level);
    }
    refuses_levels(image);
}

/* Each mistake at each level at which it can be made. */
static void try_mistakes(const struct image *image)
{
    size_t level;
    int mistake;

    for (level = 0; level <= image->shape.levels; level++)
        for (mistake = NONE + 1; mistake < MISTAKES; mistake++) {
            struct way way = next_way();

            way.mistake = (enum mistake)mistake;
            if (mistake == ANOTHER_MEMORY || mistake == LAST_BLOCK_FORGOTTEN)
                way.storing = ALWAYS;
            if (!build(image, level, &way))
                continue;
            times_made[mistake]++;
            check(work.is_noticed, "not noticed at level %zu: %s", level, mistakes[mistake]);
        }
}

static void show(const char *what, uint64_t times, bool has_to_come)
{
    printf("%s: %" PRIu64 "\n", what, times);
    check(times > 0 || !has_to_come, "%s: none", what);
}

int main(int count, char **words)
{
    struct images images;
    struct image image;
    bool is_all = count == 5 && strcmp(words[4], "all") == 0;
    bool has_mistakes = count == 5 && strcmp(words[4], "mistakes") == 0;
    int i;

    if (count != 4 && !is_all && !has_mistakes)
        give_up("usage: parts SEED DATA TREES [all|mistakes]");
    seed_random(number_of(words[1]));
    images = open_images(words[3], words[2]);
    source = images.data;
    while (next_image(&images, &image)) {
        check(has_place(&image), "the place of the tree");
        if (image.shape.status != VERITY_OK)
            refuses_no_data(&image);
        else if (has_mistakes)
            try_mistakes(&image);
        else
            try_image(&image);
        free_image(&image);
    }
    for (i = 0; i < KINDS && !has_mistakes; i++)
        show(kinds[i], seen[i], is_all);
    for (i = NONE + 1; i < MISTAKES && has_mistakes; i++)
        show(mistakes[i], times_made[i], true);
    return finish();
}
