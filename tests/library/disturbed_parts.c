/* Parts and joins with any numbers and bytes; see disturbed_parts.h. */
#include "disturbed_parts.h"

#include <inttypes.h>
#include <string.h>

#include "part_calls.h"

/* Longer memories and pieces are not tried. */
enum { MOST_MEMORY = 1 << 20, MOST_PIECE = 1 << 15 };

static uint8_t memory[MOST_MEMORY + 1], bytes[MOST_PIECE];

/* About a limit, below it, or any. */
static uint64_t some_number(uint64_t limit)
{
    switch (random_below(4)) {
    case 0:
        return limit - 2 + random_below(5);
    case 1:
        return any_number();
    default:
        return limit > 0 ? random_below(limit) : 0;
    }
}

/* The right length, or another. */
static size_t some_length(size_t right)
{
    size_t length = right;

    if (right > MOST_MEMORY || once_in(8))
        length = once_in(2) ? random_below(100) : (size_t)some_number(right);
    return length > MOST_MEMORY ? 0 : length;
}

/* A buffer for a digest, of the right length or another. */
static size_t some_digest_length(uint32_t right)
{
    return once_in(8) ? random_below(VERITY_MAX_DIGEST_SIZE + 2) : right;
}

/* How much is handed in: none, little, or as much as may be taken, or more. */
static size_t some_piece(uint64_t left)
{
    uint64_t length = once_in(4) ? 0 : once_in(2) ? some_number(left) : random_below(3000);

    return (size_t)(length < MOST_PIECE ? length : random_below(MOST_PIECE));
}

/* Little of the memory need have changed. */
static void disturb_memory(size_t length)
{
    size_t i;

    if (once_in(4))
        random_bytes(memory, length);
    for (i = 0; i < 4 && length > 0; i++)
        memory[random_below(length)] ^= (uint8_t)(1 << random_below(8));
}

/* A hash block that is named is within the memory, or none is, and all numbers of it are 0. */
static void check_named(const struct verity_fed *fed, const struct verity_fed *last, size_t memory_length)
{
    struct verity_fed expected = *last;

    expected.taken = fed->taken;
    check(memcmp(fed, &expected, sizeof expected) == 0 && fed->block_length <= memory_length &&
                  fed->block_at <= memory_length - fed->block_length,
          "block %" PRIu64 " of level %zu at %zu and %" PRIu64, fed->block_index, fed->block_level, fed->block_at,
          fed->block_start);
}

/* What a piece that was taken has to have done, whatever stood in struct and memory. */
static void check_fed(const struct part_shape *shape, const struct verity_part *before,
                      const struct verity_part *after, size_t length, const struct verity_fed *fed)
{
    static const struct verity_fed none;
    struct verity_fed last = last_block_of_part(shape, after);
    bool is_all = after->fed == shape->bytes;

    check(fed->taken <= length && after->fed == before->fed + fed->taken, "%zu bytes of %zu are taken", fed->taken,
          length);
    check_named(fed, fed->block_length > 0 ? &last : &none, shape->memory_length);
    if (fed->block_length == 0)
        check(fed->taken == length && (!is_all || after->closed == after->level),
              "no block is handed out, %zu bytes of %zu are taken, and %zu levels are closed", fed->taken, length,
              after->closed);
    else
        check((fed->taken < length || is_all) && (fed->taken > 0 || after->closed == before->closed + 1),
              "a block of level %zu is handed out, and %zu bytes of %zu are taken", fed->block_level, fed->taken,
              length);
}

/* Any numbers and memory of a part of about this level. Answers what part it is. */
static struct part_shape disturb_part(struct part_building *building, size_t level)
{
    struct verity_part *part = &building->part;
    struct part_shape shape = part_shape_of(&building->tree, level, 0);

    part->level = once_in(8) ? (size_t)some_number(shape.tree.levels) : level;
    part->part = some_number(shape.parts);
    shape = part_shape_of(&building->tree, part->level, part->part);
    part->fed = some_number(shape.bytes);
    part->closed = (size_t)some_number(once_in(2) ? shape.own_levels : part->level);
    building->memory_length = some_length(shape.memory_length);
    disturb_memory(building->memory_length);
    return shape;
}

/* What can be asked of a part: the hash block that was handed out last, and the end. */
static void ask_part(struct part_building *building, const struct part_shape *shape)
{
    const struct verity_part *part = &building->part;
    uint8_t digest[VERITY_MAX_DIGEST_SIZE + 2];
    size_t digest_length = some_digest_length(shape->tree.digest_size);
    struct verity_fed fed, says;
    int status = call_part_last_block(building, &fed), expected = part_last_block_says(shape, part);

    check(status == expected, "the last block: status %d, expected %d", status, expected);
    if (status == VERITY_OK) {
        says = last_block_of_part(shape, part);
        check_named(&fed, &says, shape->memory_length);
        check(fed.taken == 0, "the last block takes %zu bytes", fed.taken);
    }
    status = call_part_end(building, digest, digest_length);
    expected = part_end_says(shape, part, building->memory_length, digest_length);
    check(status == expected, "the end of a part: status %d, expected %d", status, expected);
}

void try_disturbed_part(const struct tree *tree, size_t level)
{
    struct part_building building = {.tree = *tree, .memory = memory, .is_disturbed = true};
    struct part_shape shape = disturb_part(&building, level);
    struct verity_part *part = &building.part, before;
    struct verity_fed fed;
    size_t length;
    int status, expected;

    ask_part(&building, &shape);
    before = *part;
    length = some_piece(part->fed < shape.bytes ? shape.bytes - part->fed : 0);
    status = call_part_feed(&building, bytes_of(bytes, length), &fed);
    expected = part_feed_says(&shape, &before, building.memory_length, length);
    check(status == expected, "%zu bytes after %" PRIu64 " of %" PRIu64 ", %zu levels closed: status %d, expected %d",
          length, before.fed, shape.bytes, before.closed, status, expected);
    if (status == VERITY_OK)
        check_fed(&shape, &before, part, length, &fed);
    status = call_part_begin(&building, before.level, before.part);
    expected = part_begin_says(&shape, building.memory_length);
    check(status == expected, "part %" PRIu64 " of level %zu: status %d, expected %d", before.part, before.level,
          status, expected);
}

/* What digests that were taken have to have done. */
static void check_joined(const struct join_shape *shape, const struct verity_join *before,
                         const struct verity_join *after, size_t length, const struct verity_fed *fed)
{
    static const struct verity_fed none;
    struct verity_fed last = last_block_of_join(shape, after);

    check(fed->taken <= length && fed->taken % shape->tree.digest_size == 0 &&
                  after->taken == before->taken + fed->taken / shape->tree.digest_size,
          "%zu bytes of %zu are taken", fed->taken, length);
    check_named(fed, fed->block_length > 0 ? &last : &none, shape->memory_length);
    if (fed->block_length == 0)
        check(fed->taken == length && (after->taken < shape->parts || after->closed == shape->levels),
              "no block is handed out, %zu bytes of %zu are taken, and %zu levels are closed", fed->taken, length,
              after->closed);
    else
        check(fed->taken > 0 || after->closed == before->closed + 1,
              "a block of level %zu is handed out, and %zu levels are closed", fed->block_level, after->closed);
}

/* Any numbers and memory of a join of about this level. Answers what join it is. */
static struct join_shape disturb_join(struct joining *joining, size_t level)
{
    struct verity_join *join = &joining->join;
    struct join_shape shape = join_shape_of(&joining->tree, level);

    join->level = once_in(8) ? (size_t)some_number(shape.tree.levels) : level;
    shape = join_shape_of(&joining->tree, join->level);
    join->taken = some_number(shape.parts);
    join->closed = (size_t)some_number(shape.levels);
    joining->memory_length = some_length(shape.memory_length);
    disturb_memory(joining->memory_length);
    return shape;
}

static void ask_join(const struct joining *joining, const struct join_shape *shape)
{
    const struct verity_join *join = &joining->join;
    uint8_t root[VERITY_MAX_DIGEST_SIZE + 2], digest[VERITY_MAX_DIGEST_SIZE + 2];
    size_t root_length = some_digest_length(shape->tree.digest_size);
    size_t digest_length = some_digest_length(shape->tree.digest_size);
    struct verity_fed fed, says;
    int status = call_join_last_block(joining, &fed), expected = join_last_block_says(shape, join);

    check(status == expected, "the last block of a join: status %d, expected %d", status, expected);
    if (status == VERITY_OK) {
        says = last_block_of_join(shape, join);
        check_named(&fed, &says, shape->memory_length);
        check(fed.taken == 0, "the last block of a join takes %zu bytes", fed.taken);
    }
    status = call_join_end(joining, root, root_length, digest, digest_length);
    expected = join_end_says(shape, join, joining->memory_length, root_length, digest_length);
    check(status == expected, "the end of a join: status %d, expected %d", status, expected);
}

void try_disturbed_join(const struct tree *tree, size_t level)
{
    struct joining joining = {.tree = *tree, .memory = memory};
    struct join_shape shape = disturb_join(&joining, level);
    struct verity_join *join = &joining.join, before;
    size_t size = shape.tree.digest_size > 0 ? shape.tree.digest_size : 32, length;
    uint64_t left = join->taken < shape.parts ? shape.parts - join->taken : 0;
    struct verity_fed fed;
    int status, expected;

    ask_join(&joining, &shape);
    before = *join;
    length = some_piece(left < MOST_PIECE ? left * size : 0);
    if (!once_in(8))
        length -= length % size;
    status = call_join_feed(&joining, bytes_of(bytes, length), &fed);
    expected = join_feed_says(&shape, &before, joining.memory_length, length);
    check(status == expected, "%zu bytes of digests after %" PRIu64 " of %" PRIu64 ": status %d, expected %d", length,
          before.taken, shape.parts, status, expected);
    if (status == VERITY_OK)
        check_joined(&shape, &before, join, length, &fed);
    status = call_join_begin(&joining, before.level);
    expected = join_begin_says(&shape, joining.memory_length);
    check(status == expected, "a join of level %zu: status %d, expected %d", before.level, status, expected);
}
