/* Calls of the functions that build trees from parts; see part_calls.h. */
#include "part_calls.h"

#include "calls.h"
#include "feeding_calls.h"

/* How many levels stand above so many data blocks. */
static size_t levels_above(uint64_t blocks, uint64_t fan_out)
{
    size_t levels = 0;

    for (; blocks > 1; blocks = blocks / fan_out + (blocks % fan_out != 0))
        levels++;
    return levels;
}

/* A level has as many parts as digests come to it: one for each block of the level below, or for each data block. */
static uint64_t parts_of(const struct shape *shape, size_t level)
{
    return level == 0 ? shape->data_blocks : shape->blocks[level - 1];
}

struct part_shape part_shape_of(const struct tree *tree, size_t level, uint64_t number)
{
    struct part_shape shape = {.tree = shape_of(tree)};
    uint64_t size, all, i;

    shape.status = shape.tree.status;
    if (shape.status == VERITY_OK && level > shape.tree.levels)
        shape.status = VERITY_NO_SUCH_LEVEL;
    if (shape.status != VERITY_OK)
        return shape;
    size = shape.tree.data_block_size;
    all = tree->is_file ? tree->file.size : shape.tree.data_blocks * size;
    shape.parts = parts_of(&shape.tree, level);
    shape.blocks = 1;
    for (i = 0; i < level; i++)
        shape.blocks = shape.blocks > shape.tree.data_blocks / shape.tree.fan_out ? shape.tree.data_blocks
                                                                                  : shape.blocks * shape.tree.fan_out;
    shape.memory_length = level * shape.tree.hash_block_size +
                          window_length(shape.tree.data_block_size, shape.tree.fan_out);
    if (number >= shape.parts) {
        shape.status = VERITY_NO_SUCH_PART;
        return shape;
    }
    shape.start = number * shape.blocks * size;
    shape.bytes = all - shape.start < shape.blocks * size ? all - shape.start : shape.blocks * size;
    shape.own_levels = levels_above((shape.bytes - 1) / size + 1, shape.tree.fan_out);
    return shape;
}

struct join_shape join_shape_of(const struct tree *tree, size_t level)
{
    struct join_shape shape = {.is_file = tree->is_file, .tree = shape_of(tree)};

    shape.status = shape.tree.status;
    if (shape.status == VERITY_OK && level > shape.tree.levels)
        shape.status = VERITY_NO_SUCH_LEVEL;
    if (shape.status != VERITY_OK)
        return shape;
    shape.parts = parts_of(&shape.tree, level);
    shape.levels = shape.tree.levels - level;
    shape.memory_length = shape.levels * shape.tree.hash_block_size + shape.tree.digest_size;
    return shape;
}

int part_begin_says(const struct part_shape *shape, size_t memory_length)
{
    if (shape->status != VERITY_OK)
        return shape->status;
    return memory_length != shape->memory_length ? VERITY_BAD_LENGTH : VERITY_OK;
}

/* The fault of what a part's struct counts, with so many bytes more. */
static int part_counts(const struct part_shape *shape, const struct verity_part *part, uint64_t more)
{
    if (shape->status != VERITY_OK)
        return shape->status;
    if (part->closed > (part->fed < shape->bytes ? shape->own_levels : part->level))
        return VERITY_NO_SUCH_LEVEL;
    return part->fed > shape->bytes || more > shape->bytes - part->fed ? VERITY_TOO_LONG : VERITY_OK;
}

int part_feed_says(const struct part_shape *shape, const struct verity_part *part, size_t memory_length, size_t piece)
{
    int status = part_begin_says(shape, memory_length);

    return status != VERITY_OK ? status : part_counts(shape, part, piece);
}

int part_last_block_says(const struct part_shape *shape, const struct verity_part *part)
{
    return part_counts(shape, part, 0);
}

int part_end_says(const struct part_shape *shape, const struct verity_part *part, size_t memory_length, size_t digest)
{
    int status = part_begin_says(shape, memory_length);

    if (status == VERITY_OK && digest != shape->tree.digest_size)
        status = VERITY_BAD_LENGTH;
    if (status == VERITY_OK)
        status = part_counts(shape, part, 0);
    if (status == VERITY_OK && part->fed < shape->bytes)
        status = VERITY_TOO_SHORT;
    if (status == VERITY_OK && part->closed < part->level)
        status = VERITY_WAITING;
    return status;
}

int join_begin_says(const struct join_shape *shape, size_t memory_length)
{
    if (shape->status != VERITY_OK)
        return shape->status;
    return memory_length != shape->memory_length ? VERITY_BAD_LENGTH : VERITY_OK;
}

/*
 * The fault of what a join's struct counts, with so many digests more. With the last digest a hash block is handed out,
 * if there is any: none can't be.
 */
static int join_counts(const struct join_shape *shape, const struct verity_join *join, uint64_t more)
{
    if (shape->status != VERITY_OK)
        return shape->status;
    if (join->closed > shape->levels || (join->taken == shape->parts && join->closed == 0 && shape->levels > 0))
        return VERITY_NO_SUCH_LEVEL;
    return join->taken > shape->parts || more > shape->parts - join->taken ? VERITY_TOO_LONG : VERITY_OK;
}

int join_feed_says(const struct join_shape *shape, const struct verity_join *join, size_t memory_length,
                   size_t digests)
{
    int status = join_begin_says(shape, memory_length);

    if (status == VERITY_OK && digests % shape->tree.digest_size != 0)
        status = VERITY_BAD_LENGTH;
    return status != VERITY_OK ? status : join_counts(shape, join, digests / shape->tree.digest_size);
}

int join_last_block_says(const struct join_shape *shape, const struct verity_join *join)
{
    return join_counts(shape, join, 0);
}

int join_end_says(const struct join_shape *shape, const struct verity_join *join, size_t memory_length, size_t root,
                  size_t file_digest)
{
    int status = join_begin_says(shape, memory_length);

    if (status == VERITY_OK && root != shape->tree.digest_size)
        status = VERITY_BAD_ROOT_LENGTH;
    if (status == VERITY_OK && shape->is_file && file_digest != shape->tree.digest_size)
        status = VERITY_BAD_LENGTH;
    if (status == VERITY_OK)
        status = join_counts(shape, join, 0);
    if (status == VERITY_OK && join->taken < shape->parts)
        status = VERITY_TOO_SHORT;
    if (status == VERITY_OK && join->closed < shape->levels)
        status = VERITY_WAITING;
    return status;
}

struct verity_fed last_block_of_part(const struct part_shape *shape, const struct verity_part *part)
{
    struct verity_fed fed = {0};
    uint64_t block;

    if (part->fed == 0 || part->closed == 0)
        return fed;
    block = (shape->start + part->fed - 1) / shape->tree.data_block_size;
    fed = block_above(&shape->tree, part->closed - 1, 0, block);
    fed.block_at = (part->closed - 1) * fed.block_length;
    return fed;
}

struct verity_fed last_block_of_join(const struct join_shape *shape, const struct verity_join *join)
{
    struct verity_fed fed = {0};

    if (join->taken == 0 || join->closed == 0)
        return fed;
    fed = block_above(&shape->tree, join->level + join->closed - 1, join->level, join->taken - 1);
    fed.block_at = (join->closed - 1) * fed.block_length;
    return fed;
}

int call_part_count(const struct tree *tree, size_t level, uint64_t *parts, uint64_t *blocks)
{
    struct call call = {.operands = {params_of(tree), FILLS(FIRST_FILLED, "how many parts", parts, sizeof *parts),
                                     FILLS(SECOND_FILLED, "their data blocks", blocks, sizeof *blocks)}};

    MAKES_EITHER(call, tree->is_file, part_count, (call.at[0], level, call.at[1], call.at[2]));
    return call.status;
}

int call_part_memory(const struct tree *tree, size_t level, size_t *length)
{
    struct call call = {.operands = {params_of(tree), FILLS(FIRST_FILLED, "the length", length, sizeof *length)}};

    MAKES_EITHER(call, tree->is_file, part_memory, (call.at[0], level, call.at[1]));
    return call.status;
}

/* Memory of which the bytes before these have to be the same in both calls, though other bytes stood there. */
static struct operand begun_memory(uint8_t *memory, size_t length, size_t same)
{
    static uint8_t other[MOST_BUFFER];

    random_bytes(other, length);
    return (struct operand){MEMORY, BEGUN, "the memory", memory, length, other, same};
}

/* In the second call something else stands in all that is begun. Of the memory the window's bytes don't count yet. */
int call_part_begin(struct part_building *building, size_t level, uint64_t number)
{
    struct verity_part other = {(size_t)random_number(), random_number(), random_number(), (size_t)random_number()};
    struct call call = {.operands = {params_of(&building->tree),
                                     {BLOCK, BEGUN, "the struct", &building->part, sizeof building->part, &other,
                                      sizeof building->part},
                                     begun_memory(building->memory, building->memory_length,
                                                  level * shape_of(&building->tree).hash_block_size)}};

    MAKES_EITHER(call, building->tree.is_file, part_begin,
                 (call.at[0], level, number, call.at[1], call.at[2], building->memory_length));
    check(call.status != VERITY_OK || (building->part.level == level && building->part.part == number &&
                                       building->part.fed == 0 && building->part.closed == 0),
          "the struct of a part that is begun");
    return call.status;
}

int call_part_feed(struct part_building *building, struct bytes piece, struct verity_fed *fed)
{
    struct verity_part before = building->part;
    struct call call = {.operands = {params_of(&building->tree),
                                     {BLOCK, CHANGED, "the struct", &building->part, sizeof building->part, NULL, 0},
                                     {MEMORY, CHANGED, "the memory", building->memory, building->memory_length, NULL,
                                      0},
                                     BYTES(PIECE, "the piece", piece),
                                     FILLS(FIRST_FILLED, "what it has done", fed, sizeof *fed)}};

    MAKES_EITHER(call, building->tree.is_file, part_feed,
                 (call.at[0], call.at[1], call.at[2], building->memory_length, call.at[3], piece.length, call.at[4]));
    check(building->part.level == before.level && building->part.part == before.part, "%s changes the part", call.name);
    return call.status;
}

int call_part_last_block(const struct part_building *building, struct verity_fed *fed)
{
    struct call call = {.operands = {params_of(&building->tree),
                                     READS(BLOCK, "the struct", &building->part, sizeof building->part),
                                     FILLS(FIRST_FILLED, "what it has found", fed, sizeof *fed)}};

    MAKES_EITHER(call, building->tree.is_file, part_last_block, (call.at[0], call.at[1], call.at[2]));
    return call.status;
}

int call_part_end(struct part_building *building, uint8_t *digest, size_t digest_length)
{
    struct call call = {.operands = {params_of(&building->tree),
                                     READS(BLOCK, "the struct", &building->part, sizeof building->part),
                                     {MEMORY, building->is_disturbed ? CHANGED : GOES_ON, "the memory",
                                      building->memory, building->memory_length, NULL, 0},
                                     FILLS(FIRST_FILLED, "the digest", digest, digest_length)}};

    MAKES_EITHER(call, building->tree.is_file, part_end,
                 (call.at[0], call.at[1], call.at[2], building->memory_length, call.at[3], digest_length));
    return call.status;
}

int call_join_memory(const struct tree *tree, size_t level, size_t *length)
{
    struct call call = {.operands = {params_of(tree), FILLS(FIRST_FILLED, "the length", length, sizeof *length)}};

    MAKES_EITHER(call, tree->is_file, join_memory, (call.at[0], level, call.at[1]));
    return call.status;
}

int call_join_begin(struct joining *joining, size_t level)
{
    struct verity_join other = {(size_t)random_number(), random_number(), (size_t)random_number()};
    struct join_shape shape = join_shape_of(&joining->tree, level);
    struct call call = {.operands = {params_of(&joining->tree),
                                     {BLOCK, BEGUN, "the struct", &joining->join, sizeof joining->join, &other,
                                      sizeof joining->join},
                                     begun_memory(joining->memory, joining->memory_length,
                                                  shape.levels * shape.tree.hash_block_size)}};

    MAKES_EITHER(call, joining->tree.is_file, join_begin,
                 (call.at[0], level, call.at[1], call.at[2], joining->memory_length));
    check(call.status != VERITY_OK || (joining->join.level == level && joining->join.taken == 0 &&
                                       joining->join.closed == 0), "the struct of a join that is begun");
    return call.status;
}

int call_join_feed(struct joining *joining, struct bytes digests, struct verity_fed *fed)
{
    size_t level = joining->join.level;
    struct call call = {.operands = {params_of(&joining->tree),
                                     {BLOCK, CHANGED, "the struct", &joining->join, sizeof joining->join, NULL, 0},
                                     {MEMORY, CHANGED, "the memory", joining->memory, joining->memory_length, NULL, 0},
                                     BYTES(PIECE, "the digests", digests),
                                     FILLS(FIRST_FILLED, "what it has done", fed, sizeof *fed)}};

    MAKES_EITHER(call, joining->tree.is_file, join_feed,
                 (call.at[0], call.at[1], call.at[2], joining->memory_length, call.at[3], digests.length, call.at[4]));
    check(joining->join.level == level, "%s changes the level", call.name);
    return call.status;
}

int call_join_last_block(const struct joining *joining, struct verity_fed *fed)
{
    struct call call = {.operands = {params_of(&joining->tree),
                                     READS(BLOCK, "the struct", &joining->join, sizeof joining->join),
                                     FILLS(FIRST_FILLED, "what it has found", fed, sizeof *fed)}};

    MAKES_EITHER(call, joining->tree.is_file, join_last_block, (call.at[0], call.at[1], call.at[2]));
    return call.status;
}

int call_join_end(const struct joining *joining, uint8_t *root, size_t root_length, uint8_t *digest,
                  size_t digest_length)
{
    bool is_file = joining->tree.is_file;
    struct call call = {.name = is_file ? "fsverity_join_end" : "verity_join_end",
                        .operands = {params_of(&joining->tree),
                                     READS(BLOCK, "the struct", &joining->join, sizeof joining->join),
                                     READS(MEMORY, "the memory", joining->memory, joining->memory_length),
                                     FILLS(FIRST_FILLED, "the root hash", root, root_length)}};

    if (is_file) {
        call.operands[4] = FILLS(SECOND_FILLED, "the digest", digest, digest_length);
        MAKES(call, fsverity_join_end(call.at[0], call.at[1], call.at[2], joining->memory_length, call.at[3],
                                      root_length, call.at[4], digest_length));
    } else {
        MAKES(call, verity_join_end(call.at[0], call.at[1], call.at[2], joining->memory_length, call.at[3],
                                    root_length));
    }
    return call.status;
}

int feed_part_once(struct part_building *building, struct bytes piece, struct verity_fed *fed)
{
    const uint8_t *at = place(PIECE, piece.at, piece.length);
    struct tree *tree = &building->tree;
    int status;
    bool is_kept;

    calls_made++;
    PUT_POINTER();
    status = tree->is_file ? fsverity_part_feed(&tree->file, &building->part, building->memory,
                                                building->memory_length, at, piece.length, fed)
                           : verity_part_feed(&tree->device, &building->part, building->memory,
                                              building->memory_length, at, piece.length, fed);
    is_kept = IS_POINTER_KEPT();
    check(is_kept, "a call that feeds a part doesn't keep x18");
    return status;
}

int feed_join_once(struct joining *joining, struct bytes digests, struct verity_fed *fed)
{
    const uint8_t *at = place(PIECE, digests.at, digests.length);
    struct tree *tree = &joining->tree;
    int status;
    bool is_kept;

    calls_made++;
    PUT_POINTER();
    status = tree->is_file ? fsverity_join_feed(&tree->file, &joining->join, joining->memory, joining->memory_length,
                                                at, digests.length, fed)
                           : verity_join_feed(&tree->device, &joining->join, joining->memory, joining->memory_length,
                                              at, digests.length, fed);
    is_kept = IS_POINTER_KEPT();
    check(is_kept, "a call that joins doesn't keep x18");
    return status;
}
