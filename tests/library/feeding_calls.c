/* Calls of the functions that build trees; see feeding_calls.h. */
#include "feeding_calls.h"

#include <string.h>

#include "calls.h"
#include "shapes.h"

size_t window_length(size_t data_block_size, uint64_t fan_out)
{
    size_t blocks = 8;

    while (blocks * data_block_size > 524288 || blocks > fan_out)
        blocks /= 2;
    return blocks * data_block_size;
}

/* The memory has a hash block for each level, and then the window. With a fault of the parameters there is none. */
static size_t open_length_of(const struct tree *tree)
{
    struct tree known = *tree;
    struct shape shape;
    uint64_t blocks, fan_out, power;
    size_t levels = 0, size = tree->file.block_size;

    known.file.size = 1;
    shape = shape_of(&known);
    if (!tree->is_file || shape.status != VERITY_OK)
        return shape.levels * shape.hash_block_size;
    blocks = LARGEST / size;
    fan_out = size / digest_size_of(tree->file.hash_algorithm);
    for (power = 1; power < blocks; power *= fan_out)
        levels++;
    return levels * size;
}

size_t memory_length_of(const struct tree *tree)
{
    struct shape shape;
    size_t size = tree->file.block_size;

    if (tree->is_file)
        return open_length_of(tree) + window_length(size, size / digest_size_of(tree->file.hash_algorithm));
    shape = shape_of(tree);
    return open_length_of(tree) + window_length(shape.data_block_size, shape.fan_out);
}

int call_build_memory(const struct tree *tree, size_t *length)
{
    struct call call = {.operands = {params_of(tree), FILLS(FIRST_FILLED, "the length", length, sizeof *length)}};

    MAKES_EITHER(call, tree->is_file, build_memory, (call.at[0], call.at[1]));
    return call.status;
}

/* What a call may change of a building: the memory, and the struct or a file's parameters. */
static void set_building(struct call *call, struct building *building, enum use use)
{
    call->operands[0] = (struct operand){MEMORY, use, "the memory", building->memory, building->memory_length, NULL, 0};
    if (building->tree.is_file) {
        call->operands[1] = (struct operand){PARAMS, use, "the parameters", &building->tree.file,
                                             sizeof building->tree.file, NULL, sizeof building->tree.file};
    } else {
        call->operands[1] = (struct operand){BLOCK, use, "the struct", &building->build, sizeof building->build, NULL,
                                             sizeof building->build};
        call->operands[2] = params_of(&building->tree);
    }
}

/* In the second call something else stands in all that is begun. Of the memory the window's bytes don't count yet. */
int call_build_begin(struct building *building)
{
    static uint8_t memory[MOST_BUFFER];
    struct verity_build build = {random_number(), (size_t)random_number()};
    struct fsverity_params file;
    struct call call = {.name = building->tree.is_file ? "fsverity_build_begin" : "verity_build_begin"};

    set_building(&call, building, BEGUN);
    random_bytes(memory, building->memory_length);
    call.operands[0].other = memory;
    call.operands[0].same = open_length_of(&building->tree);
    memcpy(&file, &building->tree.file, sizeof file);
    file.size = random_number();
    call.operands[1].other = building->tree.is_file ? (const void *)&file : &build;
    if (building->tree.is_file) {
        MAKES(call, fsverity_build_begin(call.at[1], call.at[0], building->memory_length));
        file.size = 0;
        check(call.status != VERITY_OK || memcmp(&file, &building->tree.file, sizeof file) == 0,
              "the parameters of a beginning");
    } else {
        MAKES(call, verity_build_begin(call.at[2], call.at[1], call.at[0], building->memory_length));
        check(call.status != VERITY_OK || (building->build.fed == 0 && building->build.closed == 0),
              "the struct of a beginning");
    }
    return call.status;
}

int call_build_feed(struct building *building, struct bytes piece, struct verity_fed *fed)
{
    struct call call = {.name = building->tree.is_file ? "fsverity_build_feed" : "verity_build_feed"};
    struct fsverity_params before;

    set_building(&call, building, CHANGED);
    call.operands[3] = READS(PIECE, "the piece", piece.at, piece.length);
    call.operands[4] = FILLS(FIRST_FILLED, "what it has done", fed, sizeof *fed);
    if (!building->tree.is_file) {
        MAKES(call, verity_build_feed(call.at[2], call.at[1], call.at[0], building->memory_length, call.at[3],
                                      piece.length, call.at[4]));
        return call.status;
    }
    memcpy(&before, &building->tree.file, sizeof before);
    call.operands[2] = call.operands[3];
    call.operands[3] = (struct operand){.what = NULL};
    MAKES(call, fsverity_build_feed(call.at[1], call.at[0], building->memory_length, call.at[2], piece.length));
    if (call.status == VERITY_OK)
        *fed = (struct verity_fed){.taken = piece.length};
    /* Only the size has changed. */
    before.size = building->tree.file.size;
    check(memcmp(&before, &building->tree.file, sizeof before) == 0, "%s changes the parameters", call.name);
    return call.status;
}

int feed_once(struct building *building, struct bytes piece, struct verity_fed *fed)
{
    const uint8_t *at = place(PIECE, piece.at, piece.length);
    int status;
    bool is_kept;

    calls_made++;
    PUT_POINTER();
    status = building->tree.is_file ? fsverity_build_feed(&building->tree.file, building->memory,
                                                          building->memory_length, at, piece.length)
                                    : verity_build_feed(&building->tree.device, &building->build, building->memory,
                                                        building->memory_length, at, piece.length, fed);
    is_kept = IS_POINTER_KEPT();
    check(is_kept, "a call that feeds doesn't keep x18");
    if (building->tree.is_file && status == VERITY_OK)
        *fed = (struct verity_fed){.taken = piece.length};
    return status;
}

int call_build_last_block(const struct building *building, struct verity_fed *fed)
{
    struct call call = {.name = "verity_build_last_block",
                        .operands = {params_of(&building->tree),
                                     READS(BLOCK, "the struct", &building->build, sizeof building->build),
                                     FILLS(FIRST_FILLED, "what it has found", fed, sizeof *fed)}};

    MAKES(call, verity_build_last_block(call.at[0], call.at[1], call.at[2]));
    return call.status;
}

int call_build_end(struct building *building, uint8_t *root, size_t root_length, uint8_t *digest, size_t digest_length)
{
    const struct tree *tree = &building->tree;
    struct call call = {.operands = {params_of(tree),
                                     {MEMORY, building->is_disturbed ? CHANGED : GOES_ON, "the memory",
                                      building->memory, building->memory_length, NULL, 0},
                                     FILLS(FIRST_FILLED, "the root hash", root, root_length)}};

    if (tree->is_file) {
        call.name = "fsverity_build_end";
        call.operands[3] = FILLS(SECOND_FILLED, "the digest", digest, digest_length);
        MAKES(call, fsverity_build_end(call.at[0], call.at[1], building->memory_length, call.at[2], root_length,
                                       call.at[3], digest_length));
    } else {
        call.name = "verity_build_end";
        call.operands[3] = READS(BLOCK, "the struct", &building->build, sizeof building->build);
        MAKES(call, verity_build_end(call.at[0], call.at[3], call.at[1], building->memory_length, call.at[2],
                                     root_length));
    }
    return call.status;
}

int call_write_superblock(const struct verity_params *params, uint8_t *bytes, size_t length)
{
    struct call call = {.name = "verity_write_superblock",
                        .operands = {READS(PARAMS, "the parameters", params, sizeof *params),
                                     FILLS(FIRST_FILLED, "the superblock", bytes, length)}};

    MAKES(call, verity_write_superblock(call.at[0], call.at[1], length));
    return call.status;
}

int call_descriptor(const struct fsverity_params *params, struct bytes root, uint8_t *descriptor, size_t length)
{
    struct call call = {.name = "fsverity_descriptor",
                        .operands = {READS(PARAMS, "the parameters", params, sizeof *params),
                                     READS(ROOT, "the root hash", root.at, root.length),
                                     FILLS(FIRST_FILLED, "the descriptor", descriptor, length)}};

    MAKES(call, fsverity_descriptor(call.at[0], call.at[1], root.length, call.at[2], length));
    return call.status;
}

/* A file's tree whose blocks are handed out has its numbers in the struct; the size in the parameters doesn't count. */
int call_tree_build_begin(struct building *building)
{
    static uint8_t memory[MOST_BUFFER];
    struct verity_build build = {random_number(), (size_t)random_number()};
    struct call call = {.name = "fsverity_tree_build_begin",
                        .operands = {{MEMORY, BEGUN, "the memory", building->memory, building->memory_length, memory,
                                      open_length_of(&building->tree)},
                                     {BLOCK, BEGUN, "the struct", &building->build, sizeof building->build, &build,
                                      sizeof build},
                                     params_of(&building->tree)}};

    random_bytes(memory, building->memory_length);
    MAKES(call, fsverity_tree_build_begin(call.at[2], call.at[1], call.at[0], building->memory_length));
    check(call.status != VERITY_OK || (building->build.fed == 0 && building->build.closed == 0),
          "the struct of a beginning");
    return call.status;
}

int call_tree_build_feed(struct building *building, struct bytes piece, struct verity_fed *fed)
{
    struct call call = {.name = "fsverity_tree_build_feed",
                        .operands = {{MEMORY, CHANGED, "the memory", building->memory, building->memory_length, NULL,
                                      0},
                                     {BLOCK, CHANGED, "the struct", &building->build, sizeof building->build, NULL, 0},
                                     params_of(&building->tree), READS(PIECE, "the piece", piece.at, piece.length),
                                     FILLS(FIRST_FILLED, "what it has done", fed, sizeof *fed)}};

    MAKES(call, fsverity_tree_build_feed(call.at[2], call.at[1], call.at[0], building->memory_length, call.at[3],
                                         piece.length, call.at[4]));
    return call.status;
}

int call_tree_build_end_block(struct building *building, size_t level, uint8_t *block, size_t length, uint64_t *index)
{
    struct call call = {.name = "fsverity_tree_build_end_block",
                        .operands = {params_of(&building->tree),
                                     {MEMORY, GOES_ON, "the memory", building->memory, building->memory_length, NULL,
                                      0},
                                     READS(BLOCK, "the struct", &building->build, sizeof building->build),
                                     FILLS(FIRST_FILLED, "the block", block, length),
                                     FILLS(SECOND_FILLED, "the number", index, sizeof *index)}};

    MAKES(call, fsverity_tree_build_end_block(call.at[0], call.at[2], call.at[1], building->memory_length, level,
                                              call.at[3], length, call.at[4]));
    return call.status;
}

int call_tree_build_end(struct building *building, uint8_t *root, size_t root_length, uint8_t *digest,
                        size_t digest_length)
{
    struct call call = {.name = "fsverity_tree_build_end",
                        .operands = {params_of(&building->tree),
                                     {MEMORY, GOES_ON, "the memory", building->memory, building->memory_length, NULL,
                                      0},
                                     READS(BLOCK, "the struct", &building->build, sizeof building->build),
                                     FILLS(FIRST_FILLED, "the root hash", root, root_length),
                                     FILLS(SECOND_FILLED, "the digest", digest, digest_length)}};

    MAKES(call, fsverity_tree_build_end(call.at[0], call.at[2], call.at[1], building->memory_length, call.at[3],
                                        root_length, call.at[4], digest_length));
    return call.status;
}
