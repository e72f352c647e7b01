/* Calls of the library; see calls.h. */
#define _DEFAULT_SOURCE
#include "calls.h"

#include <stdlib.h>
#include <string.h>
#include <sys/mman.h>
#include <unistd.h>

uint64_t calls_made;
bool status_seen[1 - LEAST_STATUS];

/* Buffers. Each one that a call takes has a region of its own, between memory that can't be read or written. */

static uint8_t *regions[BUFFERS];
static uint8_t *allocated[BUFFERS];

void *place(enum buffer buffer, const void *bytes, size_t length)
{
    size_t page = (size_t)sysconf(_SC_PAGESIZE);
    uint8_t *at = NULL;

    if (length > MOST_BUFFER)
        give_up("a buffer is too long");
    if (regions[buffer] == NULL) {
        at = mmap(NULL, MOST_BUFFER + 2 * page, PROT_NONE, MAP_PRIVATE | MAP_ANONYMOUS, -1, 0);
        if (at == MAP_FAILED || mprotect(at + page, MOST_BUFFER, PROT_READ | PROT_WRITE) != 0)
            give_up("no memory");
        regions[buffer] = at + page;
    }
    free(allocated[buffer]);
    allocated[buffer] = NULL;
    switch (random_place() % 4) {
    case 0:
        at = regions[buffer];
        break;
    case 1:
        at = allocated[buffer] = malloc(length);
        if (at == NULL)
            give_up("no memory");
        break;
    default:
        at = regions[buffer] + MOST_BUFFER - length;
        break;
    }
    if (length > 0)
        memcpy(at, bytes, length);
    return at;
}

void check_same(const void *before, const void *after, size_t length, const char *call, const char *what)
{
    check(length == 0 || memcmp(before, after, length) == 0, "%s changes %s", call, what);
}

/* What an operand of a call starts as in this round. */
static const void *start_of(const struct call *call, size_t i)
{
    static uint8_t paints[2][MOST_FILLED];
    const struct operand *operand = &call->operands[i];

    switch (operand->use) {
    case FILLED:
        if (operand->length > MOST_FILLED)
            give_up("too much is filled");
        memset(paints[0], 0xa5, MOST_FILLED);
        memset(paints[1], 0x5a, MOST_FILLED);
        return paints[call->round];
    case BEGUN:
        return call->round == 0 ? operand->bytes : operand->other;
    case GOES_ON:
        return call->left[i] == NULL ? operand->bytes : call->left[i];
    default:
        return operand->bytes;
    }
}

bool begins_round(struct call *call)
{
    size_t i;

    for (i = 0; call->round < 2 && call->operands[i].what != NULL; i++)
        call->at[i] = call->round == 1 && call->operands[i].length == 0
                          ? NULL
                          : place(call->operands[i].buffer, start_of(call, i), call->operands[i].length);
    return call->round < 2;
}

int answered(const char *call, int round, int first, int status)
{
    calls_made++;
    check(status <= VERITY_OK && status >= LEAST_STATUS, "%s: status %d", call, status);
    if (status <= VERITY_OK && status >= LEAST_STATUS)
        status_seen[-status] = true;
    check(round == 0 || status == first, "%s: status %d, and again %d", call, first, status);
    return status;
}

/* Room for what a call leaves of an operand, until the next call of any kind. */
static uint8_t *room_for(size_t i, size_t length)
{
    static uint8_t *rooms[OPERANDS];
    static size_t lengths[OPERANDS];

    if (rooms[i] == NULL || lengths[i] < length) {
        rooms[i] = realloc(rooms[i], length + 1);
        lengths[i] = length;
        if (rooms[i] == NULL)
            give_up("no memory");
    }
    return rooms[i];
}

void ends_round(struct call *call, int status, bool is_register_kept)
{
    struct operand *operand;
    size_t i;

    call->status = answered(call->name, call->round, call->status, status);
    check(is_register_kept, "%s doesn't keep x18", call->name);
    for (i = 0; call->operands[i].what != NULL; i++) {
        operand = &call->operands[i];
        if (operand->use == READ || status != call->fills) {
            check_same(start_of(call, i), call->at[i], operand->length, call->name, operand->what);
        } else if (call->round == 0) {
            call->left[i] = room_for(i, operand->length);
            memcpy(call->left[i], call->at[i], operand->length);
        } else if (call->left[i] != NULL) {
            check(memcmp(call->left[i], call->at[i], operand->use == BEGUN ? operand->same : operand->length) == 0,
                  "%s has another answer: %s", call->name, operand->what);
            memcpy(operand->bytes, call->left[i], operand->length);
        }
    }
    call->round++;
}

struct operand params_of(const struct tree *tree)
{
    return tree->is_file ? READS(PARAMS, "the parameters", &tree->file, sizeof tree->file)
                         : READS(PARAMS, "the parameters", &tree->device, sizeof tree->device);
}

int call_default_params(uint64_t data_blocks, struct verity_params *params)
{
    struct call call = {.name = "verity_default_params",
                        .operands = {FILLS(FIRST_FILLED, "the parameters", params, sizeof *params)}};

    MAKES(call, verity_default_params(data_blocks, call.at[0]));
    return call.status;
}

int call_read_superblock(struct bytes bytes, uint64_t hash_offset, struct verity_params *params)
{
    struct call call = {.name = "verity_read_superblock",
                        .operands = {BYTES(BLOCK, "the superblock", bytes),
                                     FILLS(FIRST_FILLED, "the parameters", params, sizeof *params)}};

    MAKES(call, verity_read_superblock(call.at[0], bytes.length, hash_offset, call.at[1]));
    return call.status;
}

int call_level_count(const struct tree *tree, size_t *levels)
{
    struct call call = {.operands = {params_of(tree), FILLS(FIRST_FILLED, "the levels", levels, sizeof *levels)}};

    MAKES_EITHER(call, tree->is_file, level_count, (call.at[0], call.at[1]));
    return call.status;
}

int call_level_start(const struct tree *tree, size_t level, uint64_t *start, uint64_t *blocks)
{
    struct call call = {.operands = {params_of(tree), FILLS(FIRST_FILLED, "the start", start, sizeof *start),
                                     FILLS(SECOND_FILLED, "the blocks", blocks, sizeof *blocks)}};

    MAKES_EITHER(call, tree->is_file, level_start, (call.at[0], level, call.at[1], call.at[2]));
    return call.status;
}

int call_hash_block_start(const struct tree *tree, uint64_t index, size_t level, uint64_t *start)
{
    struct call call = {.operands = {params_of(tree), FILLS(FIRST_FILLED, "the start", start, sizeof *start)}};

    MAKES_EITHER(call, tree->is_file, hash_block_start, (call.at[0], index, level, call.at[1]));
    return call.status;
}

int call_check_block(const struct tree *tree, uint64_t index, struct bytes block, struct bytes path, struct bytes root,
                     size_t *level)
{
    struct call call = {.fills = VERITY_DIFFERS,
                        .operands = {params_of(tree), BYTES(BLOCK, "the block", block), BYTES(PATH, "the path", path),
                                     BYTES(ROOT, "the root hash", root),
                                     FILLS(FIRST_FILLED, "the level", level, sizeof *level)}};

    MAKES_EITHER(call, tree->is_file, check_block,
                 (call.at[0], index, call.at[1], block.length, call.at[2], path.length, call.at[3], root.length,
                  call.at[4]));
    return call.status;
}

int call_check_link(const struct tree *tree, uint64_t index, size_t level, struct bytes block, struct bytes above)
{
    struct call call = {.operands = {params_of(tree), BYTES(BLOCK, "the block", block),
                                     BYTES(PATH, "the block above", above)}};

    MAKES_EITHER(call, tree->is_file, check_link,
                 (call.at[0], index, level, call.at[1], block.length, call.at[2], above.length));
    return call.status;
}

int call_check_top(const struct tree *tree, uint64_t index, struct bytes block, struct bytes root)
{
    struct call call = {.operands = {params_of(tree), BYTES(BLOCK, "the block", block),
                                     BYTES(ROOT, "the root hash", root)}};

    MAKES_EITHER(call, tree->is_file, check_top,
                 (call.at[0], index, call.at[1], block.length, call.at[2], root.length));
    return call.status;
}

int call_file_digest(const struct fsverity_params *params, struct bytes root, uint8_t *digest, size_t digest_length)
{
    struct call call = {.name = "fsverity_file_digest",
                        .operands = {READS(PARAMS, "the parameters", params, sizeof *params),
                                     BYTES(ROOT, "the root hash", root),
                                     FILLS(FIRST_FILLED, "the digest", digest, digest_length)}};

    MAKES(call, fsverity_file_digest(call.at[0], call.at[1], root.length, call.at[2], digest_length));
    return call.status;
}

int call_same_params(const struct verity_params *params, const struct verity_params *trusted)
{
    struct call call = {.name = "verity_same_params",
                        .operands = {READS(PARAMS, "the parameters", params, sizeof *params),
                                     READS(BLOCK, "the trusted parameters", trusted, sizeof *trusted)}};

    MAKES(call, verity_same_params(call.at[0], call.at[1]));
    return call.status;
}

int call_area_end(const struct tree *tree, uint64_t *end)
{
    struct call call = {.name = tree->is_file ? "fsverity_tree_size" : "verity_hash_area_end",
                        .operands = {params_of(tree), FILLS(FIRST_FILLED, "the end", end, sizeof *end)}};

    MAKES(call, tree->is_file ? fsverity_tree_size(call.at[0], call.at[1])
                              : verity_hash_area_end(call.at[0], call.at[1]));
    return call.status;
}

int call_formatted_digest(uint32_t hash_algorithm, struct bytes digest, uint8_t *formatted, size_t length)
{
    struct call call = {.name = "fsverity_formatted_digest",
                        .operands = {BYTES(BLOCK, "the digest", digest),
                                     FILLS(FIRST_FILLED, "the formatted digest", formatted, length)}};

    MAKES(call, fsverity_formatted_digest(hash_algorithm, call.at[0], digest.length, call.at[1], length));
    return call.status;
}

int call_digest_length(uint32_t hash_algorithm, size_t *length)
{
    struct call call = {.name = "verity_digest_length",
                        .operands = {FILLS(FIRST_FILLED, "the length", length, sizeof *length)}};

    MAKES(call, verity_digest_length(hash_algorithm, call.at[0]));
    return call.status;
}

int call_algorithm_by_name(struct bytes name, uint32_t *hash_algorithm)
{
    struct call call = {.name = "verity_algorithm_by_name",
                        .operands = {BYTES(BLOCK, "the name", name),
                                     FILLS(FIRST_FILLED, "the number", hash_algorithm, sizeof *hash_algorithm)}};

    MAKES(call, verity_algorithm_by_name(call.at[0], name.length, call.at[1]));
    return call.status;
}

/* Of a text only its own bytes and the zero are written: what stands behind stays. */
int call_text(enum text text, int number, char *bytes, size_t room, size_t *length)
{
    struct call call = {.name = text == NAME ? "verity_algorithm_name" : "verity_status_text",
                        .operands = {{FIRST_FILLED, CHANGED, "the text", bytes, room, NULL, 0},
                                     FILLS(SECOND_FILLED, "the length", length, sizeof *length)}};

    MAKES(call, text == NAME ? verity_algorithm_name((uint32_t)number, call.at[0], room, call.at[1])
                             : verity_status_text(number, call.at[0], room, call.at[1]));
    return call.status;
}

uint32_t call_version(void)
{
    struct call call = {.name = "verity_version"};
    uint32_t version = 0;

    MAKES(call, (version = verity_version(), VERITY_OK));
    return version;
}
