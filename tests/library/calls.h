/*
 * Calls of the library whose buffers end where memory ends, and what such calls are made of. Those that build are in
 * feeding_calls.h and part_calls.h.
 */
#ifndef CALLS_H
#define CALLS_H

#include "support.h"

/* What is filled starts as this, and no answer is. */
#define PAINT ((size_t)0xa5a5a5a5)

/*
 * A call of the library. Each buffer has just the length that is said: it stands right before or right behind memory
 * that can't be read, or comes from malloc. Each call is made twice, the second time with null for a length of 0.
 * Checked each time: the status is one of the header's, the second answer is the first, what is handed in stays as it
 * is, and so does what is filled if the status doesn't let it change.
 */
int call_default_params(uint64_t data_blocks, struct verity_params *params);
int call_read_superblock(struct bytes bytes, uint64_t hash_offset, struct verity_params *params);
int call_level_count(const struct tree *tree, size_t *levels);
int call_level_start(const struct tree *tree, size_t level, uint64_t *start, uint64_t *blocks);
int call_hash_block_start(const struct tree *tree, uint64_t index, size_t level, uint64_t *start);
int call_check_block(const struct tree *tree, uint64_t index, struct bytes block, struct bytes path, struct bytes root,
                     size_t *level);
int call_check_link(const struct tree *tree, uint64_t index, size_t level, struct bytes block, struct bytes above);
int call_check_top(const struct tree *tree, uint64_t index, struct bytes block, struct bytes root);
int call_file_digest(const struct fsverity_params *params, struct bytes root, uint8_t *digest, size_t digest_length);

int call_same_params(const struct verity_params *params, const struct verity_params *trusted);

/* Where the hash area ends, or of a file how long its tree is. */
int call_area_end(const struct tree *tree, uint64_t *end);
int call_formatted_digest(uint32_t hash_algorithm, struct bytes digest, uint8_t *formatted, size_t length);
int call_digest_length(uint32_t hash_algorithm, size_t *length);
int call_algorithm_by_name(struct bytes name, uint32_t *hash_algorithm);

/* The name of a hash function, or the text of a status. */
enum text { NAME, STATUS };
int call_text(enum text text, int number, char *bytes, size_t room, size_t *length);

uint32_t call_version(void);

/* The longest buffer that a call takes here. */
#define MOST_BUFFER ((size_t)16 << 20)

/* The lowest status. */
#define LEAST_STATUS VERITY_NO_SUCH_PART

/* How many calls were made, and whether one of them had the status of this number, taken without its sign. */
extern uint64_t calls_made;
extern bool status_seen[1 - LEAST_STATUS];

/*
 * Where a buffer of this kind stands, filled with these bytes: right before or right behind memory that can't be read,
 * or in malloc's. It stands there until the next one of its kind is placed.
 */
enum buffer { PARAMS, BLOCK, PATH, ROOT, FIRST_FILLED, SECOND_FILLED, MEMORY, PIECE, KEPT, BUFFERS };
void *place(enum buffer buffer, const void *bytes, size_t length);

/*
 * An operand is a buffer that a call is handed. What is READ stays as it is. What is FILLED or CHANGED is so if the
 * call has the status that fills, and then both calls leave the same; with any other status it stays as it was. What is
 * FILLED starts as other bytes in each of them, and what is BEGUN as `other` in the second: then the first `same` bytes
 * are the same after both. In the second call what GOES_ON starts as the first left it. What they left goes to `bytes`.
 */
enum use { READ, FILLED, CHANGED, BEGUN, GOES_ON };
struct operand {
    enum buffer buffer;
    enum use use;
    const char *what;
    void *bytes;
    size_t length;
    const void *other;
    size_t same;
};

#define READS(buffer, what, bytes, length) ((struct operand){buffer, READ, what, (void *)(bytes), length, NULL, 0})
#define FILLS(buffer, what, bytes, length) ((struct operand){buffer, FILLED, what, bytes, length, NULL, 0})
#define BYTES(buffer, what, bytes) READS(buffer, what, (bytes).at, (bytes).length)
#define MOST_FILLED 1024
#define OPERANDS 6

/* The parameters of a tree of either kind. */
struct operand params_of(const struct tree *tree);

struct call {
    const char *name;
    /* The status with which something is filled. */
    int fills;
    /* As many as have a name, and where they stand. */
    struct operand operands[OPERANDS];
    void *at[OPERANDS];
    uint8_t *left[OPERANDS];
    int round;
    int status;
};

/* Counts a call of this name. It is made in rounds, and each has the status of the first. Answers the status. */
int answered(const char *call, int round, int first, int status);

/* A call leaves what it was handed as it was. */
void check_same(const void *before, const void *after, size_t length, const char *call, const char *what);

bool begins_round(struct call *call);
void ends_round(struct call *call, int status, bool is_register_kept);

/*
 * For 64-bit ARM these programs are compiled with -ffixed-x18 and KEEPS_X18, as a caller is that keeps a pointer of its
 * own in that register: U-Boot its global data, Android its shadow call stack. After each call it stands there.
 */
#ifdef KEEPS_X18
__extension__ register uint64_t *platform __asm__("x18");
#define PUT_POINTER() (platform = &calls_made)
#define IS_POINTER_KEPT() (platform == &calls_made)
#else
#define PUT_POINTER() ((void)0)
#define IS_POINTER_KEPT() true
#endif

/* Makes a call twice, and one of the functions of either kind of tree. */
#define MAKES(call, expression) \
    while (begins_round(&(call))) { \
        PUT_POINTER(); \
        int status_ = (expression); \
        bool is_kept_ = IS_POINTER_KEPT(); \
        ends_round(&(call), status_, is_kept_); \
    }
#define MAKES_EITHER(call, is_file, function, arguments) \
    (call).name = (is_file) ? "fsverity_" #function : "verity_" #function; \
    MAKES(call, (is_file) ? fsverity_##function arguments : verity_##function arguments)

#endif
