/*
 * parameters.c - what the library says of parameters, hash functions and statuses by themselves.
 *
 *   parameters checks                      each answer that is known without other programs, and each refusal;
 *                                          the last line is 'N passed, M failed'
 *   parameters functions                   a line for each hash function: its number, its name, its digests' length
 *   parameters defaults BLOCKS SALT UUID   the superblock of the defaults with these bytes, all in hexadecimal
 *   parameters end HASH OFFSET             where the hash area ends whose superblock stands at this byte of HASH
 *   parameters bare TYPE DATA-SIZE HASH-SIZE BLOCKS OFFSET
 *                                          where one without a superblock ends, by SHA-256
 *   parameters size NUMBER BLOCK-SIZE SIZE how long the tree of a file is
 *   parameters formatted NUMBER DIGEST     the formatted digest, in hexadecimal as the digest
 *   parameters version                     the version of the library, and that of the header
 */
#include <inttypes.h>
#include <limits.h>
#include <stdio.h>
#include <string.h>

#include "calls.h"
#include "shapes.h"
#include "support.h"
#include "words.h"

/* ---------------------------------------- Parameters that are the same ---------------------------------------- */

static const struct verity_params trusted_device = {
    .hash_algorithm = VERITY_SHA256, .hash_type = 1, .data_block_size = 4096, .hash_block_size = 1024,
    .data_blocks = 1000, .hash_offset = 512, .salt_size = 3, .salt = "abc", .uuid = "0123456789abcde"};

/* A change of one field, and what a comparison with the unchanged ones says then. */
#define CHANGE(name, status, ...) \
    static void changes_##name(struct verity_params *params) \
    { \
        __VA_ARGS__; \
    }
#define CHANGES(each) \
    each(nothing, VERITY_OK, (void)params) \
    each(algorithm, VERITY_DIFFERS, params->hash_algorithm = VERITY_SHA512) \
    each(type, VERITY_DIFFERS, params->hash_type = 0) \
    each(data_block_size, VERITY_DIFFERS, params->data_block_size = 512) \
    each(hash_block_size, VERITY_DIFFERS, params->hash_block_size = 4096) \
    each(fewer_blocks, VERITY_DIFFERS, params->data_blocks--) \
    each(shorter_salt, VERITY_DIFFERS, params->salt_size--) \
    each(longer_salt, VERITY_DIFFERS, params->salt_size++) \
    each(no_salt, VERITY_DIFFERS, params->salt_size = 0) \
    each(first_of_the_salt, VERITY_DIFFERS, params->salt[0] ^= 1) \
    each(last_of_the_salt, VERITY_DIFFERS, params->salt[2] ^= 0x80) \
    each(behind_the_salt, VERITY_OK, memset(params->salt + 3, 0xa5, sizeof params->salt - 3)) \
    each(offset, VERITY_OK, params->hash_offset = 1 << 20) \
    each(no_superblock, VERITY_OK, params->no_superblock = 7; params->hash_offset = 0) \
    each(uuid, VERITY_OK, params->uuid[15] ^= 1) \
    each(faulty_algorithm, VERITY_BAD_HASH_ALGORITHM, params->hash_algorithm = 6) \
    each(faulty_type, VERITY_BAD_HASH_TYPE, params->hash_type = 2) \
    each(faulty_data_block_size, VERITY_BAD_DATA_BLOCK_SIZE, params->data_block_size = 256) \
    each(faulty_hash_block_size, VERITY_BAD_HASH_BLOCK_SIZE, params->hash_block_size = 1025) \
    each(faulty_salt, VERITY_BAD_SALT_SIZE, params->salt_size = 257) \
    each(faulty_offset, VERITY_BAD_HASH_OFFSET, params->hash_offset = 1) \
    each(no_blocks, VERITY_NO_DATA, params->data_blocks = 0) \
    each(many_blocks, VERITY_TOO_LARGE, params->data_blocks = UINT64_MAX)
CHANGES(CHANGE)

#define ROW(name, status, ...) {#name, status, changes_##name},
static const struct {
    const char *name;
    int status;
    void (*change)(struct verity_params *params);
} changes[] = {CHANGES(ROW)};

enum { CHANGE_COUNT = sizeof changes / sizeof *changes };

/* The comparison of parameters at the end of readable memory. */
static int compare(const struct verity_params *params, const struct verity_params *trusted)
{
    const struct verity_params *first = place(PARAMS, params, sizeof *params);
    const struct verity_params *second = place(BLOCK, trusted, sizeof *trusted);
    int status = verity_same_params(first, second);

    check_same(params, first, sizeof *params, "verity_same_params", "parameters");
    check_same(trusted, second, sizeof *trusted, "verity_same_params", "trusted parameters");
    return status;
}

static void try_same_params(void)
{
    size_t i;
    int status;

    for (i = 0; i < CHANGE_COUNT; i++) {
        struct verity_params changed = trusted_device;

        changes[i].change(&changed);
        status = compare(&changed, &trusted_device);
        check(status == changes[i].status, "%s: status %d", changes[i].name, status);
        status = compare(&trusted_device, &changed);
        check(status == changes[i].status, "%s of the trusted: status %d", changes[i].name, status);
        status = compare(&changed, &changed);
        check(status == (changes[i].status == VERITY_DIFFERS ? VERITY_OK : changes[i].status),
              "%s of both: status %d", changes[i].name, status);
        /* The fault of the parameters comes before that of the trusted ones. */
        if (changes[i].status < VERITY_DIFFERS && changes[i].status > VERITY_NO_DATA) {
            struct verity_params other = trusted_device;

            other.data_blocks = 0;
            status = compare(&changed, &other);
            check(status == changes[i].status, "%s before no data of the trusted: status %d", changes[i].name, status);
            status = compare(&other, &changed);
            check(status == VERITY_NO_DATA, "no data before %s of the trusted: status %d", changes[i].name, status);
        }
    }
}

/* -------------------------------------------------- Defaults -------------------------------------------------- */

static void try_defaults(void)
{
    static const struct {
        uint64_t blocks;
        int status;
    } rows[] = {{0, VERITY_NO_DATA}, {1, VERITY_OK}, {300, VERITY_OK}, {LARGEST / 4096, VERITY_OK},
                {LARGEST / 4096 + 1, VERITY_TOO_LARGE}, {UINT64_MAX, VERITY_TOO_LARGE}};
    struct verity_params params, wanted;
    size_t i;
    int status;

    for (i = 0; i < sizeof rows / sizeof *rows; i++) {
        memset(&params, 0x5a, sizeof params);
        wanted = params;
        if (rows[i].status == VERITY_OK)
            wanted = (struct verity_params){.hash_algorithm = VERITY_SHA256, .hash_type = 1, .data_block_size = 4096,
                                            .hash_block_size = 4096, .data_blocks = rows[i].blocks};
        status = call_default_params(rows[i].blocks, &params);
        check(status == rows[i].status, "defaults of %" PRIu64 " blocks: status %d", rows[i].blocks, status);
        check_same(&wanted, &params, sizeof params, "verity_default_params", "parameters");
    }
}

/* --------------------------------------------- Texts and names --------------------------------------------- */

static const struct {
    int status;
    const char *text;
} texts[] = {
    {VERITY_OK, "success"},
    {VERITY_DIFFERS, "block, root hash or parameters differ"},
    {VERITY_NO_SUCH_BLOCK, "no such data block"},
    {VERITY_NO_SUCH_LEVEL, "no such level"},
    {VERITY_BAD_LENGTH, "wrong length of a block, path, digest, memory or buffer"},
    {VERITY_BAD_ROOT_LENGTH, "wrong length of the root hash"},
    {VERITY_BAD_HASH_ALGORITHM, "unknown hash algorithm, or not one of fs-verity"},
    {VERITY_BAD_HASH_TYPE, "unknown hash type"},
    {VERITY_BAD_DATA_BLOCK_SIZE, "invalid data block size"},
    {VERITY_BAD_HASH_BLOCK_SIZE, "invalid hash block size"},
    {VERITY_BAD_SALT_SIZE, "invalid salt size"},
    {VERITY_BAD_HASH_OFFSET, "invalid hash offset"},
    {VERITY_NO_DATA, "no data blocks"},
    {VERITY_TOO_LARGE, "data or hash area too large"},
    {VERITY_SHORT_SUPERBLOCK, "fewer bytes than a superblock has"},
    {VERITY_BAD_SIGNATURE, "no superblock signature"},
    {VERITY_BAD_VERSION, "unknown superblock version"},
    {VERITY_TOO_LONG, "more data than the parameters say"},
    {VERITY_TOO_SHORT, "less data than the parameters say"},
    {VERITY_WAITING, "a hash block, or the rest of a piece, is still to come"},
    {VERITY_NO_SUCH_PART, "no such part"},
    {1, "unknown status"},
    {VERITY_NO_SUCH_PART - 1, "unknown status"},
    {256, "unknown status"},
    {-256, "unknown status"},
    {INT_MAX, "unknown status"},
    {INT_MIN, "unknown status"},
    {INT_MIN + 1, "unknown status"},
};

enum { TEXT_COUNT = sizeof texts / sizeof *texts };

/* A call that writes a text into so much room, and sets its length. */
typedef int (*text_call)(int number, char *text, size_t room, size_t *length);

static int status_text(int number, char *text, size_t room, size_t *length)
{
    return verity_status_text(number, text, room, length);
}

static int algorithm_name(int number, char *text, size_t room, size_t *length)
{
    return verity_algorithm_name((uint32_t)number, text, room, length);
}

/* A text in all the room that it may need, in just as much, in more, and in less: then nothing changes. */
static void try_text(text_call call, const char *name, int number, const char *expected)
{
    char painted[2 * VERITY_MAX_TEXT_SIZE], wanted[sizeof painted];
    size_t right = strlen(expected), room, length;
    int status;

    check(right < VERITY_MAX_TEXT_SIZE, "%s %d has %zu bytes", name, number, right);
    memset(painted, 0x5a, sizeof painted);
    for (room = 0; room <= sizeof painted; room++) {
        int has_room = room > right;
        char *text = place(FIRST_FILLED, painted, room);

        length = PAINT;
        status = call(number, text, room, &length);
        memcpy(wanted, painted, sizeof wanted);
        if (has_room)
            memcpy(wanted, expected, right + 1);
        check(status == (has_room ? VERITY_OK : VERITY_BAD_LENGTH), "%s %d in %zu bytes: status %d", name, number, room,
              status);
        check(length == (has_room ? right : PAINT), "%s %d in %zu bytes: length %zu", name, number, room, length);
        check(memcmp(text, wanted, room) == 0, "%s %d in %zu bytes: another text", name, number, room);
    }
}

static void try_texts(void)
{
    size_t i;

    for (i = 0; i < TEXT_COUNT; i++)
        try_text(status_text, "status", texts[i].status, texts[i].text);
}

/* A name of a hash function: its number, or 0 if there is no function of this name. */
static void try_name(const char *name, size_t length, uint32_t expected)
{
    uint32_t number = 77;
    int status = verity_algorithm_by_name(place(BLOCK, name, length), length, &number);

    check(status == (expected ? VERITY_OK : VERITY_BAD_HASH_ALGORITHM), "%.*s: status %d", (int)length, name, status);
    check(number == (expected ? expected : 77), "%.*s: number %" PRIu32, (int)length, name, number);
}

static void try_names(void)
{
    static const char *const none[] = {"",         "SHA256", "Sha256", "sha-256", "sha256 ", " sha256",  "sha25",
                                       "sha2567",  "sha2",   "sha",    "md5",     "sha0",    "sha224\n", "sha1-384",
                                       "sha3-256"};
    static const uint32_t no_number[] = {0, 6, 7, 255, 256 + VERITY_SHA256, UINT32_MAX, UINT32_MAX - 1};
    uint32_t number;
    size_t i, length;
    char name[VERITY_MAX_TEXT_SIZE];

    for (number = 1; name_of(number) != NULL; number++) {
        try_text(algorithm_name, "name", (int)number, name_of(number));
        try_name(name_of(number), strlen(name_of(number)), number);
        /* The zero after a name doesn't belong to it. */
        try_name(name_of(number), strlen(name_of(number)) + 1, 0);
        length = PAINT;
        check(verity_digest_length(number, &length) == VERITY_OK && length == digest_size_of(number),
              "digests of %s have %zu bytes", name_of(number), length);
    }
    check(number == 6, "there are %" PRIu32 " hash functions", number - 1);
    for (i = 0; i < sizeof none / sizeof *none; i++)
        try_name(none[i], strlen(none[i]), 0);
    for (i = 0; i < sizeof no_number / sizeof *no_number; i++) {
        length = PAINT;
        memset(name, 0x5a, sizeof name);
        check(verity_digest_length(no_number[i], &length) == VERITY_BAD_HASH_ALGORITHM && length == PAINT,
              "digests of function %" PRIu32 " have %zu bytes", no_number[i], length);
        check(verity_algorithm_name(no_number[i], name, sizeof name, &length) == VERITY_BAD_HASH_ALGORITHM &&
                  length == PAINT && name[0] == 0x5a,
              "function %" PRIu32 " has a name", no_number[i]);
        check(verity_algorithm_name(no_number[i], name, 0, &length) == VERITY_BAD_HASH_ALGORITHM,
              "function %" PRIu32 ": the length is looked at first", no_number[i]);
    }
}

/* ------------------------------------------ Ends and formatted digests ------------------------------------------ */

static void try_ends(void)
{
    size_t i;
    uint64_t end;
    int status, is_bad;

    for (i = 0; i < CHANGE_COUNT; i++) {
        struct verity_params changed = trusted_device;

        changes[i].change(&changed);
        is_bad = changes[i].status < VERITY_DIFFERS;
        end = PAINT;
        status = verity_hash_area_end(place(PARAMS, &changed, sizeof changed), &end);
        check(status == (is_bad ? changes[i].status : VERITY_OK), "end with %s: status %d", changes[i].name, status);
        check((end == PAINT) == is_bad, "end with %s: %" PRIu64, changes[i].name, end);
    }
}

static void try_sizes(void)
{
    const struct fsverity_params right = {.hash_algorithm = VERITY_SHA256, .block_size = 4096, .size = 4097};
    static const struct {
        uint32_t algorithm, block_size, salt_size;
        uint64_t size;
        int status;
    } rows[] = {
        {VERITY_SHA1, 4096, 0, 4097, VERITY_BAD_HASH_ALGORITHM}, {6, 4096, 0, 4097, VERITY_BAD_HASH_ALGORITHM},
        {VERITY_SHA256, 32, 0, 4097, VERITY_BAD_DATA_BLOCK_SIZE}, {VERITY_SHA256, 4096, 33, 4097, VERITY_BAD_SALT_SIZE},
        {VERITY_SHA256, 4096, 0, 0, VERITY_NO_DATA}, {VERITY_SHA256, 4096, 0, UINT64_MAX, VERITY_TOO_LARGE},
        {VERITY_SHA256, 4096, 32, 4097, VERITY_OK},
    };
    size_t i;

    for (i = 0; i < sizeof rows / sizeof *rows; i++) {
        struct fsverity_params params = right;
        uint64_t size = PAINT;
        int status;

        params.hash_algorithm = rows[i].algorithm;
        params.block_size = rows[i].block_size;
        params.salt_size = rows[i].salt_size;
        params.size = rows[i].size;
        status = fsverity_tree_size(place(PARAMS, &params, sizeof params), &size);
        check(status == rows[i].status, "size of a tree, row %zu: status %d", i, status);
        check(size == (rows[i].status == VERITY_OK ? 4096 : PAINT), "size of a tree, row %zu: %" PRIu64, i, size);
    }
}

static void try_formatted(void)
{
    static const struct {
        uint32_t algorithm;
        size_t digest_length, room;
        int status;
    } rows[] = {
        {VERITY_SHA256, 32, 44, VERITY_OK},         {VERITY_SHA512, 64, 76, VERITY_OK},
        {VERITY_SHA256, 31, 44, VERITY_BAD_LENGTH}, {VERITY_SHA256, 33, 44, VERITY_BAD_LENGTH},
        {VERITY_SHA256, 33, 45, VERITY_BAD_LENGTH}, {VERITY_SHA256, 64, 76, VERITY_BAD_LENGTH},
        {VERITY_SHA256, 32, 43, VERITY_BAD_LENGTH}, {VERITY_SHA256, 32, 45, VERITY_BAD_LENGTH},
        {VERITY_SHA256, 0, 12, VERITY_BAD_LENGTH},  {VERITY_SHA512, 64, 75, VERITY_BAD_LENGTH},
        {VERITY_SHA512, 32, 44, VERITY_BAD_LENGTH}, {VERITY_SHA512, 64, 0, VERITY_BAD_LENGTH},
        {VERITY_SHA1, 20, 32, VERITY_BAD_HASH_ALGORITHM},   {VERITY_SHA224, 28, 40, VERITY_BAD_HASH_ALGORITHM},
        {VERITY_SHA384, 48, 60, VERITY_BAD_HASH_ALGORITHM}, {0, 32, 44, VERITY_BAD_HASH_ALGORITHM},
        {6, 0, 0, VERITY_BAD_HASH_ALGORITHM},
    };
    uint8_t digest[64], painted[76];
    size_t i;

    random_bytes(digest, sizeof digest);
    for (i = 0; i < sizeof rows / sizeof *rows; i++) {
        uint8_t *given = place(BLOCK, digest, rows[i].digest_length);
        uint8_t *formatted;
        int status;

        memset(painted, 0x5a, sizeof painted);
        formatted = place(FIRST_FILLED, painted, rows[i].room);
        status = fsverity_formatted_digest(rows[i].algorithm, given, rows[i].digest_length, formatted, rows[i].room);
        check(status == rows[i].status, "formatted digest, row %zu: status %d", i, status);
        if (rows[i].status == VERITY_OK)
            check(memcmp(formatted, "FSVerity", 8) == 0 && formatted[8] == rows[i].algorithm && formatted[9] == 0 &&
                      formatted[10] == rows[i].digest_length && formatted[11] == 0 &&
                      memcmp(formatted + 12, digest, rows[i].digest_length) == 0,
                  "formatted digest, row %zu: other bytes", i);
        else
            check(memcmp(formatted, painted, rows[i].room) == 0, "formatted digest, row %zu: changed", i);
        check_same(digest, given, rows[i].digest_length, "fsverity_formatted_digest", "digest");
    }
}

/* ------------------------------------- What other programs know, too ------------------------------------- */

static int prints_functions(void)
{
    uint32_t number;
    char name[VERITY_MAX_TEXT_SIZE];
    size_t length, digest_length;

    for (number = 0; number < 100; number++)
        if (verity_algorithm_name(number, name, sizeof name, &length) == VERITY_OK &&
            verity_digest_length(number, &digest_length) == VERITY_OK)
            printf("%" PRIu32 " %s %zu\n", number, name, digest_length);
    return 0;
}

static int prints_defaults(char **words)
{
    uint8_t superblock[SUPERBLOCK_SIZE];
    struct verity_params params;
    size_t i;

    if (verity_default_params(number_of(words[0]), &params) < 0)
        give_up("there are no such defaults");
    params.salt_size = (uint32_t)bytes_of_text(words[1], params.salt, sizeof params.salt);
    if (bytes_of_text(words[2], params.uuid, sizeof params.uuid) != sizeof params.uuid ||
        verity_write_superblock(&params, superblock, sizeof superblock) < 0)
        give_up("the defaults have no superblock");
    for (i = 0; i < sizeof superblock; i++)
        printf("%02x", superblock[i]);
    printf("\n");
    return 0;
}

static int prints_end(const char *name, const char *offset)
{
    uint8_t superblock[SUPERBLOCK_SIZE];
    struct verity_params params;
    uint64_t at = number_of(offset), end;
    FILE *file = fopen(name, "rb");

    if (file == NULL || fseek(file, (long)at, SEEK_SET) != 0 ||
        fread(superblock, 1, sizeof superblock, file) != sizeof superblock ||
        verity_read_superblock(superblock, sizeof superblock, at, &params) < 0 ||
        verity_hash_area_end(&params, &end) < 0)
        give_up("the superblock has no hash area");
    fclose(file);
    printf("%" PRIu64 "\n", end);
    return 0;
}

static int prints_bare_end(char **words)
{
    struct verity_params params = {.hash_algorithm = VERITY_SHA256, .no_superblock = 1};
    uint64_t end;

    params.hash_type = (uint32_t)number_of(words[0]);
    params.data_block_size = (uint32_t)number_of(words[1]);
    params.hash_block_size = (uint32_t)number_of(words[2]);
    params.data_blocks = number_of(words[3]);
    params.hash_offset = number_of(words[4]);
    if (verity_hash_area_end(&params, &end) < 0)
        give_up("the parameters have no hash area");
    printf("%" PRIu64 "\n", end);
    return 0;
}

static int prints_size(char **words)
{
    struct fsverity_params params = {.salt_size = 0};
    uint64_t size;

    params.hash_algorithm = (uint32_t)number_of(words[0]);
    params.block_size = (uint32_t)number_of(words[1]);
    params.size = number_of(words[2]);
    if (fsverity_tree_size(&params, &size) < 0)
        give_up("the file has no tree");
    printf("%" PRIu64 "\n", size);
    return 0;
}

static int prints_formatted(const char *number, const char *digits)
{
    uint8_t digest[64], formatted[12 + 64];
    size_t length = bytes_of_text(digits, digest, sizeof digest), i;

    if (fsverity_formatted_digest((uint32_t)number_of(number), digest, length, formatted, 12 + length) < 0)
        give_up("there is no formatted digest");
    for (i = 0; i < 12 + length; i++)
        printf("%02x", formatted[i]);
    printf("\n");
    return 0;
}

int main(int count, char **words)
{
    const char *wanted = count > 1 ? words[1] : "";

    if (strcmp(wanted, "functions") == 0)
        return prints_functions();
    if (strcmp(wanted, "defaults") == 0 && count == 5)
        return prints_defaults(words + 2);
    if (strcmp(wanted, "end") == 0 && count == 4)
        return prints_end(words[2], words[3]);
    if (strcmp(wanted, "bare") == 0 && count == 7)
        return prints_bare_end(words + 2);
    if (strcmp(wanted, "size") == 0 && count == 5)
        return prints_size(words + 2);
    if (strcmp(wanted, "formatted") == 0 && count == 4)
        return prints_formatted(words[2], words[3]);
    if (strcmp(wanted, "version") == 0) {
        printf("%" PRIu32 " %d\n", verity_version(),
               VERITY_VERSION_MAJOR * 10000 + VERITY_VERSION_MINOR * 100 + VERITY_VERSION_PATCH);
        return 0;
    }
    if (strcmp(wanted, "checks") != 0)
        give_up("the words can't be read");
    seed_random(1);
    try_same_params();
    try_defaults();
    try_texts();
    try_names();
    try_ends();
    try_sizes();
    try_formatted();
    return finish();
}
