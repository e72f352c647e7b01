/*
 * verity.h - superblocks, places of hash blocks, checks of blocks and the building of trees of dm-verity and fs-verity.
 *
 * Each function is proved: whatever numbers, bytes and structs it is handed, it returns, and its answer is that of the
 * definitions. Of a tree that is built in pieces or from parts, hash blocks, digests and root hash are so only while
 * struct and memory stand as the call before left them, and a join is handed the digests of its parts (what holds
 * otherwise is said below). The library takes no memory, keeps nothing of a call for the next but what it asked the
 * processor (below), opens and prints nothing, and takes no lock: any number of threads may call it at once, but only
 * one at a time with the struct and the memory of one tree, part or join. It calls memcpy, memmove and memset, and
 * nothing else but, on 64-bit ARM, getauxval.
 *
 * What every caller owes, since it can't be checked here:
 *   - a pointer points to as many bytes as the length after it says, or to a whole struct or number; structs and
 *     numbers are aligned. A pointer may be null if its length is 0, as data() of an empty std::vector of C++ may be,
 *     and never else;
 *   - what counts has been given a value. No value is needed by what a function only fills, by the padding of structs,
 *     by bytes of a salt after the first salt_size, by a size and a uuid that aren't looked at, and by the memory with
 *     which a tree, a part or a join is begun: nothing depends on what stands there, and it may be as malloc gave it;
 *   - what a function writes to overlaps nothing else that it is handed;
 *   - nothing of it is changed by others while the call runs.
 *
 * And what has to be trusted: a root hash stands for the data of dm-verity only together with the parameters, and
 * doesn't cover the superblock. Whoever reads that from where an attacker can write has to compare the parameters with
 * trusted ones, by verity_same_params. A file digest of fs-verity covers parameters and root hash: check it by
 * fsverity_file_digest before they are used.
 *
 * The Linux kernel takes less than these functions do. For dm-verity it refuses data blocks above its page size, 4096
 * bytes on x86-64, blocks smaller than a sector of their device, and a hash device that ends before the place of its
 * first hash block, as it may with a single data block. For fs-verity it refuses blocks below 1024 bytes, above its
 * page size or above the file system's block size; before Linux 6.3 it took those of its page size alone.
 *
 * Data blocks are counted from 0, and so are levels; level 0 is next to the data. Sizes, lengths, offsets and starts
 * are in bytes. A block that is checked is handed in whole: the last one of a file with the zeros that fill it. What is
 * fed is the data alone.
 *
 * Every function but verity_version answers a status: VERITY_OK, which is 0, or one of the negative numbers below, so
 * that status < 0 and status != VERITY_OK are the same question. Statuses aren't numbers of errno.h. The status is
 * that of the first fault, in the order that is said beside the function. Don't ignore one: gcc and clang warn where a
 * status is dropped. What a function fills or changes stays as it was if the status isn't VERITY_OK, but for level:
 * verity_check_block and fsverity_check_block set it with VERITY_DIFFERS, and it may be looked at after VERITY_DIFFERS
 * alone.
 *
 * Vector registers must be switched on: SSE2 on x86-64 (for a library for x86-64-v2 up to SSE4.2, for x86-64-v3 up to
 * AVX2), NEON on 64-bit ARM. They are used by most calls, so a kernel saves them before one. What a call keeps is what
 * the ABI of the target says, as long as memcpy, memmove and memset keep it, too:
 *   - x86-64 (System V): rbx, rbp, r12 to r15, MXCSR, the x87 control word and the direction flag; x87 and MMX
 *     registers aren't used. Nothing below the stack pointer is read or written, so the library doesn't use the red
 *     zone.
 *   - 64-bit ARM (AAPCS64): x19 to x29, d8 to d15 and FPCR. x18 is left alone, too, and nothing below the stack pointer
 *     is read or written. libverity-strict-align.a reads and writes memory at aligned addresses alone, as is needed
 *     with the MMU off; where that or x18 matters, memcpy, memmove and memset have to be compiled so, too.
 *
 * It hashes by SHA instructions where the processor has them. On x86-64 it asks the processor once, by CPUID, and keeps
 * the answer in one byte, which every thread sets to the same. On 64-bit ARM it asks getauxval(AT_HWCAP); where there
 * is no such function, and in a static program that doesn't name it, it goes without. A library that is built with
 * SHA=no, and libverity-strict-align.a always, has no SHA instructions and no variables, and calls memcpy, memmove and
 * memset alone.
 *
 * The stack is aligned to 16 bytes at each call, as these ABIs want. Bytes may stand at any address. The library has no
 * variables but that byte, so that a call may come at any time, from a signal or interrupt handler also. It has no
 * unwind tables (.eh_frame): neither a backtrace nor an exception gets through a call. It has no landing pads for IBT
 * or BTI (endbr64, bti), signs no pointers (PAC), and has no note (.note.gnu.property) that marks it for these or for
 * shadow stacks, so that no program is marked that it is linked into. On x86-64 it also jumps by tables, so that it
 * can't run where IBT is on.
 *
 * A call takes up to 12 KiB of stack on either target, and one that feeds or ends up to 16 KiB, with
 * libverity-strict-align.a up to 18 KiB. These are the most bytes that a call can take by the library's code, whatever
 * it is handed, but for what memcpy, memmove, memset and getauxval take:
 *
 *                                                 x86-64   64-bit ARM   libverity-strict-align.a
 *     a part that is fed or ended                  15208        14464                      17200
 *     a tree that is fed or ended                  14696        14000                      16704
 *     a join that is fed or ended, a file digest   10120         9280                      11552
 *     a block that is checked                       8584         7712                       9856
 *     any other call                                3112         3136                       3120
 *
 * Data that is written, copied or downloaded is fed to a tree as it comes, in pieces of any length, 0 too. The
 * functions whose names have _build_ in them do that, in memory of the caller's, exactly as long as verity_build_memory
 * or fsverity_build_memory says, 65536 bytes for fs-verity with SHA-256 and blocks of 4096 bytes: longer memory is
 * refused, too (VERITY_BAD_LENGTH). A tree of dm-verity has a stated number of data blocks, and each of its hash blocks
 * is handed out once, as it closes:
 *
 *     status = verity_build_begin(&params, &build, memory, memory_length);
 *     and for each piece:
 *     for (;;) {
 *         status = verity_build_feed(&params, &build, memory, memory_length, piece, length, &fed);
 *         if (status < 0)
 *             return status;
 *         piece += fed.taken;
 *         length -= fed.taken;
 *         if (fed.block_length == 0)
 *             break;
 *         if (pwrite(device, memory + fed.block_at, fed.block_length, fed.block_start) != (ssize_t)fed.block_length)
 *             return 1;
 *     }
 *     and after the last piece:
 *     status = verity_build_end(&params, &build, memory, memory_length, root, root_length);
 *
 * A file's length need not be known before. fsverity_build_begin, fsverity_build_feed for each piece, and
 * fsverity_build_end give root hash and file digest, and the parameters then have the file's size.
 *
 * Who wants the blocks of the file's tree, too, calls the functions whose names begin with fsverity_tree_build_. Each
 * block is handed out as soon as it is the tree's however the file goes on, with its level and its number in the level;
 * at the end the last block of each level is left. Then it is known where they go: block INDEX of a level stands
 * INDEX * block_size bytes after the start that fsverity_level_start gives. Here keep keeps a block until then:
 *
 *     status = fsverity_tree_build_begin(&params, &build, memory, memory_length);
 *     and for each piece:
 *     do {
 *         status = fsverity_tree_build_feed(&params, &build, memory, memory_length, piece, length, &fed);
 *         if (status < 0)
 *             return status;
 *         if (fed.block_length > 0)
 *             keep(fed.block_level, fed.block_index, memory + fed.block_at, fed.block_length);
 *         piece += fed.taken;
 *         length -= fed.taken;
 *     } while (length > 0);
 *     and after the last piece:
 *     for (level = 0;; level++) {
 *         status = fsverity_tree_build_end_block(&params, &build, memory, memory_length, level, block,
 *                                                params.block_size, &index);
 *         if (status == VERITY_NO_SUCH_LEVEL)
 *             break;
 *         if (status < 0)
 *             return status;
 *         keep(level, index, block, params.block_size);
 *     }
 *     status = fsverity_tree_build_end(&params, &build, memory, memory_length, root, root_length, digest, root_length);
 *     params.size = build.fed;
 *
 * A tree can be built from parts, too, by as many threads, processes or machines as the caller has. A part of a level
 * is what stands below one of the digests of which the level's hash blocks are made: data blocks, and the hash blocks
 * of the levels below. It needs nothing of the other parts. Each part is built like a tree, by the functions whose
 * names have _part_ in them, and ends with a digest; the functions with _join_ take the digests of all parts in order,
 * hand out the hash blocks of the level and above, and end with the root hash. Which part is built when, and where,
 * doesn't matter: each hash block of the tree is handed out once, with its place. The memory is exactly as long as
 * verity_part_memory, or for the join verity_join_memory, says.
 *
 *     status = verity_part_count(&params, level, &parts, &blocks);
 *     for each part, wherever it is built:
 *     status = verity_part_begin(&params, level, number, &part, memory, memory_length);
 *     and for each piece of its data, from block number * blocks on, the first loop above with verity_part_feed; then
 *     status = verity_part_end(&params, &part, memory, memory_length, digest, digest_length);
 *     and with all digests:
 *     status = verity_join_begin(&params, level, &join, memory, memory_length);
 *     the same loop with verity_join_feed, over the digests one after another; then
 *     status = verity_join_end(&params, &join, memory, memory_length, root, root_length);
 *
 * A part of level 1 has as many data blocks as a hash block has digests (128 with SHA-256 and blocks of 4096 bytes),
 * one of level 2 the square of that. The last part of a level has what is left, but hash blocks of all levels below,
 * even above a single data block. A part hands out a hash block when a byte comes after those below it, or after the
 * part's last byte; a join hands one out at once with the last digest below it.
 *
 * A file's tree, of a size that is known, is built from parts in the same way, with the same structs and the first loop
 * above, by the functions whose names begin with fsverity_part_ and fsverity_join_. There block_start is counted from
 * the beginning of the tree, and fsverity_join_end gives the file digest, too.
 *
 * Each part that is built at one time has a struct and a memory of its own. All parts and their join have the same
 * level and the same parameters, of a file also the same size. The library can't know whose digest it is handed, and
 * answers no fault: with another digest than the part's the root hash is another, unless two different blocks with one
 * salted hash were found. Parts with the same data have one digest, so there it doesn't matter whose is handed in.
 *
 * It is proved that each of these loops ends, whatever stands in struct and memory, and that the tree is the same where
 * a part was begun, given up and built again, while its data is the same.
 *
 * An image is checked by parts like this: compare each hash block that is handed out with the one that stands at its
 * place, and of the first differences of each part and of the join take the earliest: the one that closes after the
 * fewest data blocks, and of two that close with the same one that of the lower level. Block number N of level L closes
 * with the last data block of part number N of level L + 1. So, where there is all the data, the difference is the one
 * that `veritysetup verify` names. If there is none, compare the root hash with the trusted one.
 *
 * Memory and struct hold all that is kept between the calls. The struct is struct verity_build, of a part struct
 * verity_part and of a join struct verity_join, also if they are a file's, and after fsverity_build_begin struct
 * fsverity_params. They are left alone then, but may be moved and copied, both together: a copy goes on by itself. They
 * may also be stored between any two calls, together with the parameters, and the tree goes on from there, in another
 * process or on another machine, by a library of the same major version. Some of the memory may still be what it was
 * before the tree was begun: clear it first if that is secret. Before they are stored, every hash block that was handed
 * out has to be where it can't be lost (fsync), except the one that a function whose name ends in _last_block names,
 * which stands in the memory; where a file's length isn't known, no function names a block once more. The same holds
 * for the bytes that were fed, if the caller writes them as they come. Whoever goes on writes that hash block first,
 * even if nothing more is to be fed; that of a part or a join is named by the function of its own:
 *
 *     status = verity_build_last_block(&params, &build, &fed);
 *     if (status < 0)
 *         return status;
 *     if (fed.block_length > 0 &&
 *         pwrite(device, memory + fed.block_at, fed.block_length, fed.block_start) != (ssize_t)fed.block_length)
 *         return 1;
 *
 * Then the data is fed from byte build.fed on; after fsverity_build_begin, from the size in the parameters on; that of
 * a part from the part's byte part.fed on; and to a join the digests from number join.taken on. If nothing more is
 * left, 0 bytes are fed until no hash block is handed out.
 *
 * If anything else stands in memory and struct, or a join is handed other digests, hash blocks, digests and root hash
 * mean nothing. All else holds: a call returns, with the status that is said of the numbers in the struct, it reads and
 * writes nothing but what it is handed, and a hash block that it names is within the memory and, where the tree's size
 * is known, has the start of one of the tree.
 *
 * Example: check DATA HASH INDEX ends with 0 if this data block is right, with 1 if it isn't, and with 2 if it can't be
 * checked. The root hash comes from standard input, as bytes. The superblock is trusted here.
 *
 *     #include <stdio.h>
 *     #include <stdlib.h>
 *     #include <verity.h>
 *
 *     static int read_at(const char *name, uint64_t start, uint8_t *bytes, size_t length)
 *     {
 *         FILE *file = fopen(name, "rb");
 *         int is_read = file != NULL && fseek(file, (long)start, SEEK_SET) == 0 &&
 *                       fread(bytes, 1, length, file) == length;
 *
 *         if (file != NULL)
 *             fclose(file);
 *         return is_read;
 *     }
 *
 *     int main(int count, char **words)
 *     {
 *         static uint8_t superblock[512], block[524288], path[5 * 524288], root[VERITY_MAX_DIGEST_SIZE];
 *         struct verity_params params = {0};
 *         size_t root_length = fread(root, 1, sizeof root, stdin), levels = 0, level;
 *         uint64_t index, start = 0;
 *
 *         if (count != 4 || !read_at(words[2], 0, superblock, sizeof superblock) ||
 *             verity_read_superblock(superblock, sizeof superblock, 0, &params) != VERITY_OK ||
 *             verity_level_count(&params, &levels) != VERITY_OK)
 *             return 2;
 *         index = strtoull(words[3], NULL, 10);
 *         if (index >= params.data_blocks ||
 *             !read_at(words[1], index * params.data_block_size, block, params.data_block_size))
 *             return 2;
 *         for (level = 0; level < levels; level++)
 *             if (verity_hash_block_start(&params, index, level, &start) != VERITY_OK ||
 *                 !read_at(words[2], start, path + level * params.hash_block_size, params.hash_block_size))
 *                 return 2;
 *         switch (verity_check_block(&params, index, block, params.data_block_size, path,
 *                                    levels * params.hash_block_size, root, root_length, &level)) {
 *         case VERITY_OK:
 *             return 0;
 *         case VERITY_DIFFERS:
 *             return 1;
 *         default:
 *             return 2;
 *         }
 *     }
 */
#ifndef VERITY_H
#define VERITY_H

#include <stddef.h>
#include <stdint.h>

#define VERITY_VERSION_MAJOR 2
#define VERITY_VERSION_MINOR 1
#define VERITY_VERSION_PATCH 0

#ifdef __cplusplus
extern "C" {
#endif

/*
 * Stands before each function: gcc and clang warn of a call whose status isn't used, gcc also behind a cast to void.
 * Other compilers see nothing.
 */
#ifdef __GNUC__
#define VERITY_MUST_CHECK __attribute__((warn_unused_result))
#else
#define VERITY_MUST_CHECK
#endif

/* Statuses: what each function answers, as an int. */
enum verity_status {
    VERITY_OK = 0,
    /*
     * A block isn't the one that the digest above it, or the root hash, stands for; or parameters aren't the trusted
     * ones.
     */
    VERITY_DIFFERS = -1,
    /* There is no data block of this number. */
    VERITY_NO_SUCH_BLOCK = -2,
    /*
     * The tree has no level of this number; to parts and joins the number above the top is one, too. Or the struct of
     * what is built counts more levels than there are, or that of a join none after the last digest.
     */
    VERITY_NO_SUCH_LEVEL = -3,
    /*
     * A block, a path, a digest, the memory or a buffer has the wrong length, or digests that are joined aren't whole;
     * a root hash and its buffer have the next status.
     */
    VERITY_BAD_LENGTH = -4,
    /*
     * The root hash, or the buffer for it, isn't as long as a digest of the hash function. Another root hash is
     * VERITY_DIFFERS.
     */
    VERITY_BAD_ROOT_LENGTH = -5,
    /* The parameters, or the superblock. */
    VERITY_BAD_HASH_ALGORITHM = -6,
    VERITY_BAD_HASH_TYPE = -7,
    VERITY_BAD_DATA_BLOCK_SIZE = -8,
    VERITY_BAD_HASH_BLOCK_SIZE = -9,
    VERITY_BAD_SALT_SIZE = -10,
    /* The hash offset is no multiple of 512, or without a superblock of the hash block size. */
    VERITY_BAD_HASH_OFFSET = -11,
    VERITY_NO_DATA = -12,
    /*
     * The data or the hash area would end past 2^63 - 1 bytes. The last block of a file counts with the zeros that
     * fill it.
     */
    VERITY_TOO_LARGE = -13,
    /* The superblock alone: fewer than 512 bytes, another signature, another version. */
    VERITY_SHORT_SUPERBLOCK = -14,
    VERITY_BAD_SIGNATURE = -15,
    VERITY_BAD_VERSION = -16,
    /* What is fed, or a struct that is disturbed: more bytes or digests than the parameters say, or fewer. */
    VERITY_TOO_LONG = -17,
    VERITY_TOO_SHORT = -18,
    /* A hash block, or the rest of a piece, is still to come: the function that feeds is to be called again. */
    VERITY_WAITING = -19,
    /* The level of the tree has no part of this number. */
    VERITY_NO_SUCH_PART = -20
};

/* Hash functions. fs-verity has the first two alone. */
enum verity_hash_algorithm {
    VERITY_SHA256 = 1,
    VERITY_SHA512 = 2,
    VERITY_SHA1 = 3,
    VERITY_SHA224 = 4,
    VERITY_SHA384 = 5
};

/* The length of the longest digest. */
#define VERITY_MAX_DIGEST_SIZE 64

/* Room enough for each text, with the zero after it. */
#define VERITY_MAX_TEXT_SIZE 64

/*
 * Parameters of a dm-verity tree. verity_read_superblock fills them; without a superblock the caller does, perhaps
 * after verity_default_params. Each function below checks them: VERITY_BAD_HASH_ALGORITHM, VERITY_BAD_HASH_TYPE,
 * VERITY_BAD_DATA_BLOCK_SIZE, VERITY_BAD_HASH_BLOCK_SIZE, VERITY_BAD_SALT_SIZE, VERITY_BAD_HASH_OFFSET, VERITY_NO_DATA,
 * VERITY_TOO_LARGE.
 */
struct verity_params {
    uint32_t hash_algorithm;  /* one of enum verity_hash_algorithm */
    uint32_t hash_type;       /* 0 or 1 */
    uint32_t data_block_size; /* a power of two, 512 to 524288 */
    uint32_t hash_block_size; /* the same */
    uint64_t data_blocks;     /* how many, at least 1 */
    uint64_t hash_offset;     /* the byte of the hash device at which the superblock stands, or without one the tree */
    uint32_t no_superblock;   /* 0 if a superblock stands there, any other number if none does */
    uint32_t salt_size;       /* how many bytes of salt count, 0 to 256 */
    uint8_t salt[256];        /* and bytes that don't count; zeros are read of a superblock */
    uint8_t uuid[16];         /* the superblock's; verity_write_superblock alone looks at it */
};

/*
 * Parameters of a file's fs-verity tree. Each function below checks all but the size: VERITY_BAD_HASH_ALGORITHM,
 * VERITY_BAD_DATA_BLOCK_SIZE, VERITY_BAD_SALT_SIZE. Those of levels, starts, the tree's size and checks of blocks go
 * on with the size: VERITY_NO_DATA, VERITY_TOO_LARGE; and so do those of parts and joins. A file digest and a
 * descriptor have any size, and the functions with _build_ in their names count it themselves.
 */
struct fsverity_params {
    uint32_t hash_algorithm; /* VERITY_SHA256 or VERITY_SHA512 */
    uint32_t block_size;     /* a power of two, at least two digests, up to 524288 */
    uint64_t size;           /* of the file */
    uint32_t salt_size;      /* how many bytes of salt count, 0 to 32 */
    uint8_t salt[32];
};

/*
 * The parameters that `veritysetup format` takes for so many data blocks where no option says otherwise: SHA-256, hash
 * type 1, data and hash blocks of 4096 bytes, and a superblock at byte 0 of the hash device. They have no salt, and a
 * uuid of zeros: `veritysetup format` draws 32 bytes of salt and a UUID, and so does the caller who wants them.
 *
 * VERITY_NO_DATA, VERITY_TOO_LARGE.
 */
VERITY_MUST_CHECK int verity_default_params(uint64_t data_blocks, struct verity_params *params);

/*
 * Reads the superblock that the first 512 bytes say. hash_offset is where they stand on the hash device; it goes into
 * the parameters as it is. What else a tree at that place needs, the other functions find: a hash offset that is a
 * multiple of 512, and room for the hash area.
 *
 * VERITY_SHORT_SUPERBLOCK, VERITY_BAD_SIGNATURE, VERITY_BAD_VERSION, VERITY_BAD_HASH_TYPE, VERITY_BAD_DATA_BLOCK_SIZE,
 * VERITY_BAD_HASH_BLOCK_SIZE, VERITY_BAD_HASH_ALGORITHM, VERITY_BAD_SALT_SIZE, VERITY_NO_DATA, VERITY_TOO_LARGE.
 */
VERITY_MUST_CHECK int verity_read_superblock(const uint8_t *bytes, size_t length, uint64_t hash_offset,
                                             struct verity_params *params);

/*
 * Whether parameters, as those that were read of a superblock that can't be trusted, are the trusted ones in all that a
 * root hash needs to stand for the data: hash_algorithm, hash_type, both block sizes, data_blocks, and the bytes of the
 * salt that count. Hash offset, no_superblock and UUID aren't compared. VERITY_OK, which is 0, if they are:
 *
 *     status = verity_same_params(&params, &trusted);
 *     if (status < 0)
 *         return status;
 *
 * A fault of the parameters, a fault of the trusted parameters, VERITY_DIFFERS.
 */
VERITY_MUST_CHECK int verity_same_params(const struct verity_params *params, const struct verity_params *trusted);

/* How many levels of hash blocks the tree has: 0 for a single data block. A fault of the parameters. */
VERITY_MUST_CHECK int verity_level_count(const struct verity_params *params, size_t *levels);

/*
 * The byte of the hash device at which a level begins, and how many hash blocks it has. They stand one after another.
 *
 * A fault of the parameters, VERITY_NO_SUCH_LEVEL.
 */
VERITY_MUST_CHECK int verity_level_start(const struct verity_params *params, size_t level, uint64_t *start,
                                         uint64_t *blocks);

/*
 * The byte of the hash device at which the hash area ends, after superblock and hash blocks: a hash device that has a
 * hash block has at least so many bytes, and an image that carries the tree after its data has just as many. A single
 * data block has no hash block: then it is the byte at which the tree would begin, which the kernel wants to be there.
 * That is the first multiple of the hash block size from the end of the superblock on, or without one the hash offset.
 *
 * A fault of the parameters.
 */
VERITY_MUST_CHECK int verity_hash_area_end(const struct verity_params *params, uint64_t *end);

/*
 * The byte of the hash device at which the hash block of a level stands that is above a data block.
 *
 * A fault of the parameters, VERITY_NO_SUCH_BLOCK, VERITY_NO_SUCH_LEVEL.
 */
VERITY_MUST_CHECK int verity_hash_block_start(const struct verity_params *params, uint64_t index, size_t level,
                                              uint64_t *start);

/*
 * Checks a data block by its path: the hash blocks above it, one after another, level 0 first. With the status
 * VERITY_DIFFERS, level becomes the lowest level at which the hash of the block below isn't the digest in its slot of
 * the path's block, or the number of levels if the hash of the top block isn't the root hash. No path has more than
 * 2621440 bytes, in fs-verity 2097152.
 *
 * A fault of the parameters, VERITY_BAD_ROOT_LENGTH, VERITY_NO_SUCH_BLOCK, VERITY_BAD_LENGTH, VERITY_DIFFERS.
 */
VERITY_MUST_CHECK int verity_check_block(const struct verity_params *params, uint64_t index, const uint8_t *block,
                                         size_t block_length, const uint8_t *path, size_t path_length,
                                         const uint8_t *root, size_t root_length, size_t *level);

/*
 * Checks one block by a hash block: the one of this level that is above data block index. For level 0 the block is that
 * data block, and for a higher level the hash block above it one level down. The hash block must be the one whose start
 * verity_hash_block_start gives for index and level, and have been accepted itself, with the same parameters. Then a
 * block that is accepted is the tree's, unless two different blocks with one salted hash were found. So hash blocks
 * that were accepted can be kept, each under its start.
 *
 * A fault of the parameters, VERITY_NO_SUCH_BLOCK, VERITY_NO_SUCH_LEVEL, VERITY_BAD_LENGTH, VERITY_DIFFERS.
 */
VERITY_MUST_CHECK int verity_check_link(const struct verity_params *params, uint64_t index, size_t level,
                                        const uint8_t *block, size_t block_length, const uint8_t *above,
                                        size_t above_length);

/*
 * Checks the top block by the root hash: the one hash block of the top level, or the data block if it is the only one.
 * index is the data block that is checked with it; any below data_blocks will do. Blocks that verity_check_link accepts
 * at each level, up to a top block that is accepted, are just what verity_check_block accepts.
 *
 * A fault of the parameters, VERITY_BAD_ROOT_LENGTH, VERITY_NO_SUCH_BLOCK, VERITY_BAD_LENGTH, VERITY_DIFFERS.
 */
VERITY_MUST_CHECK int verity_check_top(const struct verity_params *params, uint64_t index, const uint8_t *block,
                                       size_t block_length, const uint8_t *root, size_t root_length);

/*
 * The same functions for a file's fs-verity tree. Starts are counted from the beginning of the tree, and its end is its
 * size: fsverity_tree_size. A file of no bytes has no tree: VERITY_NO_DATA.
 */
VERITY_MUST_CHECK int fsverity_level_count(const struct fsverity_params *params, size_t *levels);
VERITY_MUST_CHECK int fsverity_level_start(const struct fsverity_params *params, size_t level, uint64_t *start,
                                           uint64_t *blocks);
VERITY_MUST_CHECK int fsverity_tree_size(const struct fsverity_params *params, uint64_t *size);
VERITY_MUST_CHECK int fsverity_hash_block_start(const struct fsverity_params *params, uint64_t index, size_t level,
                                                uint64_t *start);
VERITY_MUST_CHECK int fsverity_check_block(const struct fsverity_params *params, uint64_t index, const uint8_t *block,
                                           size_t block_length, const uint8_t *path, size_t path_length,
                                           const uint8_t *root, size_t root_length, size_t *level);
VERITY_MUST_CHECK int fsverity_check_link(const struct fsverity_params *params, uint64_t index, size_t level,
                                          const uint8_t *block, size_t block_length, const uint8_t *above,
                                          size_t above_length);
VERITY_MUST_CHECK int fsverity_check_top(const struct fsverity_params *params, uint64_t index, const uint8_t *block,
                                         size_t block_length, const uint8_t *root, size_t root_length);

/*
 * The digest of the file with these parameters and this root hash: the hash of its fs-verity descriptor. Whoever trusts
 * a file digest can trust parameters and root hash if this is the same. digest_length is exactly that of the hash
 * function's digests, 32 or 64. The root hash of a file of no bytes is zeros. A size that is too large for a tree has a
 * digest too.
 *
 * VERITY_BAD_HASH_ALGORITHM, VERITY_BAD_DATA_BLOCK_SIZE, VERITY_BAD_SALT_SIZE, VERITY_BAD_ROOT_LENGTH,
 * VERITY_BAD_LENGTH.
 */
VERITY_MUST_CHECK int fsverity_file_digest(const struct fsverity_params *params, const uint8_t *root,
                                           size_t root_length, uint8_t *digest, size_t digest_length);

/*
 * How far a tree is built: of dm-verity, or of a file whose blocks are handed out. verity_build_begin and
 * fsverity_tree_build_begin fill it, and verity_build_feed and fsverity_tree_build_feed go on with it.
 */
struct verity_build {
    uint64_t fed;  /* how many bytes were fed */
    size_t closed; /* of how many levels the hash blocks above the latest byte were handed out since it was fed */
};

/* What a function whose name ends in _feed has done, and what one in _last_block has found. */
struct verity_fed {
    size_t taken;         /* how many bytes of the piece, or of the digests, were taken */
    size_t block_length;  /* of the hash block that is handed out, or was last; 0 if there is none, and so all below */
    size_t block_at;      /* the byte of the memory at which it stands */
    uint64_t block_start; /* the byte of the hash device or the file's tree at which it goes; 0 if that isn't known */
    uint64_t block_index; /* its number in its level, from 0 */
    size_t block_level;   /* its level, from 0 next to the data */
};

/*
 * The length of the memory in which a tree is built: a hash block for each level, and up to eight data blocks, which
 * are hashed side by side; fewer if they would be more than 524288 bytes, or than a hash block has slots. It is 2629632
 * at most. The memory need not be aligned.
 *
 * A fault of the parameters.
 */
VERITY_MUST_CHECK int verity_build_memory(const struct verity_params *params, size_t *length);

/*
 * Begins a tree: build and memory are those of no bytes. What stood in them doesn't count and needs no value: memory
 * may come from malloc as it is.
 *
 * A fault of the parameters, VERITY_BAD_LENGTH.
 */
VERITY_MUST_CHECK int verity_build_begin(const struct verity_params *params, struct verity_build *build,
                                         uint8_t *memory, size_t memory_length);

/*
 * Feeds a piece of the data: all of it, or its bytes up to the next hash block that closes, which is handed out: it
 * stands in the memory until bytes are taken or the next one is handed out. Then the rest of the piece is to be fed,
 * perhaps of no bytes, until no hash block is handed out. So each hash block is handed out once, each after those
 * below it. One that closes with the last byte of a piece is handed out by the next call with more bytes. With the
 * last byte of the data, that call and the next ones hand out all that are left, one a call, and 0 bytes will do. The
 * parameters are those of verity_build_begin.
 *
 * A fault of the parameters, VERITY_BAD_LENGTH (the memory's), VERITY_NO_SUCH_LEVEL (more levels are closed than there
 * are), VERITY_TOO_LONG (with the whole piece there would be more bytes than data_blocks blocks have).
 */
VERITY_MUST_CHECK int verity_build_feed(const struct verity_params *params, struct verity_build *build, uint8_t *memory,
                                        size_t memory_length, const uint8_t *piece, size_t piece_length,
                                        struct verity_fed *fed);

/*
 * The hash block that verity_build_feed handed out last, once more: it stands in the memory until bytes are taken or
 * the next one is handed out. taken becomes 0, and so do the other numbers if none was handed out since the latest
 * byte was fed. Whoever goes on with what was stored calls this first, since that hash block may not have been
 * written.
 *
 * A fault of the parameters, VERITY_NO_SUCH_LEVEL (more levels are closed than there are), VERITY_TOO_LONG (more bytes
 * were fed than data_blocks blocks have).
 */
VERITY_MUST_CHECK int verity_build_last_block(const struct verity_params *params, const struct verity_build *build,
                                              struct verity_fed *fed);

/*
 * The root hash, when all data was fed and all hash blocks were handed out; before that VERITY_TOO_SHORT or
 * VERITY_WAITING, and nothing has changed. root_length is exactly that of the hash function's digests. It can be asked
 * for as often as one likes: build and memory stay those of the same bytes.
 *
 * A fault of the parameters, VERITY_BAD_LENGTH (the memory's), VERITY_BAD_ROOT_LENGTH, VERITY_NO_SUCH_LEVEL,
 * VERITY_TOO_LONG, VERITY_TOO_SHORT, VERITY_WAITING.
 */
VERITY_MUST_CHECK int verity_build_end(const struct verity_params *params, const struct verity_build *build,
                                       uint8_t *memory, size_t memory_length, uint8_t *root, size_t root_length);

/*
 * Writes the superblock of the parameters, with their uuid, into 512 bytes, which stand at the hash offset of the hash
 * device. verity_read_superblock reads them again. no_superblock only has its part in the faults of the parameters.
 *
 * A fault of the parameters, VERITY_BAD_LENGTH (length isn't 512).
 */
VERITY_MUST_CHECK int verity_write_superblock(const struct verity_params *params, uint8_t *bytes, size_t length);

/*
 * The length of the memory in which a file's tree is built: a block for each level of the largest file, and up to eight
 * more, as in verity_build_memory. With blocks of 4096 bytes it is 65536 for SHA-256 and 69632 for SHA-512; it is
 * 2621440 at most. The size isn't looked at.
 *
 * VERITY_BAD_HASH_ALGORITHM, VERITY_BAD_DATA_BLOCK_SIZE, VERITY_BAD_SALT_SIZE.
 */
VERITY_MUST_CHECK int fsverity_build_memory(const struct fsverity_params *params, size_t *length);

/*
 * Begins a file's tree: the memory is that of no bytes, and the size of the parameters becomes 0. What size and memory
 * were before doesn't count and needs no value: memory may come from malloc as it is. Some of it stays there until
 * bytes come.
 *
 * VERITY_BAD_HASH_ALGORITHM, VERITY_BAD_DATA_BLOCK_SIZE, VERITY_BAD_SALT_SIZE, VERITY_BAD_LENGTH.
 */
VERITY_MUST_CHECK int fsverity_build_begin(struct fsverity_params *params, uint8_t *memory, size_t memory_length);

/*
 * Feeds the next piece of the file, all of it. The size of the parameters counts the bytes that were fed, and the rest
 * of them is as it was for fsverity_build_begin.
 *
 * VERITY_BAD_HASH_ALGORITHM, VERITY_BAD_DATA_BLOCK_SIZE, VERITY_BAD_SALT_SIZE, VERITY_BAD_LENGTH (the memory's),
 * VERITY_TOO_LARGE (with the piece).
 */
VERITY_MUST_CHECK int fsverity_build_feed(struct fsverity_params *params, uint8_t *memory, size_t memory_length,
                                          const uint8_t *piece, size_t piece_length);

/*
 * Root hash and file digest of the bytes fed so far; with no bytes the root hash is zeros. root_length and
 * digest_length are exactly those of the hash function's digests. With the root hash the parameters are those of the
 * functions above. Both can be asked for at any time, as often as one likes: the memory stays that of the same bytes,
 * and feeding can go on.
 *
 * VERITY_BAD_HASH_ALGORITHM, VERITY_BAD_DATA_BLOCK_SIZE, VERITY_BAD_SALT_SIZE, VERITY_BAD_LENGTH (the memory's),
 * VERITY_BAD_ROOT_LENGTH, VERITY_BAD_LENGTH (the digest's), VERITY_TOO_LARGE.
 */
VERITY_MUST_CHECK int fsverity_build_end(const struct fsverity_params *params, uint8_t *memory, size_t memory_length,
                                         uint8_t *root, size_t root_length, uint8_t *digest, size_t digest_length);

/*
 * Begins a file's tree whose blocks are handed out: build and memory are those of no bytes. What stood in them doesn't
 * count and needs no value. The memory is exactly as long as fsverity_build_memory says. The size of the parameters
 * isn't looked at and needs no value, here and in the functions below: build->fed counts the bytes.
 *
 * VERITY_BAD_HASH_ALGORITHM, VERITY_BAD_DATA_BLOCK_SIZE, VERITY_BAD_SALT_SIZE, VERITY_BAD_LENGTH.
 */
VERITY_MUST_CHECK int fsverity_tree_build_begin(const struct fsverity_params *params, struct verity_build *build,
                                                uint8_t *memory, size_t memory_length);

/*
 * Feeds the next piece of the file: all of it, or its bytes up to the next block of the tree that closes, which is
 * handed out: it stands in the memory until the next call. Then the rest of the piece is to be fed, until no block is
 * handed out. So each block but the last one of each level is handed out once, each after those below it, as soon as
 * the bytes after it come.
 *
 * VERITY_BAD_HASH_ALGORITHM, VERITY_BAD_DATA_BLOCK_SIZE, VERITY_BAD_SALT_SIZE, VERITY_BAD_LENGTH (the memory's),
 * VERITY_TOO_LARGE (with the piece), VERITY_NO_SUCH_LEVEL (more levels are closed than there are).
 */
VERITY_MUST_CHECK int fsverity_tree_build_feed(const struct fsverity_params *params, struct verity_build *build,
                                               uint8_t *memory, size_t memory_length, const uint8_t *piece,
                                               size_t piece_length, struct verity_fed *fed);

/*
 * The last block of a level, as the tree has it of the file that ends here, and its number in the level. With those of
 * all levels and the blocks that were handed out, the tree is whole. If more is fed then, they aren't final, and come
 * again: they can be asked for at any time, as often as one likes, and build and memory stay those of the same bytes.
 * block_length is that of a block.
 *
 * VERITY_BAD_HASH_ALGORITHM, VERITY_BAD_DATA_BLOCK_SIZE, VERITY_BAD_SALT_SIZE, VERITY_BAD_LENGTH (the memory's, or the
 * block's), VERITY_WAITING (the rest of a piece is still to be fed), VERITY_TOO_LARGE, VERITY_NO_SUCH_LEVEL.
 */
VERITY_MUST_CHECK int fsverity_tree_build_end_block(const struct fsverity_params *params,
                                                    const struct verity_build *build, uint8_t *memory,
                                                    size_t memory_length, size_t level, uint8_t *block,
                                                    size_t block_length, uint64_t *index);

/*
 * Root hash and file digest of the bytes fed so far, as fsverity_build_end gives them; build and memory stay those of
 * the same bytes, and feeding can go on.
 *
 * VERITY_BAD_HASH_ALGORITHM, VERITY_BAD_DATA_BLOCK_SIZE, VERITY_BAD_SALT_SIZE, VERITY_BAD_LENGTH (the memory's),
 * VERITY_BAD_ROOT_LENGTH, VERITY_BAD_LENGTH (the digest's), VERITY_WAITING, VERITY_TOO_LARGE.
 */
VERITY_MUST_CHECK int fsverity_tree_build_end(const struct fsverity_params *params, const struct verity_build *build,
                                              uint8_t *memory, size_t memory_length, uint8_t *root, size_t root_length,
                                              uint8_t *digest, size_t digest_length);

/*
 * The parts of a level: how many there are, and how many data blocks each has but the last one, which has what is left,
 * down to a single one. So part number N begins with data block N * blocks. Level 0 has a part for each data block. The
 * level above the top, whose number is that of verity_level_count, has one part, the whole tree: there blocks is the
 * number of all data blocks.
 *
 * Of all functions of parts and joins, those whose names begin with fsverity_ do the same for a file whose size is
 * known. A data block is one of the file's blocks then, of which the last may have fewer bytes. A file of no bytes has
 * no parts: VERITY_NO_DATA.
 *
 * A fault of the parameters, VERITY_NO_SUCH_LEVEL.
 */
VERITY_MUST_CHECK int verity_part_count(const struct verity_params *params, size_t level, uint64_t *parts,
                                        uint64_t *blocks);
VERITY_MUST_CHECK int fsverity_part_count(const struct fsverity_params *params, size_t level, uint64_t *parts,
                                          uint64_t *blocks);

/*
 * How far a part is built, of dm-verity or of a file. The functions whose names end in _part_begin fill it, and those
 * in _part_feed go on with it. closed is at most level, and before the part's last byte no more than a tree above the
 * part's data alone has levels. That makes a difference for a last part that is short: the hash blocks of its other
 * levels close with its last byte.
 */
struct verity_part {
    size_t level;  /* the level whose part it is: its hash blocks are those of the levels below */
    uint64_t part; /* its number, from 0 */
    uint64_t fed;  /* how many of its bytes were fed */
    size_t closed; /* of how many levels the hash blocks above the latest byte were handed out since it was fed */
};

/*
 * The length of the memory in which each part of a level is built: a hash block for each level below, and up to eight
 * data blocks, as in verity_build_memory. It is no longer than that of the whole tree.
 *
 * A fault of the parameters, VERITY_NO_SUCH_LEVEL.
 */
VERITY_MUST_CHECK int verity_part_memory(const struct verity_params *params, size_t level, size_t *length);
VERITY_MUST_CHECK int fsverity_part_memory(const struct fsverity_params *params, size_t level, size_t *length);

/*
 * Begins a part of a level, by its number: struct and memory are those of no bytes. What stood in them doesn't count
 * and needs no value.
 *
 * A fault of the parameters, VERITY_NO_SUCH_LEVEL, VERITY_NO_SUCH_PART, VERITY_BAD_LENGTH.
 */
VERITY_MUST_CHECK int verity_part_begin(const struct verity_params *params, size_t level, uint64_t number,
                                        struct verity_part *part, uint8_t *memory, size_t memory_length);
VERITY_MUST_CHECK int fsverity_part_begin(const struct fsverity_params *params, size_t level, uint64_t number,
                                          struct verity_part *part, uint8_t *memory, size_t memory_length);

/*
 * Feeds a piece of the part's data: all of it, or its bytes up to the next hash block that closes, which is handed out,
 * with its number and its start in the whole tree: it stands in the memory until bytes are taken or the next one is
 * handed out. Then the rest of the piece is to be fed, perhaps of no bytes, until no hash block is handed out. So each
 * hash block of the part is handed out once, each after those below it. One that closes with the last byte of a piece
 * is handed out by the next call with more bytes. With the part's last byte, that call and the next ones hand out all
 * that are left, one a call, and 0 bytes will do. The last part of a file ends with the file: zeros that fill its last
 * block aren't fed. The parameters are those with which the part was begun.
 *
 * A fault of the parameters, VERITY_NO_SUCH_LEVEL, VERITY_NO_SUCH_PART, VERITY_BAD_LENGTH (the memory's),
 * VERITY_NO_SUCH_LEVEL (closed is more than is said of the struct), VERITY_TOO_LONG (with the whole piece there would
 * be more bytes than the part has).
 */
VERITY_MUST_CHECK int verity_part_feed(const struct verity_params *params, struct verity_part *part, uint8_t *memory,
                                       size_t memory_length, const uint8_t *piece, size_t piece_length,
                                       struct verity_fed *fed);
VERITY_MUST_CHECK int fsverity_part_feed(const struct fsverity_params *params, struct verity_part *part,
                                         uint8_t *memory, size_t memory_length, const uint8_t *piece,
                                         size_t piece_length, struct verity_fed *fed);

/*
 * The hash block of the part that was handed out last, once more: it stands in the memory until bytes are taken or the
 * next one is handed out. taken becomes 0, and so do the other numbers if none was handed out since the latest byte was
 * fed. Whoever goes on with a part that was stored calls this first.
 *
 * A fault of the parameters, VERITY_NO_SUCH_LEVEL, VERITY_NO_SUCH_PART, VERITY_NO_SUCH_LEVEL (closed is more than is
 * said of the struct), VERITY_TOO_LONG (more bytes were fed than the part has).
 */
VERITY_MUST_CHECK int verity_part_last_block(const struct verity_params *params, const struct verity_part *part,
                                             struct verity_fed *fed);
VERITY_MUST_CHECK int fsverity_part_last_block(const struct fsverity_params *params, const struct verity_part *part,
                                               struct verity_fed *fed);

/*
 * The part's digest, when all its data was fed and all its hash blocks were handed out; before that VERITY_TOO_SHORT or
 * VERITY_WAITING. digest_length is exactly that of the hash function's digests. It can be asked for as often as one
 * likes: struct and memory stay those of the same bytes.
 *
 * A fault of the parameters, VERITY_NO_SUCH_LEVEL, VERITY_NO_SUCH_PART, VERITY_BAD_LENGTH (the memory's, or the
 * digest's), VERITY_NO_SUCH_LEVEL (closed is more than is said of the struct), VERITY_TOO_LONG, VERITY_TOO_SHORT,
 * VERITY_WAITING.
 */
VERITY_MUST_CHECK int verity_part_end(const struct verity_params *params, const struct verity_part *part,
                                      uint8_t *memory, size_t memory_length, uint8_t *digest, size_t digest_length);
VERITY_MUST_CHECK int fsverity_part_end(const struct fsverity_params *params, const struct verity_part *part,
                                        uint8_t *memory, size_t memory_length, uint8_t *digest, size_t digest_length);

/*
 * How far the parts of a level are joined, of dm-verity or of a file. The functions whose names end in _join_begin fill
 * it, and those in _join_feed go on with it. closed is at most the number of levels from this one on. After the last
 * digest it is at least 1, if there is such a level.
 */
struct verity_join {
    size_t level;   /* the level whose parts are joined: the hash blocks are those of this level and above */
    uint64_t taken; /* how many digests were taken */
    size_t closed;  /* of how many levels the hash blocks above the latest digest were handed out since it was taken */
};

/*
 * The length of the memory in which the parts of a level are joined: a hash block for each level from this one on, and
 * a digest.
 *
 * A fault of the parameters, VERITY_NO_SUCH_LEVEL.
 */
VERITY_MUST_CHECK int verity_join_memory(const struct verity_params *params, size_t level, size_t *length);
VERITY_MUST_CHECK int fsverity_join_memory(const struct fsverity_params *params, size_t level, size_t *length);

/*
 * Begins to join the parts of a level: no digest was taken. What stood in struct and memory doesn't count and needs no
 * value. The memory is exactly as long as the function above says, here and in those below.
 *
 * A fault of the parameters, VERITY_NO_SUCH_LEVEL, VERITY_BAD_LENGTH.
 */
VERITY_MUST_CHECK int verity_join_begin(const struct verity_params *params, size_t level, struct verity_join *join,
                                        uint8_t *memory, size_t memory_length);
VERITY_MUST_CHECK int fsverity_join_begin(const struct fsverity_params *params, size_t level, struct verity_join *join,
                                          uint8_t *memory, size_t memory_length);

/*
 * Takes the next digests, in the order of their parts, one after another in digests: all of them, or those up to the
 * one with which a hash block closes, which this call hands out: it stands in the memory until digests are taken or the
 * next one is handed out. fed->taken is in bytes, and join->taken counts digests. Then the rest is to be fed, perhaps
 * of no bytes, until no hash block is handed out: those that close with the same digest come one a call. So each hash
 * block of this level and above is handed out once, each after those below it. The parameters are those with which the
 * join was begun.
 *
 * A fault of the parameters, VERITY_NO_SUCH_LEVEL, VERITY_BAD_LENGTH (the memory's, or digests that aren't whole),
 * VERITY_NO_SUCH_LEVEL (more levels are closed than there are, or none after the last digest), VERITY_TOO_LONG (there
 * would be more digests than parts).
 */
VERITY_MUST_CHECK int verity_join_feed(const struct verity_params *params, struct verity_join *join, uint8_t *memory,
                                       size_t memory_length, const uint8_t *digests, size_t digests_length,
                                       struct verity_fed *fed);
VERITY_MUST_CHECK int fsverity_join_feed(const struct fsverity_params *params, struct verity_join *join,
                                         uint8_t *memory, size_t memory_length, const uint8_t *digests,
                                         size_t digests_length, struct verity_fed *fed);

/*
 * The hash block of the join that was handed out last, once more: it stands in the memory until digests are taken or
 * the next one is handed out. taken becomes 0, and so do the other numbers if none was handed out since the latest
 * digest was taken. Whoever goes on with a join that was stored calls this first.
 *
 * A fault of the parameters, VERITY_NO_SUCH_LEVEL (the level; or more levels are closed than there are, or none after
 * the last digest), VERITY_TOO_LONG (more digests were taken than there are parts).
 */
VERITY_MUST_CHECK int verity_join_last_block(const struct verity_params *params, const struct verity_join *join,
                                             struct verity_fed *fed);
VERITY_MUST_CHECK int fsverity_join_last_block(const struct fsverity_params *params, const struct verity_join *join,
                                               struct verity_fed *fed);

/*
 * The root hash, when the digests of all parts were taken and all hash blocks handed out, and of a file its digest,
 * too; before that VERITY_TOO_SHORT or VERITY_WAITING. Their lengths are exactly that of the hash function's digests.
 * They can be asked for as often as one likes: the memory is only read.
 *
 * A fault of the parameters, VERITY_NO_SUCH_LEVEL, VERITY_BAD_LENGTH (the memory's), VERITY_BAD_ROOT_LENGTH,
 * VERITY_BAD_LENGTH (the file digest's), VERITY_NO_SUCH_LEVEL (more levels are closed than there are, or none after the
 * last digest), VERITY_TOO_LONG, VERITY_TOO_SHORT, VERITY_WAITING.
 */
VERITY_MUST_CHECK int verity_join_end(const struct verity_params *params, const struct verity_join *join,
                                      const uint8_t *memory, size_t memory_length, uint8_t *root, size_t root_length);
VERITY_MUST_CHECK int fsverity_join_end(const struct fsverity_params *params, const struct verity_join *join,
                                        const uint8_t *memory, size_t memory_length, uint8_t *root, size_t root_length,
                                        uint8_t *digest, size_t digest_length);

/*
 * Writes the fs-verity descriptor of the file with these parameters and this root hash into 256 bytes: what the file
 * digest is the hash of. A size that is too large for a tree has a descriptor too.
 *
 * VERITY_BAD_HASH_ALGORITHM, VERITY_BAD_DATA_BLOCK_SIZE, VERITY_BAD_SALT_SIZE, VERITY_BAD_ROOT_LENGTH,
 * VERITY_BAD_LENGTH (length isn't 256).
 */
VERITY_MUST_CHECK int fsverity_descriptor(const struct fsverity_params *params, const uint8_t *root, size_t root_length,
                                          uint8_t *descriptor, size_t length);

/*
 * A file digest in the form that a built-in signature signs, struct fsverity_formatted_digest of the Linux kernel: the
 * letters FSVerity, the number of the hash function and the digest's length in two bytes each, the lowest first, and
 * the digest. formatted_length is exactly 12 + digest_length.
 *
 * VERITY_BAD_HASH_ALGORITHM (fs-verity doesn't have it), VERITY_BAD_LENGTH (the digest's, or the buffer's).
 */
VERITY_MUST_CHECK int fsverity_formatted_digest(uint32_t hash_algorithm, const uint8_t *digest, size_t digest_length,
                                                uint8_t *formatted, size_t formatted_length);

/* The length of a hash function's digests, in bytes. VERITY_BAD_HASH_ALGORITHM. */
VERITY_MUST_CHECK int verity_digest_length(uint32_t hash_algorithm, size_t *length);

/*
 * The name of a hash function, as veritysetup and fsverity take it: sha256, sha512, sha1, sha224 or sha384. A text has
 * a zero after it, which isn't counted in length; VERITY_MAX_TEXT_SIZE is room enough for each.
 *
 * VERITY_BAD_HASH_ALGORITHM, VERITY_BAD_LENGTH (there is no room for name and zero).
 */
VERITY_MUST_CHECK int verity_algorithm_name(uint32_t hash_algorithm, char *name, size_t room, size_t *length);

/* The hash function with exactly this name, of so many letters, which are small. VERITY_BAD_HASH_ALGORITHM. */
VERITY_MUST_CHECK int verity_algorithm_by_name(const char *name, size_t length, uint32_t *hash_algorithm);

/*
 * What a status says, in English words, as "no such data block"; of a number that is no status, "unknown status". What
 * stands in the buffer behind the zero stays.
 *
 * VERITY_BAD_LENGTH (there is no room for text and zero).
 */
VERITY_MUST_CHECK int verity_status_text(int status, char *text, size_t room, size_t *length);

/*
 * The version of the library that runs, which may be later than this header's: VERITY_VERSION_MAJOR * 10000 +
 * VERITY_VERSION_MINOR * 100 + VERITY_VERSION_PATCH.
 */
uint32_t verity_version(void);

#ifdef __cplusplus
}
#endif

#endif
