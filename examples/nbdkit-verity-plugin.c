/*
 * nbdkit-verity-plugin.c - a plugin of nbdkit that serves the data of a dm-verity image, read-only. Every block is
 * checked as it is read, and a changed one is an input error: what `veritysetup open` does, without the kernel, root
 * or device mapper.
 *
 * Build (Debian: nbdkit-plugin-dev):
 *
 *     gcc -std=c11 -O2 -fPIC -shared -Iinclude -o nbdkit-verity-plugin.so examples/nbdkit-verity-plugin.c \
 *         examples/checked_blocks.c lib/libverity.a
 *
 * Run, and copy the data (Debian: nbdkit, libnbd-bin):
 *
 *     nbdkit -U - ./nbdkit-verity-plugin.so data=DATA hash=HASH roothash=ROOT \
 *         --run 'nbdcopy "$uri" COPY'
 *
 * With hashoffset=BYTES the superblock stands at that byte of HASH. With nbdkit's option -v each hash block that is
 * read has a line.
 *
 * The root hash doesn't cover the superblock, here as with `veritysetup open`.
 */
#define _POSIX_C_SOURCE 200809L
#define _FILE_OFFSET_BITS 64
#define NBDKIT_API_VERSION 2

#include <errno.h>
#include <fcntl.h>
#include <inttypes.h>
#include <stdlib.h>
#include <string.h>
#include <unistd.h>

#include <nbdkit-plugin.h>

#include "checked_blocks.h"
#include "verity.h"

/* A connection does one read after another, and each has blocks of its own, so that no lock is needed. */
#define THREAD_MODEL NBDKIT_THREAD_MODEL_SERIALIZE_REQUESTS

/* How many hash blocks that were accepted a connection keeps. */
enum { KEPT = 64 };

static char *data_name, *hash_name;
static int data_file = -1, hash_file = -1;
static uint8_t root[VERITY_MAX_DIGEST_SIZE];
static size_t root_length;
static uint64_t hash_offset;
static struct verity_params params;

struct connection {
    struct checked_image image;
    struct checked_place place[KEPT];
    uint8_t *data_block;
};

/* ------------------------------------------- Parameters ------------------------------------------- */

static int read_root(const char *text) {
    for (root_length = 0; *text != 0; text += 2) {
        char digits[3] = {text[0], text[1], 0};
        if (root_length == sizeof root || strspn(digits, "0123456789abcdefABCDEF") != 2) {
            nbdkit_error("roothash isn't a digest in hexadecimal");
            return -1;
        }
        root[root_length++] = (uint8_t)strtoul(digits, NULL, 16);
    }
    return 0;
}

static int plugin_config(const char *key, const char *value) {
    if (strcmp(key, "data") == 0) {
        free(data_name);
        data_name = nbdkit_realpath(value);
        return data_name == NULL ? -1 : 0;
    }
    if (strcmp(key, "hash") == 0) {
        free(hash_name);
        hash_name = nbdkit_realpath(value);
        return hash_name == NULL ? -1 : 0;
    }
    if (strcmp(key, "roothash") == 0)
        return read_root(value);
    if (strcmp(key, "hashoffset") == 0)
        return nbdkit_parse_uint64_t(key, value, &hash_offset);
    nbdkit_error("there is no parameter '%s'", key);
    return -1;
}

static int plugin_config_complete(void) {
    if (data_name == NULL || hash_name == NULL || root_length == 0) {
        nbdkit_error("data=, hash= and roothash= must be given");
        return -1;
    }
    return 0;
}

/* Reads just so many bytes. */
static int read_file(int file, uint64_t start, uint8_t *bytes, size_t length) {
    while (length > 0) {
        ssize_t found = pread(file, bytes, length, (off_t)start);
        if (found == -1 && errno == EINTR)
            continue;
        if (found <= 0)
            return -1;
        bytes += found;
        start += (uint64_t)found;
        length -= (size_t)found;
    }
    return 0;
}

static int open_file(const char *name) {
    int file = open(name, O_RDONLY | O_CLOEXEC);
    if (file == -1)
        nbdkit_error("%s: %s", name, strerror(errno));
    return file;
}

static int plugin_get_ready(void) {
    uint8_t superblock[512];
    size_t levels = 0;
    int ret;

    data_file = open_file(data_name);
    hash_file = open_file(hash_name);
    if (data_file == -1 || hash_file == -1)
        return -1;
    if (hash_offset > INT64_MAX || read_file(hash_file, hash_offset, superblock, sizeof superblock) == -1) {
        nbdkit_error("%s has no superblock at byte %" PRIu64, hash_name, hash_offset);
        return -1;
    }
    ret = verity_read_superblock(superblock, sizeof superblock, hash_offset, &params);
    if (ret == 0)
        ret = verity_level_count(&params, &levels);
    if (ret < 0) {
        nbdkit_error("%s: the superblock is refused with status %d", hash_name, ret);
        return -1;
    }
    return 0;
}

static void plugin_unload(void) {
    if (data_file != -1)
        close(data_file);
    if (hash_file != -1)
        close(hash_file);
    free(data_name);
    free(hash_name);
}

/* ------------------------------------------- Connections ------------------------------------------- */

/* Reads just so many bytes of a file, for checked_blocks.c. */
static int read_device(void *file, uint64_t start, uint8_t *bytes, size_t length) {
    if (file == &hash_file)
        nbdkit_debug("a hash block is read at byte %" PRIu64, start);
    return read_file(*(const int *)file, start, bytes, length);
}

static void plugin_close(void *handle) {
    struct connection *connection = handle;
    free(connection->image.hash_blocks);
    free(connection->data_block);
    free(connection);
}

static void *plugin_open(int readonly) {
    struct connection *connection = calloc(1, sizeof *connection);
    struct checked_image *image;
    int ret;
    (void)readonly;
    if (connection == NULL) {
        nbdkit_error("out of memory");
        return NULL;
    }
    image = &connection->image;
    *image = (struct checked_image){.params = params, .root = root, .root_length = root_length, .read = read_device,
                                    .data_device = &data_file, .hash_device = &hash_file, .places = KEPT,
                                    .place = connection->place};
    image->hash_blocks = malloc((size_t)KEPT * params.hash_block_size);
    connection->data_block = malloc(params.data_block_size);
    if (image->hash_blocks == NULL || connection->data_block == NULL) {
        nbdkit_error("out of memory");
        plugin_close(connection);
        return NULL;
    }
    ret = checked_begin(image);
    if (ret < 0) {
        nbdkit_error("%s: the parameters are refused with status %d", hash_name, ret);
        plugin_close(connection);
        return NULL;
    }
    return connection;
}

static int64_t plugin_get_size(void *handle) {
    (void)handle;
    return (int64_t)(params.data_blocks * params.data_block_size);
}

/* Data doesn't change, so that a client may use several connections at once. */
static int plugin_can_multi_conn(void *handle) {
    (void)handle;
    return 1;
}

static int plugin_block_size(void *handle, uint32_t *minimum, uint32_t *preferred, uint32_t *maximum) {
    (void)handle;
    *minimum = 1;
    *preferred = params.data_block_size;
    *maximum = UINT32_MAX;
    return 0;
}

/* --------------------------------------------- Reads --------------------------------------------- */

/* Says why a data block isn't handed out. level is that of checked_read. */
static void refuse(const struct checked_image *image, uint64_t index, size_t level, int ret) {
    const char *what = level == 0 ? "it" : "a hash block above it";

    if (ret == CHECKED_NOT_READ && level == 0)
        nbdkit_error("data block %" PRIu64 " can't be read", index);
    else if (ret == CHECKED_NOT_READ)
        nbdkit_error("data block %" PRIu64 ": its hash block of level %zu can't be read", index, level - 1);
    else if (ret != VERITY_DIFFERS)
        nbdkit_error("data block %" PRIu64 ": status %d", index, ret);
    else if (level == image->levels)
        nbdkit_error("data block %" PRIu64 ": %s isn't the one of the root hash", index, what);
    else
        nbdkit_error("data block %" PRIu64 ": %s isn't the one that level %zu has the digest of", index, what, level);
    nbdkit_set_error(EIO);
}

static int plugin_pread(void *handle, void *buffer, uint32_t count, uint64_t offset, uint32_t flags) {
    struct connection *connection = handle;
    uint8_t *to = buffer;
    (void)flags;

    while (count > 0) {
        uint64_t index = offset / params.data_block_size;
        size_t skipped = offset % params.data_block_size, length = params.data_block_size - skipped, level = 0;
        int ret = checked_read(&connection->image, index, connection->data_block, params.data_block_size, &level);

        if (ret < 0) {
            refuse(&connection->image, index, level, ret);
            return -1;
        }
        if (length > count)
            length = count;
        memcpy(to, connection->data_block + skipped, length);
        to += length;
        offset += length;
        count -= (uint32_t)length;
    }
    return 0;
}

static struct nbdkit_plugin plugin = {
    .name = "verity",
    .longname = "checked data of a dm-verity image",
    .unload = plugin_unload,
    .config = plugin_config,
    .config_complete = plugin_config_complete,
    .config_help = "data=FILE        the data, required\n"
                   "hash=FILE        the hash device, required\n"
                   "roothash=HEX     the root hash, required\n"
                   "hashoffset=N     the byte of the hash device where the superblock stands, 0 if not given",
    .get_ready = plugin_get_ready,
    .open = plugin_open,
    .close = plugin_close,
    .get_size = plugin_get_size,
    .can_multi_conn = plugin_can_multi_conn,
    .block_size = plugin_block_size,
    .pread = plugin_pread,
};

NBDKIT_REGISTER_PLUGIN(plugin)
