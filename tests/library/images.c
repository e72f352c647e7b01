/* Trees with what has to come of them; see images.h. */
#include "images.h"

#include <stdlib.h>
#include <string.h>

struct images open_images(const char *trees, const char *data)
{
    struct images images = {.file = fopen(trees, "rb"), .data = bytes_of((const uint8_t *)"", 0)};

    if (images.file == NULL)
        give_up("the trees can't be read");
    if (data != NULL)
        images.data = content_of(data);
    return images;
}

static void read_bytes(struct images *images, void *bytes, size_t length)
{
    if (fread(bytes, 1, length, images->file) != length)
        give_up("a tree ends early");
}

static void set_parameters(struct image *image, const uint32_t words[8], const uint64_t numbers[8],
                           const uint8_t salt[SALT_ROOM], const uint8_t uuid[UUID_SIZE])
{
    struct verity_params *device = &image->tree.device;
    struct fsverity_params *file = &image->tree.file;

    image->tree.is_file = words[0] != 0;
    device->hash_algorithm = file->hash_algorithm = words[1];
    device->hash_type = words[2];
    device->data_block_size = file->block_size = words[3];
    device->hash_block_size = words[4];
    device->no_superblock = words[5];
    device->salt_size = file->salt_size = words[6];
    device->data_blocks = file->size = numbers[0];
    device->hash_offset = numbers[1];
    memcpy(device->salt, salt, sizeof device->salt);
    memcpy(file->salt, salt, sizeof file->salt);
    memcpy(device->uuid, uuid, sizeof device->uuid);
}

bool next_image(struct images *images, struct image *image)
{
    uint32_t words[8];
    uint64_t numbers[8];
    uint8_t salt[SALT_ROOM], uuid[UUID_SIZE];
    size_t i, found = fread(words, 1, sizeof words, images->file);

    if (found == 0)
        return false;
    if (found != sizeof words)
        give_up("a tree ends early");
    memset(image, 0, sizeof *image);
    read_bytes(images, numbers, sizeof numbers);
    read_bytes(images, salt, sizeof salt);
    read_bytes(images, uuid, sizeof uuid);
    set_parameters(image, words, numbers, salt, uuid);
    image->shape = shape_of(&image->tree);
    image->is_one = words[7];
    image->index = numbers[2];
    if (numbers[3] > images->data.length || numbers[4] > images->data.length - numbers[3])
        give_up("a tree has more data than there is");
    image->data = images->data.at + numbers[3];
    image->size = numbers[4];
    image->first = numbers[5];
    image->hashes_length = numbers[6];
    image->end_count = (size_t)numbers[7];
    read_bytes(images, image->about, sizeof image->about);
    read_bytes(images, image->root, sizeof image->root);
    read_bytes(images, image->digest, sizeof image->digest);
    image->hashes = memory_of(image->hashes_length);
    read_bytes(images, image->hashes, image->hashes_length);
    image->ends = memory_of(image->end_count * sizeof *image->ends);
    for (i = 0; i < image->end_count; i++)
        read_bytes(images, &image->ends[i], sizeof image->ends[i]);
    return true;
}

bool has_place(const struct image *image)
{
    const struct shape *shape = &image->shape;

    return image->hashes_length == tree_length(shape) &&
           (shape->levels == 0 || image->first == shape->starts[shape->levels - 1]);
}

void free_image(struct image *image)
{
    free(image->hashes);
    free(image->ends);
}

const struct end *end_at(const struct image *image, uint64_t size)
{
    size_t i;

    for (i = 0; i < image->end_count && image->ends[i].size <= size; i++)
        if (image->ends[i].size == size)
            return &image->ends[i];
    return NULL;
}

uint64_t next_end(const struct image *image, uint64_t size)
{
    size_t i;

    for (i = 0; i < image->end_count; i++)
        if (image->ends[i].size > size)
            return image->ends[i].size;
    return UINT64_MAX;
}
