/* Data blocks with the hash blocks above them; see chains.h. */
#include "chains.h"

#include <inttypes.h>

#include "calls.h"

size_t start_in_chain(const struct shape *shape, size_t block)
{
    return block == 0 ? 0 : shape->data_block_size + (block - 1) * shape->hash_block_size;
}

struct bytes block_of(const struct chain *chain, size_t block)
{
    const struct shape *shape = &chain->shape;

    return bytes_of(chain->bytes + start_in_chain(shape, block),
                    block == 0 ? shape->data_block_size : shape->hash_block_size);
}

struct bytes path_of(const struct chain *chain)
{
    const struct shape *shape = &chain->shape;

    return bytes_of(chain->bytes + shape->data_block_size, shape->levels * shape->hash_block_size);
}

struct bytes root_of(const struct chain *chain)
{
    return bytes_of(chain->root, chain->root_length);
}

int check_chain(const struct chain *chain, size_t *level)
{
    *level = PAINT;
    return call_check_block(&chain->tree, chain->index, block_of(chain, 0), path_of(chain), root_of(chain), level);
}

int check_one_link(const struct chain *chain, size_t level)
{
    return call_check_link(&chain->tree, chain->index, level, block_of(chain, level), block_of(chain, level + 1));
}

int check_top_block(const struct chain *chain)
{
    return call_check_top(&chain->tree, chain->index, block_of(chain, chain->shape.levels), root_of(chain));
}

/* What a link, or the top, has to answer. */
static int expected_at(const struct chain *chain, size_t level)
{
    return chain->differs >> level & 1 ? VERITY_DIFFERS : VERITY_OK;
}

void judge_chain(const struct chain *chain, uint64_t times, const char *change)
{
    size_t levels = chain->shape.levels, lowest = 0, level, found;
    int status = check_chain(chain, &found);

    while (lowest < levels && !(chain->differs >> lowest & 1))
        lowest++;
    check(status == (chain->differs ? VERITY_DIFFERS : VERITY_OK) && found == (chain->differs ? lowest : PAINT),
          "block %" PRIu64 ", %s: status %d, level %zu, expected level %zu", chain->index, change, status, found,
          chain->differs ? lowest : PAINT);
    for (level = 0; level < levels; level++)
        if (level <= lowest || once_in(times)) {
            status = check_one_link(chain, level);
            check(status == expected_at(chain, level), "block %" PRIu64 ", %s, link to level %zu: status %d",
                  chain->index, change, level, status);
        }
    status = check_top_block(chain);
    check(status == expected_at(chain, levels), "block %" PRIu64 ", %s, top: status %d", chain->index, change, status);
}

void flip_in_chain(struct chain *chain, size_t block, size_t offset)
{
    const struct shape *shape = &chain->shape;
    size_t slot;

    chain->bytes[start_in_chain(shape, block) + offset] ^= (uint8_t)(1 << random_below(8));
    chain->differs |= (uint64_t)1 << block;
    /* A digest in the own slot is that of the block below. */
    if (block > 0) {
        slot = slot_number(shape, chain->index, block - 1) * shape->slot_width;
        if (offset >= slot && offset < slot + shape->digest_size)
            chain->differs |= (uint64_t)1 << (block - 1);
    }
}

void change_index(struct chain *chain, uint64_t index)
{
    const struct shape *shape = &chain->shape;
    size_t level;

    for (level = 0; level < shape->levels; level++)
        if (slot_number(shape, index, level) != slot_number(shape, chain->index, level))
            chain->differs |= (uint64_t)1 << level;
    chain->index = index;
}
