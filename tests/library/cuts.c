/* How data is cut into pieces; see cuts.h. */
#include "cuts.h"

#include "support.h"

size_t next_length(size_t cut, bool is_cut_enough, uint64_t left)
{
    size_t length = cut;

    if (once_in(8))
        return 0;
    if (cut == ANY || (cut < 100 && is_cut_enough))
        length = (size_t)(random_number() >> (44 + random_below(20)));
    return length < left ? length : (size_t)left;
}
