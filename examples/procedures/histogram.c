/* histogram: counts a sample in one of eight buckets.
 *
 * arguments   name, 8 bytes; sample, 8 bytes
 * output      the counts, 4 bytes each: of samples below 10, below 100, .., below 10,000,000, and of the others
 * result      0 done; 1 bad arguments; 2 the map is full
 * bound       48 instructions
 *
 * A count stays at 2^32 - 1. The bucket is an index that is known only when the procedure runs: the verifier knows that it is
 * 0 to 7, so the access lies in the 32 bytes of the value.
 */
#include "bpf_host.h"

enum { BUCKETS = 8 };

struct arguments {
    u64 name;
    u64 sample;
};

/* A histogram's entry. */
struct histogram {
    u32 counts[BUCKETS];
};

u64 procedure(const struct arguments *arguments, u64 length)
{
    if (length != sizeof *arguments)
        return BAD_ARGUMENTS;

    u64 sample = arguments->sample;
    u64 bound = 10;
    u64 bucket = 0;
#pragma unroll
    for (int i = 1; i < BUCKETS; i++) {
        if (sample >= bound)
            bucket = i;
        bound *= 10;
    }

    struct key key = { "samples", arguments->name };
    _Alignas(8) struct histogram histogram;
    get(&key, (struct value *)&histogram);
    if (histogram.counts[bucket] != (u32)-1)
        histogram.counts[bucket]++;
    if (put(&key, (struct value *)&histogram))
        return MAP_FULL;
    emit(&histogram, sizeof histogram);
    return DONE;
}
