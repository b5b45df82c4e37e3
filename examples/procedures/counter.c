/* counter: adds to a named counter.
 *
 * arguments   name, 8 bytes; amount, 8 bytes
 * output      the counter's new value, 8 bytes
 * result      0 done; 1 bad arguments; 2 the map is full
 * bound       30 instructions
 *
 * A counter begins at 0 and counts modulo 2^64, so the amount -1 takes one away.
 */
#include "bpf_host.h"

struct arguments {
    u64 name;
    u64 amount;
};

u64 procedure(const struct arguments *arguments, u64 length)
{
    if (length != sizeof *arguments)
        return BAD_ARGUMENTS;

    struct key key = { "counter", arguments->name };
    struct value value;

    get(&key, &value);
    value.words[0] += arguments->amount;
    if (put(&key, &value))
        return MAP_FULL;
    emit(&value, sizeof value.words[0]);
    return DONE;
}
