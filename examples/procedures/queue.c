/* queue: a named queue of numbers, first in, first out.
 *
 * arguments   operation, 4 bytes; name, 4 bytes; of push a number, 8 bytes; of pop 8 bytes that aren't looked at
 *             1 push: the number becomes the last of the queue
 *             2 pop: takes the first number out
 * output      of push how many numbers the queue now has, 8 bytes; of pop the number, 8 bytes
 * result      0 done; 3 pop: the queue is empty; 1 bad arguments; 2 the map may not have room for two new keys
 * bound       71 instructions
 *
 * Number i of queue n is at the key's name n * 2^32 + i + 1, for i below 2^32 - 1, and i starts again then; the name n * 2^32
 * has the ends.
 */
#include "bpf_host.h"

enum operation { PUSH = 1, POP = 2 };

struct arguments {
    u32 operation;
    u32 name;
    u64 number;
};

/* Where the first number is, and where the next one goes. */
struct ends {
    u64 first;
    u64 behind;
    u64 unused[2];
};

/* The name of the key of a queue's number i. */
static u64 position(u32 queue, u64 i)
{
    return ((u64)queue << 32) | (i % 0xffffffff + 1);
}

FUNCTION u64 push(const struct arguments *arguments, struct ends *ends)
{
    struct key key = { "queue", position(arguments->name, ends->behind) };
    struct value value = { { arguments->number } };

    if (len() > MAX_ENTRIES - 2)
        return MAP_FULL;
    put(&key, &value);
    ends->behind++;
    u64 count = ends->behind - ends->first;
    emit(&count, sizeof count);
    return DONE;
}

FUNCTION u64 pop(const struct arguments *arguments, struct ends *ends)
{
    struct key key = { "queue", position(arguments->name, ends->first) };
    struct value value;

    if (ends->first == ends->behind)
        return REFUSED;
    get(&key, &value);
    del(&key);
    ends->first++;
    emit(&value, sizeof value.words[0]);
    return DONE;
}

u64 procedure(const struct arguments *arguments, u64 length)
{
    if (length != sizeof *arguments)
        return BAD_ARGUMENTS;

    struct key key = { "queue", (u64)arguments->name << 32 };
    struct ends ends;
    u64 result;
    get(&key, (struct value *)&ends);
    if (arguments->operation == PUSH)
        result = push(arguments, &ends);
    else if (arguments->operation == POP)
        result = pop(arguments, &ends);
    else
        result = BAD_ARGUMENTS;
    if (result == DONE)
        put(&key, (struct value *)&ends);
    return result;
}
