/* register: compare-and-swap of a named register.
 *
 * arguments   name, 8 bytes; expected, 8 bytes; desired, 8 bytes
 * output      what the register held before, 8 bytes
 * result      0 it held what was expected, and now holds what is desired; 3 it holds something else, and keeps it;
 *             1 bad arguments; 2 the map is full
 * bound       37 instructions
 *
 * A register begins at 0. To read one, expect and desire the same.
 */
#include "bpf_host.h"

struct arguments {
    u64 name;
    u64 expected;
    u64 desired;
};

u64 procedure(const struct arguments *arguments, u64 length)
{
    if (length != sizeof *arguments)
        return BAD_ARGUMENTS;

    struct key key = { "register", arguments->name };
    struct value value;

    get(&key, &value);
    u64 held = value.words[0];
    emit(&held, sizeof held);
    if (held != arguments->expected)
        return REFUSED;
    if (held == arguments->desired)
        return DONE;
    value.words[0] = arguments->desired;
    return put(&key, &value) ? MAP_FULL : DONE;
}
