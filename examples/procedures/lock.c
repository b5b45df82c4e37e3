/* lock: a named lock with an owner and a fencing token.
 *
 * arguments   operation, 8 bytes; name, 8 bytes
 *             1 acquire: the caller becomes the owner of a free lock; its owner keeps it
 *             2 release: the owner frees the lock
 * output      of acquire the token, 8 bytes: 1, 2, 3 .., one more each time that a free lock is acquired
 * result      0 done; 3 acquire: another client owns the lock; release: the caller doesn't own it; 1 bad arguments;
 *             2 the map is full
 * bound       41 instructions
 *
 * Who guards a resource takes no token less than the greatest that it saw: then a client that believes for too long that it owns
 * the lock does no harm.
 */
#include "bpf_host.h"

enum operation { ACQUIRE = 1, RELEASE = 2 };

struct arguments {
    u64 operation;
    u64 name;
};

/* A lock's entry. No client has the number 0. */
struct lock {
    u64 owner;
    u64 token;
    u64 unused[2];
};

u64 procedure(const struct arguments *arguments, u64 length)
{
    u64 operation = arguments->operation;

    if (length != sizeof *arguments || (operation != ACQUIRE && operation != RELEASE))
        return BAD_ARGUMENTS;

    struct key key = { "lock", arguments->name };
    struct lock lock;
    u64 client = caller();
    get(&key, (struct value *)&lock);

    if (operation == RELEASE) {
        if (lock.owner != client)
            return REFUSED;
        lock.owner = 0;
        put(&key, (struct value *)&lock);
        return DONE;
    }
    if (lock.owner == 0) {
        lock.owner = client;
        lock.token++;
        if (put(&key, (struct value *)&lock))
            return MAP_FULL;
    }
    if (lock.owner != client)
        return REFUSED;
    emit(&lock.token, sizeof lock.token);
    return DONE;
}
