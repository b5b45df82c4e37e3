/* transfer: moves tokens from the caller's account to another client's, and refuses an overdraft.
 *
 * arguments   to, a client, 8 bytes; amount, 8 bytes, not 0
 * output      what the caller has left, 8 bytes
 * result      0 done; 3 the caller has less, or the other account would pass 2^64 - 1; 1 bad arguments; 2 the map is full
 * bound       94 instructions
 *
 * Nobody but the caller can move what the caller has: the client's number comes from the host, not from the arguments. Tokens
 * come into the world by ledger.c, which keeps the same accounts.
 */
#include "accounts.h"

struct arguments {
    u64 to;
    u64 amount;
};

u64 procedure(const struct arguments *arguments, u64 length)
{
    u64 to = arguments->to;
    u64 amount = arguments->amount;

    if (length != sizeof *arguments || amount == 0)
        return BAD_ARGUMENTS;

    u64 from = caller();
    u64 left = balance_of(from);
    if (left < amount)
        return REFUSED;
    if (to != from) {
        u64 total;
        if (__builtin_add_overflow(balance_of(to), amount, &total))
            return REFUSED;
        /* The payee's account may be new, so it comes first: a full map leaves both as they were. The payer's exists. */
        if (set_balance(to, total))
            return MAP_FULL;
        left -= amount;
        set_balance(from, left);
    }
    emit(&left, sizeof left);
    return DONE;
}
