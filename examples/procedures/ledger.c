/* ledger: a ledger of tokens with an issuer.
 *
 * arguments   operation, 8 bytes; client, 8 bytes; amount, 8 bytes
 *             1 issue: the issuer gives a client new tokens
 *             2 redeem: the caller gives tokens back, and they are gone; the client isn't looked at
 *             3 report: changes nothing; the amount isn't looked at
 * output      what the client has (of redeem the caller), 8 bytes; the supply, 8 bytes
 * result      0 done; 3 issue: the caller isn't the issuer, or the supply would pass 2^64 - 1; redeem: the caller has less;
 *             1 bad arguments; 2 the map may not have room for two new keys
 * bound       98 instructions
 *
 * The issuer is client 16, or whom the compiler's -DISSUER=.. names. The supply is the sum of all accounts. transfer.c moves
 * tokens between these accounts.
 */
#include "accounts.h"

#ifndef ISSUER
#define ISSUER 16
#endif

enum operation { ISSUE = 1, REDEEM = 2, TELL = 3 };

struct arguments {
    u64 operation;
    u64 client;
    u64 amount;
};

/* Issues, or redeems, so many tokens. `reported` has what the client has and the supply, and is brought up to date. */
FUNCTION u64 change(u64 operation, u64 amount, u64 *reported)
{
    if (operation == ISSUE) {
        if (caller() != ISSUER || __builtin_add_overflow(reported[1], amount, &reported[1]))
            return REFUSED;
        reported[0] += amount;
    } else {
        if (reported[0] < amount)
            return REFUSED;
        reported[0] -= amount;
        reported[1] -= amount;
    }
    return DONE;
}

u64 procedure(const struct arguments *arguments, u64 length)
{
    u64 operation = arguments->operation;
    u64 client = arguments->client;

    if (length != sizeof *arguments || operation < ISSUE || operation > TELL)
        return BAD_ARGUMENTS;
    if (operation == REDEEM)
        client = caller();

    struct key key = { "supply", 0 };
    struct value supply;
    get(&key, &supply);
    u64 reported[2] = { balance_of(client), supply.words[0] };

    if (operation != TELL) {
        u64 result = change(operation, arguments->amount, reported);
        if (result)
            return result;
        if (len() > MAX_ENTRIES - 2)
            return MAP_FULL;
        set_balance(client, reported[0]);
        supply.words[0] = reported[1];
        put(&key, &supply);
    }
    emit(reported, sizeof reported);
    return DONE;
}
