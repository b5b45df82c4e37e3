/* Accounts of clients, as transfer.c and ledger.c keep them: an entry for each client that has tokens. */
#ifndef ACCOUNTS_H
#define ACCOUNTS_H

#include "bpf_host.h"

/* What a client has. */
FUNCTION u64 balance_of(u64 client)
{
    struct key key = { "account", client };
    struct value value;

    get(&key, &value);
    return value.words[0];
}

/* Sets what a client has. It answers 1, and leaves the map, where the account is new and the map is full. */
FUNCTION u64 set_balance(u64 client, u64 amount)
{
    struct key key = { "account", client };
    struct value value = { { amount } };

    if (amount == 0) {
        del(&key);
        return 0;
    }
    return put(&key, &value);
}

#endif
