/* keys: lists the keys of the tenant's map, 16 at a time.
 *
 * arguments   a key, 16 bytes; none for the least keys
 * output      the least keys that are greater, 16 bytes each, ascending
 * result      how many there are, 0 to 16
 * bound       182 instructions
 *
 * To list all, pass the last key of one call to the next one, until a result is less than 16. The key of 16 zeros is greater than
 * none, so it isn't listed; no procedure here uses it. The verifier lets no jump lead back, so the loop is unrolled.
 */
#include "bpf_host.h"

enum { KEYS = 16 };

u64 procedure(const struct key *after, u64 length)
{
    (void)length;
    struct key key = *after;
    u64 count = 0;
#pragma unroll
    for (int i = 0; i < KEYS; i++) {
        if (next(&key, &key))
            break;
        emit(&key, sizeof key);
        count++;
    }
    return count;
}
