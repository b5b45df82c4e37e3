/* coupon: coupons that may be used a number of times.
 *
 * arguments   operation, 8 bytes; code, 8 bytes; number, 8 bytes
 *             1 issue: a new coupon for so many uses, from 1 on; the caller is its issuer
 *             2 use: takes one use; the last one takes the coupon away
 *             3 withdraw: its issuer takes it away; the number is passed over, as it is of 2
 * output      the uses that are left, 8 bytes
 * result      0 done; 3 issue: the code is taken, or the number is 0; use: there is no such coupon; withdraw: there is none of the
 *             caller's; 1 bad arguments; 2 the map is full
 * bound       48 instructions
 */
#include "bpf_host.h"

enum operation { ISSUE = 1, USE = 2, WITHDRAW = 3 };

struct arguments {
    u64 operation;
    u64 code;
    u64 number;
};

/* A coupon's entry. */
struct coupon {
    u64 uses;
    u64 issuer;
    u64 unused[2];
};

u64 procedure(const struct arguments *arguments, u64 length)
{
    u64 result = DONE;

    if (length != sizeof *arguments)
        return BAD_ARGUMENTS;

    struct key key = { "coupon", arguments->code };
    struct coupon coupon;
    u64 is_absent = get(&key, (struct value *)&coupon);

    switch (arguments->operation) {
    case ISSUE:
        if (!is_absent || arguments->number == 0) {
            result = REFUSED;
            goto out;
        }
        coupon.uses = arguments->number;
        coupon.issuer = caller();
        break;
    case USE:
        if (is_absent) {
            result = REFUSED;
            goto out;
        }
        coupon.uses--;
        break;
    case WITHDRAW:
        if (is_absent || coupon.issuer != caller()) {
            result = REFUSED;
            goto out;
        }
        coupon.uses = 0;
        break;
    default:
        return BAD_ARGUMENTS;
    }
    if (coupon.uses == 0)
        del(&key);
    else if (put(&key, (struct value *)&coupon))
        return MAP_FULL;
out:
    emit(&coupon.uses, sizeof coupon.uses);
    return result;
}
