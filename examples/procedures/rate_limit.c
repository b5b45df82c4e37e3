/* rate_limit: admits each client at most 4 times in 16 calls.
 *
 * arguments   none
 * output      how often the caller may still be admitted in this window, 8 bytes
 * result      0 admitted; 3 the caller was admitted 4 times in this window; 1 bad arguments; 2 the map is full
 * bound       59 instructions
 *
 * Replicas have no clock that they agree on, so time is the number of calls, of all clients and also those that are refused:
 * the calls 0 to 15 are the first window, 16 to 31 the second. A refused call changes the number of calls alone.
 */
#include "bpf_host.h"

enum { WINDOW = 16, LIMIT = 4 };

u64 procedure(const void *arguments, u64 length)
{
    (void)arguments;
    if (length != 0)
        return BAD_ARGUMENTS;
    if (len() > MAX_ENTRIES - 2)
        return MAP_FULL;

    struct key calls_key = { "calls", 0 };
    struct value calls;
    get(&calls_key, &calls);
    u64 window = calls.words[0] / WINDOW;
    calls.words[0]++;
    put(&calls_key, &calls);

    /* The window of the caller's last admission, and how many there were in it. */
    struct key key = { "admitted", caller() };
    struct value admitted;
    get(&key, &admitted);
    if (admitted.words[0] != window) {
        admitted.words[0] = window;
        admitted.words[1] = 0;
    }
    u64 left = LIMIT - admitted.words[1];
    if (left == 0) {
        emit(&left, sizeof left);
        return REFUSED;
    }
    left--;
    admitted.words[1]++;
    put(&key, &admitted);
    emit(&left, sizeof left);
    return DONE;
}
