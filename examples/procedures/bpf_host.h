/* What a procedure of bpf_host is given, what it may call, and what it answers.
 *
 * A procedure is the function `procedure` of one C file, compiled for BPF and cut to its section of code: no loader, no
 * relocations, no global variables. A client installs the code and calls it; each replica runs the call.
 *
 *     u64 procedure(const struct arguments *arguments, u64 length)
 *
 * arguments   the address of 256 bytes: what the caller passed, padded with zeros. They may be read, and written too.
 * length      how many bytes the caller passed, 0 to 256.
 * the result  64 bits, which the caller gets together with the bytes that were emitted, at most 256.
 *
 * Numbers of several bytes have their least byte first, in the arguments as in the output. Memory is the arguments and the
 * stack, 512 bytes for each function that runs; what lasts is in the tenant's map, and the helpers below reach it.
 */
#ifndef BPF_HOST_H
#define BPF_HOST_H

typedef unsigned char u8;
typedef unsigned int u32;
typedef unsigned long long u64;

/* A key of the tenant's map. The map takes any 16 bytes; these procedures keep apart by their kinds. */
struct key {
    char kind[8];
    u64 name;
};

/* A value of the map: 32 bytes. */
struct value {
    u64 words[4];
};

_Static_assert(sizeof(struct key) == 16, "a key has 16 bytes");
_Static_assert(sizeof(struct value) == 32, "a value has 32 bytes");

/* The arguments by their address, which is always the same: for procedures with more live values than registers, where clang would
 * keep the pointer on the stack. */
#define ARGUMENTS ((void *)0x200000000)

/* The most entries that a map has. */
enum { MAX_ENTRIES = 4096 };

/* What most of these procedures answer. Where it is not DONE the map is as it was (but for the calls that rate_limit.c counts). */
enum result {
    DONE = 0,
    BAD_ARGUMENTS = 1, /* the arguments have another length, or say nothing that the procedure knows */
    MAP_FULL = 2,      /* the map has no room for a new key */
    REFUSED = 3,       /* each procedure says when */
};

/* The helpers. BPF calls one by its number, so each is a pointer to that number. The first argument is r1, the second r2, the
 * answer r0; r1 to r5 hold nothing afterwards. All bytes that a helper reads must be initialized, and it reads before it
 * writes: both of its pointers may be the same. */

/* Writes the key's value, 32 bytes, and answers 0; where the map lacks the key it writes zeros and answers 1. */
static u64 (*const get)(const struct key *key, struct value *value) = (void *)1;

/* Gives the key this value and answers 0; answers 1, and leaves the map, where the key is new and the map is full. */
static u64 (*const put)(const struct key *key, const struct value *value) = (void *)2;

/* Takes the key out of the map and answers 0; answers 1 where the map lacks it. */
static u64 (*const del)(const struct key *key) = (void *)3;

/* Answers how many entries the map has, 0 to 4,096. */
static u64 (*const len)(void) = (void *)4;

/* Writes the least key greater than this one, in the order of their bytes, and answers 0; where there is none it writes zeros
 * and answers 1. */
static u64 (*const next)(const struct key *key, struct key *greater) = (void *)5;

/* Appends so many bytes to the output and answers 0; answers 1, and appends nothing, where the output would pass 256 bytes. */
static u64 (*const emit)(const void *bytes, u64 size) = (void *)6;

/* Answers the number of the client that calls, 16 to 4,294,967,295. */
static u64 (*const caller)(void) = (void *)7;

/* A function that stays a function: it is called by a local call, in a stack frame of its own. */
#define FUNCTION static __attribute__((noinline))

#endif
