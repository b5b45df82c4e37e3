/* The sandbox of bpf_host as a library: procedures in BPF byte code (RFC 9669) are verified and run over key-value maps.
 *
 * What is proved of it (docs/EMBEDDING.md has the sentences): a procedure that was accepted never crashes, loops or touches
 * memory that isn't its own; its run, and what it leaves in the map, are those of the definition; a status names the first
 * thing that is wrong. What a caller owes, since no proof sees him:
 *
 * - A handle is all zero at first ({0}), isn't copied, moved only while no call has it, and is given to bpfh_clear at last.
 *   No handle stands twice in one call, or in two calls at once. Its fields are the library's. A handle may go to another
 *   thread, in an order that both threads see (a lock, a start, a join).
 * - A pointer leads to memory of its own, as long as its length says, for the whole call; none is null, also where the length
 *   is 0. What is read may be shared by calls that only read it; what is written lies apart from all else of the call.
 * - malloc, realloc and free are of one allocator, and malloc aligns to 16 bytes. 128 KiB of stack are left.
 * - No call is made from a signal handler, nor in the child of a process with threads that forked.
 *
 * The archive: libbpf_host_sandbox.a (tools/c-library). It takes malloc, realloc, free and memory functions, as memcpy, of its program,
 * and no other name.
 */
#ifndef BPF_HOST_SANDBOX_H
#define BPF_HOST_SANDBOX_H

#include <assert.h>
#include <stdbool.h>
#include <stddef.h>
#include <stdint.h>

#ifdef __cplusplus
extern "C" {
#endif

/* Lengths in bytes. */
enum {
  BPFH_KEY = 16,
  BPFH_VALUE = 32,
  BPFH_MAX_ARGUMENTS = 256,
  BPFH_MAX_OUTPUT = 256, /* what bpfh_run wants to have room for, also where less is emitted */
  BPFH_MAX_CODE = 8192,
  BPFH_MAX_ENTRIES = 4096 /* of a map */
};

/* What a call answers. */
enum bpfh_status {
  BPFH_DONE = 0,
  /* The first fault of code, by the verifier's numbers; docs/REFERENCE.md says of each when it comes. */
  BPFH_EMPTY = 1,
  BPFH_NOT_SLOTS = 2,
  BPFH_TOO_LONG = 3,
  BPFH_BAD_OPCODE = 4,
  BPFH_BAD_REGISTER = 5,
  BPFH_FIELD_NOT_ZERO = 6,
  BPFH_TRUNCATED_WIDE = 7,
  BPFH_BAD_WIDTH = 8,
  BPFH_BAD_OFFSET = 9,
  BPFH_JUMP_BACKWARD = 11,
  BPFH_JUMP_OUTSIDE = 12,
  BPFH_FALLS_OFF_END = 13,
  BPFH_UNKNOWN_HELPER = 14,
  BPFH_WRITES_FRAME_POINTER = 15,
  BPFH_UNINIT_REGISTER = 16,
  BPFH_BAD_ACCESS = 17,
  BPFH_UNINIT_BYTES = 18,
  BPFH_CALL_DEPTH = 19,
  BPFH_TOO_COMPLEX = 20,
  BPFH_MEMORY = 21, /* memory ran out */
  /* What a call itself refuses. */
  BPFH_NO_PROFILE = 31,         /* there are the profiles 1 and 2 */
  BPFH_NO_PROCEDURE = 32,       /* the handle holds no procedure */
  BPFH_NO_MAP = 33,             /* the handle holds no map */
  BPFH_ARGUMENTS_TOO_LONG = 34, /* more than 256 bytes */
  BPFH_BUFFER_TOO_SHORT = 35,
  BPFH_NO_KEY = 36,   /* a key, or the room for one, hasn't 16 bytes */
  BPFH_NO_VALUE = 37, /* a value, or the room for one, hasn't 32 bytes */
  BPFH_NO_ENTRY = 38,
  BPFH_MAP_FULL = 39, /* the key is new, and the map has 4,096 entries */
  /* The first fault of an assembler text. */
  BPFH_ASM_WORD = 41,
  BPFH_ASM_OPERAND = 42,
  BPFH_ASM_NUMBER = 43,
  BPFH_ASM_LABEL = 44
};

/* A procedure, a map, or nothing. */
typedef struct bpfh_handle {
  void *at;
  bool is_full;
} bpfh_handle;

typedef struct bpfh_verdict {
  uint32_t bound; /* of accepted code: the most steps that a call takes, at most 65,536 */
  uint32_t slot;  /* of refused code: where the first fault is, from 0 */
} bpfh_verdict;

typedef struct bpfh_ended {
  uint64_t value;  /* r0 at the last exit */
  uint32_t steps;  /* at most the bound */
  uint32_t length; /* how many bytes were emitted */
} bpfh_ended;

/* Verifies code under a profile, 1 or 2. What the handle held is freed first. 0: it holds the procedure, and verdict->bound
 * is written. 1 to 20: verdict->slot is written. Where the status isn't 0 the handle holds nothing. */
uint32_t bpfh_verify(const uint8_t *code, size_t code_length, uint8_t profile, bpfh_handle *procedure,
                     bpfh_verdict *verdict);

/* Runs a procedure, called by a client with these arguments, over a map. out_length is 256 or more. 0: the map is that behind
 * the run, and ended is written, and the first ended->length bytes of out. 21: memory ran out for a new entry; the map is that
 * just before it was put. 32, 33, 34, 35: nothing has changed. Where the status isn't 0, out and ended stay as they were. The
 * procedure always does. */
uint32_t bpfh_run(bpfh_handle *procedure, bpfh_handle *map, uint32_t client, const uint8_t *args, size_t args_length,
                  uint8_t *out, size_t out_length, bpfh_ended *ended);

/* Makes a map with no entries. What the handle held is freed first. 21: it holds nothing. */
uint32_t bpfh_map_new(bpfh_handle *map);

/* The value at a key. 33, 36, 37, 38. Where the status isn't 0, value stays as it was. */
uint32_t bpfh_map_get(bpfh_handle *map, const uint8_t *key, size_t key_length, uint8_t *value, size_t value_length);

/* Writes the value at a key, new or not. 21, 33, 36, 37, 39: the map stays as it was. */
uint32_t bpfh_map_put(bpfh_handle *map, const uint8_t *key, size_t key_length, const uint8_t *value, size_t value_length);

/* Takes out the entry of a key. 33, 36, 38: the map stays as it was. */
uint32_t bpfh_map_del(bpfh_handle *map, const uint8_t *key, size_t key_length);

/* The least key above this one, in the order of the bytes. 33, 36, 38: next stays as it was. */
uint32_t bpfh_map_next(bpfh_handle *map, const uint8_t *key, size_t key_length, uint8_t *next, size_t next_length);

/* The number of entries. 33: count stays as it was. */
uint32_t bpfh_map_len(bpfh_handle *map, uint64_t *count);

/* Frees what a handle holds, if it holds anything. It holds nothing then, and may be used again. */
void bpfh_clear(bpfh_handle *handle);

/* Why code is refused, as a sentence: *told bytes of text, 0 of them where it is accepted. 35: *told is how many it takes, and
 * text stays as it was. 21, 31. */
uint32_t bpfh_explain(const uint8_t *code, size_t code_length, uint8_t profile, char *text, size_t text_length,
                      uint64_t *told);

/* The text of code, a line for each instruction: *told bytes. 35: *told is how many it takes, and text stays as it was. 1 to
 * 9: *slot is where the first fault is. 21. */
uint32_t bpfh_disassemble(const uint8_t *code, size_t code_length, char *text, size_t text_length, uint64_t *told,
                          uint32_t *slot);

/* The code of an assembler text: *told bytes. 35: *told is how many it takes, and code stays as it was. 41 to 44: *line is
 * where the first fault is, from 1. 21. */
uint32_t bpfh_assemble(const char *text, size_t text_length, uint8_t *code, size_t code_length, uint64_t *told,
                       uint32_t *line);

static_assert(sizeof(bpfh_handle) == 16, "a handle is a pointer and a flag");
static_assert(sizeof(bpfh_verdict) == 8, "a verdict is two numbers of 32 bits");
static_assert(sizeof(bpfh_ended) == 16, "an ending is a number of 64 bits and two of 32");

#ifdef __cplusplus
}
#endif

#endif
