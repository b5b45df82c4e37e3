/* The sandbox from C: a procedure is assembled, verified and called three times over one map, whose entries are then listed;
 * and code that would loop is refused, with the reason.
 *
 *     tools/c-library                          makes the archive
 *     cc -Iinclude examples/c/sandbox.c out/c-library/libbpf_host_sandbox.a -o sandbox && ./sandbox */
#include <inttypes.h>
#include <stdio.h>
#include <stdlib.h>
#include <string.h>

#include "bpf_host_sandbox.h"

/* Adds the first byte of the arguments to a number in the map, emits the sum and returns it. */
static const char add_text[] =
    "ldxb r6, [r1+0]\n"
    "stdw [r10-16], 0\n" /* the key */
    "stdw [r10-8], 0\n"
    "mov64 r1, r10\n"
    "add64 r1, -16\n"
    "mov64 r2, r10\n"
    "add64 r2, -48\n"
    "call 1\n" /* get: the value, or zeros */
    "ldxdw r7, [r10-48]\n"
    "add64 r7, r6\n"
    "stxdw [r10-48], r7\n"
    "mov64 r1, r10\n"
    "add64 r1, -16\n"
    "mov64 r2, r10\n"
    "add64 r2, -48\n"
    "call 2\n" /* put */
    "mov64 r1, r10\n"
    "add64 r1, -48\n"
    "mov64 r2, 8\n"
    "call 6\n" /* emit */
    "mov64 r0, r7\n"
    "exit\n";

static const char loop_text[] = "mov64 r0, 0\nja -2\n";

/* Ends the program where a call was refused. */
static void must(uint32_t status, const char *what) {
  if (status != BPFH_DONE) {
    fprintf(stderr, "%s: status %" PRIu32 "\n", what, status);
    exit(1);
  }
}

static void print_bytes(const uint8_t *bytes, size_t length) {
  for (size_t i = 0; i < length; i++) printf("%02x", bytes[i]);
}

static size_t assembled(const char *text, uint8_t *code) {
  uint64_t told;
  uint32_t line;
  must(bpfh_assemble(text, strlen(text), code, BPFH_MAX_CODE, &told, &line), "assemble");
  return (size_t)told;
}

static void call_three_times(bpfh_handle *procedure, bpfh_handle *map) {
  for (uint8_t amount = 5; amount <= 7; amount++) {
    uint8_t out[BPFH_MAX_OUTPUT];
    bpfh_ended ended;
    must(bpfh_run(procedure, map, 16, &amount, 1, out, sizeof out, &ended), "run");
    printf("added %u: value %" PRIu64 ", %" PRIu32 " steps, output ", amount, ended.value, ended.steps);
    print_bytes(out, ended.length);
    printf("\n");
  }
}

static void list_entries(bpfh_handle *map) {
  uint8_t key[BPFH_KEY] = {0}, value[BPFH_VALUE];
  uint64_t count;
  must(bpfh_map_len(map, &count), "len");
  printf("entries: %" PRIu64 "\n", count);
  uint32_t status = bpfh_map_get(map, key, sizeof key, value, sizeof value);
  for (;;) {
    if (status == BPFH_DONE) {
      print_bytes(key, sizeof key);
      printf(" = ");
      print_bytes(value, sizeof value);
      printf("\n");
    }
    uint8_t next[BPFH_KEY];
    if (bpfh_map_next(map, key, sizeof key, next, sizeof next) == BPFH_NO_ENTRY) return;
    memcpy(key, next, sizeof key);
    status = bpfh_map_get(map, key, sizeof key, value, sizeof value);
  }
}

static void refuse(const char *text) {
  static uint8_t code[BPFH_MAX_CODE];
  size_t length = assembled(text, code);
  bpfh_handle procedure = {0};
  bpfh_verdict verdict;
  uint32_t status = bpfh_verify(code, length, 1, &procedure, &verdict);
  char why[1024];
  uint64_t told;
  must(bpfh_explain(code, length, 1, why, sizeof why, &told), "explain");
  printf("refused: status %" PRIu32 " at slot %" PRIu32 ": %.*s\n", status, verdict.slot, (int)told, why);
  bpfh_clear(&procedure);
}

int main(void) {
  static uint8_t code[BPFH_MAX_CODE];
  size_t length = assembled(add_text, code);
  bpfh_handle procedure = {0}, map = {0};
  bpfh_verdict verdict;
  must(bpfh_verify(code, length, 1, &procedure, &verdict), "verify");
  printf("accepted: at most %" PRIu32 " steps\n", verdict.bound);
  must(bpfh_map_new(&map), "map");
  call_three_times(&procedure, &map);
  list_entries(&map);
  refuse(loop_text);
  bpfh_clear(&map);
  bpfh_clear(&procedure);
  return 0;
}
