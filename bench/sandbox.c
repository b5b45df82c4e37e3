// What a call through the archive costs: the lines of `benches machine programs`, as bench/interpreter.c reads them, of a name, a
// number of steps and code in hex. It prints for each the name, the least time of one run in picoseconds and what the run returns,
// as the interpreter does; and for the first that has two steps what verifying it costs, and a call of get.
#define _POSIX_C_SOURCE 200809L
#include <inttypes.h>
#include <stdio.h>
#include <stdlib.h>
#include <time.h>

#include "bpf_host_sandbox.h"

static uint64_t nanoseconds(void) {
  struct timespec now;
  clock_gettime(CLOCK_MONOTONIC, &now);
  return (uint64_t)now.tv_sec * 1000000000u + (uint64_t)now.tv_nsec;
}

static void must(uint32_t status) {
  if (status) {
    fprintf(stderr, "status %" PRIu32 "\n", status);
    exit(1);
  }
}

static size_t read_code(const char *hex, uint8_t *code) {
  size_t length = 0;
  for (; hex[2 * length] != 0 && hex[2 * length] != '\n'; length++) {
    char digits[3] = {hex[2 * length], hex[2 * length + 1], 0};
    code[length] = (uint8_t)strtoul(digits, NULL, 16);
  }
  return length;
}

static uint8_t code[BPFH_MAX_CODE], args[48], out[BPFH_MAX_OUTPUT], key[BPFH_KEY], value[BPFH_VALUE];
static bpfh_handle procedure, map;
static bpfh_verdict verdict;
static bpfh_ended ended;
static size_t length;

static void run(void) { must(bpfh_run(&procedure, &map, 16, args, sizeof args, out, sizeof out, &ended)); }
static void verify(void) { must(bpfh_verify(code, length, 1, &procedure, &verdict)); }
static void get(void) { must(bpfh_map_get(&map, key, sizeof key, value, sizeof value)); }

// The least time of a call, of so many in each of twenty rounds.
static uint64_t least_of(void (*call)(void), unsigned long calls) {
  uint64_t least = UINT64_MAX;
  for (int round = 0; round < 20; round++) {
    uint64_t start = nanoseconds();
    for (unsigned long i = 0; i < calls; i++) call();
    uint64_t taken = nanoseconds() - start;
    if (taken < least) least = taken;
  }
  return least * 1000 / calls;
}

int main(void) {
  static char line[1 << 16];
  for (size_t i = 0; i < sizeof args; i++) args[i] = (uint8_t)i;
  must(bpfh_map_new(&map));
  must(bpfh_map_put(&map, key, sizeof key, value, sizeof value));
  while (fgets(line, sizeof line, stdin) != NULL) {
    char name[64];
    unsigned long steps;
    int at_code = 0;
    if (sscanf(line, "%63s %lu %n", name, &steps, &at_code) < 2) return 1;
    length = read_code(line + at_code, code);
    verify();
    uint64_t least = least_of(run, 1000000 / (steps + 20) + 1);
    printf("%s %" PRIu64 " %" PRIu64 "\n", name, least, ended.value);
    if (steps == 2) {
      printf("verify %" PRIu64 " %" PRIu32 "\n", least_of(verify, 50000), verdict.bound);
      printf("get %" PRIu64 " 0\n", least_of(get, 50000));
    }
  }
  bpfh_clear(&procedure);
  bpfh_clear(&map);
  return 0;
}
