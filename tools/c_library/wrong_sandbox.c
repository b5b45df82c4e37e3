/* Wrong use of the sandbox, as far as a caller may make it: each call a status, and nothing lost by it. It prints a line for each
 * call that answers another status than it is to, or changes what it may not, and at last how many calls were made. */
#include <inttypes.h>
#include <stdio.h>
#include <stdlib.h>
#include <string.h>

#include "bpf_host_sandbox.h"

static int calls, wrong;

static void is(const char *what, uint32_t got, uint32_t want) {
  calls++;
  if (got != want) {
    printf("%s: status %" PRIu32 ", wanted %" PRIu32 "\n", what, got, want);
    wrong++;
  }
}

static void holds(const char *what, bool so) {
  if (!so) {
    printf("%s: no\n", what);
    wrong++;
  }
}

/* returns 7 */
static const uint8_t seven[] = {0xb7, 0, 0, 0, 7, 0, 0, 0, 0x95, 0, 0, 0, 0, 0, 0, 0};
/* emits the arguments, as many as there are */
static const uint8_t emits[] = {0x85, 0, 0, 0, 6, 0, 0, 0, 0x95, 0, 0, 0, 0, 0, 0, 0};
static uint8_t key[BPFH_KEY], value[BPFH_VALUE], out[BPFH_MAX_OUTPUT], large[9000000];

static uint64_t count_of(bpfh_handle *map) {
  uint64_t count = 0;
  is("len", bpfh_map_len(map, &count), BPFH_DONE);
  return count;
}

static void verifies(bpfh_handle *procedure, bpfh_handle *map) {
  bpfh_verdict verdict = {1, 2};
  is("no profile 0", bpfh_verify(seven, sizeof seven, 0, procedure, &verdict), BPFH_NO_PROFILE);
  is("no profile 255", bpfh_verify(seven, sizeof seven, 255, procedure, &verdict), BPFH_NO_PROFILE);
  is("no code", bpfh_verify(seven, 0, 1, procedure, &verdict), BPFH_EMPTY);
  is("part of a slot", bpfh_verify(seven, 15, 1, procedure, &verdict), BPFH_NOT_SLOTS);
  is("9 MB", bpfh_verify(large, sizeof large, 1, procedure, &verdict), BPFH_TOO_LONG);
  is("no exit", bpfh_verify(seven, 8, 2, procedure, &verdict), BPFH_FALLS_OFF_END);
  holds("nothing is held", !procedure->is_full && verdict.slot == 0);
  is("over a map", bpfh_verify(seven, sizeof seven, 1, map, &verdict), BPFH_DONE);
  is("no longer a map", bpfh_map_len(map, &(uint64_t){0}), BPFH_NO_MAP);
  is("a map again", bpfh_map_new(map), BPFH_DONE);
  is("verified", bpfh_verify(emits, sizeof emits, 1, procedure, &verdict), BPFH_DONE);
  holds("its bound", verdict.bound == 2);
}

static void runs(bpfh_handle *procedure, bpfh_handle *map, bpfh_handle *nothing) {
  bpfh_ended ended = {3, 4, 5};
  memset(out, 0xaa, sizeof out);
  is("no procedure", bpfh_run(nothing, map, 0, large, 0, out, sizeof out, &ended), BPFH_NO_PROCEDURE);
  is("no procedure, no map", bpfh_run(nothing, procedure, 0, large, 0, out, sizeof out, &ended), BPFH_NO_PROCEDURE);
  is("a map as procedure", bpfh_run(map, nothing, 0, large, 0, out, sizeof out, &ended), BPFH_NO_PROCEDURE);
  is("no map", bpfh_run(procedure, nothing, 0, large, 0, out, sizeof out, &ended), BPFH_NO_MAP);
  is("257 bytes", bpfh_run(procedure, map, 0, large, 257, out, sizeof out, &ended), BPFH_ARGUMENTS_TOO_LONG);
  is("9 MB", bpfh_run(procedure, map, 0, large, sizeof large, out, 0, &ended), BPFH_ARGUMENTS_TOO_LONG);
  is("short output", bpfh_run(procedure, map, 0, large, 256, out, 255, &ended), BPFH_BUFFER_TOO_SHORT);
  is("no output", bpfh_run(procedure, map, 0, large, 0, out, 0, &ended), BPFH_BUFFER_TOO_SHORT);
  holds("nothing is written", ended.value == 3 && ended.steps == 4 && ended.length == 5 && out[0] == 0xaa);
  is("runs", bpfh_run(procedure, map, 0, large, 256, out, sizeof out, &ended), BPFH_DONE);
  holds("all is emitted", ended.value == 0 && ended.length == 256 && out[0] == 0 && out[255] == 0);
  is("runs on nothing", bpfh_run(procedure, map, 0, large, 0, out, sizeof out, &ended), BPFH_DONE);
  holds("nothing is emitted", ended.length == 0 && ended.steps == 2);
}

static void uses(bpfh_handle *map, bpfh_handle *other) {
  uint8_t next[BPFH_KEY];
  memset(value, 0xbb, sizeof value);
  is("no entry", bpfh_map_get(map, key, 16, value, 32), BPFH_NO_ENTRY);
  is("short key", bpfh_map_get(map, key, 15, value, 32), BPFH_NO_KEY);
  is("no key", bpfh_map_get(map, key, 0, value, 32), BPFH_NO_KEY);
  is("long key", bpfh_map_put(map, large, 17, value, 32), BPFH_NO_KEY);
  is("short value", bpfh_map_put(map, key, 16, value, 31), BPFH_NO_VALUE);
  is("long value", bpfh_map_put(map, key, 16, large, sizeof large), BPFH_NO_VALUE);
  is("no value", bpfh_map_get(map, key, 16, value, 0), BPFH_NO_VALUE);
  is("del: no entry", bpfh_map_del(map, key, 16), BPFH_NO_ENTRY);
  is("del: no key", bpfh_map_del(map, key, 0), BPFH_NO_KEY);
  is("next: no entry", bpfh_map_next(map, key, 16, next, 16), BPFH_NO_ENTRY);
  is("next: no key", bpfh_map_next(map, key, 16, next, 15), BPFH_NO_KEY);
  is("get: no map", bpfh_map_get(other, key, 16, value, 32), BPFH_NO_MAP);
  is("put: no map", bpfh_map_put(other, key, 16, value, 32), BPFH_NO_MAP);
  is("del: no map", bpfh_map_del(other, key, 16), BPFH_NO_MAP);
  is("next: no map", bpfh_map_next(other, key, 16, next, 16), BPFH_NO_MAP);
  holds("no entries", count_of(map) == 0 && value[0] == 0xbb);
}

static void fills(bpfh_handle *map) {
  for (uint32_t i = 0; i < BPFH_MAX_ENTRIES; i++) {
    memcpy(key, &i, sizeof i);
    memcpy(value, &i, sizeof i);
    is("put", bpfh_map_put(map, key, 16, value, 32), BPFH_DONE);
  }
  uint32_t last = BPFH_MAX_ENTRIES;
  memcpy(key, &last, sizeof last);
  is("full", bpfh_map_put(map, key, 16, value, 32), BPFH_MAP_FULL);
  memset(key, 0, sizeof key);
  is("put anew", bpfh_map_put(map, key, 16, value, 32), BPFH_DONE);
  holds("all entries", count_of(map) == BPFH_MAX_ENTRIES);
  is("del", bpfh_map_del(map, key, 16), BPFH_DONE);
  holds("one fewer", count_of(map) == BPFH_MAX_ENTRIES - 1);
}

static void texts(void) {
  char text[64];
  uint8_t code[64];
  uint64_t told = 77;
  uint32_t at = 88;
  memset(text, 'x', sizeof text);
  is("explain: no profile", bpfh_explain(seven, sizeof seven, 3, text, sizeof text, &told), BPFH_NO_PROFILE);
  is("explain: accepted", bpfh_explain(seven, sizeof seven, 1, text, sizeof text, &told), BPFH_DONE);
  holds("no reason", told == 0);
  is("explain: short", bpfh_explain(seven, 8, 1, text, 3, &told), BPFH_BUFFER_TOO_SHORT);
  holds("how long", told > 3 && text[0] == 'x');
  is("disassemble: short", bpfh_disassemble(seven, sizeof seven, text, 16, &told, &at), BPFH_BUFFER_TOO_SHORT);
  holds("how long", told == 17 && text[0] == 'x');
  is("disassemble", bpfh_disassemble(seven, sizeof seven, text, 17, &told, &at), BPFH_DONE);
  holds("its text", told == 17 && !memcmp(text, "mov64 r0, 7\nexit\n", 17) && at == 88);
  is("disassemble: no code", bpfh_disassemble(large, 16, text, sizeof text, &told, &at), BPFH_BAD_OPCODE);
  is("assemble: short", bpfh_assemble("exit", 4, code, 7, &told, &at), BPFH_BUFFER_TOO_SHORT);
  is("assemble", bpfh_assemble("exit", 4, code, 8, &told, &at), BPFH_DONE);
  holds("its code", told == 8 && code[0] == 0x95);
  is("assemble: nothing", bpfh_assemble("", 0, code, 0, &told, &at), BPFH_DONE);
  is("assemble: no word", bpfh_assemble("exit\nfrob", 9, code, sizeof code, &told, &at), BPFH_ASM_WORD);
  holds("its line", at == 2);
  is("assemble: 9 MB of zeros", bpfh_assemble((char *)large, sizeof large, code, sizeof code, &told, &at), BPFH_ASM_WORD);
}

int main(void) {
  bpfh_handle procedure = {0}, map = {0}, nothing = {0};
  bpfh_clear(&nothing);
  is("map", bpfh_map_new(&map), BPFH_DONE);
  is("map anew", bpfh_map_new(&map), BPFH_DONE);
  verifies(&procedure, &map);
  runs(&procedure, &map, &nothing);
  uses(&map, &procedure);
  uses(&map, &nothing);
  fills(&map);
  texts();
  bpfh_clear(&map);
  bpfh_clear(&map);
  bpfh_clear(&procedure);
  holds("all is cleared", !map.is_full && !procedure.is_full && !nothing.is_full);
  printf("wrong use: %d calls, %d otherwise than they are to be\n", calls, wrong);
  return wrong != 0;
}
