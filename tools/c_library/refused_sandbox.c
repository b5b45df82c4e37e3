/* The sandbox where memory runs out: the calls of a day, with the Nth allocation refused, alone or with all later ones, for each
 * N. A call that is refused memory answers 21 and leaves what it says; and at the end nothing is left allocated. Linked with
 * --wrap for malloc, realloc and free. It prints how many allocations were refused. */
#include <stdio.h>
#include <stdlib.h>
#include <string.h>

#include "bpf_host_sandbox.h"

void *__real_malloc(size_t size);
void *__real_realloc(void *old, size_t size);
void __real_free(void *block);

static long number, wanted, live;
static bool alone, counting;

static bool refused(void) {
  if (!counting) return false;
  number++;
  return wanted && (alone ? number == wanted : number >= wanted);
}

void *__wrap_malloc(size_t size) {
  if (refused()) return NULL;
  void *block = __real_malloc(size);
  live += block != NULL;
  return block;
}

void *__wrap_realloc(void *old, size_t size) {
  if (refused()) return NULL;
  void *block = __real_realloc(old, size);
  live += block != NULL && old == NULL;
  return block;
}

void __wrap_free(void *block) {
  live -= block != NULL;
  __real_free(block);
}

static int wrong;

static void holds(const char *what, bool so) {
  if (!so) {
    printf("allocation %ld refused%s: %s: no\n", wanted, alone ? " alone" : "", what);
    wrong++;
  }
}

static const char text[] =
    "stdw [r10-16], 5\nstdw [r10-8], 0\nstdw [r10-48], 6\nstdw [r10-40], 0\nstdw [r10-32], 0\nstdw [r10-24], 0\n"
    "mov64 r1, r10\nadd64 r1, -16\nmov64 r2, r10\nadd64 r2, -48\ncall 2\nexit\n";

static bool is_one_of(uint32_t status, uint32_t done) { return status == done || status == BPFH_MEMORY; }

/* What runs over the map, with entries before it, and what the map has then. */
static void runs(bpfh_handle *procedure, bpfh_handle *map) {
  uint8_t out[BPFH_MAX_OUTPUT];
  bpfh_ended ended;
  uint64_t before, after;
  bpfh_map_len(map, &before);
  uint32_t status = bpfh_run(procedure, map, 1, out, 0, out, sizeof out, &ended);
  bpfh_map_len(map, &after);
  holds("a run ends, or is refused memory", is_one_of(status, BPFH_DONE));
  holds("the map is that behind the run, or that before the put", after == before + (status == BPFH_DONE));
  holds("both are held still", procedure->is_full && map->is_full);
}

static void puts_entries(bpfh_handle *map) {
  uint8_t key[BPFH_KEY] = {0}, value[BPFH_VALUE] = {0}, found[BPFH_VALUE];
  for (uint8_t i = 10; i < 40; i++) {
    uint64_t before, after;
    key[0] = value[0] = i;
    bpfh_map_len(map, &before);
    uint32_t status = bpfh_map_put(map, key, sizeof key, value, sizeof value);
    bpfh_map_len(map, &after);
    holds("a put is done, or is refused memory", is_one_of(status, BPFH_DONE));
    holds("the entry is there, or the map is as it was", after == before + (status == BPFH_DONE));
    holds("the value is there, or not",
          bpfh_map_get(map, key, sizeof key, found, sizeof found) == (status ? BPFH_NO_ENTRY : BPFH_DONE));
  }
}

static void texts(const uint8_t *code, size_t length) {
  static char buffer[1024];
  uint64_t told;
  uint32_t at;
  holds("disassembled, or refused memory",
        is_one_of(bpfh_disassemble(code, length, buffer, sizeof buffer, &told, &at), BPFH_DONE));
  holds("explained, or refused memory", is_one_of(bpfh_explain(code, 8, 1, buffer, sizeof buffer, &told), BPFH_DONE));
}

static void day(void) {
  static uint8_t code[BPFH_MAX_CODE];
  uint64_t length;
  uint32_t line;
  bpfh_verdict verdict;
  bpfh_handle procedure = {0}, map = {0};
  counting = false;
  holds("assembled", bpfh_assemble(text, sizeof text - 1, code, sizeof code, &length, &line) == BPFH_DONE);
  counting = true, number = 0;
  holds("assembled, or refused memory",
        is_one_of(bpfh_assemble(text, sizeof text - 1, code, sizeof code, &length, &line), BPFH_DONE));
  uint32_t verified = bpfh_verify(code, length, 1, &procedure, &verdict);
  holds("verified, or refused memory", is_one_of(verified, BPFH_DONE) && procedure.is_full == (verified == BPFH_DONE));
  verified = bpfh_verify(code, length, 2, &procedure, &verdict);
  holds("verified, or refused memory", is_one_of(verified, BPFH_DONE) && procedure.is_full == (verified == BPFH_DONE));
  uint32_t made = bpfh_map_new(&map);
  holds("a map, or refused memory", is_one_of(made, BPFH_DONE) && map.is_full == (made == BPFH_DONE));
  if (verified == BPFH_DONE && made == BPFH_DONE) runs(&procedure, &map);
  if (made == BPFH_DONE) puts_entries(&map);
  texts(code, length);
  bpfh_clear(&procedure);
  bpfh_clear(&map);
  counting = false;
  holds("nothing is left allocated", live == 0);
}

int main(void) {
  wanted = 0;
  day();
  long all = number;
  for (wanted = 1; wanted <= all; wanted++)
    for (int i = 0; i < 2; i++) {
      alone = i;
      day();
    }
  printf("refused allocations: %ld of %ld, each alone and with all later ones, %d otherwise than they are to be\n", all, all,
         wrong);
  return wrong != 0 || all == 0;
}
