/* The replicas' library where memory runs out: a configuration, a replica and a client are made and step, with the Nth allocation refused,
 * alone or with all later ones, for each N. A call that is refused memory answers 21, 202 or 304 and leaves what it says; and at the end
 * nothing is left allocated. Linked with --wrap for malloc, realloc and free. It prints how many allocations were refused. */
#include <stdio.h>
#include <stdlib.h>
#include <string.h>

#include "bpf_host_replica.h"

void *__real_malloc(size_t size);
void *__real_realloc(void *old, size_t size);
void __real_free(void *block);

static long number, wanted, live;
static bool alone, counting;

static bool refused(void) {
  if (!counting) return false;
  number++;
  return wanted && (alone ? number == wanted : number >= wanted);
}

void *__wrap_malloc(size_t size) {
  if (refused()) return NULL;
  void *block = __real_malloc(size);
  live += block != NULL;
  return block;
}

void *__wrap_realloc(void *old, size_t size) {
  if (refused()) return NULL;
  void *block = __real_realloc(old, size);
  live += block != NULL && old == NULL;
  return block;
}

void __wrap_free(void *block) {
  live -= block != NULL;
  __real_free(block);
}

static int wrong;
static uint8_t seeds[5][BPFH_SEED], keys[5][BPFH_PUBLIC_KEY], message[65536];

static void holds(const char *what, bool so) {
  if (!so) {
    printf("allocation %ld refused%s: %s: no\n", wanted, alone ? " alone" : "", what);
    wrong++;
  }
}

static bool is_memory(uint32_t status) {
  return status == BPFH_GROUP_MEMORY || status == BPFH_GROUP_OUT_OF_MEMORY || status == BPFH_GROUP_REQUEST_MEMORY;
}

/* Whether a call did what it says; else that it answers for memory. */
static bool went(const char *what, uint32_t status) {
  if (status == BPFH_GROUP_DONE) return true;
  holds(what, is_memory(status));
  return false;
}

static bool drawn_up(bpfh_handle *draft, bpfh_handle *config) {
  if (!went("a draft", bpfh_draft_new(1, 8, draft))) return false;
  for (int n = 0; n < 4; n++) {
    while (!went("a replica", bpfh_draft_replica(draft, keys[n], BPFH_PUBLIC_KEY))) {
      if (!alone) return false;
    }
  }
  if (!went("a client", bpfh_draft_client(draft, 100, 1, keys[4], BPFH_PUBLIC_KEY))) return false;
  if (went("the configuration", bpfh_config(draft, config))) return true;
  holds("both are empty then", !draft->is_full && !config->is_full);
  return false;
}

static void keep(bpfh_handle *config, bpfh_handle *replica, uint64_t length) {
  bpfh_handle votes = {0};
  uint32_t early = 7;
  if (went("votes", bpfh_votes_new(config, &votes)) && !went("a request is offered", bpfh_votes_hold(&votes, message, length, &early))) {
    holds("nothing is told", early == 7);
  }
  if (!went("whether it waits", bpfh_replica_waits(replica, message, length, &early))) holds("nothing is told of that", early == 7 || early == 0);
  bpfh_release(&votes);
}

static void note(bpfh_handle *config, bpfh_handle *replica, uint64_t length) {
  bpfh_handle repeats = {0}, audit = {0};
  bpfh_sent sent = {0};
  bpfh_heard heard = {7, 7, 7};
  bool kept = went("repeats", bpfh_repeats_new(&repeats)) && went("a message is noted", bpfh_repeats_note(&repeats, replica, 0));
  if (kept) kept = went("a step", bpfh_repeats_follow(&repeats, replica));
  if (kept) holds("it is sent again", bpfh_repeats_get(&repeats, 0, message, 0, &sent) == BPFH_GROUP_BUFFER_TOO_SHORT);
  if (went("an audit", bpfh_audit_new(&audit)) && !went("a message is heard", bpfh_audit_hear(config, &audit, message, length, &heard))) {
    holds("nothing is told of it", heard.place == 7);
  }
  bpfh_release(&repeats);
  bpfh_release(&audit);
}

static void compare(void) {
  bpfh_handle ledger = {0};
  bpfh_done_item item = {0, 1, {9}, 5};
  bpfh_compared compared = {7, 7, 7, 7};
  bool noted = false;
  if (went("a ledger", bpfh_ledger_new(&ledger))) {
    for (int n = 0; n < 2 && !noted; n++) {
      noted = went("an execution is noted", bpfh_ledger_note(&ledger, message, 5, &item, &compared));
      if (!noted) holds("nothing is told of that", compared.place == 7);
    }
  }
  if (noted) holds("it is the first", compared.place == 0 && compared.differs == 0 && compared.follows == 1);
  bpfh_release(&ledger);
}

static void step(bpfh_handle *config, bpfh_handle *replica, bpfh_handle *client) {
  uint64_t told = 0;
  bpfh_sent sent = {0};
  bpfh_standing before = {0}, after = {0};
  if (!went("a request", bpfh_client_request(client, message, 5))) return;
  if (!went("its bytes", bpfh_client_message(client, message, sizeof message, &told))) return;
  went("who asks", bpfh_open(config, message, told, &(bpfh_signed_by){0}));
  keep(config, replica, told);
  went("standing", bpfh_replica_standing(replica, &before));
  uint32_t status = bpfh_replica_take(replica, message, told);
  went("the request", status);
  went("standing again", bpfh_replica_standing(replica, &after));
  if (status == BPFH_GROUP_MEMORY) holds("it stands as before", memcmp(&before, &after, sizeof before) == 0);
  if (status == BPFH_GROUP_OUT_OF_MEMORY) holds("it has halted", after.halted == 2 && after.leaves == 0);
  if (status == BPFH_GROUP_DONE) went("what it gave", bpfh_replica_output(replica, 0, message, sizeof message, &sent));
  if (sent.length > 0) note(config, replica, sent.length);
  if (after.halted == 0) went("a timeout", bpfh_replica_timeout(replica));
  if (sent.length > 0) went("offered", bpfh_client_hear(client, message, sent.length));
}

static void day(void) {
  bpfh_handle draft = {0}, config = {0}, replica = {0}, client = {0};
  memset(message, 2, 5);
  compare();
  if (drawn_up(&draft, &config)) {
    bool joined = went("a replica", bpfh_replica_replay(&config, 0, seeds[0], BPFH_SEED, 5, 0, &replica));
    joined = went("a client", bpfh_client_new(&config, 100, seeds[4], BPFH_SEED, 5, 0, 0, 0, &client)) && joined;
    if (joined) step(&config, &replica, &client);
  }
  bpfh_release(&draft);
  bpfh_release(&config);
  bpfh_release(&replica);
  bpfh_release(&client);
  holds("nothing is left", live == 0);
}

int main(void) {
  for (int n = 0; n < 5; n++) {
    memset(seeds[n], n + 1, BPFH_SEED);
    if (bpfh_key(seeds[n], BPFH_SEED, 5, 0, keys[n], BPFH_PUBLIC_KEY) != BPFH_GROUP_DONE) return 1;
  }
  live = 0;
  counting = true;
  day();
  long all = number, refusals = 0;
  for (int both = 0; both < 2; both++) {
    alone = both == 0;
    for (wanted = 1; wanted <= all; wanted++) {
      number = 0;
      day();
      refusals++;
    }
  }
  printf("%ld allocations, %ld refusals, %d wrong\n", all, refusals, wrong);
  return wrong > 0 || all == 0;
}
