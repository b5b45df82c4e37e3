/* Wrong use of the replicas' library, as far as a client may make it: each call a status, and nothing lost by it. It prints a line for
 * each call that answers another status than it is to, or changes what it may not, and at last how many calls were made. */
#include <inttypes.h>
#include <stdio.h>
#include <stdlib.h>
#include <string.h>

#include "bpf_host_replica.h"

static int calls, wrong;

static void is(const char *what, uint32_t got, uint32_t want) {
  calls++;
  if (got != want) {
    printf("%s: status %" PRIu32 ", wanted %" PRIu32 "\n", what, got, want);
    wrong++;
  }
}

static void holds(const char *what, bool so) {
  if (!so) {
    printf("%s: no\n", what);
    wrong++;
  }
}

static uint8_t seeds[5][BPFH_SEED], keys[5][BPFH_PUBLIC_KEY], large[9000000], message[65536];

static void makes_keys(void) {
  for (int n = 0; n < 5; n++) {
    memset(seeds[n], n + 1, BPFH_SEED);
    is("a key", bpfh_key(seeds[n], BPFH_SEED, 5, 0, keys[n], BPFH_PUBLIC_KEY), BPFH_GROUP_DONE);
  }
  uint8_t room[BPFH_PUBLIC_KEY] = {0xaa};
  is("a short seed", bpfh_key(seeds[0], 47, 5, 0, room, sizeof room), BPFH_GROUP_NO_SEED);
  is("no seed", bpfh_key(seeds[0], 0, 5, 0, room, sizeof room), BPFH_GROUP_NO_SEED);
  is("a long seed", bpfh_key(large, sizeof large, 5, 0, room, sizeof room), BPFH_GROUP_NO_SEED);
  is("height 6", bpfh_key(seeds[0], BPFH_SEED, 6, 0, room, sizeof room), BPFH_GROUP_NO_HEIGHT);
  is("height 0", bpfh_key(seeds[0], BPFH_SEED, 0, 0, room, sizeof room), BPFH_GROUP_NO_HEIGHT);
  is("bottom height 15", bpfh_key(seeds[0], BPFH_SEED, 5, 15, room, sizeof room), BPFH_GROUP_NO_HEIGHT);
  is("a short key", bpfh_key(seeds[0], BPFH_SEED, 5, 0, room, 59), BPFH_GROUP_BUFFER_TOO_SHORT);
  is("no room", bpfh_key(seeds[0], BPFH_SEED, 5, 0, room, 0), BPFH_GROUP_BUFFER_TOO_SHORT);
  holds("nothing is written", room[0] == 0xaa);
}

static void draws_up(bpfh_handle *config, bpfh_handle *nothing) {
  bpfh_handle draft = {0};
  is("no draft", bpfh_draft_replica(nothing, keys[0], BPFH_PUBLIC_KEY), BPFH_GROUP_NO_DRAFT);
  is("no draft for a client", bpfh_draft_client(nothing, 16, 1, keys[0], BPFH_PUBLIC_KEY), BPFH_GROUP_NO_DRAFT);
  is("no draft to finish", bpfh_config(nothing, config), BPFH_GROUP_NO_DRAFT);
  is("a draft", bpfh_draft_new(0, 8, &draft), BPFH_GROUP_DONE);
  is("no draft twice", bpfh_draft_new(4, 8, &draft), BPFH_GROUP_DONE);
  is("f is 4", bpfh_config(&draft, config), BPFH_GROUP_BAD_F);
  holds("both are empty", !draft.is_full && !config->is_full);
  is("another", bpfh_draft_new(1, 9, &draft), BPFH_GROUP_DONE);
  is("a short key", bpfh_draft_replica(&draft, keys[0], 59), BPFH_GROUP_NO_KEY);
  is("no key", bpfh_draft_replica(&draft, keys[0], 0), BPFH_GROUP_NO_KEY);
  is("a key of no level", bpfh_draft_replica(&draft, large, BPFH_PUBLIC_KEY), BPFH_GROUP_NO_KEY);
  is("9 MB", bpfh_draft_client(&draft, 100, 1, large, sizeof large), BPFH_GROUP_NO_KEY);
  is("three replicas", bpfh_config(&draft, config), BPFH_GROUP_WRONG_REPLICA_COUNT);
  is("another draft", bpfh_draft_new(1, 9, &draft), BPFH_GROUP_DONE);
  for (int n = 0; n < 4; n++) is("a replica", bpfh_draft_replica(&draft, keys[n], BPFH_PUBLIC_KEY), BPFH_GROUP_DONE);
  is("k is 9", bpfh_config(&draft, config), BPFH_GROUP_BAD_INTERVAL);
  is("once more", bpfh_draft_new(1, 8, &draft), BPFH_GROUP_DONE);
  for (int n = 0; n < 4; n++) is("a replica", bpfh_draft_replica(&draft, keys[n], BPFH_PUBLIC_KEY), BPFH_GROUP_DONE);
  is("a client", bpfh_draft_client(&draft, 100, 1, keys[4], BPFH_PUBLIC_KEY), BPFH_GROUP_DONE);
  is("a draft as configuration", bpfh_replica_new(&draft, 0, seeds[0], BPFH_SEED, 5, 0, 0, nothing), BPFH_GROUP_NO_CONFIG);
  is("the configuration", bpfh_config(&draft, config), BPFH_GROUP_DONE);
  is("a configuration as draft", bpfh_draft_replica(config, keys[0], BPFH_PUBLIC_KEY), BPFH_GROUP_NO_DRAFT);
}

static void joins(bpfh_handle *config, bpfh_handle *replica, bpfh_handle *client, bpfh_handle *nothing) {
  is("no configuration", bpfh_replica_new(nothing, 0, seeds[0], BPFH_SEED, 5, 0, 0, replica), BPFH_GROUP_NO_CONFIG);
  is("replica 4", bpfh_replica_new(config, 4, seeds[0], BPFH_SEED, 5, 0, 0, replica), BPFH_GROUP_NOT_LISTED);
  is("replica 255", bpfh_replica_new(config, 255, seeds[0], BPFH_SEED, 5, 0, 0, replica), BPFH_GROUP_NOT_LISTED);
  is("another's seed", bpfh_replica_new(config, 1, seeds[0], BPFH_SEED, 5, 0, 0, replica), BPFH_GROUP_OTHER_KEY);
  is("another height", bpfh_replica_new(config, 0, seeds[0], BPFH_SEED, 5, 5, 0, replica), BPFH_GROUP_OTHER_KEY);
  is("leaf 33", bpfh_replica_new(config, 0, seeds[0], BPFH_SEED, 5, 0, 33, replica), BPFH_GROUP_NO_LEAF);
  is("leaf 2^32 - 1", bpfh_replica_new(config, 0, seeds[0], BPFH_SEED, 5, 0, UINT32_MAX, replica), BPFH_GROUP_NO_LEAF);
  is("no seed", bpfh_replica_new(config, 0, seeds[0], 0, 5, 0, 0, replica), BPFH_GROUP_NO_SEED);
  is("no client 0", bpfh_client_new(config, 0, seeds[4], BPFH_SEED, 5, 0, 0, 0, client), BPFH_GROUP_NOT_LISTED);
  is("a late time", bpfh_client_new(config, 100, seeds[4], BPFH_SEED, 5, 0, 0, UINT64_MAX, client), BPFH_GROUP_NO_TIME);
  is("a replica's seed", bpfh_client_new(config, 100, seeds[0], BPFH_SEED, 5, 0, 0, 0, client), BPFH_GROUP_OTHER_KEY);
  holds("nobody joined", !replica->is_full && !client->is_full);
  is("nothing to take again under", bpfh_replica_replay(nothing, 0, seeds[0], BPFH_SEED, 5, 0, replica), BPFH_GROUP_NO_CONFIG);
  is("another's journal", bpfh_replica_replay(config, 1, seeds[0], BPFH_SEED, 5, 0, replica), BPFH_GROUP_OTHER_KEY);
  is("replica 4's", bpfh_replica_replay(config, 4, seeds[0], BPFH_SEED, 5, 0, replica), BPFH_GROUP_NOT_LISTED);
  holds("nobody began again", !replica->is_full);
  is("replica 0", bpfh_replica_new(config, 0, seeds[0], BPFH_SEED, 5, 0, 0, replica), BPFH_GROUP_DONE);
  is("client 100", bpfh_client_new(config, 100, seeds[4], BPFH_SEED, 5, 0, 30, 0, client), BPFH_GROUP_DONE);
}

static void opens(bpfh_handle *config, bpfh_handle *client, uint64_t length) {
  bpfh_signed_by signed_by = {7, 7};
  is("a client is no configuration", bpfh_open(client, message, length, &signed_by), BPFH_GROUP_NO_CONFIG);
  is("nothing to open", bpfh_open(config, message, 0, &signed_by), BPFH_GROUP_TRUNCATED);
  is("9 MB to open", bpfh_open(config, large, sizeof large, &signed_by), BPFH_GROUP_MESSAGE_TOO_LONG);
  message[length - 1] ^= 1;
  is("another signature", bpfh_open(config, message, length, &signed_by), BPFH_GROUP_BAD_SIGNATURE);
  message[length - 1] ^= 1;
  holds("nobody is told", signed_by.role == 7 && signed_by.id == 7);
  is("a request's bytes", bpfh_open(config, message, length, &signed_by), BPFH_GROUP_DONE);
  holds("client 100 signed them", signed_by.role == 2 && signed_by.id == 100);
}

static void keeps_votes(bpfh_handle *config, bpfh_handle *replica, bpfh_handle *nothing, uint64_t length) {
  bpfh_handle votes = {0};
  uint32_t early = 7;
  uint64_t told = 7;
  is("votes of no configuration", bpfh_votes_new(nothing, &votes), BPFH_GROUP_NO_CONFIG);
  is("of a replica", bpfh_votes_new(replica, &votes), BPFH_GROUP_NO_CONFIG);
  is("no votes", bpfh_votes_hold(&votes, message, length, &early), BPFH_GROUP_NO_VOTES);
  is("none to move", bpfh_votes_move(&votes, 0, 0), BPFH_GROUP_NO_VOTES);
  is("none to hand in", bpfh_votes_next(&votes, message, 0, &told), BPFH_GROUP_NO_VOTES);
  is("votes", bpfh_votes_new(config, &votes), BPFH_GROUP_DONE);
  is("votes twice", bpfh_votes_new(config, &votes), BPFH_GROUP_DONE);
  is("a replica keeps none", bpfh_votes_hold(replica, message, length, &early), BPFH_GROUP_NO_VOTES);
  is("votes don't step", bpfh_replica_take(&votes, message, length), BPFH_GROUP_NO_REPLICA);
  is("9 MB to keep", bpfh_votes_hold(&votes, large, sizeof large, &early), BPFH_GROUP_MESSAGE_TOO_LONG);
  holds("nothing is told", early == 7);
  is("a request", bpfh_votes_hold(&votes, message, length, &early), BPFH_GROUP_DONE);
  holds("is for now", early == 0);
  is("any mark", bpfh_votes_move(&votes, UINT64_MAX, UINT32_MAX), BPFH_GROUP_DONE);
  is("none is on time", bpfh_votes_next(&votes, message, 0, &told), BPFH_GROUP_NO_ENTRY);
  bpfh_release(&votes);
}

static void repeats(bpfh_handle *replica, bpfh_handle *nothing) {
  bpfh_handle kept = {0};
  bpfh_sent sent = {0};
  is("nothing to note in", bpfh_repeats_note(&kept, replica, 0), BPFH_GROUP_NO_REPEATS);
  is("nothing to follow", bpfh_repeats_follow(&kept, replica), BPFH_GROUP_NO_REPEATS);
  is("nothing to tell", bpfh_repeats_get(&kept, 0, message, 0, &sent), BPFH_GROUP_NO_REPEATS);
  is("a replica keeps nothing", bpfh_repeats_note(replica, nothing, 0), BPFH_GROUP_NO_REPEATS);
  is("nor follows", bpfh_repeats_follow(replica, nothing), BPFH_GROUP_NO_REPEATS);
  is("repeats", bpfh_repeats_new(&kept), BPFH_GROUP_DONE);
  is("repeats twice", bpfh_repeats_new(&kept), BPFH_GROUP_DONE);
  is("of no replica", bpfh_repeats_note(&kept, nothing, 0), BPFH_GROUP_NO_REPLICA);
  is("none to follow", bpfh_repeats_follow(&kept, nothing), BPFH_GROUP_NO_REPLICA);
  is("its first message", bpfh_repeats_note(&kept, replica, 0), BPFH_GROUP_DONE);
  is("the same again", bpfh_repeats_note(&kept, replica, 0), BPFH_GROUP_DONE);
  is("no second one", bpfh_repeats_note(&kept, replica, 1), BPFH_GROUP_NO_ENTRY);
  is("nor a last one", bpfh_repeats_note(&kept, replica, UINT32_MAX), BPFH_GROUP_NO_ENTRY);
  is("the step", bpfh_repeats_follow(&kept, replica), BPFH_GROUP_DONE);
  is("no room", bpfh_repeats_get(&kept, 0, large, 0, &sent), BPFH_GROUP_BUFFER_TOO_SHORT);
  is("it is sent again", bpfh_repeats_get(&kept, 0, large, sent.length, &sent), BPFH_GROUP_DONE);
  holds("the same bytes, to all", sent.kind == 0 && memcmp(large, message, sent.length) == 0);
  is("once", bpfh_repeats_get(&kept, 1, large, sizeof large, &sent), BPFH_GROUP_NO_ENTRY);
  memset(large, 0, sent.length);
  bpfh_release(&kept);
}

static void audits(bpfh_handle *config, bpfh_handle *replica, uint64_t length) {
  bpfh_handle audit = {0}, nothing = {0}, twin = {0}, client = {0};
  bpfh_heard heard = {7, 7, 7};
  bpfh_sent sent = {0};
  uint64_t told = 0;
  is("no audit", bpfh_audit_hear(config, &audit, message, length, &heard), BPFH_GROUP_NO_AUDIT);
  is("no configuration", bpfh_audit_hear(&nothing, &audit, message, length, &heard), BPFH_GROUP_NO_CONFIG);
  is("a replica as configuration", bpfh_audit_hear(replica, &audit, message, length, &heard), BPFH_GROUP_NO_CONFIG);
  is("a replica as audit", bpfh_audit_hear(config, replica, message, length, &heard), BPFH_GROUP_NO_AUDIT);
  is("an audit", bpfh_audit_new(&audit), BPFH_GROUP_DONE);
  is("an audit twice", bpfh_audit_new(&audit), BPFH_GROUP_DONE);
  is("9 MB to hear", bpfh_audit_hear(config, &audit, large, sizeof large, &heard), BPFH_GROUP_MESSAGE_TOO_LONG);
  holds("nothing is told", heard.place == 7 && heard.first == 7 && heard.blames == 7);
  is("a proposal", bpfh_audit_hear(config, &audit, message, length, &heard), BPFH_GROUP_DONE);
  holds("is the first", heard.place == 0 && heard.blames == 0);
  is("the same", bpfh_audit_hear(config, &audit, message, length, &heard), BPFH_GROUP_DONE);
  holds("blames nobody", heard.place == 1 && heard.blames == 0);
  is("its twin", bpfh_replica_replay(config, 0, seeds[0], BPFH_SEED, 5, 0, &twin), BPFH_GROUP_DONE);
  is("another's request", bpfh_client_new(config, 100, seeds[4], BPFH_SEED, 5, 0, 29, 7, &client), BPFH_GROUP_DONE);
  is("asks", bpfh_client_request(&client, large, 2), BPFH_GROUP_DONE);
  is("so", bpfh_client_message(&client, large, sizeof large, &told), BPFH_GROUP_DONE);
  is("and is proposed", bpfh_replica_take(&twin, large, told), BPFH_GROUP_DONE);
  is("by these bytes", bpfh_replica_output(&twin, 0, large, sizeof large, &sent), BPFH_GROUP_DONE);
  is("which are heard", bpfh_audit_hear(config, &audit, large, sent.length, &heard), BPFH_GROUP_DONE);
  holds("and blame", heard.place == 2 && heard.first == 0 && heard.blames == 1);
  memset(large, 0, 65536);
  bpfh_release(&audit);
  bpfh_release(&twin);
  bpfh_release(&client);
}

static bool compared_as(bpfh_compared got, uint64_t place, uint64_t first, uint32_t differs, uint32_t follows) {
  return got.place == place && got.first == first && got.differs == differs && got.follows == follows;
}

static void compares(bpfh_handle *replica) {
  static const uint8_t answer[] = "one", other[] = "two";
  bpfh_handle ledger = {0};
  bpfh_done_item item = {0, 1, {9}, 3}, state = {1, 8, {9}, 0};
  bpfh_compared told = {7, 7, 7, 7};
  is("no ledger", bpfh_ledger_note(&ledger, answer, 3, &item, &told), BPFH_GROUP_NO_LEDGER);
  is("none to begin in", bpfh_ledger_begin(&ledger, 0), BPFH_GROUP_NO_LEDGER);
  is("a replica as ledger", bpfh_ledger_note(replica, answer, 3, &item, &told), BPFH_GROUP_NO_LEDGER);
  is("nor to begin in", bpfh_ledger_begin(replica, 0), BPFH_GROUP_NO_LEDGER);
  is("a ledger", bpfh_ledger_new(&ledger), BPFH_GROUP_DONE);
  is("a ledger twice", bpfh_ledger_new(&ledger), BPFH_GROUP_DONE);
  is("a result cut short", bpfh_ledger_note(&ledger, answer, 2, &item, &told), BPFH_GROUP_BUFFER_TOO_SHORT);
  const bpfh_done_item endless = {0, 1, {9}, UINT64_MAX}, third = {2, 1, {9}, 3}, last = {UINT32_MAX, 1, {9}, 3};
  is("a result without end", bpfh_ledger_note(&ledger, answer, 3, &endless, &told), BPFH_GROUP_BUFFER_TOO_SHORT);
  is("of no kind", bpfh_ledger_note(&ledger, answer, 3, &third, &told), BPFH_GROUP_NO_ITEM);
  is("nor of the last", bpfh_ledger_note(&ledger, answer, 3, &last, &told), BPFH_GROUP_NO_ITEM);
  holds("nothing is told", compared_as(told, 7, 7, 7, 7));
  is("an execution", bpfh_ledger_note(&ledger, answer, sizeof answer, &item, &told), BPFH_GROUP_DONE);
  holds("is the first", compared_as(told, 0, 0, 0, 1));
  is("the same", bpfh_ledger_note(&ledger, answer, 3, &item, &told), BPFH_GROUP_DONE);
  holds("doesn't follow on itself", compared_as(told, 1, 0, 0, 0));
  is("another replica", bpfh_ledger_begin(&ledger, 0), BPFH_GROUP_DONE);
  is("another result", bpfh_ledger_note(&ledger, other, 3, &item, &told), BPFH_GROUP_DONE);
  holds("differs from the first", compared_as(told, 2, 0, 1, 1));
  item.digest[0] = 8;
  is("another request", bpfh_ledger_note(&ledger, other, 3, &item, &told), BPFH_GROUP_DONE);
  holds("differs too, behind itself", compared_as(told, 3, 0, 1, 0));
  is("a state", bpfh_ledger_note(&ledger, answer, 0, &state, &told), BPFH_GROUP_DONE);
  holds("follows on any number", compared_as(told, 4, 0, 0, 1));
  state.digest[0] = 8;
  is("another state", bpfh_ledger_note(&ledger, answer, 0, &state, &told), BPFH_GROUP_DONE);
  holds("differs from that", compared_as(told, 5, 4, 1, 1));
  is("a replica at number 41", bpfh_ledger_begin(&ledger, 41), BPFH_GROUP_DONE);
  item.number = 42;
  is("the next number", bpfh_ledger_note(&ledger, answer, 3, &item, &told), BPFH_GROUP_DONE);
  holds("is its next", compared_as(told, 6, 0, 0, 1));
  item.number = 0;
  is("a replica at the last number", bpfh_ledger_begin(&ledger, UINT64_MAX), BPFH_GROUP_DONE);
  is("number 0", bpfh_ledger_note(&ledger, answer, 3, &item, &told), BPFH_GROUP_DONE);
  holds("is no next number", compared_as(told, 7, 0, 0, 0));
  bpfh_release(&ledger);
}

static void waits(bpfh_handle *replica, bpfh_handle *client, uint64_t length) {
  uint32_t so = 7;
  is("a client waits for nothing", bpfh_replica_waits(client, message, length, &so), BPFH_GROUP_NO_REPLICA);
  is("9 MB to wait for", bpfh_replica_waits(replica, large, sizeof large, &so), BPFH_GROUP_MESSAGE_TOO_LONG);
  holds("nothing is told of it", so == 7);
  is("a request to wait for", bpfh_replica_waits(replica, message, length, &so), BPFH_GROUP_DONE);
  holds("it isn't answered", so == 1);
}

static void steps(bpfh_handle *config, bpfh_handle *replica, bpfh_handle *client) {
  bpfh_handle nothing = {0};
  bpfh_sent sent = {0};
  bpfh_standing standing = {0};
  uint64_t told = 0;
  is("nothing done yet", bpfh_replica_done(replica, 0, message, sizeof message, &(bpfh_done_item){0}), BPFH_GROUP_NO_ROW);
  is("a client does nothing", bpfh_replica_done(client, 0, message, 0, &(bpfh_done_item){0}), BPFH_GROUP_NO_REPLICA);
  is("no row yet", bpfh_replica_output(replica, 0, message, sizeof message, &sent), BPFH_GROUP_NO_ROW);
  is("a client as replica", bpfh_replica_take(client, message, 0), BPFH_GROUP_NO_REPLICA);
  is("no message", bpfh_replica_take(replica, message, 0), BPFH_GROUP_TRUNCATED);
  is("9 MB", bpfh_replica_take(replica, large, sizeof large), BPFH_GROUP_MESSAGE_TOO_LONG);
  is("zeros", bpfh_replica_take(replica, large, 100), BPFH_GROUP_BAD_FIELD);
  is("a replica as client", bpfh_client_request(replica, message, 0), BPFH_GROUP_NO_CLIENT);
  is("no request yet", bpfh_client_message(client, message, sizeof message, &told), BPFH_GROUP_NO_REQUEST);
  is("no reply yet", bpfh_client_accepted(client, message, sizeof message, &(bpfh_accepted){0}), BPFH_GROUP_NO_REPLY);
  is("a long operation", bpfh_client_request(client, large, BPFH_MAX_OPERATION + 1), BPFH_GROUP_OPERATION_TOO_LONG);
  is("an empty one", bpfh_client_request(client, large, 0), BPFH_GROUP_DONE);
  is("no room", bpfh_client_message(client, message, 0, &told), BPFH_GROUP_BUFFER_TOO_SHORT);
  uint64_t length = told;
  is("a byte short", bpfh_client_message(client, message, length - 1, &told), BPFH_GROUP_BUFFER_TOO_SHORT);
  is("room", bpfh_client_message(client, message, length, &told), BPFH_GROUP_DONE);
  opens(config, client, length);
  keeps_votes(config, replica, &nothing, length);
  waits(replica, client, length);
  message[length - 1] ^= 1;
  is("a bit flipped", bpfh_replica_take(replica, message, length), BPFH_GROUP_BAD_SIGNATURE);
  message[length - 1] ^= 1;
  is("a byte behind", bpfh_replica_take(replica, message, length + 1), BPFH_GROUP_TRAILING);
  is("the request", bpfh_replica_take(replica, message, length), BPFH_GROUP_DONE);
  is("nothing done", bpfh_replica_done(replica, 0, message, sizeof message, &(bpfh_done_item){0}), BPFH_GROUP_NO_ENTRY);
  is("its first message", bpfh_replica_output(replica, 0, message, sizeof message, &sent), BPFH_GROUP_DONE);
  holds("to all", sent.kind == 0 && sent.length > length);
  repeats(replica, &nothing);
  audits(config, replica, sent.length);
  compares(replica);
  is("no second one", bpfh_replica_output(replica, 1, message, sizeof message, &sent), BPFH_GROUP_NO_ENTRY);
  is("nor a last one", bpfh_replica_output(replica, UINT32_MAX, message, sizeof message, &sent), BPFH_GROUP_NO_ENTRY);
  is("standing", bpfh_replica_standing(replica, &standing), BPFH_GROUP_DONE);
  holds("in view 0", standing.view == 0 && standing.active == 1 && standing.halted == 0 && standing.leaves == 31);
  is("a client stands nowhere", bpfh_replica_standing(client, &standing), BPFH_GROUP_NO_REPLICA);
  is("the state's length", bpfh_replica_state(replica, message, 0, &told), BPFH_GROUP_BUFFER_TOO_SHORT);
  is("the state", bpfh_replica_state(replica, message, told, &told), BPFH_GROUP_DONE);
}

static void ends(bpfh_handle *replica, bpfh_handle *client) {
  bpfh_standing standing = {0};
  bpfh_sent sent = {0};
  uint64_t told = 0;
  is("the last leaf", bpfh_client_request(client, large, 1), BPFH_GROUP_DONE);
  is("no leaf", bpfh_client_request(client, large, 1), BPFH_GROUP_NO_LEAVES);
  uint32_t status = BPFH_GROUP_DONE;
  for (int n = 0; n < 40 && status == BPFH_GROUP_DONE; n++) status = bpfh_replica_timeout(replica);
  is("no leaf left", status, BPFH_GROUP_EXHAUSTED);
  is("halted", bpfh_replica_timeout(replica), BPFH_GROUP_ALREADY_HALTED);
  is("no state", bpfh_replica_state(replica, message, sizeof message, &told), BPFH_GROUP_NO_STATE);
  is("no row", bpfh_replica_output(replica, 0, message, sizeof message, &sent), BPFH_GROUP_NO_ROW);
  is("stands still", bpfh_replica_standing(replica, &standing), BPFH_GROUP_DONE);
  holds("halted for want of leaves", standing.halted == 1 && standing.leaves == 0);
}

int main(void) {
  bpfh_handle config = {0}, replica = {0}, client = {0}, nothing = {0};
  bpfh_release(&nothing);
  makes_keys();
  draws_up(&config, &nothing);
  joins(&config, &replica, &client, &nothing);
  steps(&config, &replica, &client);
  ends(&replica, &client);
  bpfh_release(&config);
  bpfh_release(&replica);
  bpfh_release(&client);
  bpfh_release(&client);
  holds("all are empty", !config.is_full && !replica.is_full && !client.is_full && !nothing.is_full);
  printf("%d calls, %d wrong\n", calls, wrong);
  return wrong > 0;
}
