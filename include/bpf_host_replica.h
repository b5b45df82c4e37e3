/* Replicas and clients of bpf_host as a library: a Byzantine fault tolerant service (Castro and Liskov, OSDI 1999, signed messages)
 * that keeps maps for tenants and runs their procedures (RFC 9669). The library has no thread, no clock, no file and no socket:
 * replicas and clients take bytes and give bytes, and the caller moves them, in any order, as often as he likes, or not at all.
 *
 * What is proved of it (docs/EMBEDDING.md has the sentences): a replica's step is the protocol's, and a client accepts what f + 1
 * replicas have answered. Of the protocol it is proved, and of these archives not stated, that where at most f of 3f + 1 replicas do
 * otherwise, nobody forged and no digests collide, all others execute one list of requests. No call signs bytes that its caller
 * gives. What a caller owes, since no proof sees him:
 *
 * - A seed never begins twice at one leaf. Two messages that one leaf signed give the key away (RFC 8554, section 9.2). A
 *   process that begins again with its seed begins at a leaf that none of its signatures has used: what is kept for that, on disk,
 *   is raised before a message is given to anybody. A replica begins with no memory of what it said before, and counts among the
 *   f faulty ones from then on; but one that began by bpfh_replica_replay, begins so again, and takes all again that it took, in that
 *   order, before anything of it is sent, gives the same bytes again and goes on from there. A client goes on with a time at least that
 *   of its last request.
 * - A seed has 32 secret bytes from a good source of random numbers, and stays where it is used.
 * - All members of a group are made under the same configuration, by the same calls in the same order.
 * - A handle is all zero at first ({0}), isn't copied, moved only while no call has it, and is given to bpfh_release at last.
 *   No handle stands twice in one call, or in two calls at once. Its fields are the library's. A handle may go to another
 *   thread, in an order that both threads see (a lock, a start, a join).
 * - A pointer leads to memory of its own, as long as its length says, for the whole call; none is null, also where the length
 *   is 0. What is read may be shared by calls that only read it; what is written lies apart from all else of the call.
 * - malloc, realloc and free are of one allocator, and malloc aligns to 16 bytes. 256 KiB of stack are left.
 * - No call is made from a signal handler, nor in the child of a process with threads that forked.
 *
 * The archive: libbpf_host_replica.a (tools/c-library). It takes malloc, realloc, free and memory functions, as memcpy, of its program,
 * and no other name. It may be linked beside the sandbox's.
 */
#ifndef BPF_HOST_REPLICA_H
#define BPF_HOST_REPLICA_H

#include <assert.h>
#include <stdbool.h>
#include <stddef.h>
#include <stdint.h>

#ifdef __cplusplus
extern "C" {
#endif

/* Lengths in bytes. */
enum {
  BPFH_SEED = 48,       /* an identifier of 16 bytes, and 32 that are secret */
  BPFH_PUBLIC_KEY = 60, /* RFC 8554, section 6.1: the number of levels, and the key of the top tree */
  BPFH_MAX_OPERATION = 1048576,
  BPFH_MAX_MESSAGE = 8388608
};

/* What a call answers. */
enum bpfh_group_status {
  BPFH_GROUP_DONE = 0,
  BPFH_GROUP_MEMORY = 21, /* memory ran out, and nothing is changed */
  BPFH_GROUP_BUFFER_TOO_SHORT = 35,
  BPFH_GROUP_NO_DRAFT = 51,  /* the handle holds no draft of a configuration */
  BPFH_GROUP_NO_CONFIG = 52, /* the handle holds no configuration */
  BPFH_GROUP_NO_REPLICA = 53, /* the handle holds no replica */
  BPFH_GROUP_NO_CLIENT = 54, /* the handle holds no client's session */
  BPFH_GROUP_NO_KEY = 55,    /* a public key isn't 60 bytes of 1 or 2 levels */
  BPFH_GROUP_NO_SEED = 56,   /* a seed hasn't 48 bytes */
  BPFH_GROUP_NO_HEIGHT = 57, /* a tree has another height than 5 and 10 */
  BPFH_GROUP_NO_LEAF = 58,   /* the key has fewer leaves */
  BPFH_GROUP_NOT_LISTED = 59,
  BPFH_GROUP_OTHER_KEY = 60, /* another key is listed than that of the seed */
  BPFH_GROUP_NO_ROW = 61,    /* no step was made yet, or the replica has halted */
  BPFH_GROUP_NO_ENTRY = 62,  /* the last step gave or did less */
  BPFH_GROUP_NO_STATE = 63,  /* the replica has halted */
  BPFH_GROUP_NO_TIME = 64,   /* a time is greater than 2^63 */
  BPFH_GROUP_OPERATION_TOO_LONG = 65,
  BPFH_GROUP_NO_REQUEST = 66, /* the session has made no request */
  BPFH_GROUP_NO_REPLY = 67,   /* no reply to the last request is accepted yet */
  BPFH_GROUP_NO_VOTES = 68,   /* the handle holds no early votes */
  BPFH_GROUP_NO_REPEATS = 69, /* the handle holds nothing that a replica sends again */
  BPFH_GROUP_NO_AUDIT = 70,   /* the handle holds no audit */
  /* The first fault of a configuration. */
  BPFH_GROUP_BAD_F = 71,               /* f is 1 to 3 */
  BPFH_GROUP_WRONG_REPLICA_COUNT = 72, /* there are 3f + 1 replicas */
  BPFH_GROUP_BAD_INTERVAL = 73,        /* k is 1 to 8 */
  BPFH_GROUP_DUPLICATE_CLIENT = 74,
  BPFH_GROUP_TOO_MANY = 76, /* at most 64 clients, of 8 tenants; a client's id is at least 16 */
  /* Why nothing is noted. */
  BPFH_GROUP_NO_LEDGER = 80, /* the handle holds no ledger */
  BPFH_GROUP_NO_ITEM = 81,   /* the kind of what a replica did is neither 0 nor 1 */
  /* Why bytes are no message that the configuration takes. */
  BPFH_GROUP_UNKNOWN_SIGNER = 102,
  BPFH_GROUP_BAD_SIGNATURE = 103,
  BPFH_GROUP_WRONG_ROLE = 104,
  BPFH_GROUP_TRUNCATED = 111,
  BPFH_GROUP_TRAILING = 112,
  BPFH_GROUP_BAD_KIND = 113,
  BPFH_GROUP_BAD_FIELD = 114,
  BPFH_GROUP_MESSAGE_TOO_LONG = 115,
  BPFH_GROUP_NOT_ASCENDING = 116,
  /* Why a replica has halted. It gave nothing for what it took last, and does nothing any more. */
  BPFH_GROUP_EXHAUSTED = 201,      /* its signer had too few leaves */
  BPFH_GROUP_OUT_OF_MEMORY = 202,  /* memory ran out in its step */
  BPFH_GROUP_WORN = 203,           /* the last view, or the last number */
  BPFH_GROUP_ALREADY_HALTED = 205, /* it had halted before this call */
  /* Why a client makes no request. */
  BPFH_GROUP_NO_LEAVES = 301,     /* its signer has no leaf left */
  BPFH_GROUP_REQUEST_MEMORY = 304 /* memory ran out; a leaf may be used */
};

/* A draft, a configuration, a replica, a client's session, what stands beside a replica, an audit, a ledger, or nothing. The sandbox's
 * header has the same. */
#ifndef BPF_HOST_SANDBOX_H
typedef struct bpfh_handle {
  void *at;
  bool is_full;
} bpfh_handle;
#endif

/* Whom a message is for, and how long it is. */
typedef struct bpfh_sent {
  uint32_t kind; /* 0: all other replicas; 1: a replica; 2: a client */
  uint32_t id;   /* of the replica or the client */
  uint64_t length;
} bpfh_sent;

/* What a replica did to its state. */
typedef struct bpfh_done_item {
  uint32_t kind;      /* 0: a request was executed; 1: a state was installed */
  uint64_t number;    /* at which the request was executed, or whose state was installed */
  uint8_t digest[32]; /* of the request, or of the state's bytes */
  uint64_t length;    /* of the request's result; 0 where there is no reply */
} bpfh_done_item;

/* Who signed a message. */
typedef struct bpfh_signed_by {
  uint32_t role; /* 1: a replica; 2: a client */
  uint32_t id;   /* of the replica or the client */
} bpfh_signed_by;

/* Where a replica stands after its last step. */
typedef struct bpfh_standing {
  uint64_t low;      /* the low water mark */
  uint64_t executed; /* the last executed number */
  uint32_t view;
  uint32_t active; /* 1 where it is active in the view, 0 where it is changing to it */
  uint32_t halted; /* 0, or the halt's status less 200 */
  uint32_t leaves; /* how many leaves of its signer have not signed */
} bpfh_standing;

/* The place of a message among those that an audit has heard, and whether it blames its signer. */
typedef struct bpfh_heard {
  uint64_t place;  /* from 0 on */
  uint64_t first;  /* the place of the first message that its signer contradicts in it; 0 where there is none */
  uint32_t blames; /* 1 where there is one, else 0 */
} bpfh_heard;

/* How what a replica did compares with what a ledger has noted before. */
typedef struct bpfh_compared {
  uint64_t place;   /* its place among all that was noted, from 0 on */
  uint64_t first;   /* the place of the first of its kind and its number that differs from it; 0 where there is none */
  uint32_t differs; /* 1 where there is one, else 0 */
  uint32_t follows; /* 0 for a request that was executed at another number than the replica's last one plus 1, else 1 */
} bpfh_compared;

/* The reply that a client accepts. */
typedef struct bpfh_accepted {
  uint64_t time;   /* of the request */
  uint64_t number; /* at which it was executed */
  uint64_t length; /* of the result */
} bpfh_accepted;

/* The public key of a seed: 60 bytes of key. top is the height of the top tree, 5 or 10 (32 or 1,024 leaves); bottom that of
 * the trees below it, 5 or 10, or 0 for one tree. 21, 35, 56, 57: key stays as it was. */
uint32_t bpfh_key(const uint8_t *seed, size_t seed_length, uint8_t top, uint8_t bottom, uint8_t *key, size_t key_length);

/* Begins a configuration for f faulty replicas, with a checkpoint at every k-th number. What the handle held is freed first.
 * 21: it holds nothing. */
uint32_t bpfh_draft_new(uint8_t f, uint8_t k, bpfh_handle *draft);

/* Lists the next replica's public key; the first one is replica 0. 21, 51, 55: the draft stays as it was. */
uint32_t bpfh_draft_replica(bpfh_handle *draft, const uint8_t *key, size_t key_length);

/* Lists a client, its tenant and its public key. 21, 51, 55: the draft stays as it was. */
uint32_t bpfh_draft_client(bpfh_handle *draft, uint32_t client, uint32_t tenant, const uint8_t *key, size_t key_length);

/* Makes the configuration of a draft, whose handle is empty then. What config held is freed first. 21, 51, 71 to 76: it holds
 * nothing. */
uint32_t bpfh_config(bpfh_handle *draft, bpfh_handle *config);

/* Opens bytes under a configuration and tells who signed the message that they are: all its parts have listed signers, who may say
 * what they say, and valid signatures. 21, 52, 102 to 116: signed_by stays as it was. */
uint32_t bpfh_open(bpfh_handle *config, const uint8_t *bytes, size_t length, bpfh_signed_by *signed_by);

/* Makes a replica before its first message, whose signer has used the leaves below leaf: none from there on has signed, which its caller
 * keeps on disk; a new seed begins at 0. What replica held is freed first. 21, 52, 56 to 60: it holds nothing. */
uint32_t bpfh_replica_new(bpfh_handle *config, uint8_t id, const uint8_t *seed, size_t seed_length, uint8_t top,
                         uint8_t bottom, uint32_t leaf, bpfh_handle *replica);

/* Makes a replica before its first message, whose signer is at its first leaf, for a caller that writes each message and each timeout
 * down before its replica takes it: it takes again all that this seed's replica took, in that order, before anything is sent. What replica
 * held is freed first. 21, 52, 56, 57, 59, 60: it holds nothing. */
uint32_t bpfh_replica_replay(bpfh_handle *config, uint8_t id, const uint8_t *seed, size_t seed_length, uint8_t top,
                            uint8_t bottom, bpfh_handle *replica);

/* Opens bytes and has the replica take the message that they are. 0: what it did stays inside until its next step. 21, 53, 102
 * to 116: the replica stays as it was. 201 to 205: it has halted. */
uint32_t bpfh_replica_take(bpfh_handle *replica, const uint8_t *bytes, size_t length);

/* Has the replica take a timeout: it asks for the next view. 53, 201 to 205. */
uint32_t bpfh_replica_timeout(bpfh_handle *replica);

/* Opens bytes and tells whether the replica waits for the message that they are: *waits is 1 where it is a request that its state
 * hasn't answered, else 0. Who drives a replica gives it timeouts while it waits and executes nothing. 21, 53, 102 to 116: *waits
 * stays as it was. */
uint32_t bpfh_replica_waits(bpfh_handle *replica, const uint8_t *bytes, size_t length, uint32_t *waits);

/* A message of what the last step gave, by its place from 0 on. 0: sent->length bytes of message, and sent, are written. 35: sent
 * alone. 53, 61, 62: message stays as it was. */
uint32_t bpfh_replica_output(bpfh_handle *replica, uint32_t index, uint8_t *message, size_t message_length, bpfh_sent *sent);

/* What the last step did to the replica's state, by its place from 0 on: the requests that it executed, in order, and states that
 * it took over. 0: item->length bytes of answer, and item, are written. 35: item alone. 53, 61, 62: answer stays as it was. */
uint32_t bpfh_replica_done(bpfh_handle *replica, uint32_t index, uint8_t *answer, size_t answer_length, bpfh_done_item *item);

/* Where a replica stands. 53: standing stays as it was. */
uint32_t bpfh_replica_standing(bpfh_handle *replica, bpfh_standing *standing);

/* The canonical encoding of a replica's state: *told bytes. 35: *told is how many it takes. 21, 53, 63. Replicas that have executed
 * as many requests have the same bytes. */
uint32_t bpfh_replica_state(bpfh_handle *replica, uint8_t *state, size_t state_length, uint64_t *told);

/* Makes what keeps the votes that come early for one replica. A replica drops a vote for a number above its high mark, and nobody
 * sends it again: so each message goes through bpfh_votes_hold first, and bpfh_votes_next gives back what is on time once the replica has
 * gone on. What votes held is freed first. 21, 52: it holds nothing. */
uint32_t bpfh_votes_new(bpfh_handle *config, bpfh_handle *votes);

/* Opens bytes. *early is 1 where they are a vote that comes early, which is kept (or passed over, where it is for a number much too far
 * ahead, for another view, or there already), and 0 where the replica is to take them now. 21, 68, 102 to 116: *early stays as it was. */
uint32_t bpfh_votes_hold(bpfh_handle *votes, const uint8_t *bytes, size_t length, uint32_t *early);

/* Says where the replica stands, after each of its steps. 68. */
uint32_t bpfh_votes_move(bpfh_handle *votes, uint64_t low, uint32_t view);

/* The first vote that is on time, which is given up: *told bytes, which the replica is to take. 35: *told is how many it takes, and the
 * vote stays the next one. 62: none is on time. 68. */
uint32_t bpfh_votes_next(bpfh_handle *votes, uint8_t *message, size_t message_length, uint64_t *told);

/* Makes what keeps the messages that a replica sends again, the same bytes: the protocol sends nothing twice, and where messages may be
 * lost its caller does. They are its own votes and Checkpoints above its low mark, what it said of its view or a later one, its last
 * Fetches that aren't answered, each client's last Reply, and the NewView of its view. After each step each message that it gave is noted,
 * and then bpfh_repeats_follow is called. What repeats held is freed first. 21: it holds nothing. */
uint32_t bpfh_repeats_new(bpfh_handle *repeats);

/* Notes a message of what the replica's last step gave, by its place from 0 on, in the place of an earlier one of the same matter. Another's,
 * and one that isn't sent again, is passed over. 21, 53, 61, 62, 69. */
uint32_t bpfh_repeats_note(bpfh_handle *repeats, bpfh_handle *replica, uint32_t index);

/* The replica has stepped: what it doesn't send again any more goes. 21, 53, 69. */
uint32_t bpfh_repeats_follow(bpfh_handle *repeats, bpfh_handle *replica);

/* A message that is sent again, by its place from 0 on. 0: sent->length bytes of message, and sent, are written. 35: sent alone. 62, 69:
 * message stays as it was. */
uint32_t bpfh_repeats_get(bpfh_handle *repeats, uint32_t index, uint8_t *message, size_t message_length, bpfh_sent *sent);

/* Makes an audit that has heard nothing. What audit held is freed first. 21: it holds nothing. */
uint32_t bpfh_audit_new(bpfh_handle *audit);

/* Opens bytes under a configuration and has an audit hear the message that they are. A replica says one thing of each number of a view by
 * each kind of vote, and one of each number's state: heard->first is the place of the first message in whose matter its signer said
 * something else, and the two prove that it lies. It goes over all that was heard. 21, 52, 70, 102 to 116: nothing is changed. */
uint32_t bpfh_audit_hear(bpfh_handle *config, bpfh_handle *audit, const uint8_t *bytes, size_t length, bpfh_heard *heard);

/* Makes a ledger in which nothing was noted, and in which what a replica did before its first number comes next. What ledger held is freed
 * first. 21: it holds nothing. */
uint32_t bpfh_ledger_new(bpfh_handle *ledger);

/* Says that what another replica did comes now, whose last number was this one: 0 where all of it comes. What was noted stays. 80. */
uint32_t bpfh_ledger_begin(bpfh_handle *ledger, uint64_t last);

/* Notes what the replica did next, as bpfh_replica_done tells it: an item, and its result in the first item->length bytes of answer. All
 * replicas execute one request with one result at each number, and have one state after it; each executes the number behind its last one,
 * or takes over a state. compared->first is the first that was noted of the same kind and number with another digest or another result. It
 * compares the words of replicas, which prove nothing, and goes over all that was noted. 21, 80, 81, and 35 where answer has fewer bytes
 * than item->length: nothing is changed. */
uint32_t bpfh_ledger_note(bpfh_handle *ledger, const uint8_t *answer, size_t answer_length, const bpfh_done_item *item,
                          bpfh_compared *compared);

/* Makes a client's session, whose signer has used the leaves below leaf, and whose first request has the time behind time: 0 for
 * a new client. What client held is freed first. 21, 52, 56 to 60, 64: it holds nothing. */
uint32_t bpfh_client_new(bpfh_handle *config, uint32_t id, const uint8_t *seed, size_t seed_length, uint8_t top,
                         uint8_t bottom, uint32_t leaf, uint64_t time, bpfh_handle *client);

/* Makes the signed request of an operation: 01 and code installs a procedure under the verifier's profile 1, 04 and code under
 * profile 2, 02, four bytes of its number, the most significant first, and argument bytes call it. What was open is given up. 21,
 * 54, 65, 301: the session stays as it was. 304. */
uint32_t bpfh_client_request(bpfh_handle *client, const uint8_t *operation, size_t length);

/* The bytes of the last request, for all replicas: *told bytes. 35: *told is how many it takes. 54, 66: message stays as it was. */
uint32_t bpfh_client_message(bpfh_handle *client, uint8_t *message, size_t message_length, uint64_t *told);

/* Opens bytes and offers the message that they are to the session: a reply to its open request counts. 21, 54, 102 to 116: the
 * session stays as it was. */
uint32_t bpfh_client_hear(bpfh_handle *client, const uint8_t *bytes, size_t length);

/* The result of the accepted reply: accepted->length bytes of answer, and accepted. 35: accepted alone. 54, 67: answer stays as it
 * was. */
uint32_t bpfh_client_accepted(bpfh_handle *client, uint8_t *answer, size_t answer_length, bpfh_accepted *accepted);

/* Frees what a handle holds, if it holds anything. It holds nothing then, and may be used again. */
void bpfh_release(bpfh_handle *handle);

static_assert(sizeof(bpfh_handle) == 16, "a handle is a pointer and a flag");
static_assert(sizeof(bpfh_sent) == 16, "two numbers of 32 bits and one of 64");
static_assert(sizeof(bpfh_done_item) == 56, "a number of 32 bits, two of 64, and a digest");
static_assert(sizeof(bpfh_signed_by) == 8, "two numbers of 32 bits");
static_assert(sizeof(bpfh_standing) == 32, "two numbers of 64 bits and four of 32");
static_assert(sizeof(bpfh_heard) == 24, "two numbers of 64 bits and one of 32");
static_assert(sizeof(bpfh_compared) == 24, "two numbers of 64 bits and two of 32");
static_assert(sizeof(bpfh_accepted) == 24, "three numbers of 64 bits");

#ifdef __cplusplus
}
#endif

#endif
