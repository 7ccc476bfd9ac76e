/* Dampcandle: a register map in bytes that the caller lends, with witnesses. Link libc_boundary.a (rt lib in crates/c_boundary, x86-64).
 *
 * Every call answers a number: 0 if it is done, else why it is refused (enum dampcandle_number). Where several apply, it is the first
 * of 1, 13, 2, 3, 4, 7, 5, 6. Each call is one function of the bytes and numbers that it is lent, and it ends, whatever they are; it keeps
 * nothing between calls, so calls on different stores may run at the same time.
 *
 * What a call answers beside its number goes through pointers. A refusal changes nothing: each byte of the store and of the output, and
 * each number, digest and yes-or-no that was lent for an answer, is as it was.
 *
 * What the caller owes, for nothing can test it:
 *   - a pointer and the length after it name one array of at least that many bytes; the pointer is not null, even where the length is 0;
 *   - what a pointer without const names overlaps nothing else that the same call is lent;
 *   - what is lent for an answer is set to something first (a bool to false, say);
 *   - nobody else writes to any of it during the call, or reads what the call may change.
 *
 * A store is 8 + 150 x capacity bytes (DAMPCANDLE_STORE_LENGTH), with room for capacity entries. It holds no pointers: it may be copied,
 * kept in a file and lent at another place. Every call judges it anew, all of it, and answers 1 unless it is sound.
 *
 * Stack, measured on x86-64 over a store of 1,024 entries with the longest keys and values (scripts/c-stack.sh): create 16 bytes, hash 1,300;
 * is_empty, count, root_hash, get, first_entry, next_entry, insert, modify, delete and replay up to 6,700; the witness calls up to 8,300;
 * rebuild 9,000 for a store's own witness, and up to 27,000 for bytes that are nested 64 records deep; write_cbor and read_cbor 2,000 and up to
 * 9,500. Nothing is allocated.
 *
 * Keys are byte strings of 0 to 48 bytes, in the order of their bytes as unsigned numbers, a proper prefix being smaller. Values are
 * byte strings of 0 to 64 bytes. */
#ifndef DAMPCANDLE_H
#define DAMPCANDLE_H

#include <stdbool.h>
#include <stddef.h>
#include <stdint.h>

#ifdef __cplusplus
extern "C" {
#endif

/* The release, in text and as numbers. `regmap --version` says the same. */
#define DAMPCANDLE_VERSION "1.1.0"
#define DAMPCANDLE_VERSION_MAJOR 1
#define DAMPCANDLE_VERSION_MINOR 1
#define DAMPCANDLE_VERSION_PATCH 0

enum dampcandle_number {
  DAMPCANDLE_DONE = 0,
  DAMPCANDLE_NOT_SOUND = 1,    /* the store is not sound */
  DAMPCANDLE_LONG_KEY = 2,     /* a key or a prefix is longer than 48 bytes */
  DAMPCANDLE_LONG_VALUE = 3,   /* a value is longer than 64 bytes */
  DAMPCANDLE_REVERSED = 4,     /* first is above last, and two keys or more lie from last to first */
  DAMPCANDLE_FULL = 5,         /* insert of an absent key, and no slot is free */
  DAMPCANDLE_NO_ROOM = 6,      /* the output is shorter than the witness or the list */
  DAMPCANDLE_ABSENT = 7,       /* get, modify, delete: no such key; first_entry, next_entry: no such entry */
  DAMPCANDLE_BAD_CAPACITY = 8, /* create: capacity 0 or above 1,024, or the length is not 8 + 150 x capacity */
  DAMPCANDLE_MALFORMED = 9,    /* rebuild: the bytes are not exactly one witness */
  DAMPCANDLE_LONG_MESSAGE = 10, /* hash: the message is longer than 65,536 bytes */
  DAMPCANDLE_ILL_FORMED = 11,  /* lookup: the witness breaks the Interface Specification's rule for well-formed trees */
  DAMPCANDLE_NOT_CBOR = 12,    /* read_cbor: the bytes are not exactly one witness in CBOR, with shortest heads and no tag */
  DAMPCANDLE_BAD_LOG = 13,     /* replay: the build log is malformed */
  DAMPCANDLE_UNLIKE = 15       /* merge: the two are not witnesses of one release */
};

enum dampcandle_limit {
  DAMPCANDLE_DIGEST = 32,
  DAMPCANDLE_MAX_KEY = 48,
  DAMPCANDLE_MAX_VALUE = 64,
  DAMPCANDLE_MAX_CAPACITY = 1024,
  DAMPCANDLE_MAX_MESSAGE = 65536,
  DAMPCANDLE_MAX_WITNESS = 120830, /* the longest witness that a store can give: room for any answer */
  DAMPCANDLE_MAX_CBOR = 124926     /* and its CBOR: two bytes more for each label and value */
};

#define DAMPCANDLE_STORE_LENGTH(capacity) (8 + 150 * (size_t)(capacity))

/* ---- a store as a whole */

/* Makes the bytes a fresh store for capacity entries, whatever they held. 0 or 8. */
size_t dampcandle_create(uint8_t *store, size_t store_length, uint64_t capacity);

/* Whether there is no entry. 0 or 1. */
size_t dampcandle_is_empty(const uint8_t *store, size_t store_length, bool *yes);

/* How many entries there are. 0 or 1. */
size_t dampcandle_count(const uint8_t *store, size_t store_length, size_t *count);

/* The digest of the whole map, as it goes into the silicon record. 0 or 1. */
size_t dampcandle_root_hash(const uint8_t *store, size_t store_length, uint8_t digest[32]);

/* ---- entries: where in the store the key and the value lie, counted from the store's first byte, and how long they are */

/* The entry of a key. 0, 1, 2 or 7. */
size_t dampcandle_get(const uint8_t *store, size_t store_length, const uint8_t *key, size_t key_argument_length, size_t *key_at,
                      size_t *key_length, size_t *value_at, size_t *value_length);

/* The entry of the least key. 0, 1 or 7. */
size_t dampcandle_first_entry(const uint8_t *store, size_t store_length, size_t *key_at, size_t *key_length, size_t *value_at,
                              size_t *value_length);

/* The entry of the least key above this one, which need not be there itself. 0, 1, 2 or 7. */
size_t dampcandle_next_entry(const uint8_t *store, size_t store_length, const uint8_t *key, size_t key_argument_length, size_t *key_at,
                             size_t *key_length, size_t *value_at, size_t *value_length);

/* ---- changes */

/* A new entry, or a new value for a key that is there. 0, 1, 2, 3 or 5. */
size_t dampcandle_insert(uint8_t *store, size_t store_length, const uint8_t *key, size_t key_length, const uint8_t *value,
                         size_t value_length);

/* A new value for a key that is there. 0, 1, 2, 3 or 7. */
size_t dampcandle_modify(uint8_t *store, size_t store_length, const uint8_t *key, size_t key_length, const uint8_t *value,
                         size_t value_length);

/* Takes an entry out. 0, 1, 2 or 7. */
size_t dampcandle_delete(uint8_t *store, size_t store_length, const uint8_t *key, size_t key_length);

/* Runs a build log: one call for each of its records, in order, and the store is judged once. A record has two bytes, then key and value. The
 * first byte is operation x 64 + key length (operation 0 insert, 1 modify, 2 delete), the second value length x 2; a delete has no value.
 * A record that finds no room (5) or no entry of its key (7) changes nothing and the run goes on: full and absent count them. 0, 1 or 13; a
 * malformed log changes nothing. */
size_t dampcandle_replay(uint8_t *store, size_t store_length, const uint8_t *log, size_t log_length, size_t *full, size_t *absent);

/* ---- witnesses: each fills the front of the output and tells its length; the rest of the output stays. All rebuild to the root digest.
 * A neighbour is the nearest key below or above one that is not there; its value is always cut to a digest. */

/* Every key with its value. 0, 1 or 6. */
size_t dampcandle_as_hash_tree(const uint8_t *store, size_t store_length, uint8_t *out, size_t out_length, size_t *length);

/* Every key, the values cut. 0, 1 or 6. */
size_t dampcandle_keys(const uint8_t *store, size_t store_length, uint8_t *out, size_t out_length, size_t *length);

/* A key that is there, alone, with its value; of one that is not, its neighbours. 0, 1, 2 or 6. */
size_t dampcandle_witness(const uint8_t *store, size_t store_length, const uint8_t *key, size_t key_length, uint8_t *out, size_t out_length,
                          size_t *length);

/* The keys from first to last, values cut, with a neighbour below if first is not there and one above if last is not.
 * 0, 1, 2, 4 or 6. */
size_t dampcandle_key_range(const uint8_t *store, size_t store_length, const uint8_t *first, size_t first_length, const uint8_t *last,
                            size_t last_length, uint8_t *out, size_t out_length, size_t *length);

/* The same with the values of the keys from first to last. 0, 1, 2, 4 or 6. */
size_t dampcandle_value_range(const uint8_t *store, size_t store_length, const uint8_t *first, size_t first_length, const uint8_t *last,
                              size_t last_length, uint8_t *out, size_t out_length, size_t *length);

/* The keys that begin with the prefix, values cut, with the nearest key below the prefix if the prefix is no key itself, and the nearest
 * key above that does not begin with it. 0, 1, 2 or 6. */
size_t dampcandle_keys_with_prefix(const uint8_t *store, size_t store_length, const uint8_t *prefix, size_t prefix_length, uint8_t *out,
                                   size_t out_length, size_t *length);

/* ---- two stores */

/* The most bytes that the list of two stores of these capacities can have: a line is a byte and a key. */
#define DAMPCANDLE_DIFFERENCE_LENGTH(old_capacity, new_capacity) (49 * ((size_t)(old_capacity) + (size_t)(new_capacity)))

/* What differs between two releases: a line for each key that is only in the old store (kind 1), only in the new one (2), or in both with
 * another value (3), in key order, at the front of the output. A line is one byte, kind x 64 + key length, and the key. No line, length 0, means
 * equal maps, whatever their shapes and root digests. 1 for the old store, 1 for the new one, or 6. Capacities may differ; the two stores may be
 * the same bytes. */
size_t dampcandle_difference(const uint8_t *old_store, size_t old_length, const uint8_t *new_store, size_t new_length, uint8_t *out,
                             size_t out_length, size_t *length);

/* ---- without a store */

/* The digest of the tree that a witness holds: to be compared with the root digest. 0 or 9. */
size_t dampcandle_rebuild(const uint8_t *witness, size_t witness_length, uint8_t digest[32]);

/* What lookup answers. None is 0, so that a forgotten test of the number meets no answer. */
enum dampcandle_result {
  DAMPCANDLE_RESULT_FOUND = 1,  /* the key is labelled; its child's written form, head and all, lies at child_at and has child_length bytes */
  DAMPCANDLE_RESULT_ABSENT = 2, /* no register has this name */
  DAMPCANDLE_RESULT_UNKNOWN = 3 /* the witness does not say: something is hidden where the key would stand */
};

/* What a witness says of one key: the lookup of the Internet Computer Interface Specification. 0, 2, 9 or 11. Nothing is hashed: an answer is
 * worth something only after dampcandle_rebuild gave the digest of the silicon record. child_at and child_length are 0 unless it is found; a
 * child 60 .. is a Leaf, 2 bytes of head and then the value, and 80 20 .. a Pruned, the value's digest. */
size_t dampcandle_lookup(const uint8_t *witness, size_t witness_length, const uint8_t *key, size_t key_length, size_t *result,
                         size_t *child_at, size_t *child_length);

/* Two witnesses of one release in one that shows what either shows. 0, 9, 15 or 6. The inputs may be one buffer; the output overlaps neither. */
size_t dampcandle_merge(const uint8_t *one, size_t one_length, const uint8_t *other, size_t other_length, uint8_t *out, size_t out_length,
                        size_t *length);

/* A witness in CBOR, as the Internet Computer's certificate tools write hash trees: [0], [1, l, r], [2, label, t], [3, value], [4, digest], each
 * length in its shortest head, no tag. 0, 9 or 6. The output is another buffer than the input. */
size_t dampcandle_write_cbor(const uint8_t *witness, size_t witness_length, uint8_t *out, size_t out_length, size_t *length);

/* Back: the witness that the CBOR holds. 0, 12 or 6. It takes exactly what dampcandle_write_cbor writes; other CBOR of the same tree, with a tag in
 * front or a longer head, is 12. Rebuild gives the digest as before. */
size_t dampcandle_read_cbor(const uint8_t *cbor, size_t cbor_length, uint8_t *out, size_t out_length, size_t *length);

/* ---- rebuild in parts, for a witness that comes over a slow link. The state is plain bytes: it may be copied and kept, and means nothing before
 * it is begun. part answers 9 as soon as no witness can begin with the bytes so far, and from then on; else 0. end answers what rebuild
 * answers for all the bytes so far; it may be asked at any time, and parts may follow. */

#define DAMPCANDLE_PARTS 3157

void dampcandle_rebuild_begin(uint8_t state[DAMPCANDLE_PARTS]);
size_t dampcandle_rebuild_part(uint8_t state[DAMPCANDLE_PARTS], const uint8_t *bytes, size_t bytes_length);
size_t dampcandle_rebuild_end(const uint8_t state[DAMPCANDLE_PARTS], uint8_t digest[32]);

/* The SHA-256 of a message. 0 or 10. */
size_t dampcandle_hash(const uint8_t *message, size_t message_length, uint8_t digest[32]);

/* ---- by value. A refused call leaves what it was lent, so a caller who lends the same 32 bytes again and forgets to look at the number
 * meets an old digest. These fail closed: on a refusal the bytes are zero, and no digest is. */

struct dampcandle_digest {
  size_t number;
  uint8_t bytes[DAMPCANDLE_DIGEST];
};

/* dampcandle_root_hash. */
static inline struct dampcandle_digest dampcandle_root_hash_value(const uint8_t *store, size_t store_length) {
  struct dampcandle_digest answer = {0, {0}};
  answer.number = dampcandle_root_hash(store, store_length, answer.bytes);
  return answer;
}

/* dampcandle_rebuild. */
static inline struct dampcandle_digest dampcandle_rebuild_value(const uint8_t *witness, size_t witness_length) {
  struct dampcandle_digest answer = {0, {0}};
  answer.number = dampcandle_rebuild(witness, witness_length, answer.bytes);
  return answer;
}

/* What a number means, in a few words. */
static inline const char *dampcandle_text(size_t number) {
  switch (number) {
    case DAMPCANDLE_DONE: return "done";
    case DAMPCANDLE_NOT_SOUND: return "the store is not sound";
    case DAMPCANDLE_LONG_KEY: return "a key is longer than 48 bytes";
    case DAMPCANDLE_LONG_VALUE: return "a value is longer than 64 bytes";
    case DAMPCANDLE_REVERSED: return "first is above last, and two keys or more lie between them";
    case DAMPCANDLE_FULL: return "no slot is free";
    case DAMPCANDLE_NO_ROOM: return "the output is shorter than the witness";
    case DAMPCANDLE_ABSENT: return "there is no such key or entry";
    case DAMPCANDLE_BAD_CAPACITY: return "the capacity or the length is not one of a store";
    case DAMPCANDLE_MALFORMED: return "the bytes are not exactly one witness";
    case DAMPCANDLE_LONG_MESSAGE: return "the message is longer than 65,536 bytes";
    case DAMPCANDLE_ILL_FORMED: return "the witness is not well-formed";
    case DAMPCANDLE_NOT_CBOR: return "the bytes are not exactly one witness in CBOR";
    case DAMPCANDLE_BAD_LOG: return "the build log is malformed";
    case DAMPCANDLE_UNLIKE: return "these are not two witnesses of one release";
    default: return "a number that this header does not know";
  }
}

#ifdef __cplusplus
}
#endif

#endif
