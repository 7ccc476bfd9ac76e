/* A tour of the C calls: a driver team's registers in a store, a witness that shows a hole, and refusals that change nothing.
 * It asserts what it prints, and exits with 1 at the first surprise. scripts/c-tour.sh builds and runs it. */
#include "dampcandle.h"

#include <stdio.h>
#include <stdlib.h>
#include <string.h>

enum { CAPACITY = 4, LENGTH = 8 + 150 * CAPACITY, ROOM = 512 };

static uint8_t store[LENGTH], out[ROOM];

#define BYTES(text) (const uint8_t *)(text), strlen(text)

static void expect(bool holds, const char *what) {
  if (holds) return;
  printf("surprise: %s\n", what);
  exit(1);
}

static void answers(size_t wanted, size_t number, const char *what) {
  printf("%zu  %s\n", number, what);
  expect(number == wanted, what);
}

static void show(const char *what, const uint8_t *bytes, size_t length) {
  printf("   %s", what);
  for (size_t i = 0; i < length; i++) printf(" %02x", bytes[i]);
  puts("");
}

/* ---- what was lent is as it was */

static uint8_t kept_store[LENGTH], kept_out[ROOM], digest[32], kept_digest[32];
static size_t length = 77, places[4] = {71, 72, 73, 74};

static void keep(void) {
  memset(out, 0xa5, ROOM);
  memset(digest, 0x5a, 32);
  length = 77;
  for (size_t i = 0; i < 4; i++) places[i] = 71 + i;
  memcpy(kept_store, store, LENGTH);
  memcpy(kept_out, out, ROOM);
  memcpy(kept_digest, digest, 32);
}

static void refused(size_t wanted, size_t number, const char *what) {
  answers(wanted, number, what);
  expect(!memcmp(store, kept_store, LENGTH), "a refusal changed the store");
  expect(!memcmp(out, kept_out, ROOM), "a refusal changed the output");
  expect(!memcmp(digest, kept_digest, 32), "a refusal changed the digest");
  expect(length == 77, "a refusal changed the length");
  for (size_t i = 0; i < 4; i++) expect(places[i] == 71 + i, "a refusal changed a place");
}

/* ---- a map of registers */

static void fill(void) {
  const uint8_t control[] = {0x40, 0x00, 0x10, 0x00, 0x04}, data[] = {0x40, 0x00, 0x10, 0x04, 0x01};
  const uint8_t status[] = {0x40, 0x00, 0x10, 0x0c, 0x02};
  bool empty = false;
  size_t count = 0;
  memset(store, 0xee, LENGTH);
  answers(0, dampcandle_create(store, LENGTH, CAPACITY), "create, capacity 4");
  answers(0, dampcandle_is_empty(store, LENGTH, &empty), "is_empty");
  expect(empty, "a fresh store is empty");
  answers(0, dampcandle_insert(store, LENGTH, BYTES("uart.status"), status, sizeof status), "insert uart.status");
  answers(0, dampcandle_insert(store, LENGTH, BYTES("uart.control"), control, sizeof control), "insert uart.control");
  answers(0, dampcandle_insert(store, LENGTH, BYTES("uart.data"), data, sizeof data), "insert uart.data");
  answers(0, dampcandle_is_empty(store, LENGTH, &empty), "is_empty");
  answers(0, dampcandle_count(store, LENGTH, &count), "count");
  printf("   %s, %zu entries\n", empty ? "empty" : "not empty", count);
  expect(!empty && count == 3, "three entries");
}

static void read_one(void) {
  size_t key_at = 0, key_length = 0, value_at = 0, value_length = 0;
  answers(0, dampcandle_get(store, LENGTH, BYTES("uart.data"), &key_at, &key_length, &value_at, &value_length), "get uart.data");
  printf("   key at %zu, %zu bytes; value at %zu, %zu bytes\n", key_at, key_length, value_at, value_length);
  show("value", store + value_at, value_length);
  /* the third entry made: slot 3, whose key lies 6 bytes into it and whose value 54 */
  expect(key_at == 8 + 2 * 150 + 6 && value_at == 8 + 2 * 150 + 54, "slot 3");
  expect(key_length == 9 && !memcmp(store + key_at, "uart.data", 9), "its key");
  expect(value_length == 5 && store[value_at + 3] == 0x04, "its value");
}

static void walk(void) {
  const char *order[] = {"uart.control", "uart.data", "uart.status"};
  size_t *p = places, n = 0; /* set above, before they are lent */
  for (size_t number = dampcandle_first_entry(store, LENGTH, p, p + 1, p + 2, p + 3); number == 0; n++) {
    printf("   %.*s\n", (int)p[1], (const char *)store + p[0]);
    expect(n < 3 && p[1] == strlen(order[n]) && !memcmp(store + p[0], order[n], p[1]), "in order");
    uint8_t key[DAMPCANDLE_MAX_KEY];
    size_t key_length = p[1];
    memcpy(key, store + p[0], key_length);
    number = dampcandle_next_entry(store, LENGTH, key, key_length, p, p + 1, p + 2, p + 3);
    if (number != 0) answers(7, number, "next_entry after the last");
  }
  expect(n == 3, "all entries");
}

/* ---- witnesses */

static void rebuilds(size_t number, const char *what) {
  answers(0, number, what);
  struct dampcandle_digest root = dampcandle_root_hash_value(store, LENGTH), rebuilt = dampcandle_rebuild_value(out, length);
  expect(root.number == 0, "root_hash");
  expect(rebuilt.number == 0, "rebuild");
  printf("   %zu bytes, %s\n", length, memcmp(root.bytes, rebuilt.bytes, 32) ? "another digest" : "the root digest");
  expect(!memcmp(root.bytes, rebuilt.bytes, 32), "a witness rebuilds to the root digest");
}

/* Whether a Labeled has this label: record after record, for the same bytes may stand in a value or a digest. To be asked only of a
 * witness that rebuild took. A record opens with 3 bits of kind, 2 for Labeled, and 13 of length. */
static bool holds(const char *label) {
  size_t n = strlen(label);
  for (size_t at = 0, own; at + 2 <= length; at += 2 + own) {
    own = (size_t)(out[at] & 31) << 8 | out[at + 1];
    if (out[at] >> 5 == 2 && own == n && !memcmp(out + at + 2, label, n)) return true;
  }
  return false;
}

static void witnesses(void) {
  memset(digest, 0, 32);
  answers(0, dampcandle_root_hash(store, LENGTH, digest), "root_hash");
  show("root", digest, 32);
  keep();
  /* no register uart.fifo: its neighbours stand side by side, so nothing lies between them */
  rebuilds(dampcandle_witness(store, LENGTH, BYTES("uart.fifo"), out, ROOM, &length), "witness of uart.fifo, a hole");
  show("witness", out, length);
  expect(holds("uart.data") && holds("uart.status") && !holds("uart.control"), "the hole's neighbours, and no other");
  expect(!memcmp(out + length, kept_out + length, ROOM - length), "the rest of the output stays");
  expect(!memcmp(store, kept_store, LENGTH), "a witness leaves the store");
  rebuilds(dampcandle_witness(store, LENGTH, BYTES("uart.data"), out, ROOM, &length), "witness of uart.data");
  rebuilds(dampcandle_as_hash_tree(store, LENGTH, out, ROOM, &length), "as_hash_tree");
  rebuilds(dampcandle_keys(store, LENGTH, out, ROOM, &length), "keys");
  rebuilds(dampcandle_key_range(store, LENGTH, BYTES("uart.d"), BYTES("uart.e"), out, ROOM, &length), "key_range uart.d to uart.e");
  rebuilds(dampcandle_value_range(store, LENGTH, BYTES("uart.d"), BYTES("uart.e"), out, ROOM, &length), "value_range uart.d to uart.e");
  rebuilds(dampcandle_key_range(store, LENGTH, BYTES("uart.f"), BYTES("uart.e"), out, ROOM, &length), "key_range uart.f to uart.e, a gap");
  rebuilds(dampcandle_keys_with_prefix(store, LENGTH, BYTES("uart.s"), out, ROOM, &length), "keys_with_prefix uart.s");

  struct dampcandle_digest root = dampcandle_root_hash_value(store, LENGTH);
  expect(root.number == 0, "root_hash");
  out[length - 1] ^= 1;
  struct dampcandle_digest other = dampcandle_rebuild_value(out, length);
  answers(0, other.number, "rebuild, one bit turned");
  expect(memcmp(root.bytes, other.bytes, 32), "a turned bit shows");
  puts("   another digest");
  other = dampcandle_rebuild_value(out, length - 1);
  answers(9, other.number, "rebuild by value, cut short");
  printf("   %s\n", dampcandle_text(other.number));
  for (size_t i = 0; i < 32; i++) expect(other.bytes[i] == 0, "a refusal by value is zero");
}

/* ---- refusals */

static void refusals(void) {
  uint8_t long_key[49] = {0}, long_value[65] = {0};
  static uint8_t message[65537];
  keep();
  refused(2, dampcandle_insert(store, LENGTH, long_key, 49, long_value, 65), "insert, key of 49 bytes, value of 65");
  refused(3, dampcandle_insert(store, LENGTH, long_key, 48, long_value, 65), "insert, key of 48 bytes, value of 65");
  refused(7, dampcandle_modify(store, LENGTH, long_key, 48, long_value, 64), "modify, absent key");
  refused(7, dampcandle_delete(store, LENGTH, BYTES("uart.fifo")), "delete, absent key");
  refused(7, dampcandle_get(store, LENGTH, BYTES("uart.fifo"), places, places + 1, places + 2, places + 3), "get, absent key");
  refused(4, dampcandle_key_range(store, LENGTH, BYTES("uart.z"), BYTES("a"), out, ROOM, &length), "key_range, first above last");
  refused(6, dampcandle_keys(store, LENGTH, out, 10, &length), "keys, output of 10 bytes");
  refused(8, dampcandle_create(store, LENGTH - 1, CAPACITY), "create, a byte short");
  refused(8, dampcandle_create(store, LENGTH, UINT64_MAX), "create, capacity 2^64 - 1");
  refused(9, dampcandle_rebuild(BYTES("\x20"), digest), "rebuild, half a record");
  refused(10, dampcandle_hash(message, 65537, digest), "hash, message of 65,537 bytes");

  answers(0, dampcandle_insert(store, LENGTH, long_key, 48, long_value, 64), "insert, key of 48 bytes, value of 64");
  keep();
  refused(5, dampcandle_insert(store, LENGTH, BYTES("uart.fifo"), BYTES("")), "insert, no slot free");
  answers(0, dampcandle_insert(store, LENGTH, long_key, 48, BYTES("new")), "insert of a present key, no slot free");
  answers(0, dampcandle_modify(store, LENGTH, long_key, 48, BYTES("")), "modify, no slot free");
  answers(0, dampcandle_delete(store, LENGTH, long_key, 48), "delete");
  answers(0, dampcandle_insert(store, LENGTH, BYTES(""), BYTES("")), "insert of the empty key");

  bool yes = true;
  size_t count = 78;
  store[LENGTH - 1] ^= 1;
  keep();
  refused(1, dampcandle_root_hash(store, LENGTH, digest), "root_hash, one bit of the store turned");
  refused(1, dampcandle_count(store, LENGTH, &count), "count");
  refused(1, dampcandle_is_empty(store, LENGTH, &yes), "is_empty");
  refused(1, dampcandle_witness(store, LENGTH, long_key, 49, out, 0, &length), "witness, key of 49 bytes");
  expect(yes && count == 78, "a refusal changed an answer");
}

/* ---- values from outside: document 01's examples, and FIPS 180-4's */

static void known(void) {
  const uint8_t fresh[8] = {0x10, 0x02, 0x00, 0x00, 0x00, 0x01, 0x00, 0x00}, only_a[6] = {0x40, 0x01, 0x61, 0x60, 0x01, 0x07}, seven = 7;
  const uint8_t abc[32] = {0xba, 0x78, 0x16, 0xbf, 0x8f, 0x01, 0xcf, 0xea, 0x41, 0x41, 0x40, 0xde, 0x5d, 0xae, 0x22, 0x23,
                           0xb0, 0x03, 0x61, 0xa3, 0x96, 0x17, 0x7a, 0x9c, 0xb4, 0x10, 0xff, 0x61, 0xf2, 0x00, 0x15, 0xad};
  uint8_t one[DAMPCANDLE_STORE_LENGTH(1)] = {0};
  answers(0, dampcandle_create(one, sizeof one, 1), "create, capacity 1");
  show("header", one, 8);
  expect(!memcmp(one, fresh, 8), "a fresh header");
  for (size_t i = 8; i < sizeof one; i++) expect(one[i] == 0, "a fresh slot");
  answers(0, dampcandle_insert(one, sizeof one, BYTES("a"), &seven, 1), "insert a");
  answers(0, dampcandle_witness(one, sizeof one, BYTES("a"), out, ROOM, &length), "witness of a");
  show("witness", out, length);
  expect(length == 6 && !memcmp(out, only_a, 6), "the witness of a");
  answers(0, dampcandle_hash(BYTES("abc"), digest), "hash of abc");
  show("digest", digest, 32);
  expect(!memcmp(digest, abc, 32), "FIPS 180-4");
}

/* ---- the witness of a, which stands at the front of the output, in CBOR for the certificate tools, and back */

static void exchange(void) {
  const uint8_t in_cbor[8] = {0x83, 0x02, 0x41, 0x61, 0x82, 0x03, 0x41, 0x07}, tagged[5] = {0xd9, 0xd9, 0xf7, 0x81, 0x00};
  uint8_t one[6], cbor[8] = {0};
  memcpy(one, out, 6);
  answers(0, dampcandle_write_cbor(one, 6, cbor, 8, &length), "write_cbor");
  show("CBOR", cbor, length);
  expect(length == 8 && !memcmp(cbor, in_cbor, 8), "the CBOR of a");
  keep();
  refused(9, dampcandle_write_cbor(one, 5, out, ROOM, &length), "write_cbor, a byte short");
  refused(6, dampcandle_write_cbor(one, 6, out, 7, &length), "write_cbor, output of 7 bytes");
  refused(12, dampcandle_read_cbor(tagged, 5, out, ROOM, &length), "read_cbor, a tag in front");
  refused(6, dampcandle_read_cbor(cbor, 8, out, 5, &length), "read_cbor, output of 5 bytes");
  answers(0, dampcandle_read_cbor(cbor, 8, out, ROOM, &length), "read_cbor");
  show("witness", out, length);
  expect(length == 6 && !memcmp(out, one, 6), "there and back");
}

/* ---- two releases: a -> 1, b -> 2; then b -> 3, c -> 4 */

static void releases(void) {
  const uint8_t one = 1, two = 2, three = 3, four = 4, lines[6] = {0x41, 'a', 0xc1, 'b', 0x81, 'c'};
  uint8_t old[DAMPCANDLE_STORE_LENGTH(2)] = {0}, new[DAMPCANDLE_STORE_LENGTH(3)] = {0};
  expect(DAMPCANDLE_DIFFERENCE_LENGTH(2, 3) <= ROOM, "room for any list of the two");
  dampcandle_create(old, sizeof old, 2);
  dampcandle_insert(old, sizeof old, BYTES("a"), &one, 1);
  dampcandle_insert(old, sizeof old, BYTES("b"), &two, 1);
  dampcandle_create(new, sizeof new, 3);
  dampcandle_insert(new, sizeof new, BYTES("c"), &four, 1);
  dampcandle_insert(new, sizeof new, BYTES("b"), &three, 1);
  answers(0, dampcandle_difference(old, sizeof old, new, sizeof new, out, ROOM, &length), "difference of two releases");
  show("lines", out, length);
  expect(length == 6 && !memcmp(out, lines, 6), "only in the old, another value, only in the new");
  answers(0, dampcandle_difference(old, sizeof old, old, sizeof old, out, 0, &length), "difference of a release with itself");
  expect(length == 0, "no line");
  keep();
  refused(6, dampcandle_difference(old, sizeof old, new, sizeof new, out, 5, &length), "difference, output of 5 bytes");
  refused(1, dampcandle_difference(old, sizeof old, new, sizeof new - 1, out, 0, &length), "difference, the new store cut short");
}

static void capacities(void) {
  static uint8_t large[DAMPCANDLE_STORE_LENGTH(1025)]; /* all zero */
  answers(8, dampcandle_create(large, DAMPCANDLE_STORE_LENGTH(0), 0), "create, capacity 0");
  answers(8, dampcandle_create(large, DAMPCANDLE_STORE_LENGTH(1025), 1025), "create, capacity 1,025");
  for (size_t i = 0; i < sizeof large; i++) expect(large[i] == 0, "a refusal changed the bytes");
  answers(0, dampcandle_create(large, DAMPCANDLE_STORE_LENGTH(1024), 1024), "create, capacity 1,024");
}

/* ---- a build log */

static void replays(void) {
  const uint8_t make[] = {0x01, 0x02, 'a', 7}; /* insert a -> 07 */
  const uint8_t three[] = {0x01, 0x02, 'b', 8, 0x41, 0x02, 'b', 9, 0x81, 0x00, 'a'}; /* insert b, modify b, delete a */
  const uint8_t valued[] = {0x81, 0x02, 'a', 7}; /* a delete with a value */
  uint8_t one[DAMPCANDLE_STORE_LENGTH(1)] = {0}, kept[sizeof one];
  size_t full = 78, absent = 79;
  bool empty = false;
  answers(0, dampcandle_create(one, sizeof one, 1), "create, capacity 1");
  answers(13, dampcandle_replay(one, sizeof one, make, 3, &full, &absent), "replay, a record cut short");
  answers(13, dampcandle_replay(one, sizeof one, valued, sizeof valued, &full, &absent), "replay, a delete with a value");
  expect(full == 78 && absent == 79, "a refusal changed a count");
  answers(0, dampcandle_is_empty(one, sizeof one, &empty), "is_empty");
  expect(empty, "a malformed log changes nothing");
  answers(0, dampcandle_replay(one, sizeof one, make, sizeof make, &full, &absent), "replay: insert a");
  expect(full == 0 && absent == 0, "all done");
  answers(0, dampcandle_replay(one, sizeof one, three, sizeof three, &full, &absent), "replay: insert b, modify b, delete a");
  printf("   %zu found no room, %zu no entry\n", full, absent);
  expect(full == 1 && absent == 1, "one 5 and one 7");
  answers(0, dampcandle_is_empty(one, sizeof one, &empty), "is_empty");
  expect(empty, "a is gone");
  memcpy(kept, one, sizeof one);
  one[0] ^= 1;
  answers(1, dampcandle_replay(one, sizeof one, make, 3, &full, &absent), "replay, the store not sound and the log malformed");
  one[0] ^= 1;
  expect(!memcmp(one, kept, sizeof one), "a refusal changed the store");
}

int main(void) {
  puts("Dampcandle " DAMPCANDLE_VERSION);
  fill();
  read_one();
  walk();
  witnesses();
  refusals();
  known();
  exchange();
  releases();
  capacities();
  replays();
  puts("as expected");
  return 0;
}
