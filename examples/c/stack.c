/* How many bytes of stack each call takes, measured: each is run on a painted stack of its own, over a store of 1,024 entries with the
 * longest keys and values, and the paint that is left is counted. scripts/c-stack.sh builds and runs it. */
#define _DEFAULT_SOURCE
#include "dampcandle.h"

#include <stdio.h>
#include <stdlib.h>
#include <string.h>
#include <ucontext.h>

enum { ROOM = 1 << 18, ENTRIES = DAMPCANDLE_MAX_CAPACITY, LENGTH = 8 + 150 * ENTRIES };

static uint8_t stack[ROOM], store[LENGTH], out[DAMPCANDLE_MAX_WITNESS], whole[DAMPCANDLE_MAX_WITNESS], digest[32], value[64];
static uint8_t key[48], other[48], message[DAMPCANDLE_MAX_MESSAGE];
static uint8_t cbor[DAMPCANDLE_MAX_CBOR];
static size_t length, whole_length, cbor_length, at[4], number;
static bool yes;
static ucontext_t home, away;
static void (*call)(void);

static void name(uint8_t *k, unsigned i) {
  memset(k, 'k', 48);
  k[46] = (uint8_t)(i >> 8);
  k[47] = (uint8_t)i;
}

/* all entries taken out, and put in again */
static uint8_t build_log[ENTRIES * (50 + 114)];
static size_t log_length;

static void write_log(void) {
  for (unsigned pass = 0; pass < 2; pass++) {
    for (unsigned i = 0; i < ENTRIES; i++) {
      build_log[log_length] = pass ? 48 : 2 * 64 + 48;
      build_log[log_length + 1] = pass ? 128 : 0;
      name(build_log + log_length + 2, i * 387 % ENTRIES);
      log_length += pass ? 114 : 50;
    }
  }
}

static void none(void) {}
static void create(void) { number = dampcandle_create(store, LENGTH, ENTRIES); }
static void is_empty(void) { number = dampcandle_is_empty(store, LENGTH, &yes); }
static void count(void) { number = dampcandle_count(store, LENGTH, &length); }
static void root_hash(void) { number = dampcandle_root_hash(store, LENGTH, digest); }
static void get(void) { number = dampcandle_get(store, LENGTH, key, 48, at, at + 1, at + 2, at + 3); }
static void first_entry(void) { number = dampcandle_first_entry(store, LENGTH, at, at + 1, at + 2, at + 3); }
static void next_entry(void) { number = dampcandle_next_entry(store, LENGTH, key, 48, at, at + 1, at + 2, at + 3); }
static void insert(void) { number = dampcandle_insert(store, LENGTH, key, 48, value, 64); }
static void modify(void) { number = dampcandle_modify(store, LENGTH, key, 48, value, 64); }
static void delete(void) { number = dampcandle_delete(store, LENGTH, key, 48); }
static void replay(void) { number = dampcandle_replay(store, LENGTH, build_log, log_length, at, at + 1); }
static void as_hash_tree(void) { number = dampcandle_as_hash_tree(store, LENGTH, out, sizeof out, &length); }
static void keys(void) { number = dampcandle_keys(store, LENGTH, out, sizeof out, &length); }
static void witness(void) { number = dampcandle_witness(store, LENGTH, key, 48, out, sizeof out, &length); }
static void key_range(void) { number = dampcandle_key_range(store, LENGTH, key, 48, other, 48, out, sizeof out, &length); }
static void value_range(void) { number = dampcandle_value_range(store, LENGTH, key, 48, other, 48, out, sizeof out, &length); }
static void prefix(void) { number = dampcandle_keys_with_prefix(store, LENGTH, key, 46, out, sizeof out, &length); }
static void rebuild(void) { number = dampcandle_rebuild(whole, whole_length, digest); }
static void deep(void) { number = dampcandle_rebuild(out, 2 * 64, digest); }
static void write_cbor(void) { number = dampcandle_write_cbor(whole, whole_length, cbor, sizeof cbor, &cbor_length); }
static void read_cbor(void) { number = dampcandle_read_cbor(cbor, cbor_length, out, sizeof out, &length); }
static void hash(void) { number = dampcandle_hash(message, sizeof message, digest); }

static void start(void) { call(); }

static size_t used(void (*f)(void)) {
  memset(stack, 0xa5, ROOM);
  getcontext(&away);
  away.uc_stack.ss_sp = stack;
  away.uc_stack.ss_size = ROOM;
  away.uc_link = &home;
  call = f;
  makecontext(&away, start, 0);
  swapcontext(&home, &away);
  size_t left = 0;
  while (left < ROOM && stack[left] == 0xa5) left++;
  return ROOM - left;
}

static void measure(const char *what, void (*f)(void), size_t wanted) {
  size_t plain = used(none), most = used(f);
  if (number != wanted) {
    printf("%s answered %zu\n", what, number);
    exit(1);
  }
  printf("%-16s %6zu\n", what, most - plain);
}

int main(void) {
  measure("create", create, 0);
  size_t most = 0, most_deleted = 0, plain = used(none);
  for (unsigned i = 0; i < ENTRIES; i++) { /* in an order that turns the tree about */
    name(key, i * 387 % ENTRIES);
    size_t n = used(insert);
    if (n > most) most = n;
    if (number) return 1;
  }
  printf("%-16s %6zu\n", "insert", most - plain);
  name(key, 3);
  name(other, 1000);
  measure("is_empty", is_empty, 0);
  measure("count", count, 0);
  measure("root_hash", root_hash, 0);
  measure("get", get, 0);
  measure("first_entry", first_entry, 0);
  measure("next_entry", next_entry, 0);
  measure("modify", modify, 0);
  write_log();
  measure("replay", replay, 0);
  measure("as_hash_tree", as_hash_tree, 0);
  memcpy(whole, out, sizeof whole);
  whole_length = length;
  measure("keys", keys, 0);
  measure("witness", witness, 0);
  measure("key_range", key_range, 0);
  measure("value_range", value_range, 0);
  measure("keys_with_prefix", prefix, 0);
  measure("rebuild", rebuild, 0);
  measure("write_cbor", write_cbor, 0);
  measure("read_cbor", read_cbor, 0);
  for (size_t i = 0; i < 63; i++) memcpy(out + 2 * i, "\x40", 2); /* 63 Labeled, one in the other, and an Empty */
  memset(out + 126, 0, 2);
  measure("rebuild, 64 deep", deep, 0);
  memset(whole, 0, whole_length = 254); /* 63 Forks, each the first child of another, and 64 Empty */
  for (size_t i = 0; i < 63; i++) whole[2 * i] = 0x20;
  measure("write_cbor, deep", write_cbor, 0);
  measure("read_cbor, deep", read_cbor, 0);
  measure("hash", hash, 0);
  for (unsigned i = 0; i < ENTRIES; i++) {
    name(key, i * 387 % ENTRIES);
    size_t n = used(delete);
    if (n > most_deleted) most_deleted = n;
    if (number) return 1;
  }
  printf("%-16s %6zu\n", "delete", most_deleted - plain);
  return 0;
}
