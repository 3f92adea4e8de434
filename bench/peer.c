/* Runs the operations of a script against another store in memory, one transaction an operation,
   and prints their answers as a report does, without the lines behind them.

       cc -O2 -o peer bench/peer.c -lsqlite3                          peer STORE < script
       cc -O2 -DWITH_LMDB -o peer bench/peer.c -lsqlite3 -llmdb

   STORE is `sqlite` (prepared statements, a table WITHOUT ROWID), `rowid` (the same with rowids),
   `lmdb` (no sync, in the folder that PEER_DIR names), or `none`: the script is read and `ok` is
   printed for each operation, so that this much can be taken off.

   It knows put, get, del, tx with these steps, snapshot (which it answers `made`) and scan, and
   passes versions over: all of them read the one table. Words are taken as they are spelled. */
#include <sqlite3.h>
#include <stdio.h>
#include <stdlib.h>
#include <string.h>
#ifdef WITH_LMDB
#include <lmdb.h>
#endif

typedef struct {
  const char *at;
  size_t length;
} Word;

typedef struct {
  void (*open)(void);
  int alone; /* a step by itself is a transaction */
  void (*begin)(int writes);
  void (*commit)(void);
  int (*get)(Word key, Word *value);
  void (*put)(Word key, Word value);
  void (*del)(Word key);
  void (*scan)(Word low, Word high, long limit);
} Store;

static void fail(const char *why) {
  fprintf(stderr, "peer: %s\n", why);
  exit(1);
}

/* What is printed: all at the end. */
static char *out;
static size_t out_length, out_room;

static void print(const char *text, size_t length) {
  if (out_length + length > out_room) {
    out_room = 2 * (out_length + length) + 4096;
    if (!(out = realloc(out, out_room))) fail("no memory");
  }
  memcpy(out + out_length, text, length);
  out_length += length;
}

static void print_word(Word word) { print(word.at, word.length); }

static void print_number(long number) {
  char digits[24];
  print(digits, (size_t)snprintf(digits, sizeof digits, "%ld", number));
}

static void print_found(int found, Word value) {
  if (!found) {
    print(" -", 2);
    return;
  }
  print(" =", 2);
  print_word(value);
}

/* The pairs of a scan: their count is printed before them. */
static char *pairs;
static size_t pairs_length, pairs_room;
static long pairs_count;

static void add_pair(Word key, Word value) {
  size_t length = key.length + value.length + 3;
  if (pairs_length + length > pairs_room) {
    pairs_room = 2 * (pairs_length + length) + 4096;
    if (!(pairs = realloc(pairs, pairs_room))) fail("no memory");
  }
  char *at = pairs + pairs_length;
  *at++ = ' ';
  memcpy(at, key.at, key.length);
  at += key.length;
  *at++ = ' ';
  *at++ = '=';
  memcpy(at, value.at, value.length);
  pairs_length += length;
  pairs_count++;
}

/* SQLite */

static sqlite3 *db;
static sqlite3_stmt *begins, *commits, *gets, *puts_, *dels, *scans, *scans_below;

static sqlite3_stmt *prepared(const char *text) {
  sqlite3_stmt *it;
  if (sqlite3_prepare_v3(db, text, -1, SQLITE_PREPARE_PERSISTENT, &it, NULL) != SQLITE_OK)
    fail(sqlite3_errmsg(db));
  return it;
}

static void sqlite_open_as(const char *table) {
  if (sqlite3_open(":memory:", &db) != SQLITE_OK) fail("no SQLite");
  if (sqlite3_exec(db, table, NULL, NULL, NULL) != SQLITE_OK) fail(sqlite3_errmsg(db));
  begins = prepared("begin");
  commits = prepared("commit");
  gets = prepared("select value from pairs where key = ?1");
  puts_ = prepared("insert or replace into pairs values (?1, ?2)");
  dels = prepared("delete from pairs where key = ?1");
  scans = prepared("select key, value from pairs where key >= ?1 order by key limit ?2");
  scans_below = prepared(
      "select key, value from pairs where key >= ?1 and key < ?3 order by key limit ?2");
}

static void sqlite_open(void) {
  sqlite_open_as("create table pairs (key blob primary key, value blob) without rowid");
}

static void rowid_open(void) {
  sqlite_open_as("create table pairs (key blob primary key, value blob)");
}

static void run(sqlite3_stmt *it) {
  if (sqlite3_step(it) != SQLITE_DONE) fail(sqlite3_errmsg(db));
  sqlite3_reset(it);
}

static void bind(sqlite3_stmt *it, int number, Word word) {
  sqlite3_bind_blob(it, number, word.length ? word.at : "", (int)word.length, SQLITE_STATIC);
}

static Word column(sqlite3_stmt *it, int number) {
  Word word = {sqlite3_column_blob(it, number), (size_t)sqlite3_column_bytes(it, number)};
  return word;
}

static void sqlite_begin(int writes) {
  (void)writes;
  run(begins);
}

static void sqlite_commit(void) { run(commits); }

/* The value stands until the next get. */
static int sqlite_get(Word key, Word *value) {
  sqlite3_reset(gets);
  bind(gets, 1, key);
  if (sqlite3_step(gets) != SQLITE_ROW) return 0;
  *value = column(gets, 0);
  return 1;
}

static void sqlite_put(Word key, Word value) {
  bind(puts_, 1, key);
  bind(puts_, 2, value);
  run(puts_);
}

static void sqlite_del(Word key) {
  bind(dels, 1, key);
  run(dels);
}

static void sqlite_scan(Word low, Word high, long limit) {
  sqlite3_stmt *it = high.length ? scans_below : scans;
  bind(it, 1, low);
  sqlite3_bind_int64(it, 2, limit);
  if (high.length) bind(it, 3, high);
  while (sqlite3_step(it) == SQLITE_ROW) add_pair(column(it, 0), column(it, 1));
  sqlite3_reset(it);
}

/* LMDB */

#ifdef WITH_LMDB
static MDB_env *env;
static MDB_txn *txn;
static MDB_dbi dbi;

static void check(int error) {
  if (error) fail(mdb_strerror(error));
}

static void lmdb_open(void) {
  const char *folder = getenv("PEER_DIR");
  check(mdb_env_create(&env));
  check(mdb_env_set_mapsize(env, (size_t)1 << 30));
  check(mdb_env_open(env, folder ? folder : ".", MDB_NOSYNC | MDB_WRITEMAP | MDB_NOLOCK, 0600));
  check(mdb_txn_begin(env, NULL, 0, &txn));
  check(mdb_dbi_open(txn, NULL, 0, &dbi));
  check(mdb_txn_commit(txn));
  txn = NULL;
}

static void lmdb_begin(int writes) {
  check(mdb_txn_begin(env, NULL, writes ? 0 : MDB_RDONLY, &txn));
}

static void lmdb_commit(void) {
  check(mdb_txn_commit(txn));
  txn = NULL;
}

static int lmdb_get(Word key, Word *value) {
  MDB_val k = {key.length, (void *)key.at}, v;
  int error = mdb_get(txn, dbi, &k, &v);
  if (error == MDB_NOTFOUND) return 0;
  check(error);
  value->at = v.mv_data;
  value->length = v.mv_size;
  return 1;
}

static void lmdb_put(Word key, Word value) {
  MDB_val k = {key.length, (void *)key.at}, v = {value.length, (void *)value.at};
  check(mdb_put(txn, dbi, &k, &v, 0));
}

static void lmdb_del(Word key) {
  MDB_val k = {key.length, (void *)key.at};
  int error = mdb_del(txn, dbi, &k, NULL);
  if (error != MDB_NOTFOUND) check(error);
}

static void lmdb_scan(Word low, Word high, long limit) {
  MDB_cursor *cursor;
  MDB_val k = {low.length, (void *)low.at}, v, end = {high.length, (void *)high.at};
  check(mdb_cursor_open(txn, dbi, &cursor));
  int error = mdb_cursor_get(cursor, &k, &v, low.length ? MDB_SET_RANGE : MDB_FIRST);
  while (!error && pairs_count < limit && (!high.length || mdb_cmp(txn, dbi, &k, &end) < 0)) {
    Word key = {k.mv_data, k.mv_size}, value = {v.mv_data, v.mv_size};
    add_pair(key, value);
    error = mdb_cursor_get(cursor, &k, &v, MDB_NEXT);
  }
  mdb_cursor_close(cursor);
}
#endif

/* Scripts */

static Word *words;
static size_t words_count, words_room;

/* The words of a line. */
static void split(const char *line, const char *end) {
  words_count = 0;
  while (line < end) {
    const char *stop = memchr(line, ' ', (size_t)(end - line));
    if (!stop) stop = end;
    if (words_count == words_room) {
      words_room = 2 * words_room + 64;
      if (!(words = realloc(words, words_room * sizeof *words))) fail("no memory");
    }
    words[words_count].at = line;
    words[words_count++].length = (size_t)(stop - line);
    line = stop + 1;
  }
}

static int is(Word word, const char *text) {
  return word.length == strlen(text) && !memcmp(word.at, text, word.length);
}

static Word bound(Word word) {
  if (is(word, "%")) word.length = 0;
  return word;
}

/* One step of a transaction, from the word with this number on; the number behind it. */
static size_t step(const Store *store, size_t at) {
  if (is(words[at], "get")) {
    Word value = {"", 0};
    int found = store->get(words[at + 1], &value);
    print_found(found, value);
    return at + 2;
  }
  if (is(words[at], "put")) {
    store->put(words[at + 1], words[at + 2]);
    return at + 3;
  }
  if (!is(words[at], "del")) fail("a step that it doesn't know");
  store->del(words[at + 1]);
  return at + 2;
}

static int writes(void) {
  for (size_t at = 0; at < words_count; at++)
    if (is(words[at], "put") || is(words[at], "del")) return 1;
  return 0;
}

static void transaction(const Store *store) {
  int one = !is(words[0], "tx");
  int begins = !(one && store->alone);
  if (begins) store->begin(writes());
  print(" ok", 3);
  if (one) {
    /* as `tx V STEP`: the version stands behind the first word */
    words[1] = words[0];
    step(store, 1);
  } else {
    for (size_t at = 2; at < words_count;) {
      at = step(store, at);
      if (at < words_count && !is(words[at++], ";")) fail("no step");
    }
  }
  if (begins) store->commit();
}

static void scan(const Store *store) {
  pairs_length = 0;
  pairs_count = 0;
  if (!store->alone) store->begin(0);
  store->scan(bound(words[2]), bound(words[3]), strtol(words[4].at, NULL, 10));
  if (!store->alone) store->commit();
  print(" pairs ", 7);
  print_number(pairs_count);
  print(pairs, pairs_length);
}

static void operation(const Store *store, Word client, long number) {
  print_word(client);
  print(" ", 1);
  print_number(number);
  if (!store)
    print(" ok", 3);
  else if (is(words[0], "snapshot"))
    print(" made", 5);
  else if (is(words[0], "scan"))
    scan(store);
  else
    transaction(store);
  print("\n", 1);
}

static char *read_all(size_t *length) {
  size_t room = 1 << 16;
  char *text = malloc(room);
  *length = 0;
  for (;;) {
    if (!text) fail("no memory");
    size_t count = fread(text + *length, 1, room - *length, stdin);
    if (!count) return text;
    *length += count;
    if (*length == room) text = realloc(text, room *= 2);
  }
}

static void play(const Store *store) {
  size_t length;
  char *text = read_all(&length);
  const char *end = text + length;
  Word client = {"", 0};
  long number = 0;
  for (const char *line = text; line < end;) {
    const char *stop = memchr(line, '\n', (size_t)(end - line));
    if (!stop) stop = end;
    split(line, stop);
    line = stop + 1;
    if (!words_count || is(words[0], "nodes")) continue;
    if (is(words[0], "client")) {
      client = words[1];
      number = 0;
    } else
      operation(store, client, ++number);
  }
  fwrite(out, 1, out_length, stdout);
}

static Store store_named(const char *name) {
  Store store = {sqlite_open, 1, sqlite_begin, sqlite_commit, sqlite_get, sqlite_put, sqlite_del,
                 sqlite_scan};
  if (!strcmp(name, "sqlite")) return store;
  store.open = rowid_open;
  if (!strcmp(name, "rowid")) return store;
#ifdef WITH_LMDB
  Store lmdb = {lmdb_open, 0, lmdb_begin, lmdb_commit, lmdb_get, lmdb_put, lmdb_del, lmdb_scan};
  if (!strcmp(name, "lmdb")) return lmdb;
#endif
  fail("STORE is sqlite, rowid, lmdb or none");
  return store;
}

int main(int count, char **names) {
  const char *name = count == 2 ? names[1] : "";
  if (!strcmp(name, "none")) {
    play(NULL);
    return 0;
  }
  Store store = store_named(name);
  store.open();
  play(&store);
  return 0;
}
