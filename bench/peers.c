/* What others take for the reads of bench/peers, over the documents that it wrote, one thread, nothing but memory behind the files:
   LMDB, whose values are the documents' BSON, with loops by hand over their elements; SQLite, with a table of JSON texts, and with one of columns.
   Prints `WHO WHAT milliseconds`, each the best of seven. Use: peers FOLDER, where documents.bson and documents.json are. */
#include <lmdb.h>
#include <sqlite3.h>
#include <stdint.h>
#include <stdio.h>
#include <stdlib.h>
#include <string.h>
#include <time.h>

enum { REPEATS = 7, GROUPS = 100 };

static void must(int holds, const char *what) {
    if (!holds) {
        fprintf(stderr, "%s\n", what);
        exit(1);
    }
}

static double now(void) {
    struct timespec at;
    clock_gettime(CLOCK_MONOTONIC, &at);
    return at.tv_sec * 1e3 + at.tv_nsec / 1e6;
}

static void best(const char *who, const char *what, void (*run)(void)) {
    double least = 1e9;
    for (int i = 0; i < REPEATS; i++) {
        double start = now();
        run();
        double taken = now() - start;
        least = taken < least ? taken : least;
    }
    printf("%s %s %.3f\n", who, what, least);
    fflush(stdout);
}

static char *whole(const char *folder, const char *name, size_t *length) {
    char path[4096];
    snprintf(path, sizeof path, "%s/%s", folder, name);
    FILE *file = fopen(path, "rb");
    must(file != NULL, path);
    fseek(file, 0, SEEK_END);
    *length = ftell(file);
    rewind(file);
    char *bytes = malloc(*length + 1);
    must(fread(bytes, 1, *length, file) == *length, path);
    bytes[*length] = 0;
    fclose(file);
    return bytes;
}

static int32_t int32_at(const uint8_t *at) {
    int32_t number;
    memcpy(&number, at, 4);
    return number;
}

/* The int32 of this name in a document, or `none`. */
static int32_t field(const uint8_t *document, size_t length, const char *name, int32_t none) {
    const uint8_t *at = document + 4, *end = document + length;
    while (at < end && *at != 0) {
        uint8_t type = *at++;
        int found = strcmp((const char *)at, name) == 0;
        at += strlen((const char *)at) + 1;
        if (found) {
            return type == 0x10 ? int32_at(at) : none;
        }
        switch (type) {
        case 0x08: at += 1; break;
        case 0x10: at += 4; break;
        case 0x09: case 0x12: at += 8; break;
        case 0x02: at += 4 + int32_at(at); break;
        default: must(0, "another type");
        }
    }
    return none;
}

static MDB_env *environment;
static MDB_dbi documents;

static void lmdb_load(const char *folder) {
    size_t length;
    uint8_t *bytes = (uint8_t *)whole(folder, "documents.bson", &length);
    must(!mdb_env_create(&environment) && !mdb_env_set_mapsize(environment, (size_t)4 << 30), "lmdb");
    must(!mdb_env_open(environment, folder, MDB_NOSYNC, 0600), "lmdb's file");
    MDB_txn *txn;
    must(!mdb_txn_begin(environment, NULL, 0, &txn) && !mdb_dbi_open(txn, NULL, MDB_INTEGERKEY, &documents), "lmdb's table");
    for (size_t at = 0; at < length;) {
        size_t size = int32_at(bytes + at);
        unsigned id = field(bytes + at, size, "_id", 0);
        MDB_val key = {sizeof id, &id}, value = {size, bytes + at};
        must(!mdb_put(txn, documents, &key, &value, MDB_APPEND), "lmdb's put");
        at += size;
    }
    must(!mdb_txn_commit(txn), "lmdb's commit");
    free(bytes);
}

static void lmdb_each(void (*visit)(const uint8_t *, size_t)) {
    MDB_txn *txn;
    MDB_cursor *cursor;
    MDB_val key, value;
    must(!mdb_txn_begin(environment, NULL, MDB_RDONLY, &txn) && !mdb_cursor_open(txn, documents, &cursor), "lmdb's cursor");
    while (!mdb_cursor_get(cursor, &key, &value, MDB_NEXT)) {
        visit(value.mv_data, value.mv_size);
    }
    mdb_cursor_close(cursor);
    mdb_txn_abort(txn);
}

static size_t counted;
static int32_t most[GROUPS], group_of[GROUPS];
static size_t members[GROUPS], groups;

static void with_minus_one(const uint8_t *document, size_t length) {
    counted += field(document, length, "v", 0) == -1;
}

/* Groups stand where a table by their value leads, as they would for any values. */
static void into_group(const uint8_t *document, size_t length) {
    int32_t group = field(document, length, "g", 0), value = field(document, length, "v", 0);
    size_t at = (uint32_t)group * 2654435761u % GROUPS;
    while (members[at] != 0 && group_of[at] != group) {
        at = (at + 1) % GROUPS;
    }
    groups += members[at] == 0;
    group_of[at] = group;
    most[at] = members[at]++ == 0 || value > most[at] ? value : most[at];
}

static void lmdb_filter(void) {
    counted = 0;
    lmdb_each(with_minus_one);
    must(counted == 0, "a document with v = -1");
}

static void lmdb_group(void) {
    memset(members, 0, sizeof members);
    groups = 0;
    lmdb_each(into_group);
    must(groups == GROUPS, "other groups");
}

static sqlite3 *database;

static void run_sql(const char *text) {
    must(sqlite3_exec(database, text, NULL, NULL, NULL) == SQLITE_OK, sqlite3_errmsg(database));
}

static void sqlite_load(const char *folder) {
    size_t length;
    char path[4096], *lines = whole(folder, "documents.json", &length);
    snprintf(path, sizeof path, "%s/sqlite", folder);
    must(sqlite3_open(path, &database) == SQLITE_OK, "sqlite's file");
    run_sql("PRAGMA synchronous = off; PRAGMA cache_size = -200000; CREATE TABLE texts (id INTEGER PRIMARY KEY, document TEXT); BEGIN");
    sqlite3_stmt *put;
    must(sqlite3_prepare_v2(database, "INSERT INTO texts (document) VALUES (?)", -1, &put, NULL) == SQLITE_OK, "sqlite's put");
    for (char *line = strtok(lines, "\n"); line != NULL; line = strtok(NULL, "\n")) {
        sqlite3_bind_text(put, 1, line, -1, SQLITE_STATIC);
        must(sqlite3_step(put) == SQLITE_DONE, "sqlite's put");
        sqlite3_reset(put);
    }
    sqlite3_finalize(put);
    run_sql("COMMIT; CREATE TABLE columns AS SELECT document->>'_id' AS id, document->>'g' AS g, document->>'v' AS v, document->>'at' AS at, "
            "document->>'open' AS open, document->>'name' AS name, document->>'note' AS note FROM texts");
    free(lines);
}

static void sqlite_filter(void) { run_sql("SELECT document FROM texts WHERE document->>'v' = -1"); }
static void sqlite_group(void) { run_sql("SELECT document->>'g', count(*), max(document->>'v') FROM texts GROUP BY 1"); }
static void columns_filter(void) { run_sql("SELECT * FROM columns WHERE v = -1"); }
static void columns_group(void) { run_sql("SELECT g, count(*), max(v) FROM columns GROUP BY 1"); }

int main(int count, char **words) {
    must(count == 2, "peers FOLDER");
    lmdb_load(words[1]);
    best("lmdb", "filter", lmdb_filter);
    best("lmdb", "group", lmdb_group);
    mdb_env_close(environment);
    sqlite_load(words[1]);
    best("sqlite-json", "filter", sqlite_filter);
    best("sqlite-json", "group", sqlite_group);
    best("sqlite-columns", "filter", columns_filter);
    best("sqlite-columns", "group", columns_group);
    return 0;
}
