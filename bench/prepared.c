/* The rows of updates, put into the tables of a store by SQLite's own library, with its statements prepared.

       cc -O2 -o prepared prepared.c -lsqlite3
       prepared STORE ORIGIN

   A line of input is an identifier and a count. So many records are added to the zone of the origin: their rows, those of the change
   with the SOA of the next serial, and the receipt, in one transaction that is forced to the disk. The answer is a line with the
   nanoseconds that it took. Nothing is read for an update: it is the least that its rows can take. A line `pass` and a number goes over
   so many megabytes of memory in its place, as a list does. */
#include <sqlite3.h>
#include <stdio.h>
#include <stdlib.h>
#include <string.h>
#include <time.h>

enum { TYPE_A = 1, TYPE_SOA = 6, GONE = 0, CAME = 1, TEXT = 512 };

struct record {
    char owner[4 * TEXT], data[4 * TEXT];
    unsigned char key[4 * TEXT];
    int type, ttl, key_len;
};

static sqlite3 *db;
static sqlite3_stmt *begin, *commit, *erase, *record, *change, *receipt;
static const char *origin;
static char head[TEXT], tail[TEXT];
static long long serial, number;

static void fail(const char *what) {
    fprintf(stderr, "%s: %s\n", what, sqlite3_errmsg(db));
    exit(1);
}

static sqlite3_stmt *prepared(const char *sql) {
    sqlite3_stmt *made;
    if (sqlite3_prepare_v3(db, sql, -1, SQLITE_PREPARE_PERSISTENT, &made, NULL) != SQLITE_OK) fail(sql);
    return made;
}

static void run(sqlite3_stmt *it) {
    if (sqlite3_step(it) != SQLITE_DONE) fail(sqlite3_sql(it));
    sqlite3_reset(it);
}

static void text(sqlite3_stmt *it, int at, const char *value) {
    sqlite3_bind_text(it, at, value, -1, SQLITE_STATIC);
}

static void put(const struct record *r) {
    text(record, 1, origin);
    text(record, 2, r->owner);
    sqlite3_bind_int(record, 3, r->type);
    text(record, 4, r->data);
    sqlite3_bind_int(record, 5, r->ttl);
    sqlite3_bind_blob(record, 6, r->key, r->key_len, SQLITE_STATIC);
    run(record);
}

static void note(int side, const struct record *r) {
    text(change, 1, origin);
    sqlite3_bind_int64(change, 2, number);
    sqlite3_bind_int(change, 3, side);
    text(change, 4, r->owner);
    sqlite3_bind_int(change, 5, r->type);
    text(change, 6, r->data);
    sqlite3_bind_int(change, 7, r->ttl);
    run(change);
}

static void soa(struct record *r) {
    snprintf(r->data, sizeof r->data, "%s%lld%s", head, serial, tail);
}

static void update(const char *id, int count, struct record *old, struct record *new, struct record *adds, char *request) {
    run(begin);
    text(erase, 1, origin);
    text(erase, 2, old->owner);
    sqlite3_bind_int(erase, 3, old->type);
    text(erase, 4, old->data);
    run(erase);
    put(new);
    for (int i = 0; i < count; i++) put(&adds[i]);
    note(GONE, old);
    note(CAME, new);
    for (int i = 0; i < count; i++) note(CAME, &adds[i]);
    text(receipt, 1, "admin");
    text(receipt, 2, id);
    text(receipt, 3, origin);
    text(receipt, 4, request);
    text(receipt, 5, "NOERROR");
    run(receipt);
    run(commit);
}

/* The SOA's fields before and behind its serial, and the number of the last change. */
static void look(struct record *r) {
    sqlite3_stmt *it = prepared("SELECT owner, data, ttl, owner_key FROM records WHERE origin = ? AND type = 6");
    text(it, 1, origin);
    if (sqlite3_step(it) != SQLITE_ROW) fail("no SOA");
    snprintf(r->owner, sizeof r->owner, "%s", (const char *)sqlite3_column_text(it, 0));
    const char *data = (const char *)sqlite3_column_text(it, 1), *third = strchr(strchr(data, ' ') + 1, ' ') + 1;
    snprintf(head, TEXT, "%.*s", (int)(third - data), data);
    serial = atoll(third);
    snprintf(tail, TEXT, "%s", strchr(third, ' '));
    r->type = TYPE_SOA;
    r->ttl = sqlite3_column_int(it, 2);
    r->key_len = sqlite3_column_bytes(it, 3);
    memcpy(r->key, sqlite3_column_blob(it, 3), r->key_len);
    sqlite3_finalize(it);
    it = prepared("SELECT coalesce(max(number), 0) FROM changes WHERE origin = ?");
    text(it, 1, origin);
    if (sqlite3_step(it) != SQLITE_ROW) fail("no number");
    number = sqlite3_column_int64(it, 0);
    sqlite3_finalize(it);
}

/* Goes over so many megabytes, reading one half and writing the other. */
static void pass(int megabytes) {
    static char *all;
    size_t half = (size_t)megabytes << 19;
    if (!all && !(all = calloc(2, half))) fail("calloc");
    memcpy(all + half, all, half);
    all[0]++;
}

int main(int words, char **word) {
    if (words != 3 || sqlite3_open(word[1], &db) != SQLITE_OK) fail("prepared STORE ORIGIN");
    origin = word[2];
    if (sqlite3_exec(db, "PRAGMA journal_mode = WAL; PRAGMA synchronous = FULL;", NULL, NULL, NULL) != SQLITE_OK) fail("pragma");
    begin = prepared("BEGIN IMMEDIATE");
    commit = prepared("COMMIT");
    erase = prepared("DELETE FROM records WHERE origin = ? AND owner = ? AND type = ? AND data = ?");
    record = prepared("INSERT INTO records VALUES (?, ?, ?, ?, ?, ?)");
    change = prepared("INSERT INTO changes VALUES (?, ?, ?, ?, ?, ?, ?)");
    receipt = prepared("INSERT INTO receipts VALUES (?, ?, ?, ?, ?)");
    struct record apex;
    look(&apex);
    char id[TEXT];
    int count;
    while (scanf("%255s %d", id, &count) == 2) {
        if (!strcmp(id, "pass")) {
            pass(count);
            puts("0");
            fflush(stdout);
            continue;
        }
        struct record old = apex, new = apex, *adds = calloc(count, sizeof *adds);
        char *request = calloc(count + 1, 8 * TEXT), *end = request;
        soa(&old);
        serial++;
        number++;
        soa(&new);
        for (int i = 0; i < count; i++) {
            struct record *r = &adds[i];
            *r = (struct record){.type = TYPE_A, .ttl = 300, .data = "192.0.2.5", .key_len = apex.key_len};
            snprintf(r->owner, sizeof r->owner, "%s-%d.new.%s", id, i, origin);
            memcpy(r->key, apex.key, apex.key_len);
            r->key_len += sprintf((char *)r->key + r->key_len, "new%c%s-%d%c", 0, id, i, 0);
            end += sprintf(end, "add %s 300 A 192.0.2.5\n", r->owner);
        }
        struct timespec from, to;
        clock_gettime(CLOCK_MONOTONIC, &from);
        update(id, count, &old, &new, adds, request);
        clock_gettime(CLOCK_MONOTONIC, &to);
        printf("%lld\n", (to.tv_sec - from.tv_sec) * 1000000000LL + to.tv_nsec - from.tv_nsec);
        fflush(stdout);
        free(adds);
        free(request);
    }
    return sqlite3_close_v2(db) != SQLITE_OK;
}
