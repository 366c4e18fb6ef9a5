/* Ledgers to measure `disruptor ledger` against, which answer the same lines: what one read brings is booked in memory and stored.
 *
 *   stores WAY FILE
 *
 * WAY is how an operation comes to the disk before its answer: `sqlite-each`, as a row of SQLite in WAL with synchronous=FULL, by a
 * transaction of its own; `sqlite-batch`, all of a read by one transaction; `sync-each`, appended to a file with a sync of its own; and
 * `sync-batch`, all of a read appended with one sync, which a crash may cut anywhere. SQLite has less to do here than under a bank that
 * keeps its accounts in tables. */
#define _POSIX_C_SOURCE 200809L
#include <fcntl.h>
#include <sqlite3.h>
#include <stdbool.h>
#include <stdint.h>
#include <stdio.h>
#include <stdlib.h>
#include <string.h>
#include <unistd.h>

enum { ACCOUNTS = 1 << 16, MOST_READ = 1 << 16, LONGEST_ANSWER = 64 };

struct operation {
    char kind;
    uint64_t account, other, amount;
};

static uint64_t balances[ACCOUNTS], sequence;
static bool by_sqlite, each;
static sqlite3 *base;
static sqlite3_stmt *begin, *insert, *commit;
static int file;
static char answers[MOST_READ * LONGEST_ANSWER / 8];
static size_t answered;

static void fail(const char *what) {
    fprintf(stderr, "cannot %s: %s\n", what, base ? sqlite3_errmsg(base) : "");
    exit(4);
}

static sqlite3_stmt *prepared(const char *words) {
    sqlite3_stmt *made;
    if (sqlite3_prepare_v2(base, words, -1, &made, NULL)) fail(words);
    return made;
}

static void open_base(const char *path) {
    if (sqlite3_open(path, &base)) fail("open");
    const char *words = "PRAGMA journal_mode=WAL; PRAGMA synchronous=FULL;"
                        "CREATE TABLE journal (sequence INTEGER PRIMARY KEY, kind INTEGER, account INTEGER, other INTEGER, amount INTEGER)";
    if (sqlite3_exec(base, words, NULL, NULL, NULL)) fail("make the table");
    begin = prepared("BEGIN"), commit = prepared("COMMIT");
    insert = prepared("INSERT INTO journal VALUES (?, ?, ?, ?, ?)");
}

static void run(sqlite3_stmt *statement) {
    if (sqlite3_step(statement) != SQLITE_DONE) fail("step");
    sqlite3_reset(statement);
}

static void insert_row(const struct operation *it) {
    const uint64_t row[] = {sequence, (uint64_t)it->kind, it->account, it->other, it->amount};
    for (int k = 0; k < 5; k++) sqlite3_bind_int64(insert, k + 1, (sqlite3_int64)row[k]);
    run(insert);
}

static void append(const char *bytes, size_t count) {
    if (write(file, bytes, count) != (ssize_t)count) fail("append");
}

static void sync_file(void) {
    if (fdatasync(file)) fail("sync");
}

/* A number, up to a comma or the line's end, past which `at` then is. */
static uint64_t number(const char **at) {
    uint64_t found = 0;
    while (**at >= '0' && **at <= '9') found = 10 * found + (uint64_t)(*(*at)++ - '0');
    (*at)++;
    return found;
}

/* Reads a line: PRODUCER,KIND,ACCOUNT,AMOUNT, or of a transfer PRODUCER,transfer,ACCOUNT,OTHER,AMOUNT. */
static struct operation read_line(const char *at) {
    struct operation it = {0, 0, 0, 0};
    number(&at);
    it.kind = *at;
    at = strchr(at, ',') + 1;
    it.account = number(&at) % ACCOUNTS;
    if (it.kind == 't') it.other = number(&at) % ACCOUNTS;
    it.amount = number(&at);
    return it;
}

/* Books it, and adds its answer to those to be written. */
static void book(const struct operation *it) {
    uint64_t *own = &balances[it->account];
    const bool pays = it->kind == 'd' || *own >= it->amount;
    if (it->kind == 'd') *own += it->amount;
    else if (pays) *own -= it->amount;
    if (it->kind == 't' && pays) balances[it->other] += it->amount;
    answered += (size_t)sprintf(answers + answered, "%lu %s %lu\n", sequence++, pays ? "applied" : "refused", *own);
}

static void answer(void) {
    if (write(1, answers, answered) != (ssize_t)answered) fail("answer");
    answered = 0;
}

static void serve_line(const char *line, size_t length) {
    const struct operation it = read_line(line);
    if (by_sqlite) insert_row(&it);
    else if (each) append(line, length);
    book(&it);
    if (!each) return;
    if (!by_sqlite) sync_file();
    answer();
}

/* Serves the whole lines of what has come, and answers how many bytes they are. */
static size_t serve(const char *bytes, size_t there) {
    size_t done = 0;
    const char *end;
    if (by_sqlite && !each) run(begin);
    while ((end = memchr(bytes + done, '\n', there - done))) {
        const size_t length = (size_t)(end + 1 - bytes) - done;
        serve_line(bytes + done, length);
        done += length;
    }
    if (each) return done;
    if (by_sqlite) run(commit);
    else append(bytes, done), sync_file();
    answer();
    return done;
}

int main(int count, char **words) {
    static char bytes[MOST_READ + 1];
    size_t kept = 0;
    if (count != 3) return fprintf(stderr, "usage: stores sqlite-each|sqlite-batch|sync-each|sync-batch FILE\n"), 1;
    by_sqlite = strncmp(words[1], "sqlite", 6) == 0, each = strstr(words[1], "-each");
    if (by_sqlite) open_base(words[2]);
    else if ((file = open(words[2], O_CREAT | O_WRONLY | O_APPEND, 0600)) < 0) fail("open");
    for (;;) {
        const ssize_t there = read(0, bytes + kept, MOST_READ - kept);
        if (there < 0) fail("read");
        if (there == 0) return 0;
        const size_t all = kept + (size_t)there, done = serve(bytes, all);
        kept = all - done;
        memmove(bytes, bytes + done, kept);
    }
}
