/* What `journal FILE N` of bench/disk.c does, over SQLite: FILE is a new database with a write-ahead log, synchronous
 * FULL, and takes N uploads of 16 columns, each in a transaction of its own. A column is a row of a table by its key.
 * The database isn't closed at the end, so that the log is never copied back. */
#include <sqlite3.h>
#include <stdint.h>
#include <stdio.h>
#include <stdlib.h>

static sqlite3 *db;

static void need(int found, int wanted) {
    if (found == wanted) return;
    fprintf(stderr, "sqlite: %s\n", sqlite3_errmsg(db));
    exit(1);
}

static sqlite3_stmt *prepared(const char *text) {
    sqlite3_stmt *made;
    need(sqlite3_prepare_v2(db, text, -1, &made, NULL), SQLITE_OK);
    return made;
}

static void run(sqlite3_stmt *it) {
    need(sqlite3_step(it), SQLITE_DONE);
    need(sqlite3_reset(it), SQLITE_OK);
}

/* Puts the lowest bytes of a number, so many, the highest first. Gives where they end. */
static unsigned char *put_number(unsigned char *at, uint32_t n, int bytes) {
    for (int i = bytes - 1; i >= 0; i--) *at++ = (unsigned char)(n >> 8 * i);
    return at;
}

/* The column of that number, of upload number n / 16 of host 1: its key and its eight rows. */
static void put_column(sqlite3_stmt *insert, uint32_t n) {
    unsigned char cells[48], *at = cells;
    for (int row = 0; row < 8; row++) {
        at = put_number(at, n * 2654435761u, 4);
        at = put_number(at, n % 65536, 2);
    }
    uint32_t fields[] = {n / 65536, n / 4096 % 16, n % 4096, 1, n / 16};
    for (int i = 0; i < 5; i++) need(sqlite3_bind_int64(insert, i + 1, fields[i]), SQLITE_OK);
    need(sqlite3_bind_blob(insert, 6, cells, sizeof cells, SQLITE_STATIC), SQLITE_OK);
    run(insert);
}

int main(int argc, char **argv) {
    if (argc != 4) return 1;
    unsigned long count = strtoul(argv[3], NULL, 10);
    need(sqlite3_open(argv[2], &db), SQLITE_OK);
    need(sqlite3_exec(db,
                      "PRAGMA journal_mode=WAL; PRAGMA synchronous=FULL;"
                      "CREATE TABLE book(switch INTEGER, epoch INTEGER, place INTEGER, host INTEGER, seq INTEGER,"
                      " cells BLOB, PRIMARY KEY(switch, epoch, place)) WITHOUT ROWID",
                      NULL, NULL, NULL), SQLITE_OK);
    sqlite3_stmt *begin = prepared("BEGIN IMMEDIATE"), *commit = prepared("COMMIT");
    sqlite3_stmt *insert = prepared("INSERT INTO book VALUES(?, ?, ?, ?, ?, ?)");
    for (uint32_t n = 0; n < count; n++) {
        run(begin);
        for (uint32_t i = 0; i < 16; i++) put_column(insert, 16 * n + i);
        run(commit);
    }
    /* The number that bench/disk.c writes: of the columns and of the records. */
    printf("%llu\n", (unsigned long long)sqlite3_total_changes(db) * 31 + count);
    return 0;
}
