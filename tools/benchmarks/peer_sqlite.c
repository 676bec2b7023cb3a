/* The statements of a post, on C SQLite over a bank's file without sums, with no HTTP and no JSON.
 *
 *   peer_sqlite FILE POSTS
 *
 * Posts of one cent to account 101 by user 7 at drawer 11 of branch 1. Each is one transaction: it reads the user, the triples with
 * their members, the account, the teller and the branch, writes an entry and a cash line, changes the account, the teller and the
 * branch, and is committed by a sync. Prints the nanoseconds of all.
 */
#include <sqlite3.h>
#include <stdio.h>
#include <stdlib.h>
#include <time.h>

enum { USER, TRIPLES, ACCOUNT, TELLER, BRANCH, ENTRY, LINE, SET_ACCOUNT, SET_TELLER, SET_BRANCH, BEGIN, COMMIT, STATEMENTS };

static const char *const TEXTS[STATEMENTS] = {
    "SELECT officer, suspended, session, is_on FROM users WHERE user_no = ?1",
    "SELECT g.set_no, ceiling, kind, low, high FROM grants g JOIN members m ON m.set_no = g.set_no WHERE user_no = ?1 AND procedure = 1",
    "SELECT balance, floor, turns, home FROM accounts WHERE account = ?1",
    "SELECT balance, branch, cash, holder FROM tellers WHERE teller = ?1",
    "SELECT entries, lines, day, balance FROM branches WHERE branch = ?1",
    "INSERT INTO entries VALUES (1, ?1, 101, ?2, 11, 1, 0, ?3, 7, 1, 0, 0, ?4)",
    "INSERT INTO lines VALUES (1, ?1, 11, 1, 1, 0, ?2, 7)",
    "UPDATE accounts SET balance = balance + 1, turns = turns + 1 WHERE account = ?1",
    "UPDATE tellers SET balance = balance + 1, cash = cash + 1 WHERE teller = ?1",
    "UPDATE branches SET balance = balance + 1, entries = entries + 1, lines = lines + 1, history = history + 1,"
    " drawers = drawers + 1, cash_entries = cash_entries + 1 WHERE branch = ?1",
    "BEGIN IMMEDIATE", "COMMIT",
};

static sqlite3 *db;
static sqlite3_stmt *statements[STATEMENTS];

static void fail(const char *what) {
    fprintf(stderr, "%s: %s\n", what, sqlite3_errmsg(db));
    exit(1);
}

/* Runs a statement with these values, and takes the first columns of its last row. */
static void run(int which, int count, const sqlite3_int64 *values, sqlite3_int64 *row) {
    sqlite3_stmt *it = statements[which];
    int status;
    for (int at = 0; at < count; at++) sqlite3_bind_int64(it, at + 1, values[at]);
    while ((status = sqlite3_step(it)) == SQLITE_ROW)
        for (int at = 0; at < 4; at++) row[at] = sqlite3_column_int64(it, at);
    if (status != SQLITE_DONE) fail(TEXTS[which]);
    sqlite3_reset(it);
}

static void post(void) {
    sqlite3_int64 row[4] = {0}, account[4], branch[4];
    run(BEGIN, 0, NULL, NULL);
    run(USER, 1, (sqlite3_int64[]){7}, row);
    run(TRIPLES, 1, (sqlite3_int64[]){7}, row);
    run(ACCOUNT, 1, (sqlite3_int64[]){101}, account);
    run(TELLER, 1, (sqlite3_int64[]){11}, row);
    run(BRANCH, 1, (sqlite3_int64[]){1}, branch);
    run(ENTRY, 4, (sqlite3_int64[]){branch[0] + 1, account[2] + 1, branch[2], account[0] + 1}, NULL);
    run(LINE, 2, (sqlite3_int64[]){branch[1] + 1, branch[2]}, NULL);
    run(SET_ACCOUNT, 1, (sqlite3_int64[]){101}, NULL);
    run(SET_TELLER, 1, (sqlite3_int64[]){11}, NULL);
    run(SET_BRANCH, 1, (sqlite3_int64[]){1}, NULL);
    run(COMMIT, 0, NULL, NULL);
}

int main(int argc, char **argv) {
    struct timespec start, end;
    if (argc != 3) return 2;
    if (sqlite3_open(argv[1], &db)) fail(argv[1]);
    if (sqlite3_exec(db, "PRAGMA foreign_keys=ON; PRAGMA synchronous=FULL", NULL, NULL, NULL)) fail("pragmas");
    for (int at = 0; at < STATEMENTS; at++)
        if (sqlite3_prepare_v2(db, TEXTS[at], -1, &statements[at], NULL)) fail(TEXTS[at]);
    clock_gettime(CLOCK_MONOTONIC, &start);
    for (int left = atoi(argv[2]); left > 0; left--) post();
    clock_gettime(CLOCK_MONOTONIC, &end);
    for (int at = 0; at < STATEMENTS; at++) sqlite3_finalize(statements[at]);
    sqlite3_close(db);
    printf("%lld\n", (end.tv_sec - start.tv_sec) * 1000000000LL + end.tv_nsec - start.tv_nsec);
    return 0;
}
