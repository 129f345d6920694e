/* What C's sqlite3 takes for the statements of the store in SQL; for bench/sql/run.
   usage: sql [--schema 1|2] fill FILE SESSIONS COPIES [BYTES] | steps FILE|:memory: COUNT [BYTES [RECEIVERS]]
          sql [--schema 1|2] commits FILE|:memory: COUNT | load FILE | schema FILE | take FILE
   A new database gets the tables of the schema that is asked for, 2 if none is; one that stands keeps its own, which `schema`
   tells. `steps` makes those of so many messages at QoS 2, to one receiver unless said; messages have 5 bytes. `take` takes a
   database of schema 1 over by schema 2.
   It writes ahead in a log and syncs at each commit, as the store does. It prints a line of what was done, the seconds of the
   clock and of the processor, how long the longest message or commit took, and what was written by calls. */
#include <sqlite3.h>
#include <stdio.h>
#include <stdlib.h>
#include <string.h>
#include <time.h>

static sqlite3 *db;
static int schema = 2;

static void stop(const char *what) {
    fprintf(stderr, "sql: %s: %s\n", what, db ? sqlite3_errmsg(db) : "no database");
    exit(1);
}

static void run(const char *text) {
    if (sqlite3_exec(db, text, 0, 0, 0) != SQLITE_OK) stop(text);
}

static sqlite3_stmt *made(const char *text) {
    sqlite3_stmt *it;
    if (sqlite3_prepare_v2(db, text, -1, &it, 0) != SQLITE_OK) stop(text);
    return it;
}

/* Makes a step of a statement that shows no row. */
static void make(sqlite3_stmt *it) {
    if (sqlite3_step(it) != SQLITE_DONE) stop(sqlite3_sql(it));
    sqlite3_reset(it);
}

/* The same with whole numbers. */
static void make_with(sqlite3_stmt *it, int count, const sqlite3_int64 *values) {
    for (int at = 0; at < count; at++) sqlite3_bind_int64(it, at + 1, values[at]);
    make(it);
}

static const char *const both[] = {
    "CREATE TABLE meta (name TEXT PRIMARY KEY NOT NULL, n INTEGER NOT NULL) STRICT",
    "CREATE TABLE session (birth INTEGER PRIMARY KEY, client TEXT NOT NULL UNIQUE, expiry INTEGER NOT NULL, closed INTEGER) STRICT",
    "CREATE TABLE will (birth INTEGER PRIMARY KEY REFERENCES session (birth) ON DELETE CASCADE, delay INTEGER NOT NULL, topic TEXT NOT NULL, qos INTEGER NOT NULL, retain INTEGER NOT NULL, props BLOB NOT NULL, payload BLOB NOT NULL) STRICT",
    "CREATE TABLE sub (birth INTEGER NOT NULL REFERENCES session (birth) ON DELETE CASCADE, filter TEXT NOT NULL, place INTEGER NOT NULL, qos INTEGER NOT NULL, nolocal INTEGER NOT NULL, rap INTEGER NOT NULL, handling INTEGER NOT NULL, ident INTEGER NOT NULL, PRIMARY KEY (birth, filter)) STRICT",
    "CREATE TABLE inbound (birth INTEGER NOT NULL REFERENCES session (birth) ON DELETE CASCADE, ident INTEGER NOT NULL, PRIMARY KEY (birth, ident)) STRICT",
    0,
};

static const char *const first[] = {
    "CREATE TABLE copy (birth INTEGER NOT NULL REFERENCES session (birth) ON DELETE CASCADE, place INTEGER NOT NULL, pub INTEGER NOT NULL, cause INTEGER NOT NULL, cause_text TEXT NOT NULL, cause_n INTEGER NOT NULL, pid INTEGER, phase INTEGER NOT NULL, rel INTEGER, topic TEXT NOT NULL, qos INTEGER NOT NULL, retain INTEGER NOT NULL, props BLOB NOT NULL, payload BLOB NOT NULL, arrived INTEGER NOT NULL, PRIMARY KEY (birth, place)) STRICT",
    "CREATE TABLE retained (place INTEGER PRIMARY KEY, topic TEXT NOT NULL UNIQUE, sender TEXT NOT NULL, pub INTEGER NOT NULL, qos INTEGER NOT NULL, props BLOB NOT NULL, payload BLOB NOT NULL, arrived INTEGER NOT NULL) STRICT",
    0,
};

static const char *const second[] = {
    "CREATE TABLE message (pub INTEGER PRIMARY KEY, topic TEXT NOT NULL, props BLOB NOT NULL, payload BLOB NOT NULL) STRICT",
    "CREATE TABLE queued (birth INTEGER NOT NULL REFERENCES session (birth) ON DELETE CASCADE, place INTEGER NOT NULL, pub INTEGER NOT NULL REFERENCES message (pub), cause INTEGER NOT NULL, cause_text TEXT NOT NULL, cause_n INTEGER NOT NULL, pid INTEGER, phase INTEGER NOT NULL, rel INTEGER, qos INTEGER NOT NULL, retain INTEGER NOT NULL, idents BLOB NOT NULL, arrived INTEGER NOT NULL, PRIMARY KEY (birth, place)) STRICT",
    "CREATE TABLE kept (place INTEGER PRIMARY KEY, topic TEXT NOT NULL UNIQUE, sender TEXT NOT NULL, pub INTEGER NOT NULL REFERENCES message (pub), qos INTEGER NOT NULL, arrived INTEGER NOT NULL) STRICT",
    "CREATE INDEX queued_pub ON queued (pub)",
    "CREATE INDEX kept_pub ON kept (pub)",
    0,
};

static const char *const both_reads[] = {
    "SELECT name, n FROM meta ORDER BY name",
    "SELECT birth, client, expiry, closed FROM session ORDER BY birth",
    "SELECT birth, delay, topic, qos, retain, props, payload FROM will ORDER BY birth",
    "SELECT birth, filter, place, qos, nolocal, rap, handling, ident FROM sub ORDER BY birth, place",
    "SELECT birth, ident FROM inbound ORDER BY birth, ident",
    0,
};

static const char *const first_reads[] = {
    "SELECT birth, place, pub, cause, cause_text, cause_n, pid, phase, rel, topic, qos, retain, props, payload, arrived FROM copy ORDER BY birth, place",
    "SELECT place, topic, sender, pub, qos, props, payload, arrived FROM retained ORDER BY place",
    0,
};

static const char *const second_reads[] = {
    "SELECT pub, topic, props, payload FROM message ORDER BY pub",
    "SELECT birth, place, pub, cause, cause_text, cause_n, pid, phase, rel, qos, retain, idents, arrived FROM queued ORDER BY birth, place",
    "SELECT place, topic, sender, pub, qos, arrived FROM kept ORDER BY place",
    0,
};

static void run_all(const char *const *texts) {
    for (; *texts; texts++) run(*texts);
}

/* The statements, made once. Those on messages are of schema 2 alone. */
static sqlite3_stmt *put_session, *number, *put_open, *remove_open, *put_copy, *set_copy, *remove_copy;
static sqlite3_stmt *pub_of_copy, *put_message, *sweep_message;

static void make_statements(void) {
    put_session = made("INSERT OR IGNORE INTO session VALUES (?1, 'c' || ?1, 4294967295, NULL)");
    number = made("UPDATE meta SET n = ?2 WHERE name = ?1");
    put_open = made("INSERT OR REPLACE INTO inbound VALUES (?1, ?2)");
    remove_open = made("DELETE FROM inbound WHERE birth = ?1 AND ident = ?2");
    if (schema == 1) {
        put_copy = made("INSERT OR REPLACE INTO copy VALUES (?1, ?2, ?3, ?4, ?5, ?6, ?7, ?8, ?9, ?10, ?11, ?12, ?13, ?14, ?15)");
        set_copy = made("UPDATE copy SET pid = ?3, phase = ?4, rel = ?5 WHERE birth = ?1 AND place = ?2");
        remove_copy = made("DELETE FROM copy WHERE birth = ?1 AND place = ?2");
        return;
    }
    put_copy = made("INSERT OR REPLACE INTO queued VALUES (?1, ?2, ?3, ?4, ?5, ?6, ?7, ?8, ?9, ?10, ?11, ?12, ?13)");
    set_copy = made("UPDATE queued SET pid = ?3, phase = ?4, rel = ?5 WHERE birth = ?1 AND place = ?2");
    remove_copy = made("DELETE FROM queued WHERE birth = ?1 AND place = ?2");
    pub_of_copy = made("SELECT pub FROM queued WHERE birth = ?1 AND place = ?2");
    put_message = made("INSERT INTO message SELECT ?1, ?2, ?3, ?4 WHERE NOT EXISTS (SELECT 1 FROM message WHERE pub = ?1)");
    sweep_message = made("DELETE FROM message WHERE pub = ?1 AND NOT EXISTS (SELECT 1 FROM queued WHERE queued.pub = message.pub) AND NOT EXISTS (SELECT 1 FROM kept WHERE kept.pub = message.pub)");
}

/* What all messages say: topic a/b, no properties, and so many bytes. */
static const char *payload = "12345";
static int payload_bytes = 5;

/* Binds the topic, the properties and the payload, from three places of a statement on. */
static void bind_content(sqlite3_stmt *it, int topic, int properties, int bytes) {
    sqlite3_bind_text(it, topic, "a/b", 3, SQLITE_STATIC);
    sqlite3_bind_blob(it, properties, "", 1, SQLITE_STATIC);
    sqlite3_bind_blob(it, bytes, payload, payload_bytes, SQLITE_STATIC);
}

/* The number of the message to which the copy at a place refers, or 0. */
static sqlite3_int64 found(sqlite3_int64 birth, sqlite3_int64 place) {
    sqlite3_bind_int64(pub_of_copy, 1, birth);
    sqlite3_bind_int64(pub_of_copy, 2, place);
    const sqlite3_int64 it = sqlite3_step(pub_of_copy) == SQLITE_ROW ? sqlite3_column_int64(pub_of_copy, 0) : 0;
    sqlite3_reset(pub_of_copy);
    return it;
}

static void sweep(sqlite3_int64 publication) {
    if (publication) make_with(sweep_message, 1, &publication);
}

/* A copy's row, which waits. */
static void put_row(sqlite3_int64 birth, sqlite3_int64 place, sqlite3_int64 publication) {
    const sqlite3_int64 numbers[] = {birth, place, publication, 0};
    for (int at = 0; at < 4; at++) sqlite3_bind_int64(put_copy, at + 1, numbers[at]);
    sqlite3_bind_text(put_copy, 5, "", 0, SQLITE_STATIC);
    sqlite3_bind_int64(put_copy, 6, 0);
    sqlite3_bind_null(put_copy, 7);
    sqlite3_bind_int64(put_copy, 8, 0);
    sqlite3_bind_null(put_copy, 9);
    const int at = schema == 1 ? 11 : 10;
    sqlite3_bind_int64(put_copy, at, 2);
    sqlite3_bind_int64(put_copy, at + 1, 0);
    if (schema == 1) bind_content(put_copy, 10, 13, 14);
    else sqlite3_bind_blob(put_copy, 12, "", 0, SQLITE_STATIC);
    sqlite3_bind_int64(put_copy, schema == 1 ? 15 : 13, 0);
    make(put_copy);
}

/* Puts a copy of the publication; in schema 2 behind its message, and the message of the copy that stood there goes if nothing
   refers to it any more. */
static void enter(sqlite3_int64 birth, sqlite3_int64 place, sqlite3_int64 publication) {
    if (schema == 1) {
        put_row(birth, place, publication);
        return;
    }
    const sqlite3_int64 stood = found(birth, place);
    sqlite3_bind_int64(put_message, 1, publication);
    bind_content(put_message, 2, 3, 4);
    make(put_message);
    put_row(birth, place, publication);
    sweep(stood);
}

/* Removes a copy; in schema 2 its message too if nothing refers to it any more. */
static void leave(sqlite3_int64 birth, sqlite3_int64 place) {
    const sqlite3_int64 key[] = {birth, place}, stood = schema == 1 ? 0 : found(birth, place);
    make_with(remove_copy, 2, key);
    sweep(stood);
}

static void set_number(const char *name, sqlite3_int64 n) {
    sqlite3_bind_text(number, 1, name, -1, SQLITE_STATIC);
    sqlite3_bind_int64(number, 2, n);
    make(number);
}

static void fill(long sessions, long copies) {
    run("BEGIN");
    for (sqlite3_int64 birth = 1; birth <= sessions; birth++) {
        make_with(put_session, 1, &birth);
        for (sqlite3_int64 place = 1; place <= copies; place++) enter(birth, place, place);
    }
    set_number("births", sessions);
    set_number("publications", copies);
    run("COMMIT");
}

static double seconds(clockid_t clock) {
    struct timespec it;
    clock_gettime(clock, &it);
    return it.tv_sec + it.tv_nsec / 1e9;
}

/* How many bytes this process gave to calls that write. */
static double written(void) {
    char line[64];
    double bytes = 0;
    FILE *it = fopen("/proc/self/io", "r");
    while (it && fgets(line, sizeof line, it)) sscanf(line, "wchar: %lf", &bytes);
    if (it) fclose(it);
    return bytes;
}

static double longest;

/* The steps of a message at QoS 2 to sessions 1, 2, .. from the session behind them, each a transaction: it is accepted, sent
   to each, released by its publisher and by each, ended by each. */
static void message(sqlite3_int64 turn, long receivers) {
    const sqlite3_int64 open[] = {receivers + 1, 10};
    run("BEGIN");
    set_number("publications", turn);
    set_number("moment", turn);
    make_with(put_open, 2, open);
    for (sqlite3_int64 birth = 1; birth <= receivers; birth++) enter(birth, turn, turn);
    for (sqlite3_int64 birth = 1; birth <= receivers; birth++) {
        const sqlite3_int64 sent[] = {birth, turn, 1, 1};
        run("COMMIT; BEGIN");
        sqlite3_bind_null(set_copy, 5);
        make_with(set_copy, 4, sent);
    }
    run("COMMIT; BEGIN");
    make_with(remove_open, 2, open);
    for (sqlite3_int64 birth = 1; birth <= receivers; birth++) {
        const sqlite3_int64 released[] = {birth, turn, 1, 2, 1};
        run("COMMIT; BEGIN");
        make_with(set_copy, 5, released);
    }
    for (sqlite3_int64 birth = 1; birth <= receivers; birth++) {
        run("COMMIT; BEGIN");
        leave(birth, turn);
    }
    run("COMMIT");
}

static void steps(long messages, long receivers) {
    for (sqlite3_int64 birth = 1; birth <= receivers + 1; birth++) make_with(put_session, 1, &birth);
    for (sqlite3_int64 turn = 1; turn <= messages; turn++) {
        const double begun = seconds(CLOCK_MONOTONIC);
        message(turn, receivers);
        const double took = seconds(CLOCK_MONOTONIC) - begun;
        if (took > longest) longest = took;
    }
}

/* Sets a number in a transaction of its own, so many times. */
static void commits(long count) {
    for (sqlite3_int64 turn = 1; turn <= count; turn++) {
        const double begun = seconds(CLOCK_MONOTONIC);
        run("BEGIN");
        set_number("moment", turn);
        run("COMMIT");
        const double took = seconds(CLOCK_MONOTONIC) - begun;
        if (took > longest) longest = took;
    }
}

/* Makes a step of a statement for each row of a table, in their order. */
static void make_each(const char *text, const char *table) {
    char count[64];
    snprintf(count, sizeof count, "SELECT count(*) FROM %s", table);
    sqlite3_stmt *it = made(text), *asked = made(count);
    if (sqlite3_step(asked) != SQLITE_ROW) stop(count);
    const sqlite3_int64 rows = sqlite3_column_int64(asked, 0);
    sqlite3_finalize(asked);
    for (sqlite3_int64 row = 1; row <= rows; row++) make_with(it, 1, &row);
    sqlite3_finalize(it);
}

/* Takes a database of schema 1 over by schema 2 in one transaction, as the store does. No copy may have properties: its
   Subscription Identifiers would have to be parted from the others. */
static void take(void) {
    if (schema != 1) stop("not of schema 1");
    run("CREATE TEMP TABLE old AS SELECT * FROM copy ORDER BY birth, place");
    run("CREATE TEMP TABLE old_kept AS SELECT * FROM retained ORDER BY place");
    run("BEGIN");
    run_all(second);
    run("DELETE FROM copy; DELETE FROM retained");
    set_number("schema", 2);
    make_each("INSERT INTO message SELECT pub, topic, props, payload FROM old WHERE rowid = ?1 AND NOT EXISTS (SELECT 1 FROM message WHERE message.pub = old.pub)", "old");
    make_each("INSERT OR REPLACE INTO queued SELECT birth, place, pub, cause, cause_text, cause_n, pid, phase, rel, qos, retain, CASE props WHEN x'00' THEN x'' END, arrived FROM old WHERE rowid = ?1", "old");
    make_each("INSERT INTO message SELECT pub, topic, props, payload FROM old_kept WHERE rowid = ?1 AND NOT EXISTS (SELECT 1 FROM message WHERE message.pub = old_kept.pub)", "old_kept");
    make_each("INSERT OR REPLACE INTO kept SELECT place, topic, sender, pub, qos, arrived FROM old_kept WHERE rowid = ?1", "old_kept");
    run("COMMIT");
}

/* Reads all rows of tables and every column of them; returns how many rows. */
static long rows_of(const char *const *texts) {
    long rows = 0, bytes = 0;
    for (; *texts; texts++) {
        sqlite3_stmt *it = made(*texts);
        while (sqlite3_step(it) == SQLITE_ROW) {
            rows++;
            for (int column = 0; column < sqlite3_column_count(it); column++) bytes += sqlite3_column_bytes(it, column);
        }
        sqlite3_finalize(it);
    }
    if (rows && !bytes) stop("no bytes");
    return rows;
}

/* Opens a database, and makes the tables in one that has none. */
static void open_at(const char *place) {
    if (sqlite3_open(place, &db) != SQLITE_OK) stop(place);
    run("PRAGMA journal_mode = WAL; PRAGMA synchronous = FULL; PRAGMA foreign_keys = ON");
    sqlite3_stmt *empty = made("SELECT count(*) = 0 FROM sqlite_schema");
    sqlite3_step(empty);
    const int is_new = sqlite3_column_int(empty, 0);
    sqlite3_finalize(empty);
    if (is_new) {
        run_all(both);
        run_all(schema == 1 ? first : second);
        sqlite3_stmt *numbers = made("INSERT INTO meta VALUES ('schema', ?1), ('births', 0), ('publications', 0), ('subscribes', 0), ('autos', 0), ('moment', 0)");
        const sqlite3_int64 its = schema;
        make_with(numbers, 1, &its);
        sqlite3_finalize(numbers);
    }
    sqlite3_stmt *asked = made("SELECT n FROM meta WHERE name = 'schema'");
    if (sqlite3_step(asked) != SQLITE_ROW) stop("no schema");
    schema = sqlite3_column_int(asked, 0);
    sqlite3_finalize(asked);
}

static void close_all(void) {
    for (sqlite3_stmt *it; (it = sqlite3_next_stmt(db, 0));) sqlite3_finalize(it);
    if (sqlite3_close(db) != SQLITE_OK) stop("close");
}

/* Makes payloads of so many bytes. */
static void set_payload(int bytes) {
    char *it = malloc(bytes ? bytes : 1);
    if (!it) stop("memory");
    memset(it, 'x', bytes);
    payload = it;
    payload_bytes = bytes;
}

int main(int count, char **words) {
    if (count > 2 && !strcmp(words[1], "--schema")) {
        schema = atoi(words[2]);
        words += 2;
        count -= 2;
    }
    if (count < 3 || schema < 1 || schema > 2) return 2;
    const char *deed = words[1];
    open_at(words[2]);
    make_statements();
    if (!strcmp(deed, "steps") && count > 4) set_payload(atoi(words[4]));
    if (!strcmp(deed, "fill") && count > 5) set_payload(atoi(words[5]));
    const double wrote = written();
    double clock = seconds(CLOCK_MONOTONIC), processor = seconds(CLOCK_PROCESS_CPUTIME_ID);
    if (!strcmp(deed, "fill") && count > 4) fill(atol(words[3]), atol(words[4]));
    else if (!strcmp(deed, "steps") && count > 3) steps(atol(words[3]), count > 5 ? atol(words[5]) : 1);
    else if (!strcmp(deed, "commits") && count > 3) commits(atol(words[3]));
    else if (!strcmp(deed, "load")) printf("rows=%ld ", rows_of(both_reads) + rows_of(schema == 1 ? first_reads : second_reads));
    else if (!strcmp(deed, "schema")) printf("%d ", schema);
    else if (!strcmp(deed, "take")) take();
    else return 2;
    clock = seconds(CLOCK_MONOTONIC) - clock;
    processor = seconds(CLOCK_PROCESS_CPUTIME_ID) - processor;
    printf("%s %.6f %.6f longest=%.0fus written=%.0fkB\n", deed, clock, processor, longest * 1e6, (written() - wrote) / 1e3);
    close_all();
    return 0;
}
