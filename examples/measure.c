/* Booked transactions a second on a synced file: the host of host.c, by store and by sector, beside two raw synced stores of a row, and beside
 * SQLite (WAL, synchronous FULL) where it was there to link. One transaction is one write of one cell, committed and on the card.
 *
 *   measure FOLDER [CELLS ROWS [TRANSACTIONS [ROUNDS]]]
 *
 * The ways take turns: a round is so many transactions of each, and a ratio is the median of the rounds' own ratios. scripts/host builds and
 * runs it; the files it makes in FOLDER are removed again. */
#define HOST_AS_PART
#include "host.c"

#include <sys/stat.h>
#include <time.h>
#ifdef HOST_SQLITE
#include <sqlite3.h>
#endif

enum { RAW, BY_STORE, BY_SECTOR, SQLITE, WAYS, MOST_ROUNDS = 99 };
static const char *const NAME[WAYS] = {"raw", "by_store", "by_sector", "sqlite"};

static uint32_t seed = 1;
static uint32_t draw(void) { return (seed = seed * 1664525u + 1013904223u) >> 8; }

static double now(void) {
    struct timespec t;
    clock_gettime(CLOCK_MONOTONIC, &t);
    return (double)t.tv_sec + 1e-9 * (double)t.tv_nsec;
}

static char *path(char *to, const char *folder, const char *name) {
    snprintf(to, 4096, "%s/measure.%s", folder, name);
    return to;
}

static void sweep(const char *folder) {
    static const char *const made[] = {"raw", "by_store", "by_sector", "sqlite", "sqlite-wal", "sqlite-shm"};
    char name[4096];
    for (size_t i = 0; i < sizeof made / sizeof *made; i++) unlink(path(name, folder, made[i]));
}

/* Two rows stored and synced, one after the other: what a transaction's two entries cost with no keeper at all. */
static struct host raw;
static void raw_transactions(uint32_t count) {
    static uint64_t n;
    for (uint32_t i = 0; i < count; i++)
        for (int j = 0; j < 2; j++) {
            size_t at = row_place(&raw, ++n);
            raw.medium[at] = (uint8_t)n;
            bring(&raw, at, 32);
        }
}

static struct host host[2];
static void transactions(struct host *h, uint32_t count) {
    for (uint32_t i = 0; i < count; i++) {
        begin(h);
        write_cell(h, draw() % h->state[N], 40000 + draw() % 1000 + ((uint64_t)1 << 32));
        commit(h);
    }
}

#ifdef HOST_SQLITE
static sqlite3 *db;
static sqlite3_stmt *update;
static void run(const char *text) {
    if (sqlite3_exec(db, text, NULL, NULL, NULL) != SQLITE_OK) stop(sqlite3_errmsg(db));
}

static void sqlite_open(const char *name, uint32_t cells) {
    if (sqlite3_open(name, &db) != SQLITE_OK) stop("SQLite: the file can't be made");
    run("PRAGMA journal_mode=WAL; PRAGMA synchronous=FULL; CREATE TABLE cells (cell INTEGER PRIMARY KEY, value INTEGER NOT NULL); BEGIN");
    for (uint32_t c = 0; c < cells; c++) {
        char text[64];
        snprintf(text, sizeof text, "INSERT INTO cells VALUES (%u, 0)", (unsigned)c);
        run(text);
    }
    run("COMMIT");
    if (sqlite3_prepare_v2(db, "UPDATE cells SET value = ?2 WHERE cell = ?1", -1, &update, NULL) != SQLITE_OK) stop(sqlite3_errmsg(db));
}

static void sqlite_transactions(uint32_t count, uint32_t cells) {
    for (uint32_t i = 0; i < count; i++) {
        sqlite3_bind_int64(update, 1, draw() % cells);
        sqlite3_bind_int64(update, 2, 40000 + draw() % 1000 + ((sqlite3_int64)1 << 32));
        if (sqlite3_step(update) != SQLITE_DONE) stop(sqlite3_errmsg(db));
        sqlite3_reset(update);
    }
}
#endif

static int rising(const void *a, const void *b) {
    double x = *(const double *)a, y = *(const double *)b;
    return (x > y) - (x < y);
}

static double median(const double *of, uint32_t count) {
    double sorted[MOST_ROUNDS];
    memcpy(sorted, of, count * sizeof *of);
    qsort(sorted, count, sizeof *sorted, rising);
    return count % 2 ? sorted[count / 2] : (sorted[count / 2 - 1] + sorted[count / 2]) / 2;
}

static double rate[WAYS][MOST_ROUNDS];
static void ratio(const char *name, int way, int beside, uint32_t rounds) {
    double each[MOST_ROUNDS];
    for (uint32_t r = 0; r < rounds; r++) each[r] = rate[way][r] / rate[beside][r];
    printf("%s=%.2f\n", name, median(each, rounds));
}

static uint32_t word_number(const char *word, uint32_t low, uint32_t high) {
    char *end;
    unsigned long n = strtoul(word, &end, 10);
    if (*word < '0' || '9' < *word || *end != 0 || n < low || high < n) stop("usage: measure FOLDER [CELLS ROWS [TRANSACTIONS [ROUNDS]]]");
    return (uint32_t)n;
}

int main(int count, char **word) {
    uint32_t ways = WAYS - 1;
    if (count < 2 || count == 3 || count > 6) stop("usage: measure FOLDER [CELLS ROWS [TRANSACTIONS [ROUNDS]]]");
    uint32_t cells = count > 2 ? word_number(word[2], 1, MOST_CELLS) : 64, rows = count > 3 ? word_number(word[3], 4, MOST_ROWS) : 1024;
    uint32_t each = count > 4 ? word_number(word[4], 1, 1000000) : 400, rounds = count > 5 ? word_number(word[5], 1, MOST_ROUNDS) : 9;
    char name[4096];
    const char *folder = word[1];
    sweep(folder);
    for (int i = 0; i < 2; i++) {
        static struct host made;
        memset(&made, 0, sizeof made);
        format_new(&made, path(name, folder, NAME[BY_STORE + i]), cells, rows);
        close(made.fd);
        open_medium(&host[i], name);
        host[i].by_sector = i;
    }
    format_new(&raw, path(name, folder, NAME[RAW]), cells, rows);
    raw.state[C] = rows;
#ifdef HOST_SQLITE
    sqlite_open(path(name, folder, NAME[SQLITE]), cells);
    ways = WAYS;
#endif
    host[0].syncs = host[1].syncs = 0;
    for (uint32_t r = 0; r < rounds; r++)
        for (uint32_t i = 0; i < ways; i++) {
            uint32_t way = (i + r) % ways;
            double from = now();
            if (way == RAW) raw_transactions(each);
            else if (way != SQLITE) transactions(&host[way - BY_STORE], each);
#ifdef HOST_SQLITE
            else sqlite_transactions(each, cells);
#endif
            rate[way][r] = each / (now() - from);
        }
    printf("cells=%u\nrows=%u\nrounds=%u\ntransactions=%u\n", (unsigned)cells, (unsigned)rows, (unsigned)rounds, (unsigned)each);
    for (uint32_t way = 0; way < ways; way++) printf("%s=%.0f\n", NAME[way], median(rate[way], rounds));
    for (int i = 0; i < 2; i++) printf("%s_syncs=%.2f\n", NAME[BY_STORE + i], (double)host[i].syncs / ((double)each * rounds));
    ratio("by_store_to_raw", BY_STORE, RAW, rounds);
    ratio("by_sector_to_raw", BY_SECTOR, RAW, rounds);
#ifdef HOST_SQLITE
    printf("sqlite_version=%s\n", sqlite3_libversion());
    ratio("by_store_to_sqlite", BY_STORE, SQLITE, rounds);
    ratio("by_sector_to_sqlite", BY_SECTOR, SQLITE, rounds);
    sqlite3_finalize(update);
    sqlite3_close(db);
#endif
    sweep(folder);
    return 0;
}
