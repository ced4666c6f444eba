/* A host over include/keeper.h that keeps a table in a file: the whole of what a terminal or a counter screen needs.
 *
 *   host FILE format CELLS ROWS              makes FILE, which may not be there yet, and formats it
 *   host FILE book CELL PART MAJOR.MINOR ..  one transaction of these writes, on the card before the command ends
 *   host FILE list                           the table
 *
 * Each command but format begins with recovery, and can be killed at any moment.
 *
 * What a host owes the keeper is in `bring`: a call changes one place of the image `medium` at most, commit the rows of its entries one after
 * the other, and each place goes to the file before the next one does. There are two ways to bring it (docs/PLUG.md says which promise of the
 * card each needs):
 *   store    a write and a sync for each store. Needs a card that stores a head, a row or a cell entirely or not at all.
 *   sector   stores that follow one another in one 512-byte sector wait for each other, and are brought by one write and one sync. Needs a
 *            card that writes a sector entirely or not at all. A transaction of a few rows then costs one sync.
 * `host --by-store ..` or `host --by-sector ..` chooses; by store is the way if nothing is said.
 *
 * scripts/host builds and runs it. By hand: cc -O2 -Iinclude examples/host.c -LFOLDER -lboundary, where FOLDER holds the archive that
 * `scripts/native-archive boundary FOLDER` wrote.
 */
#include "keeper.h"

#include <errno.h>
#include <fcntl.h>
#include <stdio.h>
#include <stdlib.h>
#include <string.h>
#include <unistd.h>

enum { MOST_CELLS = 1024, MOST_ROWS = 1024, MOST = 32 + 32 * MOST_ROWS + 8 * MOST_CELLS, SECTOR = 512 };
enum { N, C, H, F, L, O, PHASE }; /* the numbers of the state */

struct host {
    int fd;
    int by_sector;
    size_t size;                /* the medium's length */
    size_t from, to;            /* by sector: brought to `card`, not yet in the file */
    unsigned long syncs;
    uint32_t reason, entry;     /* the bad row that the last refusal names, zeros where it names none */
    uint32_t state[KEEPER_STATE];
    uint8_t medium[MOST + 1];   /* the image, and room to see that a file is too long */
    uint8_t card[MOST];         /* the file, and what is on its way there: commit's rows are in the image before their turn */
    uint64_t current[MOST_CELLS];
    uint32_t first[MOST_CELLS];
    uint32_t last[MOST_CELLS];
    uint8_t waiting[32 * MOST_ROWS];
};

/* The buffers, as calls take them. */
#define STATE(h) (h)->state, KEEPER_STATE
#define MEDIUM(h) (h)->medium, (h)->size
#define CURRENT(h) (h)->current, (h)->state[N]
#define FIRST(h) (h)->first, (h)->state[N]
#define LAST(h) (h)->last, (h)->state[N]
#define WAITING(h) (h)->waiting, 32 * (size_t)(h)->state[C]
#define BAD_ROW(h) &(h)->reason, &(h)->entry

static const char *const REFUSED[] = {
    "done", "not a medium, or no recovery has run on it", "a journal row is no entry", "no transaction is open", "no such cell",
    "the transaction does not fit into the journal", "the entry numbers are used up", "a row is not the entry that it should be",
    "the cell's last entry is not stored", "the journal can't be cut there", "recovery is not at its end", "no such entry",
};

static void stop(const char *what) {
    fprintf(stderr, "host: %s\n", what);
    exit(1);
}

static const char *const REASON[] = {
    "none", "too short", "other number", "unknown kind", "filler not zero", "cell out of range", "cell left in an end entry",
    "old left in an end entry", "new left in an end entry", "not an update", "hole",
};

static void refused(const struct host *h, uint32_t number) {
    fprintf(stderr, "host: %s\n", REFUSED[number < 12 ? number : 0]);
    if (h->reason != 0) fprintf(stderr, "entry %u: %s\n", (unsigned)h->entry, REASON[h->reason < 11 ? h->reason : 0]);
    fprintf(stderr, "refused=%u\n", (unsigned)number);
    exit(1);
}

/* Bytes of `card`, in the file and synced. If the file does not take them, power is as good as lost: the next start recovers. */
static void put(struct host *h, size_t from, size_t to) {
    while (from < to) {
        ssize_t n = pwrite(h->fd, h->card + from, to - from, (off_t)from);
        if (n < 0 && errno == EINTR) continue;
        if (n <= 0) stop("the file did not take a store");
        from += (size_t)n;
    }
    if (fdatasync(h->fd) != 0) stop("the file was not synced");
    h->syncs++;
}

/* By sector: what is held goes to the card. */
static void settle(struct host *h) {
    if (h->from < h->to) put(h, h->from, h->to);
    h->from = h->to = 0;
}

/* One store. Stores reach the card in the order of the calls: one in another sector waits until those before it are there, so the head never
 * gets ahead of the cells that it lets go, nor an entry ahead of those before it. A write by sector may span places between its stores: these
 * it takes from `card`, as they are there, and not from the image, where a later entry's row may stand already. */
static void bring(struct host *h, size_t at, size_t size) {
    memcpy(h->card + at, h->medium + at, size);
    if (!h->by_sector) {
        put(h, at, at + size);
        return;
    }
    if (h->from < h->to && h->from / SECTOR != at / SECTOR) settle(h);
    if (h->from == h->to) h->from = h->to = at;
    if (at < h->from) h->from = at;
    if (h->to < at + size) h->to = at + size;
}

static size_t row_place(const struct host *h, uint64_t n) { return 32 + 32 * (size_t)((n - 1) % h->state[C]); }
static size_t cell_place(const struct host *h, uint64_t cell) { return 32 + 32 * (size_t)h->state[C] + 8 * (size_t)cell; }

/* Every entry that was made is stored: those of the open transaction, before its cells are written back. */
static void force_all(struct host *h) {
    uint64_t n;
    do {
        uint32_t no = keeper_force(STATE(h), MEDIUM(h), WAITING(h), &n, BAD_ROW(h));
        if (no != 0) refused(h, no);
        if (n != 0) bring(h, row_place(h, n), 32);
    } while (n != 0);
}

/* Room in the journal: each changed cell is written back, and the journal cut before the open transaction. */
static void make_room(struct host *h) {
    if (h->state[O] == h->state[H]) refused(h, 5); /* nothing to let go: the transaction alone fills the journal */
    force_all(h);
    for (uint32_t cell = 0; cell < h->state[N]; cell++) {
        uint64_t stored;
        if (h->first[cell] == 0) continue;
        uint32_t no = keeper_write_back(STATE(h), cell, MEDIUM(h), CURRENT(h), FIRST(h), LAST(h), &stored);
        if (no != 0) refused(h, no);
        if (stored) bring(h, cell_place(h, cell), 8);
    }
    uint32_t no = keeper_cut(STATE(h), h->state[O], MEDIUM(h), FIRST(h), BAD_ROW(h));
    if (no != 0) refused(h, no);
    bring(h, 0, 32);
}

/* A transaction: begin, the writes, commit. When `commit` returns, it is on the card. */
static void begin(struct host *h) {
    uint32_t no;
    while ((no = keeper_begin(STATE(h), CURRENT(h), FIRST(h), LAST(h), WAITING(h), BAD_ROW(h))) == 5) make_room(h);
    if (no != 0) refused(h, no);
}

static void write_cell(struct host *h, uint32_t cell, uint64_t value) {
    uint32_t no;
    while ((no = keeper_write(STATE(h), cell, value, CURRENT(h), FIRST(h), LAST(h), WAITING(h))) == 5) make_room(h);
    if (no != 0) refused(h, no);
}

/* Commit stores every entry that is not stored yet, its own last. Their rows are brought one by one in the order of their numbers: where power
 * fails before the last one, the transaction has no commit, and recovery leaves nothing of it. */
static void commit_and_bring(struct host *h) {
    uint64_t number, n = (uint64_t)h->state[F] + 1;
    uint32_t no = keeper_commit(STATE(h), MEDIUM(h), WAITING(h), &number, BAD_ROW(h));
    if (no != 0) refused(h, no);
    for (; n <= number; n++) bring(h, row_place(h, n), 32);
}

/* By sector: where the rows that are left of a sector are too few for a transaction like the last one, empty transactions fill them, in the
 * write that is due anyway. The next transaction then begins in the next sector, and one sync is enough for it. */
static void fill_sector(struct host *h, uint32_t rows) {
    for (;;) {
        size_t next = row_place(h, (uint64_t)h->state[L] + 1) % SECTOR;
        if (next == 0 || SECTOR - next >= 32 * (size_t)rows) return;
        if (keeper_begin(STATE(h), CURRENT(h), FIRST(h), LAST(h), WAITING(h), BAD_ROW(h)) != 0) return;
        commit_and_bring(h);
    }
}

static void commit(struct host *h) {
    uint32_t rows = h->state[L] - h->state[O] + 1;
    commit_and_bring(h);
    if (h->by_sector) fill_sector(h, rows);
    settle(h);
}

/* Recovery, to its end. */
static void recover(struct host *h) {
    uint32_t cells = 0, rows = 0;
    for (int i = 0; i < 4 && h->size >= 32; i++) {
        cells |= (uint32_t)h->medium[i] << 8 * i;
        rows |= (uint32_t)h->medium[4 + i] << 8 * i;
    }
    if (cells > MOST_CELLS || rows > MOST_ROWS) refused(h, 1);
    uint32_t no = keeper_recovery_start(MEDIUM(h), h->current, cells, h->first, cells, h->last, cells, h->waiting, 32 * (size_t)rows, STATE(h),
                                        BAD_ROW(h));
    if (no != 0) refused(h, no);
    while (h->state[PHASE] == KEEPER_RECOVERING) {
        uint64_t stored;
        no = keeper_recovery_step(STATE(h), MEDIUM(h), CURRENT(h), &stored);
        if (no != 0) refused(h, no);
        if (stored == KEEPER_STEP_HEAD) bring(h, 0, 32);
        else if (stored != KEEPER_STEP_CLEAN) bring(h, cell_place(h, stored), 8);
    }
    settle(h);
}

static void open_medium(struct host *h, const char *name) {
    h->fd = open(name, O_RDWR);
    if (h->fd < 0) stop("no such file, or it can't be read and written; format makes one");
    while (h->size < sizeof h->medium) {
        ssize_t n = pread(h->fd, h->medium + h->size, sizeof h->medium - h->size, (off_t)h->size);
        if (n < 0 && errno == EINTR) continue;
        if (n < 0) stop("the file can't be read");
        if (n == 0) break;
        h->size += (size_t)n;
    }
    memcpy(h->card, h->medium, h->size < MOST ? h->size : MOST);
    recover(h);
}

/* A file that is there already is never formatted. */
static void format_new(struct host *h, const char *name, uint32_t cells, uint32_t rows) {
    h->size = 32 + 32 * (size_t)rows + 8 * (size_t)cells;
    if (cells > MOST_CELLS || rows > MOST_ROWS || keeper_format(MEDIUM(h), cells, rows) != 0) stop("CELLS is 1 to 1024, ROWS is 4 to 1024\nrefused=1");
    h->fd = open(name, O_RDWR | O_CREAT | O_EXCL, 0666);
    if (h->fd < 0) stop("the file is there already, or can't be made");
    memcpy(h->card, h->medium, h->size);
    put(h, 0, h->size);
    if (fsync(h->fd) != 0) stop("the file was not synced");
}

#ifndef HOST_AS_PART
static const char USAGE[] = "usage: host [--by-store|--by-sector] FILE format CELLS ROWS | FILE list | FILE book CELL PART MAJOR.MINOR ..\n";

static void usage(void) {
    fputs(USAGE, stderr);
    exit(2);
}

static void list(const struct host *h) {
    for (uint32_t cell = 0; cell < h->state[N]; cell++) {
        uint64_t v = h->current[cell];
        if (v != 0) printf("cell=%u\npart=%u\nrelease=%u.%u\n", cell, (unsigned)(uint32_t)v, (unsigned)(v >> 32 & 0xffff), (unsigned)(v >> 48));
    }
}

/* A number below 2^32 and the byte after it. */
static uint32_t number(const char *word, const char **end) {
    char *after;
    if (*word < '0' || '9' < *word) usage();
    errno = 0;
    unsigned long long n = strtoull(word, &after, 10);
    if (errno != 0 || n > UINT32_MAX || (end == NULL && *after != 0)) usage();
    if (end != NULL) *end = after;
    return (uint32_t)n;
}

static uint64_t value(const char *part, const char *release) {
    const char *point;
    uint64_t major = number(release, &point);
    if (*point != '.') usage();
    uint64_t minor = number(point + 1, NULL);
    if (major > 65535 || minor > 65535) usage();
    return number(part, NULL) | major << 32 | minor << 48;
}

int main(int count, char **word) {
    static struct host host;
    if (count == 2 && strcmp(word[1], "--help") == 0) {
        fputs(USAGE, stdout);
        return 0;
    }
    if (count > 1 && strncmp(word[1], "--", 2) == 0) {
        host.by_sector = strcmp(word[1], "--by-sector") == 0;
        if (!host.by_sector && strcmp(word[1], "--by-store") != 0) usage();
        word++, count--;
    }
    if (count == 5 && strcmp(word[2], "format") == 0) {
        format_new(&host, word[1], number(word[3], NULL), number(word[4], NULL));
    } else if (count == 3 && strcmp(word[2], "list") == 0) {
        open_medium(&host, word[1]);
        list(&host);
    } else if (count >= 6 && count % 3 == 0 && strcmp(word[2], "book") == 0) {
        for (int i = 3; i < count; i += 3) (void)number(word[i], NULL), (void)value(word[i + 1], word[i + 2]);
        open_medium(&host, word[1]);
        begin(&host);
        for (int i = 3; i < count; i += 3) write_cell(&host, number(word[i], NULL), value(word[i + 1], word[i + 2]));
        commit(&host);
    } else {
        usage();
    }
    return 0;
}
#endif
