/* E1 to E12 of document 01 through include/llfree.h, and the statistics. Prints `ok NAME` or `FAILED NAME` for each. */
#include "llfree.h"
#include <stdio.h>
#include <string.h>

static struct llfree_header header;
static uint32_t table[64];
static uint32_t trees[8];
static uint64_t locals[4];
static uint64_t bits[256];
static size_t n, k, w;
/* Up to nine tally rows are lent from the second on; the first and the last are never lent. */
static struct llfree_tally rows[11], before[11];
static int bad;

static void check(const char *name, bool right) {
    printf("%s c %s\n", right ? "ok" : "FAILED", name);
    if (!right) bad = 1;
}

/* Table T, with so many frames, locals each and default, and dirty buffers. */
static void begin(uint64_t frames, unsigned each, uint64_t def) {
    memset(&header, 0, sizeof header);
    header.frames = frames;
    header.default_class = def;
    header.places[0] = header.places[1] = LLFREE_PLACE(each);
    memset(table, 0, sizeof table);
    table[LLFREE_PAIR(0, 0)] = table[LLFREE_PAIR(1, 1)] = LLFREE_MATCH_PAIR(0, 0, 255);
    table[LLFREE_PAIR(0, 1)] = LLFREE_DEMOTE;
    table[LLFREE_PAIR(1, 0)] = LLFREE_STEAL;
    n = LLFREE_TREES(frames), k = llfree_locals(header), w = LLFREE_BITMAP_WORDS(frames);
    memset(trees, 0xa5, sizeof trees);
    memset(locals, 0xa5, sizeof locals);
    memset(bits, 0xa5, sizeof bits);
}

static uint64_t start(void) { return llfree_start(header, table, trees, n, locals, k, bits, w, true); }

/* A negative frame or local is none. */
static struct llfree_reply get(int64_t frame, uint64_t order, uint64_t class_, int64_t local) {
    return llfree_get(header, table, trees, n, locals, k, bits, w, frame >= 0, (uint64_t)frame, order, class_, local >= 0,
                      (uint64_t)local);
}

static bool is(struct llfree_reply r, uint64_t number, uint64_t frame, uint64_t class_, uint64_t looks, uint64_t tries) {
    return r.number == number && r.frame == frame && r.class_ == class_ && r.looks == looks && r.tries == tries;
}

/* Statistics with so many rows; every field of every row holds a number of its own before, which no statistics give. */
static struct llfree_report statistics(size_t lent) {
    for (uint64_t i = 0; i < 11; i++) {
        uint64_t own = 0xa5a5a5a500000000 + 3 * i;
        before[i] = (struct llfree_tally){.free = own, .alloc = own + 1, .used = own + 2};
    }
    memcpy(rows, before, sizeof rows);
    return llfree_statistics(header, table, trees, n, locals, k, bits, w, rows + 1, lent);
}

/* Refused with this number: both sums are 0, and every row is as it was. */
static bool refused(size_t lent, uint64_t number) {
    struct llfree_report t = statistics(lent);
    return t.number == number && t.free == 0 && t.trees == 0 && memcmp(rows, before, sizeof rows) == 0;
}

/* Done with these sums: every lent row is written, those of classes 0 and 1 with these figures, and no row beside them. */
static bool tallied(uint64_t free, uint64_t whole, struct llfree_tally zero, struct llfree_tally one) {
    struct llfree_report t = statistics(8);
    struct llfree_tally want[8] = {zero, one};
    bool beside = memcmp(rows, before, sizeof *rows) == 0 && memcmp(rows + 9, before + 9, 2 * sizeof *rows) == 0;
    return t.number == LLFREE_DONE && t.free == free && t.trees == whole && memcmp(rows + 1, want, sizeof want) == 0 && beside;
}

/* The state of E7: after E1, local free 0, entry 7's free `free`, of tree 7 only the last `free` frames clear. */
static bool seventh(uint32_t free) {
    begin(16384, 2, 1);
    bool right = start() == LLFREE_DONE && get(-1, 0, 0, 0).number == LLFREE_DONE;
    locals[0] = 0x80000000000000E0;
    trees[7] = 0x10000000 + free;
    for (size_t i = 224; i < 256; i++) bits[i] = ~0ull;
    bits[255] = ~0ull >> free;
    return right;
}

int main(void) {
    begin(16384, 2, 1);
    bool right = start() == LLFREE_DONE;
    check("E1", right && is(get(-1, 0, 0, 0), LLFREE_DONE, 14336, 0, 3, 1) && trees[7] == 0x10000000 && locals[0] == 0x807FF000000000E0);
    check("E2", is(get(-1, 0, 0, 0), LLFREE_DONE, 14337, 0, 0, 1));
    begin(16384, 2, 1);
    right = start() == LLFREE_DONE;
    check("E3", right && is(get(-1, 9, 1, 1), LLFREE_DONE, 0, 1, 1, 1));
    begin(16384, 2, 1);
    right = start() == LLFREE_DONE;
    check("E4", right && is(get(-1, 9, 0, -1), LLFREE_DONE, 0, 0, 8, 1) && trees[0] == 0x600);
    check("E5", is(get(-1, 0, 1, -1), LLFREE_DONE, 14336, 1, 2, 1));
    begin(16384, 2, 1);
    right = start() == LLFREE_DONE && get(-1, 0, 0, 0).frame == 14336;
    check("E6", right && is(get(0, 0, 0, 0), LLFREE_DONE, 0, 0, 0, 1) && locals[0] == 0x807FF000000000E0);
    right = seventh(1);
    struct llfree_reply r = get(-1, 0, 0, 0);
    check("E7", right && r.number == LLFREE_DONE && r.frame == 2048);
    right = seventh(2);
    r = get(-1, 0, 0, 0);
    check("E7 with two", right && r.number == LLFREE_DONE && r.frame == 16382 && locals[0] == 0x80001000000000FF);
    begin(2048, 1, 1);
    right = start() == LLFREE_DONE;
    for (int64_t f = 0; f < 2048; f += 512) right = is(get(f, 0, 1, -1), LLFREE_DONE, (uint64_t)f, 1, 0, 1) && right;
    right = right && trees[0] == 0x200007FC;
    r = get(-1, 9, 0, -1);
    check("E8", right && r.number == LLFREE_MEMORY && r.frame == 0 && r.class_ == 0 && trees[0] == 0x7FC);
    begin(2048, 1, 1);
    right = start() == LLFREE_DONE && is(get(-1, 12, 0, -1), LLFREE_ORDER, 0, 0, 0, 0);
    check("E9", right && get(-1, 11, 0, -1).number == LLFREE_DONE);
    begin(2049, 1, 1);
    right = start() == LLFREE_DONE && is(get(2049, 1, 0, -1), LLFREE_BOUNDS, 0, 0, 0, 0);
    check("E10", right && is(get(1, 1, 0, -1), LLFREE_MISALIGNED, 0, 0, 0, 0));
    r = llfree_get(header, table, trees, n, locals, k, bits, w, true, UINT64_MAX, 0, 0, false, 0);
    check("E11", is(r, LLFREE_BOUNDS, 0, 0, 0, 0));
    begin(16384, 2, 0);
    check("E12", start() == LLFREE_CONFIG && trees[0] == 0xa5a5a5a5 && locals[3] == 0xa5a5a5a5a5a5a5a5 && bits[255] == 0xa5a5a5a5a5a5a5a5);
    begin(16384, 2, 1);
    right = start() == LLFREE_DONE && get(-1, 0, 0, 0).frame == 14336;
    right = right && llfree_put(header, table, trees, n, locals, k, bits, w, 14337, 0, 0, false, 0) == LLFREE_NOT_HELD;
    right = right && llfree_put(header, table, trees, n, locals, k, bits, w, 14336, 0, 0, true, 2) == LLFREE_LOCAL;
    right = right && llfree_put(header, table, trees, n, locals, k, bits, w, 14336, 0, 0, true, 0) == LLFREE_DONE;
    check("put", right && locals[0] == 0x80800000000000E0 && bits[224] == 0);
    right = get(-1, 0, 0, 0).number == LLFREE_DONE;
    right = right && tallied(16383, 7, (struct llfree_tally){2047, 2048, 1}, (struct llfree_tally){14336, 0, 0});
    check("statistics", right);
    right = llfree_put(header, table, trees, n, locals, k, bits, w, 14336, 0, 0, true, 0) == LLFREE_DONE;
    right = right && llfree_drain(header, table, trees, n, locals, k, bits, w) == LLFREE_DONE;
    check("drain", right && locals[0] == 0 && trees[7] == 0x20000800);
    check("a length", llfree_drain(header, table, trees, n - 1, locals, k, bits, w) == LLFREE_BROKEN);
    check("statistics of a drained store", tallied(16384, 8, (struct llfree_tally){0}, (struct llfree_tally){16384, 0, 0}));
    check("no rows", refused(0, LLFREE_ROWS));
    check("seven rows", refused(7, LLFREE_ROWS));
    check("nine rows", refused(9, LLFREE_ROWS));
    bits[0] ^= 1;
    check("statistics of a broken state", refused(8, LLFREE_BROKEN));
    check("Broken before Rows", refused(7, LLFREE_BROKEN) && refused(9, LLFREE_BROKEN));
    return bad;
}
