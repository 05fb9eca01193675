/*
 * LLFree's upper layer as a library: start, get, put, drain, statistics over buffers that the caller lends.
 *
 * The library keeps nothing between calls and allocates nothing. The caller owns a header, a policy table and
 * three buffers of words, and lends them at each call; to statistics it lends tally rows too. Every call answers with
 * a number on any header, table, lengths, words, rows and arguments: nothing has to be tested first. The whole state is
 * tested at each call but a start.
 *
 * The caller's part: each pointer is valid for its length, aligned for its type and not null (where the length is 0,
 * as that of the locals where no class has any, the address of any word or row of that type does), the buffers, the
 * rows and the table of one call do not overlap, and no other thread uses them during the call.
 *
 * Link with libllfree_c.a (x86-64), which `bash tools/archive` makes. It asks for memcpy, memset, memmove and memcmp at most.
 *
 * A whole use (tests/link builds and runs it; tests/link.c has every call): 8 trees, one class with two locals.
 *
 *     #include "llfree.h"
 *
 *     int main(void) {
 *         struct llfree_header h = {.frames = 16384, .default_class = 0, .places = {LLFREE_PLACE(2)}};
 *         uint32_t table[64] = {[LLFREE_PAIR(0, 0)] = LLFREE_MATCH_PAIR(0, 0, 255)};
 *         static uint32_t trees[8];
 *         static uint64_t locals[2], bits[8 * 32];
 *         size_t n = LLFREE_TREES(h.frames), k = llfree_locals(h), w = LLFREE_BITMAP_WORDS(h.frames);
 *         if (llfree_start(h, table, trees, n, locals, k, bits, w, true) != LLFREE_DONE) return 1;
 *         // 2^3 frames for class 0 with its local 0, wherever they are
 *         struct llfree_reply got = llfree_get(h, table, trees, n, locals, k, bits, w, false, 0, 3, 0, true, 0);
 *         if (got.number != LLFREE_DONE) return 1;
 *         if (llfree_put(h, table, trees, n, locals, k, bits, w, got.frame, 3, 0, true, 0) != LLFREE_DONE) return 1;
 *         if (llfree_drain(h, table, trees, n, locals, k, bits, w) != LLFREE_DONE) return 1;
 *         struct llfree_tally rows[LLFREE_CLASSES];
 *         struct llfree_report all = llfree_statistics(h, table, trees, n, locals, k, bits, w, rows, LLFREE_CLASSES);
 *         return all.number != LLFREE_DONE || all.free != 16384 || rows[0].used != 0;
 *     }
 */
#ifndef LLFREE_H
#define LLFREE_H

#include <stdbool.h>
#include <stddef.h>
#include <stdint.h>

#ifdef __cplusplus
extern "C" {
#endif

/* A tree has 2,048 frames (order 11), a huge block 512 (order 9), a row 64. */
#define LLFREE_TREE_FRAMES 2048
#define LLFREE_TREE_ORDER 11
#define LLFREE_HUGE_ORDER 9
#define LLFREE_ROW_FRAMES 64
/* Frames F: 1 to 2,097,152. Classes 0 to 7, each unconfigured or with 0 to 32 locals. */
#define LLFREE_MAX_FRAMES 2097152
#define LLFREE_CLASSES 8
#define LLFREE_MAX_LOCALS 32

/*
 * The numbered outcomes. They are tried in this order; a start tries only Config, statistics only Broken and Rows.
 * Done and Memory leave the buffers as the rules say, Stuck as the step before left them, all others unchanged.
 * Tally rows are written by Done alone.
 */
enum llfree_number {
    LLFREE_DONE = 0,       /* accepted */
    LLFREE_BROKEN = 1,     /* the state fails a standing rule */
    LLFREE_ORDER = 2,      /* order above 11 */
    LLFREE_BOUNDS = 3,     /* frame + 2^order above F (no named frame: 0); the sum does not wrap */
    LLFREE_MISALIGNED = 4, /* frame not a multiple of 2^order */
    LLFREE_CLASS = 5,      /* class above 7 or unconfigured */
    LLFREE_LOCAL = 6,      /* a local given, not below its class's number */
    LLFREE_MEMORY = 7,     /* every route of a get came back empty */
    LLFREE_NOT_HELD = 8,   /* put of a block with a free frame */
    LLFREE_STUCK = 9,      /* a return of a reservation finds its entry unreserved or its pair not good */
    LLFREE_CONFIG = 10,    /* start: F, classes, default unconfigured, table, or a length is wrong */
    LLFREE_ROWS = 11       /* statistics: the lent tally rows are not eight */
};

/*
 * The header, passed by value. A class's place is 0 where the class is unconfigured, else its number of locals plus
 * one: a class without locals has place 1, one with 32 locals place 33. A greater place is Config or Broken.
 */
struct llfree_header {
    uint64_t frames;        /* F */
    uint64_t default_class; /* has to be configured */
    uint8_t places[8];      /* by class */
};

/* The place of a class with so many locals (0 to 32); an unconfigured class has LLFREE_UNCONFIGURED. */
#define LLFREE_UNCONFIGURED 0
#define LLFREE_PLACE(locals) ((uint8_t)((locals) + 1))

/*
 * The policy table has 64 words. The pair (requested, target) is the word 8 * requested + target:
 * kind + 4 * cut + 65536 * low + 16777216 * high. A Match has a cut (0 to 2,048) and two ratings (0 to 255): high where
 * the free argument is at least the cut, else low. Other kinds hold zeros there; a pair with an unconfigured class is 0.
 * Call (o, e) good if its kind is Match or Demote. A table of that form is accepted exactly if, over configured classes
 * with default d: (c, c) is good; if (o, e) is good and (e, d) is not Invalid then (o, d) is good; if (o, e) is good and
 * (c, o) is Demote then (c, e) is good.
 */
enum llfree_kind { LLFREE_INVALID = 0, LLFREE_STEAL = 1, LLFREE_DEMOTE = 2, LLFREE_MATCH = 3 };
#define LLFREE_PAIR(requested, target) (8 * (requested) + (target))
#define LLFREE_MATCH_PAIR(cut, low, high) \
    ((uint32_t)LLFREE_MATCH + 4u * (uint32_t)(cut) + 65536u * (uint32_t)(low) + 16777216u * (uint32_t)(high))

/*
 * The lent words. Lengths are exact, in words: with n = F / 2,048 rounded up, n tree words, one local word per local
 * (by class, then index), 32 n bitmap words. A wrong length is Config at a start, Broken at every other call.
 *
 * Tree word: free in bits 0 to 27, reserved bit 28, class bits 29 to 31.
 * Local word: row in bits 0 to 43, free 44 to 62, present 63. Absent is the word 0.
 * Bitmap word w: bit i is frame 64 w + i, 1 means held. Bits at and past F are set.
 */
#define LLFREE_TREES(frames) (((size_t)(frames) + 2047) / 2048)
#define LLFREE_BITMAP_WORDS(frames) (32 * LLFREE_TREES(frames))
/* The number of local words of a header. */
static inline size_t llfree_locals(struct llfree_header header) {
    size_t sum = 0;
    for (int i = 0; i < LLFREE_CLASSES; i++) sum += header.places[i] > 0 ? header.places[i] - 1u : 0u;
    return sum;
}

/* What a get answers. A refused get names no frame and no class: both are 0. */
struct llfree_reply {
    uint64_t number; /* Done, Broken, Order, Bounds, Misaligned, Class, Local, Memory or Stuck */
    uint64_t frame;  /* the block's first frame */
    uint64_t class_; /* the class answered: the payer's by a steal from a local, the entry's after a steal from an entry, else the requested one */
    uint64_t looks;  /* entries read by walks */
    uint64_t tries;  /* lower calls; a get refused before the routes reports 0 and 0 */
};

/* A row of the statistics: the caller lends eight, the row of class c at the index c. */
struct llfree_tally {
    uint64_t free;  /* entry free of the class's trees and free of the class's locals */
    uint64_t alloc; /* 2,048 less the entry free, over the class's trees */
    uint64_t used;  /* frames in use: 2,048 for each tree of the class, less those entries' free, less the free of the reservations on them */
};

/* What statistics answer beside the rows. A refused call returns zeros for both sums. */
struct llfree_report {
    uint64_t number; /* Done, Broken or Rows */
    uint64_t free;   /* total free: entries and locals */
    uint64_t trees;  /* free trees: each entry's and each local's free / 2,048, rounded down, then summed */
};

/*
 * A start, all free or all held: Done or Config. Done writes every lent word, whatever it held: entries get the default
 * class, unreserved, and their tree's free frames; locals are absent; bits at and past F are set. Config writes nothing.
 */
uint64_t llfree_start(struct llfree_header header, const uint32_t table[64],
                      uint32_t *trees, size_t trees_len, uint64_t *locals, size_t locals_len,
                      uint64_t *bits, size_t bits_len, bool all_free);

/*
 * A get of 2^order frames for a class: of the block at `frame` if `named`, else of any (`frame` is then not looked at).
 * With `given` it has the class's local of the index `local`, else none (`local` is then not looked at).
 * Done: the block's bits are set, and the entries and locals are as the routes leave them.
 * Memory may change words as well: the class of entries, frames between locals and entries, a reservation's holder.
 */
struct llfree_reply llfree_get(struct llfree_header header, const uint32_t table[64],
                               uint32_t *trees, size_t trees_len, uint64_t *locals, size_t locals_len,
                               uint64_t *bits, size_t bits_len, bool named, uint64_t frame,
                               uint64_t order, uint64_t class_, bool given, uint64_t local);

/*
 * A put of the block of 2^order frames at `frame`: Done, Broken, Order, Bounds, Misaligned, Class, Local or NotHeld.
 * Done: the block's bits are clear, and its frames go to the given local if that holds their tree, else to the entry.
 */
uint64_t llfree_put(struct llfree_header header, const uint32_t table[64],
                    uint32_t *trees, size_t trees_len, uint64_t *locals, size_t locals_len,
                    uint64_t *bits, size_t bits_len, uint64_t frame,
                    uint64_t order, uint64_t class_, bool given, uint64_t local);

/*
 * A drain: each reservation is returned, by class, then index. Done, Broken or Stuck.
 * Done: every local word is 0, no entry is reserved, each entry's free is the number of clear bits of its tree.
 */
uint64_t llfree_drain(struct llfree_header header, const uint32_t table[64],
                      uint32_t *trees, size_t trees_len, uint64_t *locals, size_t locals_len,
                      uint64_t *bits, size_t bits_len);

/*
 * Statistics: Done; Broken; Rows where `rows_len` is not 8. The words are only read.
 * Done writes every field of the eight rows, whatever they held, zeros for an unconfigured class. Broken and Rows write none.
 */
struct llfree_report llfree_statistics(struct llfree_header header, const uint32_t table[64],
                                       const uint32_t *trees, size_t trees_len, const uint64_t *locals,
                                       size_t locals_len, const uint64_t *bits, size_t bits_len,
                                       struct llfree_tally *rows, size_t rows_len);

#ifdef __cplusplus
}
#endif

#endif
