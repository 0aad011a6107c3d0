/* Damaged tables, grids, forbids, domains and sheets through every function of include/murghidossu.h, with memory that tells on them.
 *
 *     fuzz/run [valgrind] [CASES [SEED [FIRST]]]
 *
 * Each case is a small world, made from the seed and the case's number, then damaged in up to three ways: bits flipped, slices cut, lengthened
 * or of no bytes, lengths of billions, numbers out of every range, lists that disagree, sheets with wrong lengths and kinds. It goes through
 * all twelve calls. What is held against each call:
 *   - every lent slice lies between two pages that cannot be touched, flush against the one behind it or the one before it; a call that reads or
 *     writes past that end dies. On the other side lie known bytes that must stay;
 *   - the refusal is one of those that the header lists for the call, and then the answer is that number alone and all lent memory as it was;
 *   - accepted, slices that are only lent to be read are as they were, work memory is zero, what stands past an output stays, and the answer
 *     fits what is written (ends, words used, domains, bytes that read back);
 *   - the call ends;
 *   - under valgrind also: nothing beside a slice is touched, on either side, and what output and work memory held before decides nothing.
 * At the end every refusal of every call must have occurred. */
#define _GNU_SOURCE
#include "murghidossu.h"
#include <signal.h>
#include <stdio.h>
#include <stdlib.h>
#include <string.h>
#include <sys/mman.h>
#include <sys/wait.h>
#include <time.h>
#include <unistd.h>
#ifdef MEMCHECK
#include <valgrind/memcheck.h>
#define LONGEST 600 /* seconds that a case may take */
#else
#define LONGEST 60
#define VALGRIND_MAKE_MEM_NOACCESS(at, bytes) ((void)(at))
#define VALGRIND_MAKE_MEM_UNDEFINED(at, bytes) ((void)(at))
#define VALGRIND_MAKE_MEM_DEFINED(at, bytes) ((void)(at))
#define VALGRIND_COUNT_ERRORS 0
#endif

/* ---- the calls, their refusals, and what came */

enum { CHECK_TABLE, LIST, LIST_REFUSAL, NEIGHBOUR, ENTROPY_OF, CHOICE_OF, PROPAGATE, RUN, RUN_RESULT, SIZES, READ, WRITE, CALLS };
static const char *const call_names[CALLS] = {"check_table", "list", "list_refusal", "neighbour", "entropy_of", "choice_of",
                                              "propagate",   "run",  "run_result",   "sizes",     "read",       "write"};
#define R(n) (1u << (n))
static const unsigned listed[CALLS] = {
    R(3) | R(5) | R(4) | R(6) | R(7),
    R(3) | R(5) | R(6) | R(7) | R(11) | R(9),
    R(3) | R(5) | R(6) | R(7) | R(11) | R(9),
    R(1) | R(2) | R(11) | R(8),
    R(3) | R(5) | R(4) | R(9),
    R(3) | R(5) | R(4) | R(9),
    R(3) | R(1) | R(2) | R(5) | R(6) | R(7) | R(9),
    R(3) | R(1) | R(2) | R(5) | R(4) | R(6) | R(7) | R(8) | R(9),
    R(3) | R(1) | R(2) | R(5) | R(4) | R(6) | R(7) | R(8) | R(9),
    R(10) | R(5),
    R(10) | R(3) | R(1) | R(2) | R(5) | R(4) | R(6) | R(7) | R(8) | R(9),
    R(3) | R(1) | R(2) | R(5) | R(4) | R(6) | R(7) | R(8) | R(9),
};
static unsigned long told[CALLS][12], ends[4], settled[2], found[CALLS][2], damaged_worlds, damaged_sheets;

static volatile unsigned long the_case;
static volatile int the_call = -1;
static unsigned long long the_seed;

static void fail(const char *what) {
    printf("fuzz: seed %llu, case %lu, %s: %s\n", the_seed, the_case, the_call < 0 ? "-" : call_names[the_call], what);
    fflush(stdout);
    _exit(1);
}
static void died(int signal) {
    static char text[200];
    int n = snprintf(text, sizeof text, "fuzz: seed %llu, case %lu, %s: %s\n", the_seed, the_case, the_call < 0 ? "-" : call_names[the_call],
                     signal == SIGALRM ? "does not end" : "touches what it was not lent");
    if (write(1, text, (size_t)n)) {}
    _exit(1);
}

/* ---- numbers from the seed */

static uint64_t state;
static uint64_t next(void) {
    uint64_t x = state += 0x9e3779b97f4a7c15u;
    x = (x ^ x >> 30) * 0xbf58476d1ce4e5b9u;
    x = (x ^ x >> 27) * 0x94d049bb133111ebu;
    return x ^ x >> 31;
}
static uint64_t below(uint64_t n) { return n ? next() % n : 0; }
static int one_in(uint64_t n) { return below(n) == 0; }
static uint64_t extreme(void) {
    static const uint64_t edges[] = {0, 1, 2, 3, 4, 5, 63, 64, 65, 66, 127, 128, 255, 256, 1023, 1024, 1025, 4096, 65535, 65536};
    switch (below(6)) {
    case 0: return (uint64_t)1 << below(64);
    case 1: return ((uint64_t)1 << below(64)) - 1;
    case 2: return next();
    case 3: return next() & 0xffffffff;
    default: return edges[below(sizeof edges / sizeof *edges)];
    }
}

/* ---- lent memory between two pages that cannot be touched */

#define PAGE 4096u
#define SLOTS 12
#define SIZES_OF_REGION 3
#define KNOWN 0x6d
static const size_t region_pages[SIZES_OF_REGION] = {1, 24, 80};
static uint8_t *regions[SLOTS][SIZES_OF_REGION];
#define HUGE ((size_t)1 << 35)
static uint8_t *huge; /* so many zero bytes that can be read and not written */
static uint8_t *vast; /* the same, and can be written: for outputs that may be longer than what is written */
#define SEEN 100000u  /* so many bytes of it are looked at after a call */

static struct lent {
    uint8_t *at, *region;
    size_t bytes, region_bytes;
    const uint8_t *was;
    int unread; /* what it holds must not matter */
} slots[SLOTS];
static int used_slots;

static uint8_t *guarded(size_t pages) {
    uint8_t *at = mmap(0, (pages + 2) * PAGE, PROT_NONE, MAP_PRIVATE | MAP_ANONYMOUS, -1, 0);
    if (at == MAP_FAILED || mprotect(at + PAGE, pages * PAGE, PROT_READ | PROT_WRITE)) fail("no memory");
    memset(at + PAGE, KNOWN, pages * PAGE);
    return at + PAGE;
}

/* Lends so many bytes with this content; `was` stays as it is, to compare. */
static void *lend(const void *was, size_t bytes) {
    struct lent *slot = &slots[used_slots];
    int size = 0;
    slot->unread = 0;
    if (was == huge || was == vast) {
        if (bytes > HUGE) fail("a slice without memory");
        slot->at = (uint8_t *)was;
        slot->bytes = slot->region_bytes = 0;
        used_slots++;
        return slot->at;
    }
    while (region_pages[size] * PAGE < bytes) size++;
    slot->region = regions[used_slots][size];
    slot->region_bytes = region_pages[size] * PAGE;
    slot->bytes = bytes;
    slot->was = was;
    slot->at = one_in(2) ? slot->region : slot->region + slot->region_bytes - bytes;
    memcpy(slot->at, was, bytes);
    used_slots++;
    /* a slice of no bytes may be anywhere, at NULL too */
    return bytes || one_in(2) ? slot->at : 0;
}

/* The slice lent last is output or work memory. */
static void *unread(void *at) {
    slots[used_slots - 1].unread = 1;
    return at;
}

/* A call begins: for valgrind, only what is lent may be touched, and what is unread is not initialised. */
static void calling(int call) {
    int k;
    the_call = call;
    for (k = 0; k < used_slots; k++) {
        if (!slots[k].region_bytes) continue;
        VALGRIND_MAKE_MEM_NOACCESS(slots[k].region, slots[k].region_bytes);
        if (slots[k].unread) VALGRIND_MAKE_MEM_UNDEFINED(slots[k].at, slots[k].bytes);
        else VALGRIND_MAKE_MEM_DEFINED(slots[k].at, slots[k].bytes);
    }
}
/* It has ended: all can be looked at again. */
static void called(void) {
    int k;
    for (k = 0; k < used_slots; k++)
        if (slots[k].region_bytes) VALGRIND_MAKE_MEM_DEFINED(slots[k].region, slots[k].region_bytes);
    if (VALGRIND_COUNT_ERRORS) fail("touches what it was not lent, or old content decides, says valgrind");
}

static int all(const uint8_t *at, size_t bytes, uint8_t byte) { return !bytes || (*at == byte && !memcmp(at, at + 1, bytes - 1)); }

/* Whether a lent slice is as it was. One at NULL has no bytes, and the huge one cannot be written. */
static int same(const void *at) {
    int k;
    if (!at || at == huge) return 1;
    for (k = 0; k < used_slots; k++)
        if (slots[k].at == at) return !memcmp(slots[k].at, slots[k].was, slots[k].bytes);
    fail("what is looked at was not lent");
    return 0;
}
static void only_read(const void *at) {
    if (!same(at)) fail("a slice that is only read is changed");
}

/* What lies beside the slices is as it was; all of it now and then, otherwise what is near. */
static void beside(void) {
    int k, whole = one_in(64);
    for (k = 0; k < used_slots; k++) {
        struct lent *s = &slots[k];
        size_t before, after;
        if (!s->region_bytes) continue;
        before = (size_t)(s->at - s->region);
        after = s->region_bytes - before - s->bytes;
        if (!whole && before > 128) before = 128;
        if (!whole && after > 128) after = 128;
        if (!all(s->at - before, before, KNOWN) || !all(s->at + s->bytes, after, KNOWN)) fail("memory beside what was lent is changed");
    }
}

/* Takes all slices back. */
static void returned(void) {
    int k;
    for (k = 0; k < used_slots; k++)
        if (slots[k].region_bytes) memset(slots[k].at, KNOWN, slots[k].bytes);
    used_slots = 0;
    the_call = -1;
}

static void all_same(void) {
    int k;
    for (k = 0; k < used_slots; k++)
        if (slots[k].at == vast ? !all(vast, SEEN, 0) : !same(slots[k].at)) fail("lent memory is changed");
}

/* Notes an answer; whether it is accepted. */
static int judged(uint64_t answer) {
    unsigned refusal = (unsigned)(answer & 255);
    if (refusal > 11 || (refusal && !(listed[the_call] & R(refusal)))) fail("a refusal that is not listed");
    told[the_call][refusal]++;
    called();
    beside();
    if (!refusal) return 1;
    if (answer != refusal) fail("refused, with an answer");
    all_same();
    return 0;
}

/* ---- a world */

#define MOST_IDS 20000
#define MOST_FORBIDS 12600
#define MOST_SHEET 80000
#define MOST_CELLS 1100
#define MORE 64 /* entries that damage can lengthen a slice by */
static struct world {
    size_t count, width, height, mode, pattern, direction, cell;
    uint64_t domain;
    uint32_t word;
    uint32_t weights[300], offsets[600], noise[MOST_CELLS + MORE], words[MOST_CELLS + MORE], forbids[MOST_FORBIDS + MORE];
    uint8_t ids[MOST_IDS + MORE], sheet[MOST_SHEET];
    uint64_t domains[MOST_CELLS + MORE];
    size_t n_weights, n_offsets, n_ids, n_noise, n_words, n_forbids, n_domains, n_counts, n_pending, n_floats, n_marks, n_out, n_sheet;
    unsigned huge; /* which slices have billions of entries */
} w;
enum { WEIGHTS, OFFSETS, IDS, NOISE, WORDS, FORBIDS, DOMAINS, COUNTS, PENDING, FLOATS, MARKS, OUT, SHEET, SLICES };
static const size_t entry[SLICES] = {4, 4, 1, 4, 4, 4, 8, 1, 4, 4, 1, 1, 1};

static uint8_t pool[1 << 19]; /* old content for work memory */
static const void *old(size_t bytes) { return pool + below(sizeof pool - bytes); }

static size_t cells_of(void) { return w.width * w.height; }

/* tables of two relations and their opposites, with no empty list */
static void make_table(void) {
    static uint8_t north[64][64], east[64][64];
    size_t p, q, d, n = 0, k = 0, density = 1 + below(4);
    w.count = one_in(100) ? 1 + below(64) : one_in(10) ? 1 + below(20) : 1 + below(5);
    for (p = 0; p < w.count; p++)
        for (q = 0; q < w.count; q++) {
            north[p][q] = one_in(density);
            east[p][q] = one_in(density);
        }
    for (p = 0; p < w.count; p++) north[p][p] = east[p][p] = 1;
    for (p = 0; p < w.count && one_in(2); p++) {
        q = below(w.count);
        if (q != p) {
            north[p][p] = 0;
            north[p][q] = north[q][p] = 1;
        }
    }
    for (p = 0; p < w.count; p++)
        for (d = 0; d < 4; d++) {
            w.offsets[k++] = (uint32_t)n;
            for (q = 0; q < w.count; q++)
                if (d == 0 ? north[p][q] : d == 1 ? east[p][q] : d == 2 ? north[q][p] : east[q][p]) w.ids[n++] = (uint8_t)q;
        }
    w.offsets[k++] = (uint32_t)n;
    w.n_offsets = k;
    w.n_ids = n;
    w.n_weights = w.count;
    for (p = 0; p < w.count; p++) w.weights[p] = one_in(4) ? 0 : (uint32_t)below(1024 / w.count + 1);
}

static void make_world(void) {
    size_t k;
    memset(w.weights, 0, sizeof w.weights);
    memset(w.offsets, 0, sizeof w.offsets);
    make_table();
    if (one_in(2000)) {
        w.width = 1 + below(64);
        w.height = 1 + below(1024 / w.width < 64 ? 1024 / w.width : 64);
    } else {
        w.width = 1 + below(one_in(50) ? 16 : 4);
        w.height = 1 + below(one_in(50) ? 16 : 3);
    }
    w.mode = below(4);
    w.n_noise = w.n_domains = cells_of();
    w.n_words = one_in(3) ? below(w.n_noise + 2) : w.n_noise;
    for (k = 0; k < w.n_noise; k++) w.noise[k] = (uint32_t)(one_in(8) ? below(3) : next());
    for (k = 0; k < w.n_words; k++) w.words[k] = (uint32_t)next();
    w.n_forbids = 3 * (one_in(1000) ? below(4100) : one_in(2) ? 0 : below(5));
    for (k = 0; k < w.n_forbids; k += 3) {
        w.forbids[k] = (uint32_t)below(w.n_noise);
        w.forbids[k + 1] = (uint32_t)below(w.count);
        w.forbids[k + 2] = (uint32_t)(one_in(4) ? next() : below(2));
    }
    for (k = 0; k < w.n_domains; k++) {
        w.domains[k] = w.count == 64 ? ~(uint64_t)0 : ((uint64_t)1 << w.count) - 1;
        if (one_in(3)) w.domains[k] &= next();
    }
    w.n_counts = MURGHIDOSSU_COUNTS_LENGTH(w.count, cells_of());
    w.n_pending = MURGHIDOSSU_PENDING_LENGTH(w.count, cells_of());
    w.n_floats = MURGHIDOSSU_FLOATS_LENGTH(cells_of());
    w.n_marks = MURGHIDOSSU_MARKS_LENGTH(cells_of());
    w.n_out = MURGHIDOSSU_SHEET_LENGTH(w.count, w.n_ids, w.n_forbids / 3);
    if (w.n_out < MURGHIDOSSU_RESULT_LENGTH(cells_of())) w.n_out = MURGHIDOSSU_RESULT_LENGTH(cells_of());
    w.n_out += one_in(2) ? 0 : below(40);
    w.pattern = below(w.count);
    w.direction = below(4);
    w.cell = below(w.n_noise);
    w.domain = w.domains[0];
    w.word = (uint32_t)next();
    w.huge = 0;
    /* nothing of an earlier case is in what a slice is lengthened by */
    memset(w.ids + w.n_ids, 0, MORE * sizeof *w.ids);
    memset(w.noise + w.n_noise, 0, MORE * sizeof *w.noise);
    memset(w.words + w.n_words, 0, MORE * sizeof *w.words);
    memset(w.forbids + w.n_forbids, 0, MORE * sizeof *w.forbids);
    memset(w.domains + w.n_domains, 0, MORE * sizeof *w.domains);
}

/* ---- damage */

static int flip(void *at, size_t bytes) {
    size_t k, times = 1 + below(4);
    for (k = 0; bytes && k < times; k++) ((uint8_t *)at)[below(bytes)] ^= (uint8_t)(1 << below(8));
    return bytes != 0;
}
static int another(size_t *n, size_t most) {
    size_t was = *n, m = one_in(3) ? was + 1 : one_in(3) ? was - 1 : one_in(3) ? 0 : one_in(2) ? was / 2 : was + below(9);
    *n = m < most ? m : most;
    return *n != was;
}
static int set(void *at, size_t k, size_t many, size_t size, uint64_t number) {
    uint8_t was[8];
    if (k >= many) return 0;
    memcpy(was, (uint8_t *)at + k * size, size);
    memcpy((uint8_t *)at + k * size, &number, size);
    return memcmp(was, &number, size) != 0;
}
static int number(size_t *n) {
    size_t was = *n;
    return was != (*n = extreme());
}
/* an id goes from a list, or comes to one: the lists disagree, or one is empty or out of order */
static void damage_list(void) {
    size_t list = below(4 * w.count), k, at = w.offsets[list];
    if (one_in(2) && w.n_ids) {
        for (k = at; k + 1 < w.n_ids; k++) w.ids[k] = w.ids[k + 1];
        w.n_ids--;
        for (k = list + 1; k < w.n_offsets; k++) w.offsets[k]--;
    } else if (w.n_ids + 1 < MOST_IDS) {
        for (k = w.n_ids; k > at; k--) w.ids[k] = w.ids[k - 1];
        w.ids[at] = (uint8_t)below(one_in(3) ? 256 : w.count + 1);
        w.n_ids++;
        for (k = list + 1; k < w.n_offsets; k++) w.offsets[k]++;
    }
}

/* whether the offsets name a part of the ids for each list, so that an id can be put in or taken out */
static int in_shape(void) {
    size_t k;
    if (!w.count || w.count > 64 || w.n_offsets != 4 * w.count + 1 || w.offsets[w.n_offsets - 1] != w.n_ids) return 0;
    for (k = 0; k + 1 < w.n_offsets; k++)
        if (w.offsets[k] > w.offsets[k + 1]) return 0;
    return 1;
}

static int damage_length(void) {
    switch (below(12)) {
    case 0: return another(&w.n_weights, 300);
    case 1: return another(&w.n_offsets, 600);
    case 2: return another(&w.n_ids, MOST_IDS);
    case 3: return another(&w.n_noise, MOST_CELLS);
    case 4: return another(&w.n_words, MOST_CELLS);
    case 5: return another(&w.n_forbids, MOST_FORBIDS);
    case 6: return another(&w.n_domains, MOST_CELLS);
    case 7: return another(&w.n_counts, 270000);
    case 8: return another(&w.n_pending, 67000);
    case 9: return another(&w.n_floats, 2200);
    case 10: return another(&w.n_marks, 2300);
    default: return another(&w.n_out, 60000);
    }
}

/* Damages the world in one way; whether it did. */
static int damage_once(void) {
    size_t k;
    switch (below(18)) {
    case 0: return number(&w.count);
    case 1: return number(one_in(2) ? &w.width : &w.height);
    case 2: return number(&w.mode);
    case 3: return number(one_in(3) ? &w.pattern : one_in(2) ? &w.direction : &w.cell);
    case 4: return damage_length();
    case 5: return flip(w.weights, 4 * w.n_weights);
    case 6: return flip(w.offsets, 4 * w.n_offsets);
    case 7: return flip(w.ids, w.n_ids);
    case 8: return flip(w.forbids, 4 * w.n_forbids);
    case 9: return flip(w.domains, 8 * w.n_domains);
    case 10: return flip(w.noise, 4 * w.n_noise);
    case 11: return set(w.offsets, below(w.n_offsets), w.n_offsets, 4, extreme());
    case 12: return set(w.weights, below(w.n_weights), w.n_weights, 4, one_in(2) ? below(2000) : extreme());
    case 13: return set(w.ids, below(w.n_ids), w.n_ids, 1, extreme());
    case 14: return set(w.forbids, below(w.n_forbids), w.n_forbids, 4, extreme());
    case 15: return set(&w.domain, 0, 1, 8, one_in(2) ? next() : extreme());
    case 16:
        if (one_in(3)) {
            if (!one_in(8)) return 0;
            for (k = 0; k < w.n_ids; k++) w.ids[k] = (uint8_t)next();
            return w.n_ids != 0;
        }
        if (!one_in(8)) return 0;
        k = below(SHEET);
        /* all forbids are looked at before their number is, which takes seconds */
        if (k == FORBIDS && !one_in(400)) return 0;
        w.huge |= 1u << k;
        return 1;
    default:
        if (!in_shape()) return 0;
        damage_list();
        return 1;
    }
}

/* ---- its sheet */

static size_t put(size_t at, uint64_t number, size_t bytes) {
    size_t k;
    for (k = 0; k < bytes && at + k < MOST_SHEET; k++) w.sheet[at + k] = (uint8_t)(number >> 8 * k);
    return at + bytes < MOST_SHEET ? at + bytes : MOST_SHEET - 1;
}
static size_t heads[4];
static void close_record(int kind, size_t end) {
    put(heads[kind], end - heads[kind] - 4, 4);
    put(heads[kind] + 4, (uint64_t)kind + 1, 2);
}
static void make_sheet(void) {
    size_t k, i, n, lists = w.n_offsets ? w.n_offsets - 1 : 0, patterns = w.n_weights;
    /* none, or too many, in a sheet that is well formed */
    if (one_in(100)) lists = 4 * (patterns = one_in(2) ? 0 : 65 + below(60));
    heads[0] = 0;
    n = put(6, patterns, 2);
    for (k = 0; k < patterns; k++) n = put(n, w.weights[k], 2);
    close_record(0, n);
    heads[1] = n;
    n += 6;
    for (k = 0; k < lists; k++) {
        size_t from = w.offsets[k], to = w.offsets[k + 1];
        if (from > w.n_ids) from = w.n_ids;
        if (to > w.n_ids) to = w.n_ids;
        if (to < from) to = from;
        if (to - from > 255) to = from + 255;
        n = put(n, to - from, 1);
        for (i = from; i < to; i++) n = put(n, w.ids[i], 1);
    }
    close_record(1, n);
    heads[2] = n;
    n = put(n + 6, w.width, 2);
    n = put(n, w.height, 2);
    n = put(n, w.mode, 2);
    close_record(2, n);
    heads[3] = n;
    n += 6;
    for (k = 0; k + 2 < w.n_forbids; k += 3) {
        n = put(n, w.forbids[k], 2);
        n = put(n, w.forbids[k + 1], 2);
        n = put(n, one_in(500) ? 2 : w.forbids[k + 2] != 0, 2);
    }
    close_record(3, n);
    w.n_sheet = n;
}
/* Damages its bytes in one way; whether it did. */
static int damage_sheet(void) {
    size_t k, was = w.n_sheet;
    switch (below(8)) {
    case 0: return flip(w.sheet, w.n_sheet);
    case 1: w.n_sheet = below(w.n_sheet + 1); return w.n_sheet != was;
    case 2:
        for (k = 1 + below(12); k && w.n_sheet + 1 < MOST_SHEET; k--) w.sheet[w.n_sheet++] = (uint8_t)next();
        return w.n_sheet != was;
    case 3: return set(w.sheet + heads[below(4)], 0, 1, 4, one_in(2) ? extreme() : below(100));
    case 4: return set(w.sheet + heads[below(4)] + 4, 0, 1, 2, extreme());
    case 5: return set(w.sheet + 6, 0, 1, 2, extreme());
    case 6:
        for (k = below(w.n_sheet); k < w.n_sheet; k++) w.sheet[k] = (uint8_t)next();
        return 1;
    default:
        if (!one_in(50)) return flip(w.sheet + heads[1], heads[2] - heads[1]);
        w.huge |= 1u << SHEET;
        return 1;
    }
}

/* ---- the calls */

/* How many entries of each slice are lent; between 2^32 and 2^33 of a huge one. */
static size_t many[SLICES];
static void lengths(void) {
    const size_t sizes[SLICES] = {w.n_weights, w.n_offsets, w.n_ids,    w.n_noise, w.n_words, w.n_forbids, w.n_domains,
                                  w.n_counts,  w.n_pending, w.n_floats, w.n_marks, w.n_out,   w.n_sheet};
    int k;
    for (k = 0; k < SLICES; k++) many[k] = w.huge >> k & 1 ? ((size_t)1 << 32) + below((size_t)1 << 31) : sizes[k];
    /* three for each, or not */
    if (w.huge >> FORBIDS & 1 && one_in(2)) many[FORBIDS] -= many[FORBIDS] % 3;
    for (k = 0; k < SLICES; k++)
        if (many[k] * entry[k] > HUGE) many[k] = HUGE / entry[k];
}
/* Lends a slice with this content. */
static void *lend_as(int slice, const void *was) {
    return lend(w.huge >> slice & 1 ? (slice == OUT ? vast : huge) : was, many[slice] * entry[slice]);
}
/* Lends one with old content. */
static void *lend_old(int slice) { return unread(lend_as(slice, w.huge >> slice & 1 ? huge : old(many[slice] * entry[slice]))); }

/* Past so many bytes the output is as it was. */
static int kept_past(const uint8_t *out, const uint8_t *was, size_t bytes) {
    return out == vast ? all(vast + bytes, SEEN - bytes, 0) : !memcmp(out + bytes, was + bytes, many[OUT] - bytes);
}

static void call_check_table(void) {
    const uint32_t *weights = lend_as(WEIGHTS, w.weights), *offsets = lend_as(OFFSETS, w.offsets);
    const uint8_t *ids = lend_as(IDS, w.ids);
    calling(CHECK_TABLE);
    if (judged(murghidossu_check_table(w.count, weights, many[WEIGHTS], offsets, many[OFFSETS], ids, many[IDS]))) all_same();
    returned();
}

static void call_list(void) {
    const uint32_t *offsets = lend_as(OFFSETS, w.offsets);
    uint64_t answer, beside_it;
    size_t k, start, ids_in;
    const uint8_t *ids = lend_as(IDS, w.ids);
    calling(LIST);
    answer = murghidossu_list(w.count, offsets, many[OFFSETS], ids, many[IDS], w.pattern, w.direction);
    start = answer >> 32;
    ids_in = answer >> 8 & 0xffffff;
    if (judged(answer)) {
        all_same();
        if (start + ids_in > w.n_ids || !ids_in || ids_in > w.count) fail("a part that does not lie among the ids");
        for (k = start; k < start + ids_in; k++)
            if (w.ids[k] >= w.count || (k > start && w.ids[k] <= w.ids[k - 1])) fail("a part that is no list");
        if (start != w.offsets[4 * w.pattern + w.direction]) fail("the part begins elsewhere");
    }
    calling(LIST_REFUSAL);
    beside_it = murghidossu_list_refusal(w.count, offsets, many[OFFSETS], ids, many[IDS], w.pattern, w.direction);
    judged(beside_it);
    all_same();
    if (beside_it != (answer & 255)) fail("list and list_refusal differ");
    returned();
}

static void call_asked(void) {
    const uint32_t *weights = lend_as(WEIGHTS, w.weights);
    uint64_t answer;
    uint32_t value;
    calling(NEIGHBOUR);
    answer = murghidossu_neighbour(w.width, w.height, w.mode, w.cell, w.direction);
    if (judged(answer)) {
        found[NEIGHBOUR][answer >> 8 & 1]++;
        if (answer & 256 ? answer != 256 : (answer & 0xffffffff) || (answer >> 32) >= cells_of()) fail("an answer that is none");
    }
    calling(ENTROPY_OF);
    answer = murghidossu_entropy_of(w.count, weights, many[WEIGHTS], w.domain);
    if (judged(answer)) {
        all_same();
        found[ENTROPY_OF][answer >> 8 & 1]++;
        value = (uint32_t)(answer >> 32) & 0x7fffffff;
        if (answer & 256 ? answer != 256 : (answer & 0xffffffff) || value > 0x7f800000) fail("an answer that is none");
    }
    calling(CHOICE_OF);
    answer = murghidossu_choice_of(w.count, weights, many[WEIGHTS], w.domain, w.word);
    if (judged(answer)) {
        all_same();
        found[CHOICE_OF][answer >> 8 & 1]++;
        value = (uint32_t)(answer >> 32);
        if (answer & 256 ? answer != 256 : (answer & 0xffffffff) || value >= w.count || !(w.domain >> value & 1) || !w.weights[value])
            fail("an answer that is none");
    }
    returned();
}

/* what a run or a propagation left in the domains */
static void judge_domains(const uint64_t *domains, int empty, int decided) {
    size_t k;
    for (k = 0; k < cells_of(); k++) {
        if (empty ? domains[k] != 0 : domains[k] == 0) fail("domains that do not fit the answer");
        if (decided && (domains[k] & (domains[k] - 1))) fail("Decided, with two patterns in a cell");
        if (w.count < 64 && domains[k] >> w.count) fail("a pattern that does not exist");
    }
}

static void call_propagate(void) {
    const uint32_t *offsets = lend_as(OFFSETS, w.offsets);
    const uint8_t *ids = lend_as(IDS, w.ids);
    uint64_t *domains, answer;
    uint8_t *counts;
    uint32_t *pending;
    size_t k;
    domains = lend_as(DOMAINS, w.domains);
    counts = lend_old(COUNTS);
    pending = lend_old(PENDING);
    calling(PROPAGATE);
    answer = murghidossu_propagate(w.count, offsets, many[OFFSETS], ids, many[IDS], w.width, w.height, w.mode, domains, many[DOMAINS], counts,
                                   many[COUNTS], pending, many[PENDING]);
    if (judged(answer)) {
        if (answer != 0 && answer != 256) fail("an answer that is none");
        settled[answer >> 8]++;
        only_read(offsets);
        only_read(ids);
        if (!all(counts, many[COUNTS], 0) || !all((uint8_t *)pending, 4 * w.n_pending, 0)) fail("work memory is not zero");
        judge_domains(domains, answer == 256, 0);
        for (k = 0; k < w.n_domains; k++)
            if (domains[k] & ~w.domains[k]) fail("a pattern that was not there");
    }
    returned();
}

static uint64_t last_run;
static uint64_t last_domains[MOST_CELLS];

static void call_run(int result) {
    const uint32_t *weights = lend_as(WEIGHTS, w.weights), *offsets = lend_as(OFFSETS, w.offsets), *noise = lend_as(NOISE, w.noise);
    const uint32_t *words = lend_as(WORDS, w.words), *forbids = lend_as(FORBIDS, w.forbids);
    const uint8_t *ids = lend_as(IDS, w.ids), *was = 0;
    uint64_t *domains, answer;
    uint8_t *counts, *marks, *out = 0;
    uint32_t *pending;
    float *floats;
    size_t k, need = MURGHIDOSSU_RESULT_LENGTH(cells_of());
    domains = lend_old(DOMAINS);
    counts = lend_old(COUNTS);
    pending = lend_old(PENDING);
    floats = lend_old(FLOATS);
    marks = lend_old(MARKS);
    if (result) {
        was = w.huge >> OUT & 1 ? vast : old(many[OUT]);
        out = unread(lend_as(OUT, was));
        calling(RUN_RESULT);
        answer = murghidossu_run_result(forbids, many[FORBIDS], w.count, w.width, w.height, w.mode, weights, many[WEIGHTS], offsets, many[OFFSETS],
                                        ids, many[IDS], noise, many[NOISE], words, many[WORDS], domains, many[DOMAINS], counts, many[COUNTS], pending,
                                        many[PENDING], floats, many[FLOATS], marks, many[MARKS], out, many[OUT]);
    } else {
        calling(RUN);
        answer = murghidossu_run(forbids, many[FORBIDS], w.count, w.width, w.height, w.mode, weights, many[WEIGHTS], offsets, many[OFFSETS], ids,
                                 many[IDS], noise, many[NOISE], words, many[WORDS], domains, many[DOMAINS], counts, many[COUNTS], pending, many[PENDING],
                                 floats, many[FLOATS], marks, many[MARKS]);
    }
    if (judged(answer)) {
        unsigned end = (unsigned)(answer >> 8 & 0xffffff);
        size_t used = answer >> 32;
        if (end > 3 || used > cells_of() || used > many[WORDS]) fail("an answer that is none");
        ends[end]++;
        only_read(weights);
        only_read(offsets);
        only_read(noise);
        only_read(words);
        only_read(forbids);
        only_read(ids);
        if (!all(counts, many[COUNTS], 0) || !all((uint8_t *)pending, 4 * w.n_pending, 0) || !all((uint8_t *)floats, 4 * w.n_floats, 0) ||
            !all(marks, many[MARKS], 0))
            fail("work memory is not zero");
        judge_domains(domains, end == MURGHIDOSSU_CONTRADICTION, end == MURGHIDOSSU_DECIDED);
        if (result) {
            if (answer != last_run || memcmp(domains, last_domains, 8 * cells_of())) fail("run and run_result differ");
            if (out[4] != 5 || out[6] != end || (size_t)out[8] + 256u * out[9] != used || memcmp(out + 10, domains, 8 * cells_of()))
                fail("a result that is not the run's");
            if (!kept_past(out, was, need)) fail("what stands past the result is changed");
            if (out == vast) memset(vast, 0, need);
        }
        for (k = 0; k < cells_of(); k++) last_domains[k] = domains[k];
    } else if (result && !(last_run & 255) && answer != MURGHIDOSSU_BAD_LENGTH) fail("run and run_result differ");
    last_run = answer;
    returned();
}

static uint8_t written[MOST_SHEET];

static void call_write(void) {
    const uint32_t *weights = lend_as(WEIGHTS, w.weights), *offsets = lend_as(OFFSETS, w.offsets);
    const uint8_t *was = w.huge >> OUT & 1 ? vast : old(many[OUT]);
    uint8_t *out = unread(lend_as(OUT, was));
    const uint32_t *forbids = lend_as(FORBIDS, w.forbids);
    const uint8_t *ids = lend_as(IDS, w.ids);
    uint64_t answer;
    size_t bytes;
    calling(WRITE);
    answer = murghidossu_write(w.count, weights, many[WEIGHTS], offsets, many[OFFSETS], ids, many[IDS], w.width, w.height, w.mode, forbids,
                               many[FORBIDS], out, many[OUT]);
    if (judged(answer)) {
        only_read(weights);
        only_read(offsets);
        only_read(forbids);
        only_read(ids);
        bytes = answer >> 32;
        if ((answer & 0xffffffff) || bytes != MURGHIDOSSU_SHEET_LENGTH(w.count, w.n_ids, w.n_forbids / 3) || bytes > MURGHIDOSSU_SHEET)
            fail("an answer that is none");
        if (!kept_past(out, was, bytes)) fail("what stands past the sheet is changed");
        if (out == vast) memset(vast, 0, bytes);
    }
    returned();
}

static void call_sizes_and_read(void) {
    static size_t measures[7];
    static uint32_t weights[70000], offsets[300000 / 4], forbids[3 * 4200];
    static uint8_t ids[66000];
    size_t n_sheet = many[SHEET], n_measures = one_in(8) ? below(8) : MURGHIDOSSU_MEASURES_LENGTH, room[4];
    const uint8_t *sheet = lend_as(SHEET, w.sheet), *old_ids;
    const uint32_t *old_weights, *old_offsets, *old_forbids;
    size_t *to = unread(lend(old(8 * n_measures), 8 * n_measures));
    uint64_t answer;
    calling(SIZES);
    answer = murghidossu_sizes(sheet, n_sheet, to, n_measures);
    memset(measures, 0, sizeof measures);
    if (judged(answer)) {
        if (answer || n_measures != 6) fail("an answer that is none");
        only_read(sheet);
        memcpy(measures, to, 48);
        if (measures[0] > 65535 || measures[1] > n_sheet || measures[2] > 65535 || measures[3] > 65535 || measures[4] > 65535 || measures[5] > 4096)
            fail("measures that no sheet has");
    }
    returned();
    room[0] = measures[0] < 300 ? measures[0] : 300;
    room[1] = 4 * room[0] + 1;
    room[2] = (measures[1] < 60000 ? measures[1] : 60000) + (one_in(2) ? 0 : below(20));
    room[3] = 3 * measures[5] + (one_in(2) ? 0 : below(20));
    if (one_in(6)) {
        size_t k = below(4);
        another(&room[k], room[k] + 9);
    }
    old_weights = old(4 * room[0]);
    old_offsets = old(4 * room[1]);
    old_ids = old(room[2]);
    old_forbids = old(4 * room[3]);
    {
        uint32_t *to_weights, *to_offsets, *to_forbids;
        uint8_t *to_ids;
        sheet = lend_as(SHEET, w.sheet);
        to_weights = unread(lend(old_weights, 4 * room[0]));
        to_offsets = unread(lend(old_offsets, 4 * room[1]));
        to_ids = unread(lend(old_ids, room[2]));
        to_forbids = unread(lend(old_forbids, 4 * room[3]));
        calling(READ);
        answer = murghidossu_read(sheet, n_sheet, to_weights, room[0], to_offsets, room[1], to_ids, room[2], to_forbids, room[3]);
        if (judged(answer)) {
            size_t bytes;
            if (answer) fail("an answer that is none");
            only_read(sheet);
            /* the sizes were not asked for where their slice was no six numbers */
            if (n_measures != 6) murghidossu_sizes(sheet, n_sheet, measures, 6);
            if (measures[0] != room[0] || measures[1] > room[2] || 3 * measures[5] > room[3]) fail("read, and not of these sizes");
            if (memcmp(to_ids + measures[1], old_ids + measures[1], room[2] - measures[1]) ||
                memcmp(to_forbids + 3 * measures[5], old_forbids + 3 * measures[5], 4 * (room[3] - 3 * measures[5])))
                fail("what stands past the last entry is changed");
            memcpy(weights, to_weights, 4 * room[0]);
            memcpy(offsets, to_offsets, 4 * room[1]);
            memcpy(ids, to_ids, measures[1]);
            memcpy(forbids, to_forbids, 12 * measures[5]);
            answer = murghidossu_write(room[0], weights, room[0], offsets, room[1], ids, measures[1], measures[2], measures[3], measures[4],
                                       forbids, 3 * measures[5], written, sizeof written);
            bytes = answer >> 32;
            if ((answer & 0xffffffff) || bytes != n_sheet || memcmp(written, w.sheet, bytes)) fail("what is read is not written back");
        }
        returned();
    }
}

/* ---- does the checker see? */

static int killed_by(void (*what)(void)) {
    int status = 0;
    pid_t child = fork();
    if (child < 0) fail("no second process");
    if (!child) {
        if (!freopen("/dev/null", "w", stdout)) _exit(2);
        what();
        _exit(0);
    }
    waitpid(child, &status, 0);
    return !(WIFEXITED(status) && WEXITSTATUS(status) == 0);
}
static volatile uint8_t *spot;
static uint8_t seen;
static void reads(void) { seen = *spot; }
static void writes(void) { *spot = 1; }
static void writes_beside(void) {
    uint32_t *at = lend(w.words, 64);
    uint8_t *bytes = (uint8_t *)at;
    the_call = RUN;
    bytes[slots[0].at == slots[0].region ? 64 : -1] ^= 1;
    judged(0);
}
static void writes_refused(void) {
    uint32_t *at = lend(w.words, 64);
    *at ^= 1;
    calling(RUN);
    judged(MURGHIDOSSU_BAD_LENGTH);
}
static void writes_accepted(void) {
    uint32_t *at = lend(w.words, 64);
    *at ^= 1;
    calling(RUN);
    if (judged(0)) only_read(at);
}
static void looks_elsewhere(void) {
    lend(w.words, 64);
    calling(RUN);
    if (judged(0)) only_read(w.words);
}
#ifdef MEMCHECK
static void reads_beside(void) {
    volatile uint8_t *at = lend(w.words, 64);
    calling(RUN);
    seen = at[slots[0].at == slots[0].region ? 64 : -1];
    judged(0);
}
static void old_decides(void) {
    volatile uint8_t *at = unread(lend(w.words, 64));
    calling(RUN);
    if (*at > 100) _exit(0);
    judged(0);
}
#endif
static void not_listed(void) {
    calling(SIZES);
    judged(MURGHIDOSSU_BAD_CELL);
}
static void nothing_wrong(void) {
    uint32_t *at = lend(w.words, 64);
    calling(RUN);
    judged(MURGHIDOSSU_BAD_LENGTH);
    if (judged(0)) only_read(at);
}
static void see(void) {
    int slot, size;
    for (slot = 0; slot < SLOTS; slot++)
        for (size = 0; size < SIZES_OF_REGION; size++) {
            spot = regions[slot][size] - 1;
            if (!killed_by(reads) || !killed_by(writes)) fail("a touch before the memory is not seen");
            spot = regions[slot][size] + region_pages[size] * PAGE;
            if (!killed_by(reads) || !killed_by(writes)) fail("a touch past the memory is not seen");
        }
    spot = huge;
    if (!killed_by(writes)) fail("a write to what is only read is not seen");
    if (!killed_by(writes_beside) || !killed_by(writes_refused) || !killed_by(writes_accepted) || !killed_by(not_listed))
        fail("a wrong call is not seen");
    if (!killed_by(looks_elsewhere)) fail("a look at what was not lent is not seen");
#ifdef MEMCHECK
    if (!killed_by(reads_beside) || !killed_by(old_decides)) fail("a read that only valgrind sees is not seen");
#endif
    if (killed_by(nothing_wrong)) fail("a right call is not let pass");
}

/* ---- */

static int report(unsigned long cases) {
    unsigned long calls = 0, seconds = (unsigned long)(clock() / CLOCKS_PER_SEC);
    int c, r, missed = 0;
    printf("%-13s %9s", "call", "accepted");
    for (r = 1; r < 12; r++) printf(" %8d", r);
    printf("\n");
    for (c = 0; c < CALLS; c++) {
        printf("%-13s %9lu", call_names[c], told[c][0]);
        for (r = 0; r < 12; r++) {
            calls += told[c][r];
            if (!r) continue;
            if (listed[c] & R(r)) printf(" %8lu", told[c][r]);
            else printf(" %8s", "-");
            if ((listed[c] & R(r)) && !told[c][r]) missed++;
        }
        printf("\n");
        if (!told[c][0]) missed++;
    }
    printf("ends of runs: %lu Decided, %lu Undecided, %lu Paused, %lu Contradiction; propagations: %lu consistent, %lu contradictions\n", ends[0],
           ends[1], ends[2], ends[3], settled[0], settled[1]);
    printf("neighbours: %lu cells, %lu edges; entropies: %lu, %lu without; choices: %lu, %lu without\n", found[NEIGHBOUR][0], found[NEIGHBOUR][1],
           found[ENTROPY_OF][0], found[ENTROPY_OF][1], found[CHOICE_OF][0], found[CHOICE_OF][1]);
    printf("fuzz: seed %llu, %lu cases: tables, grids, forbids or domains damaged in %lu, bytes of the sheet in %lu\n", the_seed, cases,
           damaged_worlds, damaged_sheets);
    printf("fuzz: %lu calls: all ended, nothing outside the lent slices was touched, and every refusal left memory as it was\n", calls);
    printf("fuzz: %lu s of processor time\n", seconds);
    for (c = 0; c < 4; c++) missed += !ends[c];
    missed += !settled[0] + !settled[1];
    for (c = NEIGHBOUR; c <= CHOICE_OF; c++) missed += !found[c][0] + !found[c][1];
    if (missed) printf("fuzz: %d outcomes did not occur: more cases are needed\n", missed);
    return missed != 0;
}

int main(int argc, char **argv) {
    unsigned long cases = argc > 1 ? strtoul(argv[1], 0, 10) : 2200000, first = argc > 3 ? strtoul(argv[3], 0, 10) : 1;
    size_t k;
    int slot, size, damages;
    struct sigaction on;
    the_seed = argc > 2 ? strtoull(argv[2], 0, 10) : 1;
    memset(&on, 0, sizeof on);
    on.sa_handler = died;
    sigaction(SIGSEGV, &on, 0);
    sigaction(SIGBUS, &on, 0);
    sigaction(SIGFPE, &on, 0);
    sigaction(SIGILL, &on, 0);
    sigaction(SIGALRM, &on, 0);
    for (slot = 0; slot < SLOTS; slot++)
        for (size = 0; size < SIZES_OF_REGION; size++) regions[slot][size] = guarded(region_pages[size]);
    huge = mmap(0, HUGE, PROT_READ, MAP_PRIVATE | MAP_ANONYMOUS | MAP_NORESERVE, -1, 0);
    vast = mmap(0, HUGE, PROT_READ | PROT_WRITE, MAP_PRIVATE | MAP_ANONYMOUS | MAP_NORESERVE, -1, 0);
    if (huge == MAP_FAILED || vast == MAP_FAILED) fail("no address space");
    state = the_seed;
    for (k = 0; k < sizeof pool; k++) pool[k] = (uint8_t)next();
    see();
    for (the_case = first; the_case < first + cases; the_case++) {
        state = the_seed * 0x100000001b3u + the_case;
        alarm(LONGEST);
        make_world();
        damages = one_in(20) ? 0 : 1 + (int)below(3);
        damaged_worlds += damages > 0;
        while (damages) damages -= damage_once();
        make_sheet();
        if (one_in(2)) {
            damaged_sheets++;
            while (!damage_sheet()) {}
        }
        lengths();
        call_check_table();
        call_list();
        call_asked();
        call_propagate();
        call_run(0);
        call_run(1);
        call_write();
        call_sizes_and_read();
    }
    alarm(0);
    return report(cases);
}
