/* Murghidossu for C: every public call of the library.
 *
 * `rt lib`, in crates/ocean_c, writes the archive, crates/ocean_c/out/libocean_c.a, for x86-64 Linux. It calls memcpy and memset and nothing else.
 * docs/RULES.md says what each call does, docs/CONTRACTS.md which proved contract stands behind it.
 *
 * SLICES. A slice is two arguments: a pointer, and how many entries lie there (not bytes). "Published length" is the one length that a
 * slice may have; any other is refused with BAD_LENGTH. The caller promises what C cannot check:
 *   - behind each pointer lie as many entries of its type as the length says, aligned as the type asks;
 *   - slices that are written (no `const`) overlap no other slice of the same call: where they do, nothing is promised, since what was
 *     checked could change under the call. Slices that are only read may overlap;
 *   - nobody else writes any of it during the call, nor reads what the call writes.
 * A slice of length 0 is never read or written, so its pointer may be anything, NULL too. Content is never trusted: any bytes and any
 * numbers are a legal input.
 *
 * ANSWERS. Every call answers one number:
 *   bits  0 to  7   0 where the call is accepted, otherwise why it is refused (enum murghidossu_refusal);
 *   bits  8 to 31   which case it is (named with each call);
 *   bits 32 to 63   the value of that case.
 * A refused answer is the refusal's number and nothing else. Of several reasons the first in the order that each call lists is given.
 *
 * MEMORY. A refused call leaves everything that it was lent as it was. An accepted one changes only what its comment names. Work memory
 * (counts, pending, floats, marks) may hold anything when it is lent, and is all zero after an accepted call. No state lives between
 * calls, none allocates, and each ends on every input. Calls may run at the same time in several threads on slices of their own. A
 * thread that calls needs less than 200,000 bytes of stack, most of it for murghidossu_read; c/test measures it. */
#ifndef MURGHIDOSSU_H
#define MURGHIDOSSU_H

#include <stddef.h>
#include <stdint.h>
#include <string.h>

#ifdef __cplusplus
extern "C" {
#endif

/* ---- numbers */

/* Why a call is refused. */
enum murghidossu_refusal {
    MURGHIDOSSU_ACCEPTED = 0,
    MURGHIDOSSU_BAD_SIZE = 1,      /* a side is 0 or above 64, or the cells are above 1,024 */
    MURGHIDOSSU_BAD_WRAP = 2,      /* the mode is above 3 */
    MURGHIDOSSU_BAD_COUNT = 3,     /* the patterns are 0 or above 64 */
    MURGHIDOSSU_BAD_WEIGHTS = 4,   /* the weights add up to more than 1,024 */
    MURGHIDOSSU_BAD_LENGTH = 5,    /* a slice has not its published length, an output is too short, or the forbids are above 4,096 */
    MURGHIDOSSU_BAD_LIST = 6,      /* offsets that do not fit, or a list that is empty, not strictly ascending, or names no pattern */
    MURGHIDOSSU_DISAGREE = 7,      /* q may stand in direction d of p, yet p not in the opposite direction of q */
    MURGHIDOSSU_BAD_CELL = 8,      /* a cell is not in the grid */
    MURGHIDOSSU_BAD_PATTERN = 9,   /* a pattern does not exist, or a domain has the bit of one that does not */
    MURGHIDOSSU_BAD_SHEET = 10,    /* the bytes are no sheet */
    MURGHIDOSSU_BAD_DIRECTION = 11 /* the direction is above 3 */
};

/* How a run ended: the case of murghidossu_run and murghidossu_run_result. */
enum murghidossu_end {
    MURGHIDOSSU_DECIDED = 0,      /* every cell has one pattern */
    MURGHIDOSSU_UNDECIDED = 1,    /* nothing is left to choose, yet some cell has more patterns */
    MURGHIDOSSU_PAUSED = 2,       /* no word was left for the next choice */
    MURGHIDOSSU_CONTRADICTION = 3 /* a cell lost its last pattern; every domain is 0 */
};

/* The case of murghidossu_propagate. */
enum murghidossu_propagated {
    MURGHIDOSSU_CONSISTENT = 0,
    MURGHIDOSSU_INCONSISTENT = 1 /* a cell lost its last pattern; every domain is 0 */
};

/* The case of murghidossu_neighbour, murghidossu_entropy_of and murghidossu_choice_of. */
enum murghidossu_found {
    MURGHIDOSSU_FOUND = 0, /* the value is what was asked for */
    MURGHIDOSSU_NONE = 1   /* an edge that does not wrap; a domain without a weighted pattern */
};

/* Which edges of the grid are joined. */
enum murghidossu_mode {
    MURGHIDOSSU_WRAP_NONE = 0,
    MURGHIDOSSU_WRAP_X = 1, /* east meets west */
    MURGHIDOSSU_WRAP_Y = 2, /* south meets north */
    MURGHIDOSSU_WRAP_BOTH = 3
};

enum murghidossu_direction {
    MURGHIDOSSU_NORTH = 0, /* y - 1 */
    MURGHIDOSSU_EAST = 1,  /* x + 1 */
    MURGHIDOSSU_SOUTH = 2, /* y + 1 */
    MURGHIDOSSU_WEST = 3   /* x - 1 */
};

/* The limits. */
#define MURGHIDOSSU_PATTERNS 64 /* patterns, numbered from 0 */
#define MURGHIDOSSU_SIDE 64     /* width and height, each */
#define MURGHIDOSSU_CELLS 1024  /* width times height; cell = y * width + x */
#define MURGHIDOSSU_WEIGHT 1024 /* all weights together */
#define MURGHIDOSSU_FORBIDS 4096
#define MURGHIDOSSU_SHEET 41376 /* bytes of the longest sheet that is accepted */

/* The parts of an answer. */
static inline enum murghidossu_refusal murghidossu_refusal_of(uint64_t answer) { return (enum murghidossu_refusal)(answer & 255); }
static inline uint32_t murghidossu_case_of(uint64_t answer) { return (uint32_t)(answer >> 8 & 0xffffff); }
static inline uint32_t murghidossu_value_of(uint64_t answer) { return (uint32_t)(answer >> 32); }

/* ---- published lengths, in entries */

#define MURGHIDOSSU_WEIGHTS_LENGTH(patterns) (patterns)
#define MURGHIDOSSU_OFFSETS_LENGTH(patterns) (4 * (patterns) + 1)
#define MURGHIDOSSU_NOISE_LENGTH(cells) (cells)
#define MURGHIDOSSU_DOMAINS_LENGTH(cells) (cells)
#define MURGHIDOSSU_COUNTS_LENGTH(patterns, cells) (4 * (patterns) * (cells))
#define MURGHIDOSSU_PENDING_LENGTH(patterns, cells) ((patterns) * (cells))
#define MURGHIDOSSU_FLOATS_LENGTH(cells) (2 * (cells))
#define MURGHIDOSSU_MARKS_LENGTH(cells) (2 * (cells) + ((cells) + 31) / 32)
/* Three numbers for each forbid. */
#define MURGHIDOSSU_FORBIDS_LENGTH(forbids) (3 * (forbids))
/* What murghidossu_sizes writes. */
#define MURGHIDOSSU_MEASURES_LENGTH 6
/* At least so many bytes for a sheet that is written, and for a result. */
#define MURGHIDOSSU_SHEET_LENGTH(patterns, ids, forbids) (32 + 6 * (patterns) + (ids) + 6 * (forbids))
#define MURGHIDOSSU_RESULT_LENGTH(cells) (10 + 8 * (cells))

/* ---- what is lent
 *
 * A table:  count (patterns, P); offsets, 4P + 1; ids, any length. The patterns that may stand in direction d of pattern p are the ids
 *           from offset 4p + d up to the next one. Each such list is strictly ascending and not empty, and the lists agree.
 * weights:  P numbers, 0 for none, at most 1,024 together.
 * A grid:   width, height, mode.
 * forbids:  three numbers for each: cell, pattern, and 0 to forbid it there or another to keep only it; laid in order. A slice of struct
 *           murghidossu_forbid lies in memory just so: lend its first number and three times its length.
 * noise:    a number for each cell, which breaks ties; words: any number of words, one for each choice.
 * domains:  a word for each cell, bit p set where pattern p is possible. */
struct murghidossu_forbid {
    uint32_t cell;
    uint32_t pattern;
    uint32_t keep;
};

/* ---- tables */

/* Whether a table with its weights is accepted. Refusals, in order: 3 5 4 6 7. Nothing is written. */
uint64_t murghidossu_check_table(size_t count, const uint32_t *weights, size_t weights_length, const uint32_t *offsets, size_t offsets_length,
                                 const uint8_t *ids, size_t ids_length);

/* The list of a pattern and a direction, as a part of the ids. The case is how many ids it has, the value where it begins: ids[value] up to
 * ids[value + case - 1]. Refusals, in order: 3 5 6 7 11 9. Nothing is written. */
uint64_t murghidossu_list(size_t count, const uint32_t *offsets, size_t offsets_length, const uint8_t *ids, size_t ids_length, size_t pattern,
                          size_t direction);

/* Beside it, with the same arguments: 0 where it is answered, or the same refusal. Nothing is written. */
uint64_t murghidossu_list_refusal(size_t count, const uint32_t *offsets, size_t offsets_length, const uint8_t *ids, size_t ids_length,
                                  size_t pattern, size_t direction);

/* ---- what can be asked apart from a run */

/* The cell in a direction of a cell. FOUND with that cell, or NONE at an edge that does not wrap. Refusals, in order: 1 2 11 8. */
uint64_t murghidossu_neighbour(size_t width, size_t height, size_t mode, size_t cell, size_t direction);

/* The entropy of a domain. FOUND with the bits of a binary32 (murghidossu_entropy_in), never a NaN, or NONE where no pattern of the domain
 * has weight. Refusals, in order: 3 5 4 9. Nothing is written. */
uint64_t murghidossu_entropy_of(size_t count, const uint32_t *weights, size_t weights_length, uint64_t domain);

/* The pattern that a word chooses in a domain. FOUND with the pattern, or NONE where no pattern of the domain has weight. Refusals, in
 * order: 3 5 4 9. Nothing is written. */
uint64_t murghidossu_choice_of(size_t count, const uint32_t *weights, size_t weights_length, uint64_t domain, uint32_t word);

/* The entropy in an answer of murghidossu_entropy_of that found one. */
static inline float murghidossu_entropy_in(uint64_t answer) {
    uint32_t bits = murghidossu_value_of(answer);
    float entropy;
    memcpy(&entropy, &bits, sizeof entropy);
    return entropy;
}

/* ---- propagation and runs */

/* Propagates starting domains. The case is murghidossu_propagated, the value 0. Refusals, in order: 3 1 2 5 6 7 9.
 * Written: domains, to the greatest consistent subset of what they were, or to 0 in every cell where that has an empty cell; counts and
 * pending, work memory. A starting domain may be empty: that is a contradiction. */
uint64_t murghidossu_propagate(size_t count, const uint32_t *offsets, size_t offsets_length, const uint8_t *ids, size_t ids_length,
                               size_t width, size_t height, size_t mode, uint64_t *domains, size_t domains_length, uint8_t *counts,
                               size_t counts_length, uint32_t *pending, size_t pending_length);

/* A run: the forbids in order, then a choice for each word until it ends. The case is murghidossu_end, the value the words used.
 * Refusals, in order: 3 1 2 5 4 6 7, then the forbids one by one, 8 before 9 in each.
 * Written: domains, whose old content is ignored, to what the run leaves; counts, pending, floats and marks, work memory. A number of
 * forbid numbers that is no multiple of three is BAD_LENGTH, as over 4,096 forbids are; each forbid is looked at even then. */
uint64_t murghidossu_run(const uint32_t *forbids, size_t forbids_length, size_t count, size_t width, size_t height, size_t mode,
                         const uint32_t *weights, size_t weights_length, const uint32_t *offsets, size_t offsets_length, const uint8_t *ids,
                         size_t ids_length, const uint32_t *noise, size_t noise_length, const uint32_t *words, size_t words_length,
                         uint64_t *domains, size_t domains_length, uint8_t *counts, size_t counts_length, uint32_t *pending,
                         size_t pending_length, float *floats, size_t floats_length, uint8_t *marks, size_t marks_length);

/* The same, and its result: a record of kind 5 is written to the front of `out`, MURGHIDOSSU_RESULT_LENGTH(cells) bytes; bytes past it
 * stay. An `out` that is shorter is BAD_LENGTH, in its turn. No other call writes a result. */
uint64_t murghidossu_run_result(const uint32_t *forbids, size_t forbids_length, size_t count, size_t width, size_t height, size_t mode,
                                const uint32_t *weights, size_t weights_length, const uint32_t *offsets, size_t offsets_length,
                                const uint8_t *ids, size_t ids_length, const uint32_t *noise, size_t noise_length, const uint32_t *words,
                                size_t words_length, uint64_t *domains, size_t domains_length, uint8_t *counts, size_t counts_length,
                                uint32_t *pending, size_t pending_length, float *floats, size_t floats_length, uint8_t *marks,
                                size_t marks_length, uint8_t *out, size_t out_length);

/* ---- sheets */

/* Where murghidossu_sizes writes what. */
enum murghidossu_measure {
    MURGHIDOSSU_SHEET_COUNT = 0, /* patterns */
    MURGHIDOSSU_SHEET_IDS = 1,
    MURGHIDOSSU_SHEET_WIDTH = 2,
    MURGHIDOSSU_SHEET_HEIGHT = 3,
    MURGHIDOSSU_SHEET_MODE = 4,
    MURGHIDOSSU_SHEET_FORBIDS = 5
};

/* How much a sheet of any length holds, so that room for it can be lent. Refusals, in order: 10 5. The case and the value are 0.
 * Written: measures, 6 numbers. They are what the bytes say and not checked further: murghidossu_read refuses 65 patterns, this call does
 * not. */
uint64_t murghidossu_sizes(const uint8_t *sheet, size_t sheet_length, size_t *measures, size_t measures_length);

/* Reads a sheet. Refusals, in order: 10 3 1 2 5 4 6 7, then the forbids one by one, 8 before 9 in each. The case and the value are 0.
 * Written: weights (P) and offsets (4P + 1), whole; ids and forbids, as many as the sheet has at the front, which may be lent longer:
 * what stands past the last stays. A forbid's third number is 0 or 1. Grid and numbers are told by murghidossu_sizes. */
uint64_t murghidossu_read(const uint8_t *sheet, size_t sheet_length, uint32_t *weights, size_t weights_length, uint32_t *offsets,
                          size_t offsets_length, uint8_t *ids, size_t ids_length, uint32_t *forbids, size_t forbids_length);

/* Writes a sheet to the front of `out`, at least MURGHIDOSSU_SHEET_LENGTH(count, ids_length, forbids) bytes. The case is 0, the value how
 * many bytes were written, at most 41,376; bytes past them stay. Refusals, in order: 3 1 2 5 4 6 7, then the forbids one by one, 8 before
 * 9 in each. A forbid's third number is stored as 0 or 1. */
uint64_t murghidossu_write(size_t count, const uint32_t *weights, size_t weights_length, const uint32_t *offsets, size_t offsets_length,
                           const uint8_t *ids, size_t ids_length, size_t width, size_t height, size_t mode, const uint32_t *forbids,
                           size_t forbids_length, uint8_t *out, size_t out_length);

#ifdef __cplusplus
}
#endif

#endif
