/* Calls every function of include/murghidossu.h as a C program does, and compares with what was recorded.
 *
 *     c/test            builds the archive and this program, and runs it on vectors/
 *
 * The recorded runs, refusals and sheets of vectors/ (vectors/README.md says their form), each refusal of each call once more by hand, with all
 * the later faults of the call's order beside it, and what the header says of memory: refused, what could be written is as it was; accepted,
 * work memory is zero and what stands past an output stays. */
#define _POSIX_C_SOURCE 200112L
#include "murghidossu.h"
#include <pthread.h>
#include <stdio.h>
#include <stdlib.h>
#include <string.h>

static unsigned long checks, failures;

static void expect_at(int line, const char *what, uint64_t got, uint64_t wanted) {
    checks++;
    if (got == wanted) return;
    failures++;
    printf("c/test.c:%d: %s: %llu, not %llu\n", line, what, (unsigned long long)got, (unsigned long long)wanted);
}
#define EXPECT(what, got, wanted) expect_at(__LINE__, what, (uint64_t)(got), (uint64_t)(wanted))

/* ---- a recorded case: lines of a word and numbers */

enum { PATTERNS, WEIGHTS, OFFSETS, IDS, GRID, FORBIDS, NOISE, WORDS, END, DOMAINS, ASK, PART, ROOM, REFUSED, OUTPUTS, WORK, LINES };
static const char *const names[LINES] = {"patterns", "weights", "offsets", "ids",  "grid", "forbids", "noise",   "words",
                                         "end",      "domains", "ask",     "part", "room", "refused", "outputs", "work"};

#define MOST 70000
static struct {
    char name[200], call[20];
    uint64_t numbers[LINES][MOST];
    size_t many[LINES];
    int there[LINES];
    uint8_t sheet[MOST], result[MOST];
    size_t sheet_many, result_many;
} the;

static size_t hex(const char *text, uint8_t *bytes) {
    size_t n = 0;
    unsigned byte;
    while (sscanf(text + 2 * n, "%2x", &byte) == 1) bytes[n++] = (uint8_t)byte;
    return n;
}

/* BYTES * N TAIL: the bytes, then N times the tail */
static size_t bytes_of(char *text, uint8_t *bytes) {
    char *star = strstr(text, " * ");
    size_t n, many, tail;
    static uint8_t more[64];
    if (star) *star = 0;
    n = hex(text, bytes);
    if (!star) return n;
    many = strtoul(star + 3, &star, 10);
    for (tail = hex(star + 1, more); many--; n += tail) memcpy(bytes + n, more, tail);
    return n;
}

/* * N RECORD LAST: N times a record, and then another once */
static void numbers_of(char *text, int line) {
    uint64_t *to = the.numbers[line], last[6];
    size_t n = 0, times = 0, k;
    char *end;
    if (*text == '*') times = strtoul(text + 1, &text, 10);
    for (;; text = end) {
        uint64_t x = strtoull(text, &end, 10);
        if (end == text) break;
        to[n++] = x;
    }
    if (times) {
        memcpy(last, to, sizeof last);
        for (k = 0; k < times; k++) memcpy(to + 3 * k, last, 3 * sizeof *to);
        memcpy(to + 3 * times, last + 3, 3 * sizeof *to);
        n = 3 * times + 3;
    }
    the.many[line] = n;
    the.there[line] = 1;
}

/* The next case of a file, 0 at its end. */
static int next_case(FILE *file) {
    static char text[2000000];
    int line, some = 0;
    memset(the.many, 0, sizeof the.many);
    memset(the.there, 0, sizeof the.there);
    the.sheet_many = the.result_many = 0;
    strcpy(the.call, "run");
    while (fgets(text, sizeof text, file)) {
        char *rest = strchr(text, ' ');
        text[strcspn(text, "\n")] = 0;
        if (!*text && some) return 1;
        if (!*text || *text == '#') continue;
        some = 1;
        if (rest) *rest++ = 0;
        else rest = text + strlen(text);
        if (!strcmp(text, "case")) snprintf(the.name, sizeof the.name, "%s", rest);
        else if (!strcmp(text, "call")) snprintf(the.call, sizeof the.call, "%s", rest);
        else if (!strcmp(text, "sheet")) the.sheet_many = bytes_of(rest, the.sheet);
        else if (!strcmp(text, "result")) the.result_many = hex(rest, the.result);
        for (line = 0; line < LINES; line++)
            if (!strcmp(text, names[line])) numbers_of(rest, line);
    }
    return some;
}

/* ---- what is lent, with old content in it */

static uint32_t weights[MOST], offsets[MOST], noise[MOST], words[MOST], forbids[MOST];
static uint8_t ids[MOST];
static uint64_t domains[2048];
static uint8_t counts[300000], marks[4096];
static uint32_t pending[80000];
static float floats[4096];
static uint8_t out[MOST];

#define OLD 0xa5
static int old(const void *from, size_t bytes) {
    const uint8_t *p = from;
    while (bytes--)
        if (p[bytes] != OLD) return 0;
    return 1;
}
static int zero(const void *from, size_t bytes) {
    const uint8_t *p = from;
    while (bytes--)
        if (p[bytes]) return 0;
    return 1;
}
static void refill(void) {
    memset(domains, OLD, sizeof domains);
    memset(counts, OLD, sizeof counts);
    memset(marks, OLD, sizeof marks);
    memset(pending, OLD, sizeof pending);
    memset(floats, OLD, sizeof floats);
    memset(out, OLD, sizeof out);
}

static size_t count, width, height, mode, cells, lent, more;

static void lend_case(void) {
    size_t k;
    count = (size_t)the.numbers[PATTERNS][0];
    width = (size_t)the.numbers[GRID][0];
    height = (size_t)the.numbers[GRID][1];
    mode = (size_t)the.numbers[GRID][2];
    cells = width * height;
    lent = the.there[OUTPUTS] ? (size_t)the.numbers[OUTPUTS][0] : cells;
    more = the.there[WORK] ? (size_t)the.numbers[WORK][0] : 0;
    for (k = 0; k < the.many[WEIGHTS]; k++) weights[k] = (uint32_t)the.numbers[WEIGHTS][k];
    for (k = 0; k < the.many[OFFSETS]; k++) offsets[k] = (uint32_t)the.numbers[OFFSETS][k];
    for (k = 0; k < the.many[IDS]; k++) ids[k] = (uint8_t)the.numbers[IDS][k];
    for (k = 0; k < the.many[NOISE]; k++) noise[k] = (uint32_t)the.numbers[NOISE][k];
    for (k = 0; k < the.many[WORDS]; k++) words[k] = (uint32_t)the.numbers[WORDS][k];
    for (k = 0; k < the.many[FORBIDS]; k++) forbids[k] = (uint32_t)the.numbers[FORBIDS][k];
    refill();
}

/* the lengths of work memory */
static size_t n_counts(void) { return MURGHIDOSSU_COUNTS_LENGTH(count, cells) + more; }
static size_t n_pending(void) { return MURGHIDOSSU_PENDING_LENGTH(count, cells) + more; }
static size_t n_floats(void) { return MURGHIDOSSU_FLOATS_LENGTH(cells) + more; }
static size_t n_marks(void) { return MURGHIDOSSU_MARKS_LENGTH(cells) + more; }

static uint64_t call_run(void) {
    return murghidossu_run(forbids, the.many[FORBIDS], count, width, height, mode, weights, the.many[WEIGHTS], offsets, the.many[OFFSETS], ids,
                           the.many[IDS], noise, the.many[NOISE], words, the.many[WORDS], domains, lent, counts, n_counts(), pending,
                           n_pending(), floats, n_floats(), marks, n_marks());
}
static uint64_t call_result(size_t room) {
    return murghidossu_run_result(forbids, the.many[FORBIDS], count, width, height, mode, weights, the.many[WEIGHTS], offsets,
                                  the.many[OFFSETS], ids, the.many[IDS], noise, the.many[NOISE], words, the.many[WORDS], domains, lent, counts,
                                  n_counts(), pending, n_pending(), floats, n_floats(), marks, n_marks(), out, room);
}
static uint64_t call_propagate(void) {
    return murghidossu_propagate(count, offsets, the.many[OFFSETS], ids, the.many[IDS], width, height, mode, domains, lent, counts, n_counts(),
                                 pending, n_pending());
}
static uint64_t call_table(void) {
    return murghidossu_check_table(count, weights, the.many[WEIGHTS], offsets, the.many[OFFSETS], ids, the.many[IDS]);
}
static uint64_t call_write(size_t room) {
    return murghidossu_write(count, weights, the.many[WEIGHTS], offsets, the.many[OFFSETS], ids, the.many[IDS], width, height, mode, forbids,
                             the.many[FORBIDS], out, room);
}

/* all that a run may write is as it was */
static int untouched(void) {
    return old(domains, sizeof domains) && old(counts, sizeof counts) && old(pending, sizeof pending) && old(floats, sizeof floats) &&
           old(marks, sizeof marks) && old(out, sizeof out);
}
/* work memory is zero, and what lies past it as it was */
static int worked_off(void) {
    size_t c = n_counts(), p = 4 * n_pending(), f = 4 * n_floats(), m = n_marks();
    return zero(counts, c) && old(counts + c, sizeof counts - c) && zero(pending, p) && old((uint8_t *)pending + p, sizeof pending - p) &&
           zero(floats, f) && old((uint8_t *)floats + f, sizeof floats - f) && zero(marks, m) && old(marks + m, sizeof marks - m) &&
           old((uint8_t *)domains + 8 * cells, sizeof domains - 8 * cells);
}

/* what a sheet is read into has old content, and has it still */
static void forget(void) {
    memset(weights, OLD, sizeof weights);
    memset(offsets, OLD, sizeof offsets);
    memset(ids, OLD, sizeof ids);
    memset(forbids, OLD, sizeof forbids);
}
static int forgotten(void) {
    return old(weights, sizeof weights) && old(offsets, sizeof offsets) && old(ids, sizeof ids) && old(forbids, sizeof forbids);
}

/* ---- recorded runs and sheets */

static void check_end(uint64_t answer) {
    size_t k;
    EXPECT("refusal", murghidossu_refusal_of(answer), 0);
    EXPECT("end", murghidossu_case_of(answer), the.numbers[END][0]);
    EXPECT("words used", murghidossu_value_of(answer), the.numbers[END][1]);
    for (k = 0; k < cells; k++) EXPECT("domain", domains[k], the.numbers[DOMAINS][k]);
    EXPECT("work memory", worked_off(), 1);
}

static void recorded_run(void) {
    lend_case();
    check_end(call_run());
    refill();
    check_end(call_result(MURGHIDOSSU_RESULT_LENGTH(cells)));
    EXPECT("past the result", old(out + MURGHIDOSSU_RESULT_LENGTH(cells), 100), 1);
    EXPECT("the table", call_table(), 0);
}

static void recorded_sheet(void) {
    size_t measures[MURGHIDOSSU_MEASURES_LENGTH], k, n;
    lend_case();
    EXPECT("bytes written", call_write(the.sheet_many + 3), (uint64_t)the.sheet_many << 32);
    EXPECT("the sheet", memcmp(out, the.sheet, the.sheet_many), 0);
    EXPECT("past the sheet", old(out + the.sheet_many, sizeof out - the.sheet_many), 1);
    refill();
    EXPECT("run", murghidossu_refusal_of(call_result(the.result_many)), 0);
    EXPECT("the result", memcmp(out, the.result, the.result_many), 0);
    EXPECT("past the result", old(out + the.result_many, sizeof out - the.result_many), 1);
    EXPECT("sizes", murghidossu_sizes(the.sheet, the.sheet_many, measures, MURGHIDOSSU_MEASURES_LENGTH), 0);
    EXPECT("count", measures[MURGHIDOSSU_SHEET_COUNT], count);
    EXPECT("ids", measures[MURGHIDOSSU_SHEET_IDS], the.many[IDS]);
    EXPECT("width", measures[MURGHIDOSSU_SHEET_WIDTH], width);
    EXPECT("height", measures[MURGHIDOSSU_SHEET_HEIGHT], height);
    EXPECT("mode", measures[MURGHIDOSSU_SHEET_MODE], mode);
    EXPECT("forbids", measures[MURGHIDOSSU_SHEET_FORBIDS], the.many[FORBIDS] / 3);
    forget();
    n = the.many[FORBIDS];
    EXPECT("read", murghidossu_read(the.sheet, the.sheet_many, weights, count, offsets, 4 * count + 1, ids, the.many[IDS] + 5, forbids, n + 4), 0);
    for (k = 0; k < count; k++) EXPECT("weight", weights[k], the.numbers[WEIGHTS][k]);
    for (k = 0; k < 4 * count + 1; k++) EXPECT("offset", offsets[k], the.numbers[OFFSETS][k]);
    for (k = 0; k < the.many[IDS]; k++) EXPECT("id", ids[k], the.numbers[IDS][k]);
    for (k = 0; k < n; k++) EXPECT("forbid", forbids[k], k % 3 == 2 ? the.numbers[FORBIDS][k] != 0 : the.numbers[FORBIDS][k]);
    EXPECT("past the ids", old(ids + the.many[IDS], 100), 1);
    EXPECT("past the forbids", old(forbids + n, 100), 1);
}

/* ---- recorded refusals */

static void recorded_refusal(void) {
    uint64_t wanted = the.numbers[REFUSED][0], answer;
    size_t k;
    lend_case();
    if (!strcmp(the.call, "run")) {
        answer = call_run();
        EXPECT("refusal", murghidossu_refusal_of(answer), wanted);
        if (wanted) EXPECT("nothing changed", untouched() && answer == wanted, 1);
        refill();
        answer = call_result(sizeof out);
        EXPECT("refusal with a result", murghidossu_refusal_of(answer), wanted);
        if (wanted) EXPECT("nothing changed", untouched() && answer == wanted, 1);
    } else if (!strcmp(the.call, "propagate")) {
        for (k = 0; k < the.many[DOMAINS]; k++) domains[k] = the.numbers[DOMAINS][k];
        answer = murghidossu_propagate(count, offsets, the.many[OFFSETS], ids, the.many[IDS], width, height, mode, domains, the.many[DOMAINS],
                                       counts, n_counts(), pending, n_pending());
        EXPECT("refusal", murghidossu_refusal_of(answer), wanted);
        for (k = 0; wanted && k < the.many[DOMAINS]; k++) EXPECT("domain", domains[k], the.numbers[DOMAINS][k]);
        if (wanted) EXPECT("work memory", old(counts, sizeof counts) && old(pending, sizeof pending), 1);
    } else if (!strcmp(the.call, "lookup")) {
        size_t pattern = (size_t)the.numbers[ASK][0], direction = (size_t)the.numbers[ASK][1];
        answer = murghidossu_list(count, offsets, the.many[OFFSETS], ids, the.many[IDS], pattern, direction);
        EXPECT("refusal", murghidossu_refusal_of(answer), wanted);
        EXPECT("beside", murghidossu_list_refusal(count, offsets, the.many[OFFSETS], ids, the.many[IDS], pattern, direction), wanted);
        EXPECT("length", murghidossu_case_of(answer), the.many[PART]);
        for (k = 0; k < the.many[PART]; k++) EXPECT("id", ids[murghidossu_value_of(answer) + k], the.numbers[PART][k]);
    } else if (!strcmp(the.call, "write")) {
        answer = call_write((size_t)the.numbers[ROOM][0]);
        EXPECT("refusal", murghidossu_refusal_of(answer), wanted);
        if (wanted) EXPECT("nothing written", old(out, sizeof out), 1);
    } else {
        /* where they are not told, room for two patterns, eight ids and two forbids */
        static const size_t two[MURGHIDOSSU_MEASURES_LENGTH] = {2, 8, 0, 0, 0, 2};
        size_t measures[MURGHIDOSSU_MEASURES_LENGTH];
        memcpy(measures, two, sizeof two);
        answer = murghidossu_sizes(the.sheet, the.sheet_many, measures, MURGHIDOSSU_MEASURES_LENGTH);
        EXPECT("sizes", answer, wanted == 10 ? 10 : 0);
        if (wanted == 10) EXPECT("nothing measured", memcmp(measures, two, sizeof two), 0);
        forget();
        answer = murghidossu_read(the.sheet, the.sheet_many, weights, measures[MURGHIDOSSU_SHEET_COUNT], offsets,
                                  4 * measures[MURGHIDOSSU_SHEET_COUNT] + 1, ids, measures[MURGHIDOSSU_SHEET_IDS], forbids,
                                  3 * measures[MURGHIDOSSU_SHEET_FORBIDS]);
        EXPECT("refusal", answer, wanted);
        if (wanted) EXPECT("nothing read", forgotten(), 1);
    }
}

/* ---- each refusal by hand */

/* two patterns, each of which may stand only beside the other */
static const uint32_t two_weights[2] = {2, 3}, two_offsets[9] = {0, 1, 2, 3, 4, 5, 6, 7, 8};
static const uint8_t two_ids[8] = {1, 1, 1, 1, 0, 0, 0, 0}, odd_ids[8] = {0, 1, 1, 1, 0, 0, 0, 0};

static void asked(void) {
    static const uint32_t heavy[2] = {1000, 25};
    EXPECT("north of an edge", murghidossu_neighbour(3, 2, 0, 1, MURGHIDOSSU_NORTH), 256 * MURGHIDOSSU_NONE);
    EXPECT("south", murghidossu_neighbour(3, 2, 0, 1, MURGHIDOSSU_SOUTH), (uint64_t)4 << 32);
    EXPECT("round the seam", murghidossu_neighbour(3, 2, MURGHIDOSSU_WRAP_X, 5, MURGHIDOSSU_EAST), (uint64_t)3 << 32);
    EXPECT("size", murghidossu_neighbour(32, 33, 4, 9999, 9), MURGHIDOSSU_BAD_SIZE);
    EXPECT("wrap", murghidossu_neighbour(32, 32, 4, 9999, 9), MURGHIDOSSU_BAD_WRAP);
    EXPECT("direction", murghidossu_neighbour(32, 32, 3, 9999, 9), MURGHIDOSSU_BAD_DIRECTION);
    EXPECT("cell", murghidossu_neighbour(32, 32, 3, 1024, 3), MURGHIDOSSU_BAD_CELL);
    EXPECT("count", murghidossu_entropy_of(65, two_weights, 2, 99), MURGHIDOSSU_BAD_COUNT);
    EXPECT("length", murghidossu_entropy_of(1, two_weights, 2, 99), MURGHIDOSSU_BAD_LENGTH);
    EXPECT("weights", murghidossu_entropy_of(2, heavy, 2, 99), MURGHIDOSSU_BAD_WEIGHTS);
    EXPECT("pattern", murghidossu_entropy_of(2, two_weights, 2, 4), MURGHIDOSSU_BAD_PATTERN);
    EXPECT("no entropy", murghidossu_entropy_of(2, two_weights, 2, 0), 256 * MURGHIDOSSU_NONE);
    EXPECT("entropy", murghidossu_entropy_in(murghidossu_entropy_of(2, two_weights, 2, 3)) > 0.97f, 1);
    EXPECT("entropy", murghidossu_entropy_in(murghidossu_entropy_of(2, two_weights, 2, 3)) < 0.972f, 1);
    EXPECT("count", murghidossu_choice_of(0, two_weights, 2, 99, 1), MURGHIDOSSU_BAD_COUNT);
    EXPECT("length", murghidossu_choice_of(3, two_weights, 2, 99, 1), MURGHIDOSSU_BAD_LENGTH);
    EXPECT("weights", murghidossu_choice_of(2, heavy, 2, 99, 1), MURGHIDOSSU_BAD_WEIGHTS);
    EXPECT("pattern", murghidossu_choice_of(2, two_weights, 2, 7, 1), MURGHIDOSSU_BAD_PATTERN);
    EXPECT("word 1", murghidossu_choice_of(2, two_weights, 2, 3, 1), 0);
    EXPECT("word 2", murghidossu_choice_of(2, two_weights, 2, 3, 2), (uint64_t)1 << 32);
    EXPECT("word 4", murghidossu_choice_of(2, two_weights, 2, 3, 4), (uint64_t)1 << 32);
    EXPECT("word 5", murghidossu_choice_of(2, two_weights, 2, 3, 5), 0);
    EXPECT("no choice", murghidossu_choice_of(2, two_weights, 2, 0, 5), 256 * MURGHIDOSSU_NONE);
    EXPECT("count", murghidossu_check_table(0, 0, 0, 0, 0, 0, 0), MURGHIDOSSU_BAD_COUNT);
    EXPECT("length", murghidossu_check_table(2, two_weights, 2, two_offsets, 8, two_ids, 8), MURGHIDOSSU_BAD_LENGTH);
    EXPECT("weights", murghidossu_check_table(2, heavy, 2, two_offsets, 9, two_ids, 7), MURGHIDOSSU_BAD_WEIGHTS);
    EXPECT("list", murghidossu_check_table(2, two_weights, 2, two_offsets, 9, two_ids, 7), MURGHIDOSSU_BAD_LIST);
    EXPECT("disagree", murghidossu_check_table(2, two_weights, 2, two_offsets, 9, odd_ids, 8), MURGHIDOSSU_DISAGREE);
    EXPECT("accepted", murghidossu_check_table(2, two_weights, 2, two_offsets, 9, two_ids, 8), MURGHIDOSSU_ACCEPTED);
    EXPECT("length", murghidossu_list(2, two_offsets, 3, two_ids, 8, 9, 9), MURGHIDOSSU_BAD_LENGTH);
    EXPECT("disagree", murghidossu_list_refusal(2, two_offsets, 9, odd_ids, 8, 9, 9), MURGHIDOSSU_DISAGREE);
}

/* ---- each refusal in its turn */

/* the two patterns on 2 by 1, with no forbid */
static void checker(void) {
    size_t k;
    count = 2;
    width = 2;
    height = 1;
    mode = MURGHIDOSSU_WRAP_NONE;
    cells = lent = 2;
    more = 0;
    memcpy(weights, two_weights, sizeof two_weights);
    memcpy(offsets, two_offsets, sizeof two_offsets);
    memcpy(ids, two_ids, sizeof two_ids);
    for (k = 0; k < 2; k++) noise[k] = words[k] = (uint32_t)(5 - k);
    the.many[WEIGHTS] = the.many[NOISE] = the.many[WORDS] = 2;
    the.many[OFFSETS] = 9;
    the.many[IDS] = 8;
    the.many[FORBIDS] = 0;
    refill();
}
/* another forbid, before all others */
static void forbid_first(uint32_t cell, uint32_t pattern) {
    memmove(forbids + 3, forbids, the.many[FORBIDS] * sizeof *forbids);
    forbids[0] = cell;
    forbids[1] = pattern;
    forbids[2] = 0;
    the.many[FORBIDS] += 3;
}
static void bad_pattern(void) { forbid_first(1, 2); }
static void bad_cell(void) { forbid_first(2, 2); }
static void disagree(void) { ids[0] = 0; }
static void bad_list(void) { ids[1] = 9; }
static void bad_weights(void) { weights[0] = 1023; }
static void bad_length(void) { the.many[OFFSETS] = 8; }
static void bad_wrap(void) { mode = 4; }
static void bad_size(void) { width = 65; }
static void bad_count(void) { count = 0; }

/* Faults, the last of a run's order first: each is put to those above it, and then each call tells this. Domains have a pattern that does not
 * exist, and the list asked for a pattern and a direction that do not. A sheet is lent room for three patterns where it has no lengths. */
static const struct {
    void (*put)(void);
    unsigned run, propagate, list, table, read;
} faults[] = {
    {bad_pattern, 9, 9, 11, 0, 9}, {bad_cell, 8, 9, 11, 0, 8}, {disagree, 7, 7, 7, 7, 7}, {bad_list, 6, 6, 6, 6, 6}, {bad_weights, 4, 6, 6, 4, 4},
    {bad_length, 5, 5, 5, 5, 5},   {bad_wrap, 2, 2, 5, 5, 2},  {bad_size, 1, 1, 5, 5, 1}, {bad_count, 3, 3, 3, 3, 3},
};
#define FAULTS (sizeof faults / sizeof *faults)

/* what is lent now as the bytes of a sheet, whether it can be written or not */
static size_t u16(size_t at, size_t number) {
    the.sheet[at] = (uint8_t)number;
    the.sheet[at + 1] = (uint8_t)(number >> 8);
    return at + 2;
}
static size_t closed(size_t head, size_t kind, size_t end) {
    u16(head, end - head - 4);
    u16(head + 2, 0);
    u16(head + 4, kind);
    return end;
}
static void sheet_of_lent(void) {
    size_t k, head = 0, n = u16(6, count);
    for (k = 0; k < count; k++) n = u16(n, weights[k]);
    head = closed(head, 1, n);
    for (n += 6, k = 0; k < 4 * count; k++) {
        the.sheet[n++] = 1;
        the.sheet[n++] = ids[k];
    }
    head = closed(head, 2, n);
    n = u16(u16(u16(n + 6, width), height), mode);
    head = closed(head, 3, n);
    for (n += 6, k = 0; k < the.many[FORBIDS]; k++) n = u16(n, forbids[k]);
    the.sheet_many = closed(head, 4, n);
}
/* reads it into so many entries */
static void read_it(uint64_t wanted, size_t n_weights, size_t n_offsets, size_t n_ids, size_t n_forbids) {
    forget();
    EXPECT("read", murghidossu_read(the.sheet, the.sheet_many, weights, n_weights, offsets, n_offsets, ids, n_ids, forbids, n_forbids), wanted);
    EXPECT("nothing read", forgotten(), wanted != 0);
}

static void one_after_the_other(size_t many) {
    static const uint64_t start[2] = {1, 4};
    size_t k, patterns = 2;
    unsigned run = faults[many - 1].run;
    checker();
    for (k = 0; k < many; k++) faults[k].put();
    EXPECT("run", call_run(), run);
    EXPECT("run with a result", call_result(sizeof out), run);
    EXPECT("write", call_write(sizeof out), run);
    EXPECT("nothing changed", untouched(), 1);
    memcpy(domains, start, sizeof start);
    EXPECT("propagate", call_propagate(), faults[many - 1].propagate);
    EXPECT("the domains", memcmp(domains, start, sizeof start), 0);
    EXPECT("work memory", old(counts, sizeof counts) && old(pending, sizeof pending), 1);
    EXPECT("list", murghidossu_list(count, offsets, the.many[OFFSETS], ids, the.many[IDS], 2, 4), faults[many - 1].list);
    EXPECT("beside it", murghidossu_list_refusal(count, offsets, the.many[OFFSETS], ids, the.many[IDS], 2, 4), faults[many - 1].list);
    EXPECT("table", call_table(), faults[many - 1].table);
    sheet_of_lent();
    for (k = 0; k < many; k++)
        if (faults[k].put == bad_length) patterns = 3;
    read_it(faults[many - 1].read, patterns, 4 * patterns + 1, 8, 6);
    the.sheet_many++;
    read_it(MURGHIDOSSU_BAD_SHEET, patterns, 4 * patterns + 1, 8, 6);
}

static void in_turn(void) {
    size_t many, whole;
    for (many = 1; many <= FAULTS; many++) one_after_the_other(many);
    /* the forbids one by one: a pattern of the first before a cell of the second */
    checker();
    bad_cell();
    bad_pattern();
    EXPECT("run", call_run(), MURGHIDOSSU_BAD_PATTERN);
    EXPECT("run with a result", call_result(sizeof out), MURGHIDOSSU_BAD_PATTERN);
    EXPECT("write", call_write(sizeof out), MURGHIDOSSU_BAD_PATTERN);
    EXPECT("nothing changed", untouched(), 1);
    sheet_of_lent();
    read_it(MURGHIDOSSU_BAD_PATTERN, 2, 9, 8, 6);
    /* without a fault, asked for what there is and what there is not, and lent to be read with each length */
    checker();
    EXPECT("west of 1", murghidossu_list(2, offsets, 9, ids, 8, 1, MURGHIDOSSU_WEST), (uint64_t)7 << 32 | 1 << 8);
    EXPECT("of no pattern", murghidossu_list(2, offsets, 9, ids, 8, 2, MURGHIDOSSU_WEST), MURGHIDOSSU_BAD_PATTERN);
    EXPECT("beside it", murghidossu_list_refusal(2, offsets, 9, ids, 8, 2, MURGHIDOSSU_WEST), MURGHIDOSSU_BAD_PATTERN);
    forbid_first(0, 1);
    sheet_of_lent();
    read_it(MURGHIDOSSU_ACCEPTED, 2, 9, 8, 3);
    read_it(MURGHIDOSSU_ACCEPTED, 2, 9, 9, 4);
    read_it(MURGHIDOSSU_BAD_LENGTH, 1, 9, 8, 3);
    read_it(MURGHIDOSSU_BAD_LENGTH, 3, 9, 8, 3);
    read_it(MURGHIDOSSU_BAD_LENGTH, 2, 8, 8, 3);
    read_it(MURGHIDOSSU_BAD_LENGTH, 2, 10, 8, 3);
    read_it(MURGHIDOSSU_BAD_LENGTH, 2, 9, 7, 3);
    read_it(MURGHIDOSSU_BAD_LENGTH, 2, 9, 8, 2);
    for (whole = the.sheet_many, the.sheet_many = 0; the.sheet_many < whole; the.sheet_many++) read_it(MURGHIDOSSU_BAD_SHEET, 2, 9, 8, 3);
}

/* the smallest sheet of docs/RULES.md */
static const uint8_t smallest[42] = {6, 0, 0, 0, 1, 0, 1, 0, 1, 0, 10, 0, 0, 0, 2, 0, 1, 0, 1, 0, 1, 0, 1, 0,
                                     8, 0, 0, 0, 3, 0, 1, 0, 1, 0, 0,  0, 2, 0, 0, 0, 4, 0};

/* a pointer to nothing with length 0, and slices that are only read lying over each other */
static void edges(void) {
    static const uint32_t same[9] = {0, 1, 2, 3, 4, 5, 6, 7, 8};
    size_t measures[MURGHIDOSSU_MEASURES_LENGTH];
    uint64_t cell = 1;
    uint8_t one_counts[4];
    uint32_t one_pending[1], one_weight = 1, one_offsets[5] = {0, 1, 2, 3, 4};
    float one_floats[2];
    uint8_t one_marks[MURGHIDOSSU_MARKS_LENGTH(1)], one_ids[4] = {0, 0, 0, 0};
    EXPECT("no bytes", murghidossu_sizes(NULL, 0, NULL, 0), MURGHIDOSSU_BAD_SHEET);
    EXPECT("no slices", murghidossu_read(NULL, 0, NULL, 0, NULL, 0, NULL, 0, NULL, 0), MURGHIDOSSU_BAD_SHEET);
    EXPECT("no output", murghidossu_write(1, &one_weight, 1, one_offsets, 5, one_ids, 4, 1, 1, 0, NULL, 0, NULL, 0), MURGHIDOSSU_BAD_LENGTH);
    EXPECT("no measures", murghidossu_sizes(smallest, sizeof smallest, NULL, 0), MURGHIDOSSU_BAD_LENGTH);
    EXPECT("five measures", murghidossu_sizes(smallest, sizeof smallest, measures, 5), MURGHIDOSSU_BAD_LENGTH);
    EXPECT("no forbids, no words",
           murghidossu_run(NULL, 0, 1, 1, 1, 0, &one_weight, 1, one_offsets, 5, one_ids, 4, &one_weight, 1, NULL, 0, &cell, 1, one_counts, 4,
                           one_pending, 1, one_floats, 2, one_marks, sizeof one_marks),
           MURGHIDOSSU_DECIDED);
    EXPECT("its cell", cell, 1);
    /* the weights lie over the offsets */
    EXPECT("overlapping", murghidossu_check_table(2, same + 1, 2, same, 9, two_ids, 8), MURGHIDOSSU_ACCEPTED);
}

static void file(const char *folder, const char *name, void (*check)(void), unsigned long wanted) {
    char path[4096];
    unsigned long many = 0, before;
    FILE *f;
    snprintf(path, sizeof path, "%s/%s", folder, name);
    f = fopen(path, "r");
    if (!f) {
        printf("c/test.c: cannot read %s\n", path);
        failures++;
        return;
    }
    while (before = failures, next_case(f)) {
        check();
        many++;
        if (failures > before) printf("  in %s, case %s\n", name, the.name);
    }
    fclose(f);
    EXPECT(name, many, wanted);
}

static void *everything(void *vectors) {
    file(vectors, "runs.txt", recorded_run, 300);
    file(vectors, "large.txt", recorded_run, 4);
    file(vectors, "rules_only.txt", recorded_run, 70);
    file(vectors, "refusals.txt", recorded_refusal, 184);
    file(vectors, "sheets.txt", recorded_sheet, 40);
    asked();
    in_turn();
    edges();
    return NULL;
}

/* All of it in a thread whose stack is known bytes, so that what is used of it can be seen. */
int main(int argc, char **argv) {
    static uint8_t stack[1 << 20];
    static char folder[] = "vectors";
    size_t unused = 0;
    pthread_t thread;
    pthread_attr_t with;
    memset(stack, OLD, sizeof stack);
    if (pthread_attr_init(&with) || pthread_attr_setstack(&with, stack, sizeof stack) ||
        pthread_create(&thread, &with, everything, argc > 1 ? argv[1] : folder) || pthread_join(thread, NULL)) {
        printf("c/test.c: no thread\n");
        return 1;
    }
    while (unused < sizeof stack && stack[unused] == OLD) unused++;
    printf("c/test: %lu checks, %lu failed; at most %lu bytes of stack\n", checks, failures, (unsigned long)(sizeof stack - unused));
    EXPECT("less stack than the header says", sizeof stack - unused < 200000, 1);
    return failures != 0;
}
