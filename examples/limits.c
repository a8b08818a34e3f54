/* Holds the sizes of sepia.h against each other and against the library: the largest table reaches each of them, a byte less is refused, and
 * so is what is past a limit. Build and run: examples/run-c */
#include <stdio.h>
#include <stdlib.h>
#include <string.h>
#include "sepia.h"

enum { SLOTS = SEPIA_MAX_SLOTS, ATOMS = SEPIA_MAX_ATOMS, NODES = SEPIA_MAX_NODES };

/* the rows of G[0,63] at a slot, where the plan comes round: two terms for each slot, and one row with all */
#define WINDOW_BYTES (SLOTS * (SEPIA_ROW_BYTES + 2 * SEPIA_TERM_BYTES) + SEPIA_ROW_BYTES + SEPIA_MAX_TERMS * SEPIA_TERM_BYTES)

_Static_assert(SEPIA_MAX_TABLE == NODES * SEPIA_NODE_BYTES, "a table has at most 128 records");
_Static_assert(SEPIA_NODE_HEIGHT + 1 == SEPIA_NODE_BYTES, "the height is a record's last byte");
_Static_assert(SEPIA_MAX_VARIABLES == (ATOMS + NODES + (NODES - 1)) * SLOTS, "the first node is an atom, and has no V");
_Static_assert(SEPIA_MAX_TERMS == SLOTS + 1, "a window has a term for each slot, and the node's");
_Static_assert(SEPIA_MAX_ROWS == (NODES - 1) * SLOTS * (SLOTS + 1) + SLOTS + 1, "127 windows, an atom, the goal row");
_Static_assert(SEPIA_MAX_ROWS_BYTES == (NODES - 1) * SLOTS * WINDOW_BYTES + SLOTS * 11 + 8, "the same in bytes");
_Static_assert(sizeof(sepia_answer) == 8 && sizeof(sepia_verdict) == 24, "the structs have no padding that counts");

static uint8_t table[SEPIA_MAX_TABLE + 1], text[SEPIA_MAX_TEXT + 1], *out;
static int32_t figures[SEPIA_MAX_VARIABLES + 1];
static int failed;

static void expect(const char *what, uint64_t got, uint64_t want) {
    if (got == want) return;
    printf("%s: %llu, and not %llu\n", what, (unsigned long long)got, (unsigned long long)want);
    failed = 1;
}

/* an atom under 127 nodes of one kind; `to` is b of their window, and `right` the distance of the right child, 0 for none */
static void chain(uint8_t kind, uint8_t to, uint8_t right) {
    for (uint8_t n = 0; n < NODES; n++) {
        uint8_t record[] = {0x4E, 0x44, n ? kind : SEPIA_KIND_ATOM, n ? n - 1 : 0, n && right ? n - right : 0, 0, n ? to : 0, n};
        memcpy(table + SEPIA_NODE_BYTES * n, record, sizeof record);
    }
}

static sepia_answer rows(size_t t, size_t room) { return sepia_rows(table, SEPIA_MAX_TABLE, t, ATOMS, 1, out, room); }

static sepia_answer page(size_t m, size_t room) { return sepia_mps(table, SEPIA_MAX_TABLE, SLOTS, m, 1, out, room); }

static sepia_verdict judge(size_t count, int32_t e) { return sepia_judge(table, SEPIA_MAX_TABLE, SLOTS, ATOMS, 1, figures, count, e); }

/* 127 windows over all slots of a plan that comes round: the most rows, and the longest page */
static void largest_outputs(void) {
    chain(SEPIA_KIND_THROUGHOUT, SLOTS - 1, 0);
    expect("rows", rows(SLOTS, SEPIA_MAX_ROWS_BYTES).value, SEPIA_MAX_ROWS);
    expect("terms", out[SEPIA_MAX_ROWS_BYTES - 8 - (SEPIA_ROW_BYTES + SEPIA_MAX_TERMS * SEPIA_TERM_BYTES) + 3], SEPIA_MAX_TERMS);
    expect("rows in a byte less", rows(SLOTS, SEPIA_MAX_ROWS_BYTES - 1).refusal, SEPIA_REFUSED_ROOM);
    expect("page", page(ATOMS, SEPIA_MAX_PAGE).value, SEPIA_MAX_PAGE);
    expect("page in a byte less", page(ATOMS, SEPIA_MAX_PAGE - 1).refusal, SEPIA_REFUSED_ROOM);
    expect("T", rows(SLOTS + 1, SEPIA_MAX_ROWS_BYTES).refusal, SEPIA_REFUSED_SLOTS);
    expect("M", page(ATOMS + 1, SEPIA_MAX_PAGE).refusal, SEPIA_REFUSED_ATOMS);
}

/* 127 untils of one part on both sides: the most variables, and figures that are all 1 pass */
static void most_variables(void) {
    chain(SEPIA_KIND_UNTIL, 0, 1);
    for (size_t i = 0; i <= SEPIA_MAX_VARIABLES; i++) figures[i] = SEPIA_ONE;
    expect("verdict", judge(SEPIA_MAX_VARIABLES, SEPIA_MAX_TOLERANCE).verdict, SEPIA_PASSED);
    expect("figures", judge(SEPIA_MAX_VARIABLES + 1, 0).refusal, SEPIA_REFUSED_FIGURES);
    expect("tolerance", judge(SEPIA_MAX_VARIABLES, SEPIA_MAX_TOLERANCE + 1).refusal, SEPIA_REFUSED_TOLERANCE);
}

/* 127 times ! and an atom, behind spaces: the longest text, and the most nodes */
static void longest_text(void) {
    memset(text, ' ', sizeof text);
    memset(text, '!', NODES - 1);
    memcpy(text + NODES - 1, "a0", 2);
    expect("nodes", sepia_read(text, SEPIA_MAX_TEXT, ATOMS, table, SEPIA_MAX_TABLE).value, NODES);
    expect("table in a byte less", sepia_read(text, SEPIA_MAX_TEXT, ATOMS, table, SEPIA_MAX_TABLE - 1).refusal, SEPIA_REFUSED_ROOM);
    expect("text", sepia_read(text, SEPIA_MAX_TEXT + 1, ATOMS, table, SEPIA_MAX_TABLE).refusal, SEPIA_REFUSED_LONG_TEXT);
}

/* null pointers with the length 0 */
static void nothing_lent(void) {
    expect("no text", sepia_read(NULL, 0, 1, NULL, 0).refusal, SEPIA_REFUSED_GRAMMAR);
    expect("no table", sepia_rows(NULL, 0, 1, 1, 1, NULL, 0).refusal, SEPIA_REFUSED_TABLE);
    expect("no page", sepia_mps(table, SEPIA_NODE_BYTES, 1, 1, 1, NULL, 0).refusal, SEPIA_REFUSED_ROOM);
    expect("no run", sepia_evaluate(table, SEPIA_NODE_BYTES, 1, 1, 1, NULL, 0, NULL, 0).refusal, SEPIA_REFUSED_RUN);
    expect("no figures", sepia_judge(table, SEPIA_NODE_BYTES, 1, 1, 1, NULL, 0, 0).refusal, SEPIA_REFUSED_FIGURES);
}

int main(void) {
    expect("version", sepia_version(), SEPIA_VERSION);
    out = malloc(SEPIA_MAX_PAGE);
    if (!out) return 1;
    longest_text();
    most_variables();
    largest_outputs();
    nothing_lent();
    puts(failed ? "the limits of sepia.h are not the library's" : "the limits of sepia.h are the library's");
    return failed;
}
