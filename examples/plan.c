/* Reads a rule and draws it, writes its rows and its MPS page, evaluates a run and judges the figures that the run makes, goes through logged
 * runs for the first slot at which the rule holds, and does the same for a weekly plan that comes round. Build and run: examples/run-c */
#include <stdio.h>
#include <stdlib.h>
#include <string.h>
#include "sepia.h"

enum { T = 8, M = 2 };

/* the loop slot: of a plan that ends the last slot, which then stands for good; of a weekly one slot 2, for slot 1 is the start, once */
enum { ENDS = T, WEEKLY = 2 };

static uint8_t table[SEPIA_MAX_TABLE], rows[1 << 17], page[1 << 20]; /* rows and page: enough for every table at this T */
static uint64_t truth[SEPIA_MAX_NODES];
static int32_t figures[(M + 2 * SEPIA_MAX_NODES) * T];

static void stop(const char *call, uint32_t refusal) {
    printf("%s refused with %u\n", call, refusal);
    exit(1);
}

/* the result of a call that must not refuse */
static uint32_t value(const char *call, sepia_answer answer) {
    if (answer.refusal != SEPIA_OK) stop(call, answer.refusal);
    return answer.value;
}

static size_t bytes_of(size_t nodes) { return SEPIA_NODE_BYTES * nodes; }

static const uint8_t *node_at(size_t n) { return table + bytes_of(n); }

/* the rule as a tree, the root first, each node as far to the right as its height is below the root's */
static void draw(size_t nodes) {
    static const char *const names[] = {"", "atom", "not", "and", "or", "implies", "eventually", "always", "until", "within", "throughout"};
    int top = node_at(nodes - 1)[SEPIA_NODE_HEIGHT];
    for (size_t n = nodes; n-- > 0;) {
        const uint8_t *node = node_at(n);
        printf("%*s%s", 2 * (top - node[SEPIA_NODE_HEIGHT]), "", names[node[SEPIA_NODE_KIND]]);
        if (node[SEPIA_NODE_KIND] == SEPIA_KIND_ATOM) printf(" a%d", node[SEPIA_NODE_LEFT]);
        if (node[SEPIA_NODE_KIND] >= SEPIA_KIND_WITHIN) printf(" [%d,%d]", node[SEPIA_NODE_FROM], node[SEPIA_NODE_TO]);
        putchar('\n');
    }
}

static int has_v(const uint8_t *node) { return SEPIA_KIND_EVENTUALLY <= node[SEPIA_NODE_KIND] && node[SEPIA_NODE_KIND] <= SEPIA_KIND_UNTIL; }

/* the second slacks V of such a node: its F, G or U over the slots from each to T, from the truth of its parts */
static void fill_v(const uint8_t *node, int32_t *out) {
    int kind = node[SEPIA_NODE_KIND], holds = kind == SEPIA_KIND_ALWAYS;
    uint64_t p = truth[node[SEPIA_NODE_LEFT]], q = truth[node[SEPIA_NODE_RIGHT]];
    for (size_t s = T; s-- > 0;) {
        int left = p >> s & 1, right = q >> s & 1;
        holds = kind == SEPIA_KIND_EVENTUALLY ? left || holds : kind == SEPIA_KIND_ALWAYS ? left && holds : right || (left && holds);
        out[s] = holds * SEPIA_ONE;
    }
}

/* one figure for each variable: the atoms of the run, then each node's truth, bit s of its word for slot s + 1, and where the plan loops V.
 * The result is how many. */
static size_t fill_figures(size_t nodes, size_t l, const uint16_t *run) {
    for (size_t a = 0; a < M; a++)
        for (size_t s = 0; s < T; s++) figures[a * T + s] = (run[s] >> a & 1) * SEPIA_ONE;
    for (size_t n = 0; n < nodes; n++)
        for (size_t s = 0; s < T; s++) figures[(M + n) * T + s] = (int32_t)(truth[n] >> s & 1) * SEPIA_ONE;
    size_t count = (M + nodes) * T;
    for (size_t n = 0; n < nodes && l < T; n++)
        if (has_v(node_at(n))) {
            fill_v(node_at(n), figures + count);
            count += T;
        }
    return count;
}

/* a verdict in words; where figures passed that are nearly right, the error figure tells whether the schedule that they round to meets the rule */
static void judge(size_t nodes, size_t l, size_t count, int32_t e) {
    sepia_verdict v = sepia_judge(table, bytes_of(nodes), T, M, l, figures, count, e);
    if (v.refusal != SEPIA_OK) stop("sepia_judge", v.refusal);
    switch (v.verdict) {
    case SEPIA_OUTSIDE:
        printf("outside: variable %u is not within 0 and 1\n", v.value);
        break;
    case SEPIA_NOT_BINARY:
        printf("not binary: atom variable %u is neither 0 nor 1\n", v.value);
        break;
    case SEPIA_BROKEN:
        printf("broken: row %u is %lld millionths off\n", v.value, (long long)v.shortfall);
        break;
    case SEPIA_PASSED:
        printf("passed: %u rows, error figure %u: the rounded schedule %s\n", v.value, v.error,
               v.error < SEPIA_ONE / 2 ? "meets the rule" : "must be evaluated");
        break;
    }
}

/* what a shift lead asks of a log: the first slot at which the rule holds, which is in the root's word, the last */
static void review(size_t nodes, size_t l, const uint16_t *run) {
    uint32_t at_1 = value("sepia_evaluate", sepia_evaluate(table, bytes_of(nodes), T, M, l, run, T, truth, SEPIA_MAX_NODES));
    uint32_t slot = sepia_first_slot(truth[nodes - 1]);
    printf("%s at slot 1; ", at_1 ? "holds" : "does not hold");
    if (slot)
        printf("holds first at slot %u\n", slot);
    else
        printf("holds at no slot\n");
}

static void write_rows(size_t nodes, size_t l) {
    printf("rows %u\n", value("sepia_rows", sepia_rows(table, bytes_of(nodes), T, M, l, rows, sizeof rows)));
    printf("page %u bytes\n", value("sepia_mps", sepia_mps(table, bytes_of(nodes), T, M, l, page, sizeof page)));
}

int main(void) {
    const char *rule = "G(a0 > F[0,5] a1)"; /* read-back within five slots */
    const uint16_t runs[][T] = {
        {1, 0, 0, 0, 0, 2, 0, 0}, /* a0 at slot 1, a1 at slot 6: in time */
        {1, 0, 0, 0, 0, 0, 2, 0}, /* a1 one slot late */
        {0, 1, 0, 0, 0, 2, 0, 1}, /* a0 once more at the end, and no a1 after it */
    };

    if (sepia_version() != SEPIA_VERSION) {
        printf("the library has version %u of the boundary, the header %d\n", sepia_version(), SEPIA_VERSION);
        return 1;
    }
    size_t nodes = value("sepia_read", sepia_read((const uint8_t *)rule, strlen(rule), M, table, sizeof table));
    printf("nodes %zu\n", nodes);
    draw(nodes);
    write_rows(nodes, ENDS);
    review(nodes, ENDS, runs[0]);

    size_t count = fill_figures(nodes, ENDS, runs[0]);
    judge(nodes, ENDS, count, 0);
    figures[0] = 999400; /* a0 at slot 1, nearly right */
    judge(nodes, ENDS, count, 1000);
    figures[(M + nodes - 1) * T] = SEPIA_ONE / 2; /* a figure left at one half */
    judge(nodes, ENDS, count, 1000);

    for (size_t i = 1; i < sizeof runs / sizeof runs[0]; i++) review(nodes, ENDS, runs[i]);

    /* the last plan every week: after slot 8 comes slot 2 again, so the a0 of slot 8 has its a1 five slots later, at slot 6 */
    puts("each week:");
    write_rows(nodes, WEEKLY);
    review(nodes, WEEKLY, runs[2]);
    judge(nodes, WEEKLY, fill_figures(nodes, WEEKLY, runs[2]), SEPIA_MAX_TOLERANCE);
    return 0;
}
