/* Bastersepia: timing rules as solver rows. Link with libsepia.a (`scripts/library` writes target/staticlib/libsepia.a). docs/MANUAL.md says
 * how rules are written and what verdicts mean; examples/plan.c makes every call.
 *
 * Every call copes with every input. On a refusal nothing in a lent buffer changes; on success what stands past the output stays as it was.
 * Where several refusals apply, the first in this order is given: 1, 2, 13, 3, 4, 5, 12, 6, 7, 8, 9, 10, 11. Only sepia_print has an order of
 * its own: 2, 7, 3, 11.
 *
 * Pointers   must be valid for the lengths given with them and aligned for their type; a length counts elements, not bytes. Where it is 0, the
 *            pointer may be null.
 * Overlap    a buffer that is written must overlap nothing else that is passed. What is only read may overlap.
 * Threads    the calls keep no state and allocate nothing, so any number of them may run at once, each with buffers to write of its own; what
 *            is only read may be shared.
 * Stack      sepia_read takes up to 182 KB, some 176 bytes for each bracket that is open; without brackets up to 51 KB. sepia_judge takes up to
 *            71 KB where figures pass (5 KB with at most 256 nodes times slots), and otherwise up to 5 KB. sepia_print takes up to 9 KB, some
 *            64 bytes for each operator between two parts that is open. The other calls take less than 4 KB. (Measured on a painted stack, with
 *            the largest tables and with texts of brackets and signs alone.)
 * Bytes      tables, rows and pages are bytes, the same on every machine; in a row a variable's number stands with its low byte first. Runs,
 *            words and figures are numbers of the machine.
 * Machine    the library is compiled for x86-64 Linux, and can be linked into a shared object.
 *
 * The calls on a table, but for sepia_print, take the number of slots t, the number of atoms m, and the loop slot l: a run goes on for ever, and
 * after slot t comes slot l again. With l equal to t the last slot stands for good; a plan that comes round as a whole has l equal to 1.
 *
 * Variables, where N is the node count and s a slot, from 1:
 *   atom a       a*t + s - 1
 *   node n       (m + n)*t + s - 1, a slack
 *   V of a node  (m + N + j)*t + s - 1, a slack, only where l is below t, of the nodes of kinds 6, 7 and 8 (F, G and U without a window): j
 *                counts these nodes from 0, in node order. Its truth at s is that of the node's F, G or U over the slots s to t alone, its parts
 *                having their truth on the run that loops
 * So there are (m + N)*t variables where l is t, and t more for each node of kinds 6, 7 and 8 where l is below t.
 */
#ifndef SEPIA_H
#define SEPIA_H

#include <stddef.h>
#include <stdint.h>

#ifdef __cplusplus
extern "C" {
#endif

/* The version of the boundary that this header describes: it rises with each change of what a call takes, answers or writes.
 *   1  as first offered
 *   2  a broken verdict carries its shortfall
 *   3  sepia_mps
 *   4  rules with windows: node records of 7 bytes, row records without padding, refusal 12, the order of refusals; sepia_version
 *   5  node records of 8 bytes, with the node's height; refusal 7 also when a height is wrong
 *   6  sepia_evaluate writes a word for each node in place of a byte for each node and slot, and its refusal 11 counts words;
 *      sepia_first_slot
 *   7  a passed verdict carries its error figure, in what was padding
 *   8  sepia_evaluate, sepia_rows, sepia_mps and sepia_judge take the loop slot l after m; refusal 13 */
#define SEPIA_VERSION 8

/* The version of the library; to be compared with SEPIA_VERSION. */
uint32_t sepia_version(void);

/* Limits of what is taken; past them a call refuses. */
#define SEPIA_MAX_SLOTS 64       /* T */
#define SEPIA_MAX_ATOMS 16       /* M */
#define SEPIA_MAX_NODES 128      /* N, and the words that sepia_evaluate writes */
#define SEPIA_MAX_TEXT 1024      /* bytes of a rule text that is read, and of one that is printed */
#define SEPIA_MAX_TOLERANCE 1000 /* millionths */
#define SEPIA_ONE 1000000        /* the figure of a truth, in millionths; of a falsehood it is 0 */

/* Sizes of what is written. No table has more, so with a buffer of the largest size no call refuses with SEPIA_REFUSED_ROOM (proved: crate
 * sepia_limits). With T 64, M 16 and L 1, one atom under 127 times G[0,63] reaches them, and under 127 times F the variables. */
#define SEPIA_NODE_BYTES 8           /* a node record */
#define SEPIA_MAX_TABLE 1024         /* bytes of a table */
#define SEPIA_MAX_VARIABLES 17344    /* and so figures */
#define SEPIA_ROW_BYTES 5            /* a row record, and */
#define SEPIA_TERM_BYTES 3           /* for each of its terms more */
#define SEPIA_MAX_TERMS 65           /* of a row */
#define SEPIA_MAX_ROWS 528385        /* where l is t 272,353 */
#define SEPIA_MAX_ROWS_BYTES 7348424 /* where l is t 3,763,976 */
#define SEPIA_MAX_PAGE 48544593      /* bytes of an MPS page; where l is t 24,984,950 */

/* Where the bytes of a node record stand, behind the mark 4E 44 (hexadecimal), and the kinds. Of an atom, left is its number; of other kinds left
 * and right are children, and 0 where there is none. */
enum {
    SEPIA_NODE_KIND = 2,
    SEPIA_NODE_LEFT = 3,
    SEPIA_NODE_RIGHT = 4,
    SEPIA_NODE_FROM = 5,  /* a of a window [a,b], and 0 in other kinds */
    SEPIA_NODE_TO = 6,    /* b */
    SEPIA_NODE_HEIGHT = 7 /* 0 of an atom, otherwise 1 more than that of the highest child */
};
enum {
    SEPIA_KIND_ATOM = 1,
    SEPIA_KIND_NOT = 2,        /* !p */
    SEPIA_KIND_AND = 3,        /* p&q */
    SEPIA_KIND_OR = 4,         /* p|q */
    SEPIA_KIND_IMPLIES = 5,    /* p>q */
    SEPIA_KIND_EVENTUALLY = 6, /* Fp */
    SEPIA_KIND_ALWAYS = 7,     /* Gp */
    SEPIA_KIND_UNTIL = 8,      /* pUq */
    SEPIA_KIND_WITHIN = 9,     /* F[a,b]p */
    SEPIA_KIND_THROUGHOUT = 10 /* G[a,b]p */
};

/* Refusals, by number. */
enum {
    SEPIA_OK = 0,
    SEPIA_REFUSED_SLOTS = 1,       /* all but read and print: T not 1 to 64 */
    SEPIA_REFUSED_ATOMS = 2,       /* all: M not 1 to 16 */
    SEPIA_REFUSED_LONG_TEXT = 3,   /* read: text over 1,024 bytes; print: the text would have more, which comes after 7 */
    SEPIA_REFUSED_GRAMMAR = 4,     /* read: the text is outside the grammar */
    SEPIA_REFUSED_ATOM_NUMBER = 5, /* read: an atom number of M or more */
    SEPIA_REFUSED_NODES = 6,       /* read: over 128 nodes */
    SEPIA_REFUSED_TABLE = 7,       /* all but read: the table is not good; also when a height is wrong, be it of a node that the root does not use */
    SEPIA_REFUSED_RUN = 8,         /* evaluate: the run is not T numbers, or a bit at M or above is set */
    SEPIA_REFUSED_FIGURES = 9,     /* judge: the figures are not as many as the variables, see above */
    SEPIA_REFUSED_TOLERANCE = 10,  /* judge: the tolerance is not 0 to 1,000 */
    SEPIA_REFUSED_ROOM = 11,       /* all that write: the buffer is shorter than the output; evaluate counts words, the others bytes */
    SEPIA_REFUSED_WINDOW = 12,     /* read: a window F[a,b] or G[a,b] with a above b or b above 63; comes after 5 and before 6 */
    SEPIA_REFUSED_LOOP = 13        /* all but read and print: L not 1 to T; comes after 2 and before 3 */
};

/* refusal 0: value is the result. Otherwise value is 0. */
typedef struct {
    uint32_t refusal;
    uint32_t value;
} sepia_answer;

/* Verdicts. */
enum {
    SEPIA_OUTSIDE = 0,    /* value: the lowest variable below -e or above 1,000,000 + e */
    SEPIA_NOT_BINARY = 1, /* value: the lowest atom variable more than e from both 0 and 1,000,000 */
    SEPIA_BROKEN = 2,     /* value: the lowest row that does not hold within e; shortfall: how far off it is */
    SEPIA_PASSED = 3      /* value: the row count; error: the root's error figure at slot 1 */
};

/* refusal 0: verdict and its value. Otherwise both are 0.
 * error is in millionths, at most 1,000,000, for SEPIA_PASSED: how far the root's figure at slot 1 may be from the truth over the run made by
 * rounding each atom to the nearer of 0 and 1,000,000, which loops to slot L. It follows from the table, T, L and e alone, and is 0 when e is.
 *   below 500,000    that run satisfies the rule at slot 1
 *   below 1,000,000  the root's figure at slot 1 is within error of 1,000,000 where that run satisfies the rule there, and of 0 where it does not
 *   1,000,000        the count stops here, and nothing is said: evaluate that run
 * Otherwise it is 0.
 * shortfall is in millionths, for SEPIA_BROKEN: of a >= row the right side less the sum, of an = row the distance between them, e not taken off;
 * always above e. Otherwise it is 0. */
typedef struct {
    uint32_t refusal;
    uint32_t verdict;
    uint32_t value;
    uint32_t error;
    int64_t shortfall;
} sepia_verdict;

/* Reads a rule text with atoms below m into its node table, of SEPIA_NODE_BYTES for each node: the left part, the right part, then the node, so
 * the root comes last. The result is the node count. Callers may rely on the heights: they are filled in here, and the other calls refuse a
 * table in which one is wrong. */
sepia_answer sepia_read(const uint8_t *text, size_t text_len, size_t m, uint8_t *out, size_t out_len);

/* Evaluates a table over a run of t numbers, bit a of each the truth of atom a; after slot t comes slot l again.
 * Writes one word for each node, in node order: bit s - 1 (value 2 to the power s - 1) is the node's truth at slot s, and the bits above
 * bit t - 1 are 0. The root's word is the last. out_words counts words; a table takes as many as it has nodes.
 * V has no words. The result is the root's truth at slot 1. */
sepia_answer sepia_evaluate(const uint8_t *table, size_t table_len, size_t t, size_t m, size_t l, const uint16_t *run, size_t run_len,
                            uint64_t *out, size_t out_words);

/* The first slot with a set bit in a word, 1 to 64, or 0 when there is none: of a node's word, the first slot at which the node holds.
 * Takes any word and refuses none. */
uint32_t sepia_first_slot(uint64_t word);

/* Writes a table's rows. The result is the row count. Where l is below t, a node's V rows, by slot, come before its own.
 * A row is 52 57 (hexadecimal), the relation (1 for >=, 2 for =), the term count, the right side as a signed byte, and for each term a signed
 * coefficient byte and a variable of 16 bits. */
sepia_answer sepia_rows(const uint8_t *table, size_t table_len, size_t t, size_t m, size_t l, uint8_t *out, size_t out_len);

/* Writes a table's rows as a fixed-column MPS page, with a bound for each variable: BV for atoms, UP 1 for slacks, V among them.
 * The result is the page's length in bytes. */
sepia_answer sepia_mps(const uint8_t *table, size_t table_len, size_t t, size_t m, size_t l, uint8_t *out, size_t out_len);

/* Judges a solver's figures, in millionths, one for each variable, V among them, with tolerance e. Nothing that is lent is written. */
sepia_verdict sepia_judge(const uint8_t *table, size_t table_len, size_t t, size_t m, size_t l, const int32_t *figures, size_t figures_len,
                          int32_t e);

/* Prints a table's root as rule text without spaces and with the fewest brackets; m is the number of atoms. The result is the text's length in
 * bytes, at most SEPIA_MAX_TEXT; no zero byte is put behind it.
 * The text of a table that sepia_read made reads to that very table, and every other text that does so is longer; such a table is never refused
 * with SEPIA_REFUSED_LONG_TEXT. In a table of other making a node may have several parents: it is printed at each use, so the text reads to a table
 * with more nodes, or is refused for them. Nodes that the root does not use are not printed. However long a text would be, a call takes a few
 * microseconds at most. */
sepia_answer sepia_print(const uint8_t *table, size_t table_len, size_t m, uint8_t *out, size_t out_len);

#ifdef __cplusplus
}
#endif

#endif
