/* Each call's every answer from C, with its place and its steps and what it leaves in every lent table and window. What is
   expected was written by hand from document 01 and the readings of docs/DECISIONS.md. The last line is `answers: N cases, 0
   differences`, and the exit status 1 where there are some. */
#include "lent.h"

#define WORK SINKERJAW_WORK
#define TABLE SINKERJAW_TABLE

/* ---- Reading */

static void reads_done(void) {
    given_text("000200640206\n01010002\n0100000A\n0300\n01000102\n0300\n0505\n");
    left(then.head, len.head, NODES(2, 100, 518, 5));
    left(then.nodes, len.nodes, NODES(1, 1, 2, 1, 0, 10, 3, 0, 0, 1, 0, 258, 3, 0, 0));
    DONE(READ);

    begin(0);
    len.text = strlen(text);
    left(then.head, 10, NODES(2, 100, 518, 5));
    left(then.nodes, 192, NODES(1, 1, 2, 1, 0, 10, 3, 0, 0, 1, 0, 258, 3, 0, 0));
    DONE(READ);

    given_text("0008100000F8\n02FEDCBA9876543210\n01010000\n040008\n0305\n0504\n");
    left(then.head, len.head, NODES(8, 4096, 248, 4));
    left(then.nodes, len.nodes, NODES(2, 0xFEDCBA9876543210, 0, 1, 1, 0, 4, 0, 8, 3, 5, 0));
    DONE(READ);

    given_text("00010000FFFF\n0101FFFF\n0200000000000000FF\n0302\n0503\n");
    left(then.head, len.head, NODES(1, 0, 65535, 3));
    left(then.nodes, len.nodes, NODES(1, 1, 65535, 2, 255, 0, 3, 2, 0));
    DONE(READ);
}

static void reads_no_line(void) {
    given_text("");
    REFUSES(READ, SINKERJAW_LINE, 1);
    given_text("0501\n");
    REFUSES(READ, SINKERJAW_LINE, 1); /* no header on line 1 */
    given_text("000100010000\n000100010000\n01000000\n0501\n");
    REFUSES(READ, SINKERJAW_LINE, 2); /* a header on another line */
    given_text("000100010000\n0100000a\n0501\n");
    REFUSES(READ, SINKERJAW_LINE, 2); /* a digit in lower case */
    given_text("000100010000\n0102000a\n0501\n");
    REFUSES(READ, SINKERJAW_LINE, 2); /* .. and a window out of its range, which comes after */
    given_text("000100010000\n0100000\n0501\n");
    REFUSES(READ, SINKERJAW_LINE, 2); /* a digit missing */
    given_text("000100010000\n01000000\n0600\n0501\n");
    REFUSES(READ, SINKERJAW_LINE, 3); /* an unknown kind */
    given_text("000100010000\r\n01000000\r\n0501\r\n");
    REFUSES(READ, SINKERJAW_LINE, 1); /* a carriage return */
    given_text("000100010000\n01000000\n0501");
    REFUSES(READ, SINKERJAW_LINE, 3); /* no line feed */
    given_text("000100010000\n01000000\n");
    REFUSES(READ, SINKERJAW_LINE, 3); /* no end */
    given_text("000100010000\n01000000\n0501\n\n");
    REFUSES(READ, SINKERJAW_LINE, 4); /* text after the end */
}

static void reads_no_range(void) {
    given_text("000300010000\n01000000\n0501\n");
    REFUSES(READ, SINKERJAW_RANGE, 1); /* D = 3 */
    given_text("000110010000\n01000000\n0501\n");
    REFUSES(READ, SINKERJAW_RANGE, 1); /* n = 4,097 */
    given_text("000100010000\n01020000\n0501\n");
    REFUSES(READ, SINKERJAW_RANGE, 2); /* window 2 */
    given_text("000100010000\n020000000000000100\n0501\n");
    REFUSES(READ, SINKERJAW_RANGE, 2); /* a splat of 256 where D = 1 */
    given_text("000100010000\n0306\n0501\n");
    REFUSES(READ, SINKERJAW_RANGE, 2); /* operation 6; that nothing waits comes after */
    given_text("000100010000\n01000000\n041000\n0502\n");
    REFUSES(READ, SINKERJAW_RANGE, 3); /* from 16 */
    given_text("000100010000\n01000000\n040404\n0502\n");
    REFUSES(READ, SINKERJAW_RANGE, 3); /* from = to */
    given_text("000200010000\n01000000\n040003\n0502\n");
    REFUSES(READ, SINKERJAW_RANGE, 3); /* no multiple of D */
}

/* 64 loads and another line. */
static const char *long_text(const char *another) {
    static char lines[13 + 64 * 9 + 16];
    strcpy(lines, "000100010000\n");
    for (int node = 0; node < 64; node++)
        strcat(lines, "01000000\n");
    return strcat(lines, another);
}

static void reads_no_shape(void) {
    given_text("000200640206\n0500\n");
    REFUSES(READ, SINKERJAW_SHAPE, 2);
    given_text("000100010000\n01000000\n0300\n0502\n");
    REFUSES(READ, SINKERJAW_SHAPE, 3); /* one node waits for an op */
    given_text("000100010000\n040001\n0306\n0502\n");
    REFUSES(READ, SINKERJAW_SHAPE, 2); /* none waits for a shift; the line after is out of range, but later */
    given_text("000100010000\n01000000\n0502\n");
    REFUSES(READ, SINKERJAW_SHAPE, 3); /* a wrong number of nodes */
    given_text("000100010000\n01000000\n0541\n");
    REFUSES(READ, SINKERJAW_SHAPE, 3); /* .. above 64, which is no RANGE */
    given_text("000100010000\n01000000\n01000000\n0502\n");
    REFUSES(READ, SINKERJAW_SHAPE, 4); /* two wait at the end */
    given_text(long_text("01000000\n"));
    REFUSES(READ, SINKERJAW_SHAPE, 66); /* a 65th node */
    given_text(long_text("01020000\n"));
    REFUSES(READ, SINKERJAW_RANGE, 66); /* .. out of its range, which comes before */
}

static void reads(void) {
    reads_done();
    given_text("");
    NEEDS(READ, head, 10);
    NEEDS(READ, nodes, 192);
    reads_no_line();
    reads_no_range();
    reads_no_shape();
}

/* ---- Answers that several calls have in common */

/* ROOM comes before all else: the rule, the sheet and a window are wrong too. */
static void need_room(enum call call) {
    given(3, 1, 0, NODES(LOAD(TABLE, 0)));
    rule = 4;
    len.table = 8;
    NEEDS(call, head, 10);
    NEEDS(call, nodes, 192);
    if (call == PLACE) {
        NEEDS(call, placed_head, 10);
        NEEDS(call, placed_nodes, 192);
    } else if (call == TRANSLATE || call == PLAN) {
        NEEDS(call, program, 5);
        NEEDS(call, prologue, 6 * 1024);
        NEEDS(call, body, 6 * 1024);
        NEEDS(call, epilogue, 6 * 1024);
    }
}

/* A rule above 3, before what is wrong with the sheet. */
static void need_rule(enum call call) {
    given(3, 1, 0, NODES(LOAD(TABLE, 0)));
    rule = 4;
    REFUSES(call, SINKERJAW_RANGE, 0);
    given(1, 1, 0, NODES(LOAD(TABLE, 0)));
    rule = 256;
    REFUSES(call, SINKERJAW_RANGE, 0);
}

static void need_range(enum call call) {
    given(3, 1, 0, NODES(LOAD(TABLE, 0)));
    REFUSES(call, SINKERJAW_RANGE, 1);
    given(1, 4097, 0, NODES(LOAD(TABLE, 0)));
    REFUSES(call, SINKERJAW_RANGE, 1);
    given(1, 1, 65536, NODES(LOAD(TABLE, 0)));
    REFUSES(call, SINKERJAW_RANGE, 1);
    given(1, 1, 0, NODES(LOAD(2, 0)));
    REFUSES(call, SINKERJAW_RANGE, 2);
    given(1, 1, 0, NODES(LOAD(TABLE, 65536)));
    REFUSES(call, SINKERJAW_RANGE, 2);
    given(4, 1, 0, NODES(SPLAT(4294967296)));
    REFUSES(call, SINKERJAW_RANGE, 2);
    given(1, 1, 0, NODES(LOAD(TABLE, 0), LOAD(TABLE, 0), OP(6)));
    REFUSES(call, SINKERJAW_RANGE, 4);
    given(1, 1, 0, NODES(OP(6)));
    REFUSES(call, SINKERJAW_RANGE, 2); /* and not SHAPE, though nothing waits */
    given(1, 1, 0, NODES(LOAD(TABLE, 0), SHIFT(0, 16)));
    REFUSES(call, SINKERJAW_RANGE, 3);
    given(1, 1, 0, NODES(LOAD(TABLE, 0), SHIFT(4, 4)));
    REFUSES(call, SINKERJAW_RANGE, 3);
    given(2, 1, 0, NODES(LOAD(TABLE, 0), SHIFT(0, 3)));
    REFUSES(call, SINKERJAW_RANGE, 3);
    given(2, 1, 0, NODES(LOAD(TABLE, 0), SHIFT(3, 0)));
    REFUSES(call, SINKERJAW_RANGE, 3);
    given(1, 1, 0, NODES(0, 0, 0));
    REFUSES(call, SINKERJAW_RANGE, 2); /* unknown kinds */
    given(1, 1, 0, NODES(5, 0, 0));
    REFUSES(call, SINKERJAW_RANGE, 2);
    given(1, 1, 0, NODES(257, 0, 0));
    REFUSES(call, SINKERJAW_RANGE, 2);
}

static void need_shape(enum call call) {
    given(1, 1, 0, NODES(LOAD(TABLE, 0), OP(0)));
    REFUSES(call, SINKERJAW_SHAPE, 3);
    given(1, 1, 0, NODES(SHIFT(0, 1), SPLAT(256)));
    REFUSES(call, SINKERJAW_SHAPE, 2); /* the first line at fault */
    given(1, 1, 0, NODES(LOAD(TABLE, 0), LOAD(TABLE, 0)));
    REFUSES(call, SINKERJAW_SHAPE, 4); /* two wait at the end, where line 4 would be */
    given(1, 1, 0, NODES(LOAD(TABLE, 0)));
    said(0);
    REFUSES(call, SINKERJAW_SHAPE, 2);
    given(1, 1, 0, NODES(LOAD(TABLE, 0)));
    for (int node = 1; node < 64; node++)
        memcpy(now.nodes + 3 * node, now.nodes, 3 * sizeof *now.nodes);
    said(65);
    REFUSES(call, SINKERJAW_SHAPE, 66);
    said(257);
    REFUSES(call, SINKERJAW_SHAPE, 66);
}

/* So many nodes: a load, then a load and an op in turn, all at offset 0. */
static void given_comb(uint64_t s, uint64_t nodes) {
    const uint64_t rows[] = {OP(0), LOAD(TABLE, 0)};
    given(2, 1, s, NODES(LOAD(TABLE, 0)));
    for (uint64_t node = 1; node < nodes; node++)
        memcpy(now.nodes + 3 * node, rows + 3 * (node % 2), 3 * sizeof *rows);
    said(nodes);
}

/* The sheets here have an address at fault too, which comes after. */
static void need_bare(enum call call) {
    const uint64_t shift[] = {SHIFT(0, 4)};
    given(2, 1, 1, NODES(LOAD(TABLE, 0), SHIFT(0, 4), SHIFT(4, 0)));
    REFUSES(call, SINKERJAW_BARE, 3);
    given_comb(1, 33);
    memcpy(now.nodes + 3 * 33, shift, sizeof shift);
    said(34);
    REFUSES(call, SINKERJAW_BARE, 33); /* the 32nd node; the shift comes later */
}

static void need_windows(enum call call) {
    given(2, 1, 1, NODES(LOAD(TABLE, 0)));
    len.work = 8;
    REFUSES(call, SINKERJAW_WINDOW, WORK);
    len.work = 65552;
    REFUSES(call, SINKERJAW_WINDOW, WORK);
    len.table = 24;
    REFUSES(call, SINKERJAW_WINDOW, WORK); /* work first */
    len.work = 64;
    REFUSES(call, SINKERJAW_WINDOW, TABLE);
    len.table = 65552;
    REFUSES(call, SINKERJAW_WINDOW, TABLE);
}

static void need_alignment(enum call call) {
    given(2, 1, 1, NODES(LOAD(TABLE, 3)));
    REFUSES(call, SINKERJAW_ALIGN, 1); /* the store first */
    given(8, 4096, 8, NODES(LOAD(TABLE, 0), LOAD(WORK, 4), OP(0)));
    REFUSES(call, SINKERJAW_ALIGN, 3); /* though bounds are broken on line 1 */
}

/* Of 4 elements of 2 bytes in windows of 64 and 48 bytes, one begins 2 bytes too late. */
static void need_bounds(enum call call) {
    given(2, 4, 58, NODES(LOAD(TABLE, 42)));
    REFUSES(call, SINKERJAW_BOUNDS, 1);
    given(2, 4, 56, NODES(LOAD(TABLE, 40), LOAD(TABLE, 42), OP(0)));
    REFUSES(call, SINKERJAW_BOUNDS, 3);
    given(2, 4, 56, NODES(LOAD(TABLE, 40), LOAD(WORK, 58), OP(0)));
    REFUSES(call, SINKERJAW_BOUNDS, 3);
}

static void need_no_carry(enum call call) {
    given(2, 2, 4, NODES(LOAD(TABLE, 2), LOAD(WORK, 2), OP(0)));
    REFUSES(call, SINKERJAW_CARRY, 3); /* not line 2, which loads from the other window */
    given(2, 31, 4, NODES(LOAD(WORK, 2)));
    REFUSES(call, SINKERJAW_BOUNDS, 1); /* first */
}

static void need_offsets(enum call call) {
    given(2, 1, 6, NODES(LOAD(TABLE, 2), LOAD(WORK, 10), OP(0)));
    REFUSES(call, SINKERJAW_OFFSET, 4); /* 2 and 10 disagree; nor is the store's kept, but that comes after */
    given(2, 1, 6, NODES(LOAD(TABLE, 2), SHIFT(4, 6)));
    REFUSES(call, SINKERJAW_OFFSET, 3); /* the child is at 2 */
    given(2, 1, 6, NODES(SPLAT(1), SHIFT(0, 6)));
    REFUSES(call, SINKERJAW_OFFSET, 3); /* the child's offset is undefined */
    given(2, 1, 6, NODES(SPLAT(1), SHIFT(0, 6), LOAD(TABLE, 8), OP(0)));
    REFUSES(call, SINKERJAW_OFFSET, 3); /* the store, at 6 below an op at 8, comes after the nodes */
    given(2, 1, 6, NODES(LOAD(TABLE, 2)));
    REFUSES(call, SINKERJAW_OFFSET, 1);
    given(2, 1, 4, NODES(SPLAT(1), LOAD(TABLE, 6), OP(0)));
    REFUSES(call, SINKERJAW_OFFSET, 1); /* the op is at 6, the defined one */
}

/* ---- The two checks, which write nothing */

static void checks(void) {
    given(2, 100, 518, NODES(LOAD(TABLE, 2), LOAD(WORK, 10), OP(0), LOAD(WORK, 258), OP(0)));
    DONE(CHECK);
    given(1, 0, 65535, NODES(LOAD(TABLE, 65535), SINKERJAW_NODE_SPLAT, 255, 9999, SINKERJAW_NODE_OP, 5, 9999));
    DONE(CHECK); /* the ends of ranges, and fields that are not used */
    need_room(CHECK);
    need_range(CHECK);
    need_shape(CHECK);

    given(2, 100, 518, NODES(SPLAT(1), LOAD(TABLE, 18), SHIFT(2, 6), OP(0)));
    DONE(OFFSET_CHECK);
    need_room(OFFSET_CHECK);
    need_range(OFFSET_CHECK);
    need_shape(OFFSET_CHECK);
    need_offsets(OFFSET_CHECK);
}

/* ---- The plain loop */

static void loops_done(void) {
    given(1, 4, 16, NODES(LOAD(TABLE, 44), SPLAT(100), OP(SINKERJAW_ADD)));
    memcpy(now.table + 44, "\310\000\377\234", 4);
    keep();
    memcpy(then.work + 16, "\054\144\143\000", 4); /* 200 + 100 = 44 */
    DONE(PLAIN);

    given(2, 2, 60, NODES(SPLAT(1), LOAD(TABLE, 0), OP(SINKERJAW_SUBTRACT)));
    memcpy(now.table, "\002\000\001\001", 4);
    keep();
    memcpy(then.work + 60, "\377\377\000\377", 4); /* 1 - 2 and 1 - 257, to the last byte of work */
    DONE(PLAIN);

    given(1, 3, 1, NODES(LOAD(WORK, 0), SPLAT(1), OP(SINKERJAW_ADD)));
    now.work[0] = 5;
    keep();
    memcpy(then.work + 1, "\006\007\010", 3); /* each element from the one just stored */
    DONE(PLAIN);

    given(1, 1, 0, NODES(LOAD(TABLE, 0), SHIFT(0, 9), SPLAT(127), OP(SINKERJAW_SIGNED_MINIMUM)));
    now.table[0] = 128;
    keep();
    then.work[0] = 128;
    DONE(PLAIN);

    given(8, 0, 64, NODES(LOAD(TABLE, 48)));
    DONE(PLAIN); /* no element, at the ends of both windows */
    given(8, 0, 0, NODES(LOAD(TABLE, 65528)));
    len.work = 0;
    len.table = 65536;
    DONE(PLAIN); /* windows of the least and the greatest length */
}

static void loops(void) {
    loops_done();
    need_room(PLAIN);
    need_range(PLAIN);
    need_shape(PLAIN);
    need_windows(PLAIN);
    need_alignment(PLAIN);
    need_bounds(PLAIN);
}

/* ---- Placing */

/* Document 01's sheet: c = 6, loads at 2, 10 and 2. */
static void given_printed(uint64_t by) {
    given(2, 100, 518, NODES(LOAD(TABLE, 2), LOAD(WORK, 10), OP(0), LOAD(WORK, 258), OP(0)));
    len.work = len.table = 65536;
    rule = by;
}

static void places_printed(void) {
    given_printed(SINKERJAW_RULE_ZERO);
    left(then.placed_head, len.placed_head, NODES(2, 100, 518, 9));
    left(then.placed_nodes, len.placed_nodes,
         NODES(LOAD(TABLE, 2), SHIFT(2, 0), LOAD(WORK, 10), SHIFT(10, 0), OP(0), LOAD(WORK, 258), SHIFT(2, 0), OP(0),
               SHIFT(0, 6)));
    DONE(PLACE);
    for (uint64_t by = SINKERJAW_RULE_EAGER; by <= SINKERJAW_RULE_LAZY; by++) {
        given_printed(by);
        left(then.placed_head, len.placed_head, NODES(2, 100, 518, 8));
        left(then.placed_nodes, len.placed_nodes,
             NODES(LOAD(TABLE, 2), SHIFT(2, 6), LOAD(WORK, 10), SHIFT(10, 6), OP(0), LOAD(WORK, 258), SHIFT(2, 6), OP(0)));
        DONE(PLACE);
    }
    given_printed(SINKERJAW_RULE_DOMINANT);
    left(then.placed_head, len.placed_head, NODES(2, 100, 518, 7));
    left(then.placed_nodes, len.placed_nodes,
         NODES(LOAD(TABLE, 2), LOAD(WORK, 10), SHIFT(10, 2), OP(0), LOAD(WORK, 258), OP(0), SHIFT(2, 6)));
    DONE(PLACE);
}

/* Loads at 2 below a store at 6: EAGER moves each, LAZY the root. A load that stands at 6 is moved twice by ZERO. */
static void places_few(void) {
    given(2, 1, 6, NODES(LOAD(TABLE, 2), LOAD(WORK, 18), OP(0)));
    rule = SINKERJAW_RULE_EAGER;
    left(then.placed_head, len.placed_head, NODES(2, 1, 6, 5));
    left(then.placed_nodes, len.placed_nodes, NODES(LOAD(TABLE, 2), SHIFT(2, 6), LOAD(WORK, 18), SHIFT(2, 6), OP(0)));
    DONE(PLACE);
    rule = SINKERJAW_RULE_LAZY;
    left(then.placed_head, len.placed_head, NODES(2, 1, 6, 4));
    left(then.placed_nodes, len.placed_nodes, NODES(LOAD(TABLE, 2), LOAD(WORK, 18), OP(0), SHIFT(2, 6)));
    DONE(PLACE);
    given(2, 4096, 65526, NODES(LOAD(TABLE, 65526)));
    rule = SINKERJAW_RULE_ZERO;
    left(then.placed_head, len.placed_head, NODES(2, 4096, 65526, 3));
    left(then.placed_nodes, len.placed_nodes, NODES(LOAD(TABLE, 65526), SHIFT(6, 0), SHIFT(0, 6)));
    DONE(PLACE); /* beyond every window, which placing does not judge */
}

static void places(void) {
    places_printed();
    places_few();
    given_comb(0, 31);
    len.placed_head = 10;
    len.placed_nodes = 192;
    left(then.placed_head, len.placed_head, NODES(2, 1, 0, 31));
    left(then.placed_nodes, len.placed_nodes, 31 * 3, now.nodes);
    DONE(PLACE); /* the most nodes, the least room */
    need_room(PLACE);
    need_rule(PLACE);
    need_range(PLACE);
    need_shape(PLACE);
    need_bare(PLACE);
    need_alignment(PLACE);
}

/* ---- Translating. Each tree's code is written out once, and the sections around it. */

/* 9 elements of 4 bytes from table + 8 to work + 4: the shift goes left, F = 2 and e = 2. */
#define COPY VLOAD(0, TABLE, 8), VLOAD(1, TABLE, 24), VPAIR(2, 0, 1, 4)
#define COPY_PROLOGUE CODE(COPY, VLOAD(3, WORK, 4), VSPLICE(4, 3, 2, 4), VSTORE(4, 4))
#define COPY_BODY CODE(COPY, VSTORE(2, 4))
#define COPY_EPILOGUE CODE(COPY, VLOAD(3, WORK, 4), VSPLICE(4, 2, 3, 8), VSTORE(4, 4))

static void translates_whole(size_t more) {
    given(4, 9, 4, NODES(LOAD(TABLE, 8), SHIFT(8, 4)));
    len.program = 5 + more;
    len.prologue = len.body = len.epilogue = 6 * 1024 + more;
    left(then.program, len.program, NODES(4, 2, 6, 4, 6));
    left_code(then.prologue, len.prologue, COPY_PROLOGUE);
    left_code(then.body, len.body, COPY_BODY);
    left_code(then.epilogue, len.epilogue, COPY_EPILOGUE);
    DONE(TRANSLATE);
}

static void translates_prologues(void) {
    given(2, 4, 6, NODES(LOAD(TABLE, 6)));
    left_zero(TRANSLATE);
    left(then.program, len.program, NODES(2, 0, 5, 0, 0));
    left_code(then.prologue, len.prologue,
              CODE(VLOAD(0, TABLE, 6), VLOAD(1, WORK, 6), VSPLICE(2, 1, 0, 6), VSPLICE(3, 2, 1, 14), VSTORE(3, 6)));
    DONE(TRANSLATE); /* F = 0, e = 7 */
    given(2, 5, 6, NODES(LOAD(WORK, 6)));
    left_zero(TRANSLATE);
    left(then.program, len.program, NODES(2, 1, 4, 0, 0));
    left_code(then.prologue, len.prologue, CODE(VLOAD(0, WORK, 6), VLOAD(1, WORK, 6), VSPLICE(2, 1, 0, 6), VSTORE(2, 6)));
    DONE(TRANSLATE); /* F = 1, e = 0; A = S is no CARRY */
    given(8, 2, 0, NODES(SPLAT(0xFEDCBA9876543210), LOAD(TABLE, 16), OP(SINKERJAW_SUBTRACT)));
    left_zero(TRANSLATE);
    left(then.program, len.program, NODES(8, 1, 6, 0, 0));
    left_code(then.prologue, len.prologue,
              CODE(VSPLAT(0, 0x76543210, 0xFEDCBA98), VLOAD(1, TABLE, 16), VOP(2, 0, 1, 1), VLOAD(3, WORK, 0),
                   VSPLICE(4, 3, 2, 0), VSTORE(4, 0)));
    DONE(TRANSLATE);
    given(2, 0, 6, NODES(LOAD(TABLE, 6)));
    left_zero(TRANSLATE);
    left(then.program, len.program, NODES(2, 0, 0, 0, 0));
    DONE(TRANSLATE); /* no element, no instruction */
}

/* Left and right shifts one in the other, n = 1: the tree has 7 instructions. ZERO makes the same graph of the load. */
static void left_nested(void) {
    left_zero(TRANSLATE);
    left(then.program, len.program, NODES(2, 0, 11, 0, 0));
    left_code(then.prologue, len.prologue,
              CODE(VLOAD(0, TABLE, 6), VLOAD(1, TABLE, 22), VPAIR(2, 0, 1, 6), VLOAD(3, TABLE, -10), VLOAD(4, TABLE, 6),
                   VPAIR(5, 3, 4, 6), VPAIR(6, 5, 2, 10), VLOAD(7, WORK, 6), VSPLICE(8, 7, 6, 6), VSPLICE(9, 8, 7, 8),
                   VSTORE(9, 6)));
}

/* A load under so many shifts between 0 and 8, of which the last goes to 8. */
static void add_chain(uint64_t shifts) {
    const uint64_t load[2][3] = {{LOAD(TABLE, 8)}, {LOAD(TABLE, 0)}}, shift[2][3] = {{SHIFT(8, 0)}, {SHIFT(0, 8)}};
    uint64_t node = now.head[SINKERJAW_HEAD_NODES];
    memcpy(now.nodes + 3 * node++, load[shifts % 2], sizeof *load);
    for (uint64_t remaining = shifts; remaining > 0; remaining--)
        memcpy(now.nodes + 3 * node++, shift[remaining % 2], sizeof *shift);
    said(node);
}

static void add_ops(uint64_t ops) {
    const uint64_t op[] = {OP(0)};
    uint64_t node = now.head[SINKERJAW_HEAD_NODES];
    while (ops-- > 0)
        memcpy(now.nodes + 3 * node++, op, sizeof op);
    said(node);
}

/* A sheet of no element, stored at 8, that adds chains of shifts. A chain of 8 has G = 511, one of 9 has 1,023. */
static void given_chains(size_t chains, const uint64_t *shifts) {
    given(1, 0, 8, NODES(LOAD(TABLE, 0)));
    said(0);
    for (size_t chain = 0; chain < chains; chain++)
        add_chain(shifts[chain]);
    add_ops(chains - 1);
}

/* G is judged where there is no element, too. */
static void need_short(void) {
    given_chains(NODES(9));
    REFUSES(TRANSLATE, SINKERJAW_LONG, 0);
    now.head[SINKERJAW_HEAD_S] = 0;
    keep();
    REFUSES(TRANSLATE, SINKERJAW_OFFSET, 1); /* before LONG */
    given_chains(NODES(8));
    left_zero(TRANSLATE);
    left(then.program, len.program, NODES(1, 0, 0, 0, 0));
    DONE(TRANSLATE);
    given_chains(NODES(8, 7, 6, 5, 4, 3, 2, 1, 0));
    REFUSES(TRANSLATE, SINKERJAW_LONG, 0); /* 511 + 255 + .. + 3 + 1, and 8 ops: 1,021 */
    given_chains(NODES(8, 7, 6, 5, 4, 3, 2, 0, 0));
    left_zero(TRANSLATE);
    left(then.program, len.program, NODES(1, 0, 0, 0, 0));
    DONE(TRANSLATE); /* 1,019 */
}

static void translates(void) {
    translates_whole(MORE - UNLENT);
    translates_whole(0);
    translates_prologues();
    given(2, 1, 6, NODES(LOAD(TABLE, 6), SHIFT(6, 0), SHIFT(0, 6)));
    left_nested();
    DONE(TRANSLATE);
    need_room(TRANSLATE);
    need_range(TRANSLATE);
    need_shape(TRANSLATE);
    need_windows(TRANSLATE);
    given(2, 1, 1, NODES(LOAD(TABLE, 0)));
    len.work = 4294967296;
    REFUSES(TRANSLATE, SINKERJAW_WINDOW, WORK);
    need_alignment(TRANSLATE);
    need_bounds(TRANSLATE);
    need_no_carry(TRANSLATE);
    need_offsets(TRANSLATE);
    need_short();
}

/* ---- Placing and translating in one step */

/* Document 01's sheet by LAZY: G = 11, F = 12, e = 7. */
#define PRINTED \
    VLOAD(0, TABLE, 2), VLOAD(1, TABLE, -14), VPAIR(2, 1, 0, 12), VLOAD(3, WORK, 10), VLOAD(4, WORK, 26), VPAIR(5, 3, 4, 4), \
        VOP(6, 2, 5, 0), VLOAD(7, WORK, 258), VLOAD(8, WORK, 242), VPAIR(9, 8, 7, 12), VOP(10, 6, 9, 0)

static void plans_done(void) {
    given_printed(SINKERJAW_RULE_LAZY);
    left(then.program, len.program, NODES(2, 12, 14, 12, 14));
    left_code(then.prologue, len.prologue, CODE(PRINTED, VLOAD(11, WORK, 518), VSPLICE(12, 11, 10, 6), VSTORE(12, 518)));
    left_code(then.body, len.body, CODE(PRINTED, VSTORE(10, 518)));
    left_code(then.epilogue, len.epilogue, CODE(PRINTED, VLOAD(11, WORK, 518), VSPLICE(12, 10, 11, 14), VSTORE(12, 518)));
    DONE(PLAN);

    given(2, 1, 4, NODES(LOAD(WORK, 2)));
    rule = SINKERJAW_RULE_EAGER;
    len.program = 5;
    len.prologue = len.body = len.epilogue = 6 * 1024;
    left_zero(PLAN);
    left(then.program, len.program, NODES(2, 0, 7, 0, 0));
    left_code(then.prologue, len.prologue,
              CODE(VLOAD(0, WORK, 2), VLOAD(1, WORK, -14), VPAIR(2, 1, 0, 14), VLOAD(3, WORK, 4), VSPLICE(4, 3, 2, 4),
                   VSPLICE(5, 4, 3, 6), VSTORE(5, 4)));
    DONE(PLAN); /* A = S - D with n = 1 is no CARRY */

    given(2, 1, 6, NODES(LOAD(TABLE, 6)));
    rule = SINKERJAW_RULE_ZERO;
    left_nested();
    DONE(PLAN);
}

static void plans(void) {
    plans_done();
    need_room(PLAN);
    need_rule(PLAN);
    need_range(PLAN);
    need_shape(PLAN);
    need_bare(PLAN);
    need_windows(PLAN);
    need_alignment(PLAN);
    need_bounds(PLAN);
    need_no_carry(PLAN);
}

/* ---- Running */

static void given_copy(uint64_t steps) {
    given_program(4, 2);
    section(now.prologue, SINKERJAW_PROGRAM_PROLOGUE, COPY_PROLOGUE);
    section(now.body, SINKERJAW_PROGRAM_BODY, COPY_BODY);
    section(now.epilogue, SINKERJAW_PROGRAM_EPILOGUE, COPY_EPILOGUE);
    budget = steps;
}

static void left_copied(size_t bytes) {
    memcpy(then.work + 4, then.table + 8, bytes);
}

/* 6 steps for block 0, 4 for block 1 and 6 for block 2. */
static void runs_on_a_budget(void) {
    given_copy(UINT64_MAX);
    left_copied(36);
    DONE_AFTER(16);
    given_copy(16);
    left_copied(36);
    DONE_AFTER(16);
    given_copy(15);
    left_copied(28);
    STOPS(SINKERJAW_OUT, 15);
    given_copy(10);
    left_copied(28);
    STOPS(SINKERJAW_OUT, 10);
    given_copy(9);
    left_copied(12);
    STOPS(SINKERJAW_OUT, 9);
    given_copy(5);
    STOPS(SINKERJAW_OUT, 5);
    given_copy(0);
    STOPS(SINKERJAW_OUT, 0);
    given_program(1, 0);
    budget = 0;
    DONE_AFTER(0); /* nothing to do */
}

static void runs_into_a_fault(void) {
    given_copy(11);
    now.epilogue[SINKERJAW_ROW_KIND] = 7;
    keep();
    left_copied(28);
    STOPS(SINKERJAW_FAULT, 10);
    given_copy(10);
    now.epilogue[SINKERJAW_ROW_KIND] = 7;
    keep();
    left_copied(28);
    STOPS(SINKERJAW_OUT, 10); /* the budget first */
    given_copy(16);
    len.work = 32;
    left_copied(28);
    STOPS(SINKERJAW_FAULT, 15); /* the third block would be stored outside */
}

/* One instruction after a sound one. */
static void faults(int line, size_t entries, const uint32_t *code) {
    given_program(4, 0);
    section(now.prologue, SINKERJAW_PROGRAM_PROLOGUE, CODE(VSTORE(0, 0), 0, 0, 0, 0, 0, 0));
    memcpy(now.prologue + 6, code, entries * sizeof *code);
    keep();
    memset(then.work, 0, 16);
    gives(line, RUN, SINKERJAW_FAULT, 0, 1);
}

#define FAULTS(...) faults(__LINE__, CODE(__VA_ARGS__))

static void faults_of_fields(void) {
    FAULTS(0, 0, 0, 0, 0, 0);
    FAULTS(7, 0, 0, 0, 0, 0);
    FAULTS(257, 0, 0, 0, 0, 0);
    FAULTS(VLOAD(1024, TABLE, 0));
    FAULTS(VLOAD(0, 2, 0));
    FAULTS(VLOAD(0, 65536, 0));
    FAULTS(VSPLAT(1024, 0, 0));
    FAULTS(VSPLAT(0, 0, 1));
    FAULTS(VOP(0, 0, 0, 6));
    FAULTS(VOP(0, 1024, 0, 0));
    FAULTS(VOP(0, 0, 1024, 0));
    FAULTS(VPAIR(0, 0, 0, 16));
    FAULTS(VSPLICE(0, 0, 0, 17));
    FAULTS(VSTORE(1024, 0));
    FAULTS(VSTORE(0, 64));
    FAULTS(VSTORE(0, -1));
}

/* What a kind does not use, loads outside the window, the amounts' ends, and the last register. */
static void runs_at_edges(void) {
    given_program(1, 1);
    section(now.prologue, SINKERJAW_PROGRAM_PROLOGUE,
            CODE(SINKERJAW_CODE_LOAD, 1023, TABLE, 9999, HELD(47), 9999, SINKERJAW_CODE_STORE, 9999, 1023, 9999, HELD(15), 9999));
    memcpy(then.work, then.table + 32, 16);
    DONE_AFTER(2);
    given_program(8, 1);
    section(now.prologue, SINKERJAW_PROGRAM_PROLOGUE,
            CODE(VLOAD(0, TABLE, 0), VLOAD(1, TABLE, -1), VLOAD(2, TABLE, 48), VPAIR(3, 0, 1, 15), VSTORE(3, 0),
                 VSPLICE(4, 1, 0, 16), VSTORE(4, 16), VSPLICE(5, 2, 0, 0), VSTORE(5, 32)));
    memset(then.work, 0, 32);
    then.work[0] = then.table[15];
    memcpy(then.work + 32, then.table, 16);
    DONE_AFTER(9);
    given_program(1, 1);
    for (int row = 0; row < 1024; row++)
        section(now.prologue + 6 * row, SINKERJAW_PROGRAM_PROLOGUE, CODE(VLOAD(0, TABLE, 65520)));
    now.program[SINKERJAW_PROGRAM_PROLOGUE] = 1024;
    len.work = 0;
    len.table = 65536;
    keep();
    DONE_AFTER(1024); /* the longest section, and windows of the least and the greatest length */
}

static void need_start(void) {
    given_program(3, 0);
    budget = 0;
    STOPS(SINKERJAW_FAULT, 0); /* before the budget, and though there is nothing to do */
    given_program(257, 0);
    STOPS(SINKERJAW_FAULT, 0);
    given_program(1, 2049);
    STOPS(SINKERJAW_FAULT, 0);
    given_program(1, 2048);
    DONE_AFTER(0);
}

/* ROOM before WINDOW before a FAULT at the start. */
static void need_sections(int rows, size_t *length) {
    given_program(3, 2049);
    len.work = 8;
    now.program[rows] = 1025;
    *length = 6150;
    keep();
    gives(__LINE__, RUN, SINKERJAW_ROOM, 0, 0);
    now.program[rows] = 2;
    *length = 11;
    keep();
    gives(__LINE__, RUN, SINKERJAW_ROOM, 0, 0);
    now.program[rows] = UINT64_MAX;
    keep();
    gives(__LINE__, RUN, SINKERJAW_ROOM, 0, 0);
    now.program[rows] = 0;
    *length = 0;
    keep();
    REFUSES(RUN, SINKERJAW_WINDOW, WORK);
}

static void runs(void) {
    runs_on_a_budget();
    runs_into_a_fault();
    faults_of_fields();
    runs_at_edges();
    need_start();
    need_sections(SINKERJAW_PROGRAM_PROLOGUE, &len.prologue);
    need_sections(SINKERJAW_PROGRAM_BODY, &len.body);
    need_sections(SINKERJAW_PROGRAM_EPILOGUE, &len.epilogue);
    given_program(3, 2049);
    len.table = 24;
    REFUSES(RUN, SINKERJAW_WINDOW, TABLE);
    len.table = 65552;
    REFUSES(RUN, SINKERJAW_WINDOW, TABLE);
    len.work = 65552;
    REFUSES(RUN, SINKERJAW_WINDOW, WORK);
}

/* ---- Whether every number was given by every call that can give it */

static void all_seen(void) {
    static const char *const numbers[CALLS] = {
        "01234", "0134", "0134A", "0134678", "013457", "01346789AB", "013456789", "016CD"};
    for (int call = 0; call < CALLS; call++)
        for (int number = 0; number <= SINKERJAW_FAULT; number++)
            if (seen[call][number] != (strchr(numbers[call], "0123456789ABCD"[number]) != NULL)) {
                printf("%s: answer %d is among its answers or its cases, and not among both\n", call_names[call], number);
                differences++;
            }
}

int main(void) {
    reads();
    checks();
    loops();
    places();
    translates();
    plans();
    runs();
    all_seen();
    printf("answers: %d cases, %d differences\n", cases, differences);
    return differences != 0;
}
