/* Sinkerjaw for callers in C99 and C++: the calls of libsinkerjaw.a, the tables they take and leave, and their answers.
   docs/CALLERS.md has how to build and link, the stack that calls take, and a worked example.

   The usual way is sinkerjaw_read (text into tables), sinkerjaw_plan (tables into a program) and sinkerjaw_run (the program on
   two windows of bytes). sinkerjaw_plain does the same loop element by element: it is what the sheet means, and what a run is
   equal to.

   Nothing has to be checked before a call. Every number and every length, also a wrong one, has one fixed answer, and that is
   proved. What no proof can see is the caller's side of a pointer:

   - A table is lent as a pointer and then its length. A length counts entries of the pointer's type, not bytes.
   - The pointer is valid for that many entries, aligned for its type, and not null. That holds for a length of 0 too: hand over
     any array then; nothing is read or written through it.
   - A table that a call writes, one whose pointer has no const, overlaps no other table of that call. Tables that are only read
     may overlap, or be the same.
   - While a call runs nothing else writes its tables, nor reads those that it writes.

   A window needs no alignment in memory: its address 0 counts as aligned wherever it stands. Tables may be longer than
   they need be. Calls keep nothing between them, allocate nothing and call nothing but memcpy and memset, so threads may call
   at the same time, each with its own tables. */
#ifndef SINKERJAW_H
#define SINKERJAW_H

#include <stddef.h>
#include <stdint.h>

#ifdef __cplusplus
extern "C" {
#endif

/* ---- Answers ---------------------------------------------------------------------------------------------------------------

   Every call gives number + 256 * place + 65,536 * steps. Of the numbers that hold it gives the first, in the order that stands
   with the call. Lines are those of the sheet: the header is line 1 and node k, from 0, is line k + 2, also where no text was
   read.

   Steps are 0 in every call but sinkerjaw_run, so an answer of done is then 0 as a whole. */
enum sinkerjaw_number {
    SINKERJAW_DONE = 0,    /* nothing below holds. Place 0 */
    SINKERJAW_ROOM = 1,    /* a lent table is too short. Place 0 */
    SINKERJAW_LINE = 2,    /* a line of the text is none of the format. Place: the line */
    SINKERJAW_RANGE = 3,   /* a field is outside its range. Place: the line; 0 for a placing rule above 3 */
    SINKERJAW_SHAPE = 4,   /* too few nodes wait for an op or a shift, there is a 65th node, or at the end not exactly one waits
                              or the number of nodes is wrong. Place: the line; of the end, that after the last node */
    SINKERJAW_BARE = 5,    /* a sheet to be placed has a shift or a 32nd node. Place: the first such line */
    SINKERJAW_WINDOW = 6,  /* a window's length is above 65,536 or no multiple of 16. Place: 0 work, judged first, or 1 table */
    SINKERJAW_ALIGN = 7,   /* an address is no multiple of D. Place: the line; the store, line 1, is judged first */
    SINKERJAW_BOUNDS = 8,  /* address + nD is beyond its window. Place: the line; the store is judged first */
    SINKERJAW_CARRY = 9,   /* a load from work at A with A < S < A + nD: it would read the loop's own stores. Place: the line */
    SINKERJAW_OFFSET = 10, /* an offset rule is broken. Place: the line of the op or shift; the store, line 1, is judged last */
    SINKERJAW_LONG = 11,   /* the code of the tree is too long for a section: G is above 1,020. Place 0 */
    SINKERJAW_OUT = 12,    /* the budget is used and instructions remain. Place 0; the steps done */
    SINKERJAW_FAULT = 13   /* the program cannot be started, or cannot go on. Place 0; the steps done */
};

static inline enum sinkerjaw_number sinkerjaw_number_of(uint64_t answer) {
    return (enum sinkerjaw_number)(answer & 0xFF);
}

static inline unsigned sinkerjaw_place_of(uint64_t answer) {
    return (unsigned)((answer >> 8) & 0xFF);
}

static inline uint64_t sinkerjaw_steps_of(uint64_t answer) {
    return answer >> 16;
}

/* What is left behind. After ROOM every table is as it was. After any other refusal the tables that the call writes are zero in
   every entry, over their whole lengths; after done their entries past the used ones are zero, over their whole lengths too.
   Work is a window and no such table: no number from 1 to 11 changes a byte of it, 12 and 13 leave the stores of the steps
   done. */

/* ---- Numbers. .._ENTRIES is the least length of a table, .._ROW the entries of one of its rows, .._MOST a greatest number. */

#define SINKERJAW_VECTOR_BYTES 16      /* V, the bytes of a vector */
#define SINKERJAW_ELEMENTS_MOST 4096   /* n, the elements of a loop */
#define SINKERJAW_ADDRESS_MOST 65535   /* S, and A of a load */
#define SINKERJAW_WINDOW_MOST 65536    /* the bytes of a window .. */
#define SINKERJAW_WINDOW_MULTIPLE 16   /* .. and what they are a multiple of; 0 bytes are allowed */

enum {
    SINKERJAW_WORK = 0, /* the window that is read and written */
    SINKERJAW_TABLE = 1 /* the window that is only read */
};

/* ---- A sheet or graph: a head and a node table of 64-bit numbers -----------------------------------------------------------

   A head's entries. Those from SINKERJAW_HEAD_SPARE on are for sheets of several statements: zero in a head that a call writes,
   not read today; leave them zero. */
#define SINKERJAW_HEAD_ENTRIES 10

enum {
    SINKERJAW_HEAD_D = 0,     /* bytes of an element: 1, 2, 4 or 8 */
    SINKERJAW_HEAD_N = 1,     /* n, 0 to SINKERJAW_ELEMENTS_MOST */
    SINKERJAW_HEAD_S = 2,     /* address of the store in work, 0 to SINKERJAW_ADDRESS_MOST */
    SINKERJAW_HEAD_NODES = 3, /* the number of nodes, 1 to SINKERJAW_NODES_MOST */
    SINKERJAW_HEAD_SPARE = 4
};

/* A node table has a row for each node, in the order of the sheet's lines. It has room for all 64 rows, however few are used. */
#define SINKERJAW_NODES_MOST 64
#define SINKERJAW_NODE_ROW 3
#define SINKERJAW_NODES_ENTRIES 192

enum { SINKERJAW_NODE_KIND = 0, SINKERJAW_NODE_FIRST = 1, SINKERJAW_NODE_SECOND = 2 };

/* Kinds of nodes, and what the first and second field of each are. A field that a kind does not have is zero in a table that a
   call writes and is ignored in one that it reads. */
enum {
    SINKERJAW_NODE_LOAD = 1,  /* window; address, 0 to SINKERJAW_ADDRESS_MOST */
    SINKERJAW_NODE_SPLAT = 2, /* value, below 2^(8D) */
    SINKERJAW_NODE_OP = 3,    /* operation: takes the last two nodes that wait, the earlier as its left */
    SINKERJAW_NODE_SHIFT = 4  /* from; to: both multiples of D, 0 to SINKERJAW_OFFSET_MOST, and they differ */
};

#define SINKERJAW_OFFSET_MOST 15

/* Operations on unsigned elements, modulo 2^(8D); the last two read them as two's complement. */
enum {
    SINKERJAW_ADD = 0,
    SINKERJAW_SUBTRACT = 1, /* left minus right */
    SINKERJAW_MINIMUM = 2,
    SINKERJAW_MAXIMUM = 3,
    SINKERJAW_SIGNED_MINIMUM = 4,
    SINKERJAW_SIGNED_MAXIMUM = 5
};

/* Rules by which shifts are put into a bare sheet: one without shifts, of at most SINKERJAW_BARE_MOST nodes. */
#define SINKERJAW_BARE_MOST 31

enum { SINKERJAW_RULE_ZERO = 0, SINKERJAW_RULE_EAGER = 1, SINKERJAW_RULE_LAZY = 2, SINKERJAW_RULE_DOMINANT = 3 };

/* ---- A program: a program table of 64-bit numbers and three sections of 32-bit numbers ---------------------------------- */

#define SINKERJAW_PROGRAM_ENTRIES 5

enum {
    SINKERJAW_PROGRAM_D = 0,        /* bytes of an element */
    SINKERJAW_PROGRAM_F = 1,        /* the prologue runs once, the body F - 1 times or never, the epilogue once */
    SINKERJAW_PROGRAM_PROLOGUE = 2, /* instructions of the prologue, */
    SINKERJAW_PROGRAM_BODY = 3,     /* of the body, */
    SINKERJAW_PROGRAM_EPILOGUE = 4  /* and of the epilogue; 0 where there is none */
};

#define SINKERJAW_FULL_MOST 2048 /* F of a program that can be started */
#define SINKERJAW_SIZE_MOST 1020 /* G, the instructions of a tree: a section has up to four more */

/* A section has a row for each instruction. */
#define SINKERJAW_SECTION_MOST 1024
#define SINKERJAW_SECTION_ROW 6
#define SINKERJAW_SECTION_ENTRIES 6144

enum {
    SINKERJAW_ROW_KIND = 0,
    SINKERJAW_ROW_DESTINATION = 1, /* the register that is written */
    SINKERJAW_ROW_A = 2,
    SINKERJAW_ROW_B = 3,
    SINKERJAW_ROW_LOW = 4,
    SINKERJAW_ROW_HIGH = 5
};

/* Kinds of instructions, and what each has besides its destination. What a kind does not have is zero in a section that a call
   writes and is ignored in one that is run. A row of zeros is no instruction. */
enum {
    SINKERJAW_CODE_LOAD = 1,      /* a: window; low: address */
    SINKERJAW_CODE_SPLAT = 2,     /* low and high: the lower and upper 32 bits of the value, which is below 2^(8D) */
    SINKERJAW_CODE_OP = 3,        /* a, b: left and right register; low: operation */
    SINKERJAW_CODE_SHIFTPAIR = 4, /* a, b: registers; low: amount, 0 to SINKERJAW_SHIFTPAIR_MOST */
    SINKERJAW_CODE_SPLICE = 5,    /* a, b: registers; low: amount, 0 to SINKERJAW_SPLICE_MOST */
    SINKERJAW_CODE_STORE = 6      /* a: register; low: address in work; it has no destination */
};

#define SINKERJAW_SHIFTPAIR_MOST 15
#define SINKERJAW_SPLICE_MOST 16
#define SINKERJAW_REGISTERS 1024 /* registers 0 to 1,023, of a vector each, all zero when a run begins */

/* An address in a section is signed and held with this added: 0 as 2^31, -16 as 2^31 - 16. */
#define SINKERJAW_ADDRESS_ZERO 2147483648u

/* No program takes more steps: with this as its budget a run is never OUT. */
#define SINKERJAW_STEPS_MOST 2098176

/* ---- Calls -------------------------------------------------------------------------------------------------------------- */

/* Reads a loop sheet from text: text_len bytes, with no zero at the end.

   Gives ROOM; then of the first line at fault LINE, RANGE or SHAPE, in this order. A missing end is LINE, one line after the
   last.
   Writes head and nodes: on done the header's fields, the number of nodes, and a row for each node.
   ROOM: head below SINKERJAW_HEAD_ENTRIES or nodes below SINKERJAW_NODES_ENTRIES. */
uint64_t sinkerjaw_read(
    const uint8_t *text, size_t text_len,
    uint64_t *head, size_t head_len,
    uint64_t *nodes, size_t nodes_len);

/* Checks a sheet or graph that was made or changed as tables, as if it were read. The calls below that take a sheet
   or graph check it the same way.

   Gives ROOM (as above); then of the first line at fault RANGE or SHAPE, in this order. A kind that is none of the four is
   RANGE, and so is an address above SINKERJAW_ADDRESS_MOST. A number of nodes above 64 is SHAPE at line 66, if none of the 64
   rows is at fault.
   Writes nothing. */
uint64_t sinkerjaw_check(
    const uint64_t *head, size_t head_len,
    const uint64_t *nodes, size_t nodes_len);

/* Checks a graph as above and the offsets of its nodes: an op's inputs agree, a shift's child stands at from, the root agrees
   with the store. A sheet without shifts seldom passes: placing makes it pass.

   Gives what sinkerjaw_check gives, then OFFSET.
   Writes nothing. */
uint64_t sinkerjaw_offset_check(
    const uint64_t *head, size_t head_len,
    const uint64_t *nodes, size_t nodes_len);

/* Does the loop element by element. Loads from work see what the loop has stored before; shifts change nothing.

   Gives what sinkerjaw_check gives, then WINDOW, ALIGN and BOUNDS, in this order.
   Writes work, on done only: the bytes from S to S + nD, and no others. */
uint64_t sinkerjaw_plain(
    const uint64_t *head, size_t head_len,
    const uint64_t *nodes, size_t nodes_len,
    uint8_t *work, size_t work_len,
    const uint8_t *table, size_t table_len);

/* Puts shifts into a bare sheet by a rule, so that it passes the offset check and means the same loop.

   Gives ROOM, RANGE with place 0 for a rule above 3, RANGE and SHAPE as sinkerjaw_check, then BARE and ALIGN, in this order.
   Writes placed_head and placed_nodes: on done the placed graph, at most 62 nodes, with the head's D, n and S.
   ROOM: one of the two heads or of the two node tables is too short. */
uint64_t sinkerjaw_place(
    uint64_t rule,
    const uint64_t *head, size_t head_len,
    const uint64_t *nodes, size_t nodes_len,
    uint64_t *placed_head, size_t placed_head_len,
    uint64_t *placed_nodes, size_t placed_nodes_len);

/* Translates a graph that has its shifts into a program for windows of so many bytes. The two window lengths are numbers: no
   window is lent here.

   Gives ROOM, RANGE and SHAPE as sinkerjaw_check, then WINDOW, ALIGN, BOUNDS, CARRY, OFFSET and LONG, in this order.
   Writes program and the three sections: on done the program, as sinkerjaw_run takes it.
   ROOM: head or nodes is too short, program is below SINKERJAW_PROGRAM_ENTRIES or a section below SINKERJAW_SECTION_ENTRIES. */
uint64_t sinkerjaw_translate(
    const uint64_t *head, size_t head_len,
    const uint64_t *nodes, size_t nodes_len,
    uint64_t work_len,
    uint64_t table_len,
    uint64_t *program, size_t program_len,
    uint32_t *prologue, size_t prologue_len,
    uint32_t *body, size_t body_len,
    uint32_t *epilogue, size_t epilogue_len);

/* Places a bare sheet by a rule and translates it, in one step: the program is that of sinkerjaw_place and sinkerjaw_translate.

   Gives ROOM, RANGE with place 0 for a rule above 3, RANGE and SHAPE as sinkerjaw_check, then BARE, WINDOW, ALIGN, BOUNDS and
   CARRY, in this order, with lines of the bare sheet. OFFSET and LONG are never given.
   Writes program and the three sections, and ROOM is given, as by sinkerjaw_translate. */
uint64_t sinkerjaw_plan(
    uint64_t rule,
    const uint64_t *head, size_t head_len,
    const uint64_t *nodes, size_t nodes_len,
    uint64_t work_len,
    uint64_t table_len,
    uint64_t *program, size_t program_len,
    uint32_t *prologue, size_t prologue_len,
    uint32_t *body, size_t body_len,
    uint32_t *epilogue, size_t epilogue_len);

/* Runs a program: d, f and the rows are the program table's entries, d first. A section's length counts entries, its rows count
   instructions. A run always ends; its budget is how many instructions it may do.

   Gives ROOM for a section of more than SINKERJAW_SECTION_MOST rows or of more than its table has; WINDOW; FAULT at the start
   for a d that is none of 1, 2, 4, 8 or an f above SINKERJAW_FULL_MOST. Then, before each instruction, OUT if the budget is
   used, or FAULT if the instruction has an unknown kind, operation, window, register, amount or splat value, or stores outside
   work. An instruction that is never reached is no fault. A load outside its window gives zeros. A program that was planned or
   translated for windows of these lengths is never a FAULT.
   Writes work: on done what the program stored, after OUT and FAULT the stores of the steps done, after ROOM and WINDOW
   nothing. */
uint64_t sinkerjaw_run(
    uint64_t d,
    uint64_t f,
    const uint32_t *prologue, size_t prologue_len, uint64_t prologue_rows,
    const uint32_t *body, size_t body_len, uint64_t body_rows,
    const uint32_t *epilogue, size_t epilogue_len, uint64_t epilogue_rows,
    uint8_t *work, size_t work_len,
    const uint8_t *table, size_t table_len,
    uint64_t budget);

#ifdef __cplusplus
}
#endif

#endif
