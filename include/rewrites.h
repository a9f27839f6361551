/* Calls of the rewrites library, for C and C++ on x86-64. `.ci/library` makes the archive
   to link, target/staticlib/librewrites.a, which needs no library but C's.

   Each call takes any bytes. It returns 0 with a result, or the number of the refusal: the first
   that applies, in the order given with the call. A refused call changes nothing that was lent. A
   finished call changes only the places that its result sets. rewrites_our_prices returns nothing,
   the rewrites_blame calls a place, and rewrites_version a number; these are never refused.

   A pointer with a length beside it may be null where the length is 0: nothing is read or written
   there. No other pointer may be null. Places that a call writes may not overlap each other or any
   other place lent to it.

   Threads: the library has no state of its own, and remembers nothing from one call to the next. Any
   number of calls may be under way at once, on any threads, as long as none writes to a place that
   another was lent.

   Stack: a call takes no memory but the stack of its thread, at most REWRITES_STACK_BYTES for any
   input; what it takes by itself is told with each call. */
#ifndef REWRITES_H
#define REWRITES_H

#include <stddef.h>
#include <stdint.h>

/* The version of this header and of the library that it belongs to: three numbers, and one number of
   them that grows with them, for `#if REWRITES_VERSION >= 100`. */
#define REWRITES_VERSION_MAJOR 0
#define REWRITES_VERSION_MINOR 1
#define REWRITES_VERSION_PATCH 0
#define REWRITES_VERSION                                                                           \
    (REWRITES_VERSION_MAJOR * 10000 + REWRITES_VERSION_MINOR * 100 + REWRITES_VERSION_PATCH)

/* Sizes of programs and lists, and the least lengths of what is lent. */
#define REWRITES_STATEMENTS 1024       /* the most statements of a program */
#define REWRITES_TEXT_BYTES 34816      /* new text: 34 for the line of each of the most statements */
#define REWRITES_VARIABLES 64          /* i0 to i63 */
#define REWRITES_FIRST_KEPT 24         /* the first variable that the unit keeps, i24 */
#define REWRITES_KEPT 8                /* how many it keeps */
#define REWRITES_MOST_STEPS 1000000    /* the largest budget */
#define REWRITES_KINDS 11              /* the prices of a table */
#define REWRITES_MOST_PRICE 65535      /* the largest price; the least is 1 */
#define REWRITES_CONDITION_BYTES 1024  /* the most bytes of a condition */
#define REWRITES_PARTS 64              /* the most parts of a condition */
#define REWRITES_PART_WORDS 16         /* the words of a part: a bit for each of the most statements */
#define REWRITES_TABLE_WORDS 1024      /* a table: the words of the most parts */
#define REWRITES_PATH_WORDS 1025       /* a path: a word for each of the most statements, and one */
#define REWRITES_REVIEW_LINES 32       /* the most lines of a review */
#define REWRITES_REVIEW_TABLES 128     /* the most differing parts of a review */
#define REWRITES_REVIEW_WORDS 2048     /* the table of a review */
#define REWRITES_LIST_WORDS 2048       /* a list of readers and writers: two sets for each variable */
#define REWRITES_MARKS 1024            /* the most marks of a list */
#define REWRITES_VERDICT_BYTES 1024    /* verdicts: a byte for each of the most marks */
#define REWRITES_PLACES 8              /* the places of stages */
#define REWRITES_PLACE_BYTES 35000     /* the bytes of a place */
#define REWRITES_STAGES_BYTES 280000   /* stages: all places */
#define REWRITES_NAME_BYTES 8          /* the most letters of a stage's name */
#define REWRITES_STACK_BYTES 524288    /* the stack that is enough for every call */

/* What rewrites_force tells where the driver can't bring about the condition. */
#define REWRITES_UNFORCED UINT32_C(4294967295)

/* What a call returns. The order in which refusals are tested is told with each call. */
enum rewrites_refusal {
    REWRITES_OK = 0,                    /* not refused */
    REWRITES_BUFFER = 1,                /* what is lent is too small */
    REWRITES_MISSPELLED = 2,            /* a line of the program */
    REWRITES_LINE_COUNT = 3,            /* of the program */
    REWRITES_PLACEMENT = 4,             /* of `read` or `write` */
    REWRITES_TARGET = 5,                /* outside 2 to N */
    REWRITES_CONDITION_LENGTH = 6,      /* over REWRITES_CONDITION_BYTES */
    REWRITES_CONDITION_MISSPELLED = 7,  /* also a last line of a review without its byte 10 */
    REWRITES_CONDITION_PARTS = 8,       /* over REWRITES_PARTS */
    REWRITES_MARK_MISSPELLED = 9,       /* a line of the marks */
    REWRITES_MARK_COUNT = 10,           /* over REWRITES_MARKS */
    REWRITES_BUDGET = 15,               /* over REWRITES_MOST_STEPS */
    REWRITES_REVIEW_LINE_COUNT = 16,    /* none, or over REWRITES_REVIEW_LINES */
    REWRITES_REVIEW_PARTS = 17,         /* over REWRITES_REVIEW_TABLES that differ */
    REWRITES_PRICE_MISSPELLED = 19,     /* a line of the prices */
    REWRITES_PRICE_COUNT = 20,          /* other than REWRITES_KINDS */
    REWRITES_JOINED_COUNT = 21,         /* over REWRITES_STATEMENTS */
    REWRITES_DRIVER = 22,               /* the driver's list */
    REWRITES_STAGE_NAME = 23,           /* not 1 to REWRITES_NAME_BYTES lower-case letters */
    REWRITES_STAGES_FULL = 24,          /* a new name, and no empty place */
    REWRITES_STAGE_UNKNOWN = 25         /* no place holds the name */
};

/* A mark's verdict, a byte of rewrites_judge's. The first that applies is told, and REWRITES_MAY_FAULT
   is tested before REWRITES_UNMET. */
enum rewrites_verdict {
    REWRITES_ACCEPTED = 0,
    REWRITES_MISSING = 11,    /* no such statement */
    REWRITES_REPEATED = 12,   /* an earlier line names the statement */
    REWRITES_UNFIT = 13,      /* the mark doesn't fit */
    REWRITES_UNMET = 14,      /* its condition is false */
    REWRITES_MAY_FAULT = 18   /* it drops a division that may fault */
};

/* What the last statement of a path does that rewrites_why tells, as *culprit. */
enum rewrites_culprit {
    REWRITES_NO_CULPRIT = 0,
    REWRITES_USED = 1,              /* it uses the variable */
    REWRITES_USED_BY_CSE = 2,       /* an accepted `cse` of the list makes it use the variable */
    REWRITES_REDEFINED = 3,         /* it defines the variable otherwise */
    REWRITES_OPERAND_REDEFINED = 4, /* it defines a variable of A or E */
    REWRITES_NOTHING_COPIED = 5     /* it is statement 1: nothing was copied yet */
};

/* What rewrites_run puts into *ended. */
enum rewrites_outcome { REWRITES_SPENT = 0, REWRITES_ENDED = 1, REWRITES_FAULT = 2 };

/* What rewrites_force puts into arm. */
enum rewrites_arm { REWRITES_NO_ARM = 0, REWRITES_GOTO = 1, REWRITES_ELSE = 2 };

/* Where in a table of prices that of a statement stands. */
enum rewrites_kind {
    REWRITES_KIND_READ = 0,
    REWRITES_KIND_WRITE = 1,
    REWRITES_KIND_SKIP = 2,
    REWRITES_KIND_IF = 3,
    REWRITES_KIND_COPY = 4,    /* X := A */
    REWRITES_KIND_PLUS = 5,
    REWRITES_KIND_MINUS = 6,
    REWRITES_KIND_TIMES = 7,
    REWRITES_KIND_LESS = 8,
    REWRITES_KIND_EQUAL = 9,
    REWRITES_KIND_DIVIDE = 10
};

#ifdef __cplusplus
extern "C" {
#endif

/* Runs the shift program that the text spells, from 64 given values and one input value, under a
   budget of 0 to 1,000,000 steps. One step performs one statement. Statements are numbered from 1.
   `A / B` is signed and rounded toward zero, -2147483648 / -1 giving -2147483648; a B of 0 ends the
   run with a fault. Takes at most 256 KiB of stack.

   Returns 0, and sets
   *ended = 1, *value, *steps and kept, where the run ends within the budget: the value that `write`
              wrote, signed, the steps taken, and the values of i24 to i31 in this order, which the
              unit keeps for its next pass. *statement and left stay as they were.
   *ended = 0, *statement and left, where the budget is spent: the statement and the 64 values after
              that many steps. *value, *steps and kept stay as they were.
   *ended = 2, *statement and *steps, where a statement divides by 0 within the budget: that statement,
              and the steps taken, its own counted. *value, left and kept stay as they were.
   *ticks     in each of these cases: the price of the statements performed, a statement once for each
              time, `write` and one that divides by 0 included, by the table in force.

   The table in force is a value that the caller holds, at first that of rewrites_our_prices: the prices
   in ticks of `read`, `write`, `skip`, `if`, `X := A`, `+`, `-`, `*`, `<`, `=` and `/`, in this order.
   Its entries may be any numbers; at each use one outside 1 to 65,535 counts as our price of that kind,
   and the others as they are. No call remembers it.

   Returns the number of a refusal, and keeps all:
   15: the budget is over 1,000,000.
    2: some line isn't spelled as a statement, or the last lacks its byte 10.
    3: under 2 or over 1,024 lines (empty text included).
    4: `read` or `write` missing from its place or standing elsewhere.
    5: a target outside 2 to N, the count of statements. */
uint8_t rewrites_run(const uint8_t *program, size_t program_len,
                     const uint32_t values[REWRITES_VARIABLES], uint32_t input, uint32_t budget,
                     const uint32_t prices[REWRITES_KINDS], uint32_t *ended, int32_t *value,
                     uint32_t *steps, uint32_t *statement, uint32_t left[REWRITES_VARIABLES],
                     uint32_t kept[REWRITES_KEPT], uint64_t *ticks);

/* Sets all eleven prices to ours: `read` 4, `write` 4, `skip` 1, `if` 3, `X := A` 2, `+` 3, `-` 3,
   `*` 9, `<` 3, `=` 3, `/` 24. */
void rewrites_our_prices(uint32_t prices[REWRITES_KINDS]);

/* Reads a buyer's table of prices: eleven lines in the order of rewrites_run's, each a decimal number
   from 1 to 65,535 without leading zeros, ended by byte 10. Takes at most 16 KiB of stack.

   Returns 0, and sets all eleven prices.

   Returns the number of a refusal, and keeps all:
   19: some line isn't such a number, or the last lacks its byte 10.
   20: other than eleven lines (empty text included). */
uint8_t rewrites_prices(const uint8_t *text, size_t text_len, uint32_t prices[REWRITES_KINDS]);

/* Tabulates a condition over the statements of a program: fills the table with the statements at
   which each part of the condition is true. The parts are the condition's operators and atoms, 1 to
   64, counted at each occurrence, in the order in which their text ends; of those that end together
   the inner comes first. So the last part is the whole condition. `use(X)` holds where X stands in
   the right side, is tested or is written; for X from i24 to i31, which the unit keeps from one pass
   to the next, it holds at `write` too. Takes at most 384 KiB of stack, most where brackets stand
   within one another.

   Returns 0, and sets
   table      words 16k to 16k+15 for part k, counted from 0: bit b of word w of those sixteen is
              statement 64w+b+1, and bits beyond the program's statements are 0. All further words
              are kept.
   *parts     the number of parts.
   *satisfied how many statements satisfy the whole condition.
   *first     the first of them, 0 if none.

   Returns the number of a refusal, and keeps all:
    1: the table has under 1,024 words.
    2 to 5: the program, as with rewrites_run.
    6: the condition is longer than 1,024 bytes.
    7: it is misspelled.
    8: it has over 64 parts. */
uint8_t rewrites_tabulate(const uint8_t *program, size_t program_len, const uint8_t *condition,
                          size_t condition_len, uint64_t *table, size_t table_len, uint32_t *parts,
                          uint32_t *satisfied, uint32_t *first);

/* Tabulates the conditions of a review together: 1 to 32 lines, each a condition ended by byte 10.
   Parts spelled alike, byte for byte, in one line or in several, get one table; the tables are
   filled in the order in which their parts first end. Each line reads as it does with
   rewrites_tabulate by itself. Takes at most 384 KiB of stack, most where brackets stand within one
   another.

   Returns 0, and sets
   table      words 16k to 16k+15 for table k, counted from 0, as rewrites_tabulate does for part k. All
              further words are kept.
   *tables    the number of tables, 1 to 128, which is that of differing parts.
   *lines     the number of lines.
   table_of, parts, satisfied, first
              entry j for line j, counted from 0: the table of its whole condition, its number of
              parts, counted at each occurrence, how many statements satisfy it, and the first of
              them, 0 if none. All further entries are kept.

   Returns the number of a refusal, and keeps all:
    1: the table has under 2,048 words.
    2 to 5: the program, as with rewrites_run.
   16: no line or over 32 lines, an unfinished last one counted.
    6: a line is longer than 1,024 bytes, its byte 10 not counted.
    7: it is misspelled, or is the last and lacks its byte 10.
    8: it has over 64 parts. Of 6 to 8 it is that of the first faulty line.
   17: over 128 differing parts. */
uint8_t rewrites_review(const uint8_t *program, size_t program_len, const uint8_t *conditions,
                        size_t conditions_len, uint64_t *table, size_t table_len, uint32_t *tables,
                        uint32_t *lines, uint32_t table_of[REWRITES_REVIEW_LINES],
                        uint32_t parts[REWRITES_REVIEW_LINES],
                        uint32_t satisfied[REWRITES_REVIEW_LINES],
                        uint32_t first[REWRITES_REVIEW_LINES]);

/* Tells a path that shows why part k of a condition, counted from 0 as with rewrites_tabulate, is true at
   a statement, counted from 1, or why it is false. Negations before a path operator are looked through:
   the path is about the operator below them. It bears out E of that operator, or speaks against A of it:
   X, Y     two statements, the last of which has what is asked for, or hasn't.
   F, U, R, S of E; G, W, M, B of A
            a way, to the statement that settles it. It is the shortest that there is, and the path goes on
            behind it by any steps that exist.
   G, M of E; F, R of A
            a path that goes round for ever, in at most as many statements as the program has.
   W, B of E; U, S of A
            either of the two.
   Forward operators follow the program's steps, `write` stepping to itself; backward ones follow them the
   other way, a statement that nothing steps to, as the first, stepping to itself. Where E is true, or A
   false, there is such a path and it is told; else there is none. A part that has no path operator outside has
   none. Takes at most 384 KiB of stack, most where brackets stand within one another.

   Returns 0, and sets
   path       with a path: the first *length words to its statements, from the one that was asked for on.
              All further words are kept, and all words without one.
   *length    with a path: how many statements it has, 1 to as many as the program; else 0.
   *turn      with a path that goes round: the word, counted from 1, to whose statement the last one steps
              back; else 0.
   *truth     without a path: 1 where the part is true at the statement, with all its negations, else 0;
              0 too for a part that the condition hasn't, or a statement that the program hasn't. With a path
              *truth is kept.

   Returns the number of a refusal, and keeps all:
    1: the path has under 1,025 words.
    2 to 5: the program, as with rewrites_run.
    6 to 8: the condition, as with rewrites_tabulate. */
uint8_t rewrites_witness(const uint8_t *program, size_t program_len, const uint8_t *condition,
                         size_t condition_len, uint32_t part, uint32_t statement, uint32_t *path,
                         size_t path_len, uint32_t *length, uint32_t *turn, uint32_t *truth);

/* Tells what a driver can force. The list, empty or with single spaces between, names the variables
   that are his: at an `if` on one of them he picks the arm, at every other the unit does, without
   regard to values. `write` steps to itself. Takes at most 384 KiB of stack, most where brackets stand
   within one another.

   Returns 0, and sets
   table, *parts, *satisfied, *first
              as rewrites_tabulate does.
   number     entry k, counted from 0, for statement k+1: the least number of steps within which he can
              bring about the condition, however the unit answers, 0 where it is true already;
              4294967295 where he can't, and the unit can avoid it for ever. All entries past the
              program's statements are kept.
   arm        entry k for statement k+1: 1 for the arm behind `goto`, 2 for that behind `else`, 0 for
              none. At his `if`, where he can force the condition and it isn't true there, the arm from
              which the number is lower, or the only one that has a number; at the unit's `if`, where he
              can't, an arm from which he can't either; 1 where both serve alike. Runs that take his arms
              meet the condition within the number, runs that take the unit's never do. No other
              statement has one. All entries past the program's statements are kept.

   Returns the number of a refusal, and keeps all:
    1: the table has under 1,024 words.
    2 to 5: the program, as with rewrites_run.
   22: the list isn't empty and isn't variables with single spaces between, or names one twice.
    6: the condition is longer than 1,024 bytes.
    7: it is misspelled.
    8: it has over 64 parts. */
uint8_t rewrites_force(const uint8_t *program, size_t program_len, const uint8_t *driver,
                       size_t driver_len, const uint8_t *condition, size_t condition_len,
                       uint64_t *table, size_t table_len, uint32_t *parts, uint32_t *satisfied,
                       uint32_t *first, uint32_t number[REWRITES_STATEMENTS],
                       uint8_t arm[REWRITES_STATEMENTS]);

/* Judges each mark of a list on the program, and writes the program with the accepted marks made. A
   list has zero to 1,024 lines, each ended by byte 10: `n: mark(rm, X, E)`, `n: mark(rpl, X, A)` or
   `n: mark(cse, T, E)`, in any order.
   rm  fits where statement n is `X := E`. Where E is `A / B`, B must be a constant other than 0.
       Condition: `!EX E[!def(X) U use(X)]`, where `use(X)` holds also at each statement whose
       `cse` with X for T is accepted, in whatever line of the list it stands: there X gains a
       reader. Made: `skip`.
   rpl fits where n uses X, and A is a variable if n is an `if` or a `write`; at `write` it fits only
       for the X that is written.
       Condition: `AY A[((!def(X) & trans(A)) & !entry) B stmt(X := A)]`.
       Made: A for every use of X in n.
   cse fits where n is `Z := E`, and E has two operands.
       Condition: `AY A[((!def(T) & trans(E)) & !entry) B (stmt(T := E) & trans(E))]`.
       Made: `Z := T`.
   Each mark is judged on the given program, `cse` lines before any rm. rewrites_tabulate knows no
   list: it tells the condition of an rm true also where a `cse` of the list refuses the rm. Accepted
   marks are all made together, refused ones aren't. The new program has the same line count. Started
   alike, it runs alike: to the same value and the same kept values in the same steps, to a fault at the
   same statement in the same steps, or spent at the same statement. Before each step every variable
   that the given program may still use before defining it, its live variables, holds the same value
   in both; others, and so the values left where a run is spent, may differ, and so may the ticks of
   all runs.
   Takes at most 384 KiB of stack.

   Returns 0, and sets
   verdicts    byte j for line j, counted from 0: 0 for a mark that is accepted, else the first that
               applies of
               11: n is 0 or above N, the count of statements.
               12: an earlier line names n, accepted or not.
               13: the mark doesn't fit.
               18: it is an rm, and n divides by anything but a constant other than 0.
               14: its condition is false at n.
               All further bytes are kept.
   text        the new program, from byte 0 on. All further bytes are kept.
   *mark_count the number of marks.
   *accepted   the number of accepted marks.
   *bytes      the number of bytes of new text.

   Returns the number of a refusal, and keeps all:
    1: verdicts has under 1,024 bytes or text under 34,816 bytes.
    2 to 5: the program, as with rewrites_run.
    9: some line of the marks is misspelled, or the last is without its byte 10.
   10: the marks have over 1,024 lines. */
uint8_t rewrites_judge(const uint8_t *program, size_t program_len, const uint8_t *marks,
                       size_t marks_len, uint8_t *verdicts, size_t verdicts_len, uint8_t *text,
                       size_t text_len, uint32_t *mark_count, uint32_t *accepted, uint32_t *bytes);

/* Tells why a mark of a list gets verdict 14: a path from its statement n on that speaks against its
   condition. The list is judged as by rewrites_judge; line j, counted from 0, is the one whose verdict
   fills byte j.
   rm       forward, by at least one step, to a statement that uses X, none between defining X. A use that
            an accepted `cse` of the list adds counts.
   rpl, cse backward, by at least one step, to a statement that defines X or a variable of A or E, or to
            statement 1, with no copy `X := A` on the way, or no `T := E` that leaves E as it was. A statement
            that nothing steps to, as the first, steps back to itself.
   No path that does so is shorter. Takes at most 256 KiB of stack.

   Returns 0, and sets
   *verdict   the verdict of the line, 11 for one that the list hasn't.
   path       with verdict 14: the first *length words to the path's statements, n first. All further words are
              kept, and all words with another verdict.
   *length    with verdict 14: how many statements the path has, 2 to 1,025; else 0.
   *culprit   with verdict 14: what the last of them does, the first that applies of an enum rewrites_culprit;
              else 0.

   Returns the number of a refusal, and keeps all:
    1: the path has under 1,025 words.
    2 to 5: the program, as with rewrites_run.
    9: some line of the marks is misspelled, or the last is without its byte 10.
   10: the marks have over 1,024 lines. */
uint8_t rewrites_why(const uint8_t *program, size_t program_len, const uint8_t *marks, size_t marks_len,
                     uint32_t line, uint32_t *path, size_t path_len, uint32_t *verdict, uint32_t *length,
                     uint32_t *culprit);

/* Tells the price of each statement in ticks, before and after the accepted marks of a list are made,
   and the totals. The list is judged as by rewrites_judge, and the prices are those of the table that
   is handed in, as with rewrites_run. Takes at most 512 KiB of stack.

   Returns 0, and sets
   before, after entry k, counted from 0, for statement k+1: its price in the given program, and in the
                 rewritten one. All entries past the program's statements are kept.
   *statements   the number of statements.
   *given        the sum of the prices before.
   *rewritten    the sum of the prices after.
   *saved        given less rewritten, signed: below zero where a buyer's prices make `skip` dearer than
                 what it stands for.

   Returns the number of a refusal, and keeps all:
    2 to 5: the program, as with rewrites_run.
    9: some line of the marks is misspelled, or the last is without its byte 10.
   10: the marks have over 1,024 lines. */
uint8_t rewrites_report(const uint8_t *program, size_t program_len, const uint8_t *marks,
                        size_t marks_len, const uint32_t prices[REWRITES_KINDS],
                        uint32_t before[REWRITES_STATEMENTS], uint32_t after[REWRITES_STATEMENTS],
                        uint32_t *statements, uint32_t *given, uint32_t *rewritten, int32_t *saved);

/* Tells where a line of a list of marks lies in the list's text, so that a host can show a verdict
   beside its mark. A list is as with rewrites_judge; line j, counted from 0, is the one whose verdict
   fills byte j. The lines lie end to end: the first begins at 0, each ends, its byte 10 included,
   where the next begins, and the last ends at marks_len. Takes at most 16 KiB of stack.

   Returns 0, and sets
   *begin where the line begins.
   *end   where it ends, after its byte 10. At and beyond the number of marks both are marks_len.

   Returns the number of a refusal, and keeps all:
    9: some line of the marks is misspelled, or the last is without its byte 10.
   10: the marks have over 1,024 lines. */
uint8_t rewrites_mark_line(const uint8_t *marks, size_t marks_len, uint32_t line, size_t *begin,
                           size_t *end);

/* Makes the list of a program's readers and writers: for each variable the statements that define it,
   `read X` or `X := E`, and those that use it, as `use(X)` holds with rewrites_tabulate; i24 to i31,
   which the unit keeps, are used at `write` too. Takes at most 256 KiB of stack.

   Returns 0, and sets
   list       words 32v to 32v+15 to the statements that define variable v, words 32v+16 to 32v+31 to
              those that use it: bit b of word w of those sixteen is statement 64w+b+1, and bits beyond
              the program's statements are 0. So all of words 0 to 2,047 are set. All further words are kept.
   defined    entry v: how many ones the first set of variable v has.
   used       entry v: how many its second has.

   Returns the number of a refusal, and keeps all:
    1: the list has under 2,048 words.
    2 to 5: the program, as with rewrites_run. */
uint8_t rewrites_list(const uint8_t *program, size_t program_len, uint64_t *list, size_t list_len,
                      uint32_t defined[REWRITES_VARIABLES], uint32_t used[REWRITES_VARIABLES]);

/* Brings a list of readers and writers up to date after a round of marks. The marks are judged on the
   program as with rewrites_judge. For each statement whose text the accepted ones change, its bit in
   each of the 128 sets is written as in the list of the new program, set or cleared; every other bit is
   kept. So a list that was the given program's is then the new program's; one that was wrong at a
   statement that stays as it was is wrong there still. Takes at most 384 KiB of stack.

   Returns 0, and sets
   list       the bits of changed statements. All others, and all words from 2,048 on, are kept.
   defined, used
              as with rewrites_list, counted in words 0 to 2,047 as they are then: wrong bits, and bits
              beyond the program's statements, count.

   Returns the number of a refusal, and keeps all:
    1: the list has under 2,048 words.
    2 to 5: the program, as with rewrites_run.
    9: some line of the marks is misspelled, or the last is without its byte 10.
   10: the marks have over 1,024 lines. */
uint8_t rewrites_relist(const uint8_t *program, size_t program_len, const uint8_t *marks,
                        size_t marks_len, uint64_t *list, size_t list_len,
                        uint32_t defined[REWRITES_VARIABLES], uint32_t used[REWRITES_VARIABLES]);

/* Joins a road program of N statements and a creeper program of M to one of N+M-1. The road program's
   `write X` and the creeper program's `read Y` become the one statement `Y := X`, number N, and
   creeper statement k from 2 on becomes N+k-1, its targets likewise.
   From every start the joined program runs as the road program does, up to its `write`, and then as
   the creeper program does, started with the values that the road program left and its written value
   as input. If both end, it ends with the creeper program's value and kept values, after the sum of
   their steps less 1. If one never ends, neither does the whole. A fault of the road program is a
   fault of the whole, at the same statement after the same steps; one of the creeper program has its
   new number, and the sum of the steps less 1. Takes at most 256 KiB of stack.

   Returns 0, and sets
   text        the joined program, from byte 0 on. All further bytes are kept.
   *statements the number of its statements, N+M-1.
   *bytes      the number of bytes of its text.

   Returns the number of a refusal, and keeps all:
    1: text has under 34,816 bytes.
    2 to 5: the road's text, as with rewrites_run.
    2 to 5: where the road's text is taken, the creeper's. The number doesn't tell which of the two
            texts is meant: it is the road's where rewrites_run refuses that text by itself.
   21: N+M-1 is above 1,024. */
uint8_t rewrites_join(const uint8_t *road, size_t road_len, const uint8_t *creeper,
                      size_t creeper_len, uint8_t *text, size_t text_len, uint32_t *statements,
                      uint32_t *bytes);

/* Keeps a program under a name, as a stage to go back to. Stages are eight places in the first 280,000
   bytes that are lent, place k, counted from 1, in the 35,000 bytes from 35,000(k-1) on: the name, filled
   up with zero bytes to 8, the text's length in 2 bytes, low byte first, then the text. 280,000 zero bytes
   are eight empty places. A place is empty where its name isn't 1 to 8 lower-case letters with zero bytes
   behind them, its length is above 34,990, its text isn't taken (one of 2 to 5 applies to it), or an
   earlier place that isn't empty has its name. So of the places that stand right with one name the
   first holds it. A known name is replaced where it stands; a new one takes the first empty place. Takes
   at most 256 KiB of stack.

   Returns 0, and sets
   stages     the name, the length and the text of one place. Its other bytes, all other places, and all
              bytes from 280,000 on are kept.
   *place     that place, 1 to 8.

   Returns the number of a refusal, and keeps all:
    1: the stages have under 280,000 bytes.
    2 to 5: the program, as with rewrites_run.
   23: the name isn't 1 to 8 lower-case letters.
   24: the name is new, and all eight places hold others. */
uint8_t rewrites_keep(uint8_t *stages, size_t stages_len, const uint8_t *name, size_t name_len,
                      const uint8_t *program, size_t program_len, uint32_t *place);

/* Returns to a stage: writes the text of the program that is kept under a name. The stages are as with
   rewrites_keep, and are kept. A program that was reached from it by rounds of rewrites_judge, each on the
   text that the last one wrote, runs as the returned one does, with the same outcome and kept values in
   the same steps, a fault at the same statement, or spent at the same statement, as long as nothing but
   rewrites_keep under other names changed the stages since. Takes at most 256 KiB of stack.

   Returns 0, and sets
   text       the kept program, from byte 0 on. All further bytes are kept.
   *bytes     the number of its bytes.

   Returns the number of a refusal, and keeps all:
    1: the stages have under 280,000 bytes or text under 34,816 bytes.
   23: the name isn't 1 to 8 lower-case letters.
   25: no place holds the name. */
uint8_t rewrites_return(const uint8_t *stages, size_t stages_len, const uint8_t *name, size_t name_len,
                        uint8_t *text, size_t text_len, uint32_t *bytes);

/* Tell where a text is wrong, counted from 1. They lend nothing, and take any bytes. 0 is returned where
   nothing is refused, and where the refusal is about no place.

   rewrites_blame_program   the first line that refusal 2, 4 or 5 of the text is about; 0 for 3.
   rewrites_blame_marks     the first line that isn't spelled as a mark or lacks its byte 10; 0 for 10.
   rewrites_blame_condition the byte at which reading stopped, for 7: what stands before it begins the
                            spelling of some condition, and with that byte it begins none. Where the whole
                            text only begins one it is the byte after the last. 0 for 6 and 8, which
                            are about no byte: neither length nor the number of parts counts here.
   They take at most 256, 16 and 32 KiB of stack. */
uint32_t rewrites_blame_program(const uint8_t *program, size_t program_len);
uint32_t rewrites_blame_marks(const uint8_t *marks, size_t marks_len);
uint32_t rewrites_blame_condition(const uint8_t *condition, size_t condition_len);

/* Returns the REWRITES_VERSION of the library that is linked. A host that loads the library while it runs
   compares it with its header's. Nothing is lent, and nothing is refused. */
uint32_t rewrites_version(void);

#ifdef __cplusplus
}
#endif

#endif
