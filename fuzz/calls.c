/* A libFuzzer target over the calls. An input is a program, a condition or the conditions of a
   review, a list of marks, some bytes that choose the rest, a driver's list, a buyer's prices and a
   stage's name, with '%', which no text holds, between them. The bytes that choose are a creeper program
   too, which the program is joined to, and by them the stages are made. Runs and reports go by the buyer's
   prices; where these are refused, by a table that the bytes choose, with entries of any size.
   What is checked holds for every input:
   - a refused call changes nothing, and a finished one only what its result sets;
   - no byte beyond a lent text or buffer is touched: each ends at a page that can't be;
   - a program is misspelled exactly where a line of it is, and is written as it was read;
   - a sign stands before no zero, and the line without it is a statement too, but for the least
     constant's;
   - a run that is spent goes on, and one that has ended or faulted stays so; what it keeps is what it
     had one step before;
   - a step faults exactly where its statement divides by 0; else what it leaves of the dividend is
     nearer to 0 than the divisor, and 0 or of the dividend's sign, but at the end of the range;
   - `use` holds at the last statement of what is written and of what the unit keeps, i24 to i31;
   - `!` in front of a condition complements its row and keeps the others;
   - a path for a part of a condition at a statement starts there and goes by the program's steps, and its turn is one of
     them. There is one where the row of the operator has E true, or A false, and no other; each statement but
     the last has the same row's truth, and without a path the truth is the part's own. Whatever part and statement are asked
     for, the refusals are those of the table;
   - a review is refused for its first line that is refused alone, its tables are those of its lines'
     parts alone, and there is one for each part that is spelled differently, in the order of endings;
   - a driver's list is refused exactly where it isn't names with single spaces between, or has one twice;
     what he can force is number 0 where the condition's table has it, else one more than the lower of his
     arms' numbers and than the higher of the unit's, and none where there is none; the arms are by these;
   - a mark that drops fits where its statement stands, and is refused for a fault exactly where it
     then divides by a variable or by 0; at `write` only what is written is replaced; a sum is reused
     where its right side stands and has two operands;
   - the verdict of another that fits is that of its published condition's table. In that of a mark
     that drops, each statement that is to read the variable by an accepted `cse` of the list, up to
     twenty, is a use: without them the table may tell otherwise, and never refuses more;
   - a mark is told its verdict once more with a path, which has statements exactly with 14: from the mark's own on, by the program's steps,
     forward to a use of the variable with no definition between, or a statement that an accepted `cse` makes read it, backward to one
     that defines the variable or an operand, or to the first, with no copy on the way; the culprit is what the last one does;
   - what is dropped becomes `skip`, and what is reused a copy;
   - a table of prices is refused 19 exactly where a line isn't a number from 1 to 65,535 as it is printed,
     else 20 where there aren't eleven; then it is kept as it was;
   - each step of a run adds the price of its statement's text to the ticks, and nothing is added once it is
     over; a price outside the range is ours;
   - a report is refused as the list is, its prices are those of the lines of given and new text, and its
     totals are their sums and the first less the second;
   - the rewritten program is taken, and both programs' runs agree, in all nine values where they end,
     in statement and steps where they fault, and before each step in the values of all variables x for
     which `E[!def(x) U use(x)]` is true there in the given program, by reviews of all 64;
   - the lines of a list that is taken, one after another, are the list;
   - a list of readers and writers has the rows of `def` and `use`, and its counts are of its words;
   - brought up to date after the marks, the list of the given program is that of the new text; in any
     other list the bits of lines that differ are as there, and all others are kept;
   - two programs are joined unless one isn't taken, the first told before the second, or both have over
     1,025 lines. The joined text is taken and has a line less than both; the first's lines but the last
     stand in front as they are, then the assignment, then the second's with their targets moved. It
     runs as the first does to its end, and then as the second does with what the first left;
   - stages of the input's texts and bytes, whole and damaged: of the places whose name is letters and zero
     bytes, whose length has room there and whose text runs, the first with its name holds it. What is kept
     stands in the place that holds its name, or else in the first that holds none; it is returned, and
     every other held name's text is as it was. The marks' new text, kept under another name, leaves it too.
   `fuzz/run` builds it and runs it; `host/tests/fuzz.rs` runs it on the seeds. */
#define _DEFAULT_SOURCE
#include "rewrites.h"

#include <stdio.h>
#include <stdlib.h>
#include <string.h>
#include <sys/mman.h>

#define REQUIRE(holds)                                                   \
    do {                                                                 \
        if (!(holds)) {                                                  \
            fprintf(stderr, "calls.c:%d: not %s\n", __LINE__, #holds);   \
            abort();                                                     \
        }                                                                \
    } while (0)

#define PAGE 4096
#define STATEMENTS 1024
#define VARIABLES 64
#define MARKS 1024
#define PART_WORDS (STATEMENTS / 64)
#define MOST_PARTS 64
#define TABLE_WORDS (MOST_PARTS * PART_WORDS)
#define REVIEW_LINES 32
#define MOST_TABLES 128
#define REVIEW_WORDS (MOST_TABLES * PART_WORDS)
#define SET_WORDS (2 * PART_WORDS)
#define LIST_WORDS (VARIABLES * SET_WORDS)
#define LONGEST 1024
#define PATH_WORDS (STATEMENTS + 1)
#define VERDICT_BYTES MARKS
#define TEXT_BYTES (34 * STATEMENTS)
#define MOST_READERS 20
#define FIRST_KEPT 24
#define KEPT 8
#define KINDS 11
#define UNFORCED UINT32_MAX
#define STAGES_BYTES 280000
#define PLACES 8
#define PLACE_BYTES (STAGES_BYTES / PLACES)
#define NAME_BYTES 8

static const char P[] =
    "read i0\ni1 := i0\ni2 := 7\ni3 := i1 + i2\n"
    "if i0 goto 6 else 8\ni0 := i0 - 1\nif i0 goto 4 else 8\nwrite i3\n";

/* What libFuzzer takes for coverage: the library itself has no counters for it. */
#define FEATURES 4096
__attribute__((section("__libfuzzer_extra_counters"))) static uint8_t counters[5 * FEATURES];

enum { OF_CALLS, OF_PROGRAMS, OF_CONDITIONS, OF_MARKS, OF_SIZES };

static void met(int kind, unsigned feature) { counters[kind * FEATURES + feature % FEATURES] = 1; }

/* Each pair of neighbours in a text that is taken. */
static void met_text(int kind, const uint8_t *text, size_t length) {
    for (size_t k = 1; k < length; k++) met(kind, 16 + text[k - 1] * 131u + text[k]);
}

/* Lent memory */

struct region {
    uint8_t *start, *end, *shadow;
    size_t size;
};

static void map(struct region *r, size_t pages) {
    r->size = pages * PAGE;
    r->start =
        mmap(NULL, r->size + PAGE, PROT_READ | PROT_WRITE, MAP_PRIVATE | MAP_ANONYMOUS, -1, 0);
    REQUIRE(r->start != MAP_FAILED);
    r->end = r->start + r->size;
    REQUIRE(mprotect(r->end, PAGE, PROT_NONE) == 0);
    r->shadow = malloc(r->size);
    REQUIRE(r->shadow != NULL);
    for (size_t k = 0; k < r->size; k++) r->start[k] = (uint8_t)(k * 37 + 11);
}

/* The last bytes of a region, with the whole of it remembered. */
static uint8_t *lend(struct region *r, size_t bytes) {
    REQUIRE(bytes <= r->size);
    memcpy(r->shadow, r->start, r->size);
    return r->end - bytes;
}

/* Takes over that the first bytes of what was lent are set. */
static void set(struct region *r, const uint8_t *lent, size_t bytes) {
    memcpy(r->shadow + (lent - r->start), lent, bytes);
}

static void require_kept(const struct region *r) {
    REQUIRE(memcmp(r->start, r->shadow, r->size) == 0);
}

struct text {
    const uint8_t *bytes;
    size_t length;
};

static struct text put(struct region *r, const void *bytes, size_t length) {
    uint8_t *lent = lend(r, length);
    if (length > 0) memcpy(lent, bytes, length);
    memcpy(r->shadow, r->start, r->size);
    return (struct text){lent, length};
}

static struct region programs, others, conditions, tables, verdict_bytes, new_text, drivers, joins,
    tariffs, stage_bytes, stage_names;

/* What out-parameters hold before a call, and the words on both sides of each. */
#define UNSET 0xa5c3e187u
#define UNSET_SIZE (~(size_t)UNSET)

static void unset(uint32_t *places, size_t count) {
    for (size_t k = 0; k < count; k++) places[k] = UNSET;
}

static size_t lines_of(struct text text) {
    size_t count = 0;
    for (size_t k = 0; k < text.length; k++) count += text.bytes[k] == 10;
    return count;
}

/* Prices */

static const uint32_t ours[KINDS] = {4, 4, 1, 3, 2, 3, 3, 9, 3, 3, 24};

/* The table that is handed to each run and report, with a word on both sides of it. */
static uint32_t held[KINDS + 2];

/* What every use of the table must leave of it. */
static void require_held(const uint32_t before[KINDS + 2]) {
    REQUIRE(memcmp(held, before, sizeof held) == 0);
}

/* The price of a kind: the table's where it lies in the range, else ours. */
static uint32_t in_force(size_t kind) {
    uint32_t price = held[kind + 1];
    return price >= 1 && price <= 65535 ? price : ours[kind];
}

static int is_ours(void) {
    for (size_t k = 0; k < KINDS; k++)
        if (in_force(k) != ours[k]) return 0;
    return 1;
}

/* The number that a table's text gets, with its prices where it is taken: a line is the number that is
   printed so. */
static uint8_t expected_prices(struct text text, uint32_t prices[KINDS]) {
    size_t start = 0, count = 0;
    char printed[16];

    while (start < text.length) {
        const uint8_t *line = text.bytes + start, *end = memchr(line, 10, text.length - start);
        uint32_t price = 0;

        if (end == NULL || end - line > 5) return 19;
        for (const uint8_t *at = line; at < end; at++) price = 10 * price + (uint32_t)(*at - '0');
        snprintf(printed, sizeof printed, "%lu", (unsigned long)price);
        if (price < 1 || price > 65535 || strlen(printed) != (size_t)(end - line)) return 19;
        if (memcmp(printed, line, (size_t)(end - line)) != 0) return 19;
        if (count < KINDS) prices[count] = price;
        count++;
        start += (size_t)(end - line) + 1;
    }
    return count == KINDS ? 0 : 20;
}

/* Holds a table chosen by bits, reads the text over it, and checks what is held then. */
static void check_prices(struct text text, uint32_t bits) {
    static const uint32_t edges[8] = {0, 1, 2, 65535, 65536, 65537, 0x80000000, 0xffffffff};
    uint32_t before[KINDS + 2], prices[KINDS] = {0};
    uint8_t number, expected = expected_prices(text, prices);

    unset(held, KINDS + 2);
    rewrites_our_prices(held + 1);
    REQUIRE(held[0] == UNSET && held[KINDS + 1] == UNSET);
    REQUIRE(memcmp(held + 1, ours, sizeof ours) == 0);
    for (size_t k = 1; k <= KINDS; k++) {
        uint32_t some = (bits + (uint32_t)k) * 2654435761u;
        if (some & 1) held[k] = some & 2 ? edges[some >> 29] : some >> 20;
    }
    memcpy(before, held, sizeof held);
    number = rewrites_prices(text.bytes, text.length, held + 1);
    REQUIRE(number == expected);
    met(OF_CALLS, 1600 + number);
    if (number == 0) {
        memcpy(before + 1, prices, sizeof prices);
        met_text(OF_CALLS, text.bytes, text.length);
    }
    require_held(before);
}

/* Runs */

/* How a run stands when it is told. */
enum { SPENT, ENDED, FAULT };

struct run {
    uint32_t ended, steps, statement, left[VARIABLES], kept[KEPT];
    int32_t value;
    uint64_t ticks;
};

static uint8_t run(struct text program, const uint32_t values[VARIABLES], uint32_t input,
                   uint32_t budget, struct run *answer) {
    uint32_t places[7], left[VARIABLES + 2], kept[KEPT + 2], given[VARIABLES], prices[KINDS + 2];
    union {
        uint32_t word;
        int32_t value;
    } value;
    uint64_t ticks[3] = {UNSET, UNSET, UNSET};
    uint8_t number;

    memcpy(given, values, sizeof given);
    memcpy(prices, held, sizeof held);
    unset(places, 7);
    unset(left, VARIABLES + 2);
    unset(kept, KEPT + 2);
    value.word = UNSET;
    number = rewrites_run(program.bytes, program.length, values, input, budget, held + 1, &places[1],
                          &value.value, &places[3], &places[5], left + 1, kept + 1, &ticks[1]);
    REQUIRE(memcmp(given, values, sizeof given) == 0);
    require_held(prices);
    for (size_t k = 0; k < 7; k += 2) REQUIRE(places[k] == UNSET);
    REQUIRE(left[0] == UNSET && left[VARIABLES + 1] == UNSET);
    REQUIRE(kept[0] == UNSET && kept[KEPT + 1] == UNSET);
    REQUIRE(ticks[0] == UNSET && ticks[2] == UNSET);
    if (number != 0 || places[1] != SPENT)
        for (size_t k = 1; k <= VARIABLES; k++) REQUIRE(left[k] == UNSET);
    if (number != 0 || places[1] != ENDED)
        for (size_t k = 1; k <= KEPT; k++) REQUIRE(kept[k] == UNSET);
    if (number != 0) {
        REQUIRE(places[1] == UNSET && value.word == UNSET && places[3] == UNSET && places[5] == UNSET);
        REQUIRE(ticks[1] == UNSET);
        return number;
    }
    REQUIRE(places[1] <= FAULT);
    if (places[1] != ENDED) REQUIRE(value.word == UNSET);
    if (places[1] == SPENT) {
        REQUIRE(places[3] == UNSET);
    } else {
        REQUIRE(places[3] >= 2 && places[3] <= budget);
    }
    if (places[1] == ENDED) {
        REQUIRE(places[5] == UNSET);
    } else {
        REQUIRE(places[5] >= 1 && places[5] <= lines_of(program));
    }
    answer->ended = places[1];
    answer->value = value.value;
    answer->steps = places[3];
    answer->statement = places[5];
    memcpy(answer->left, left + 1, sizeof answer->left);
    memcpy(answer->kept, kept + 1, sizeof answer->kept);
    answer->ticks = ticks[1];
    return 0;
}

/* Whether both runs have ended alike, in all nine values, faulted at one statement after the same
   steps, or stand before one statement. */
static int agree(const struct run *a, const struct run *b) {
    if (a->ended != b->ended) return 0;
    if (a->ended == SPENT) return a->statement == b->statement;
    if (a->ended == FAULT) return a->statement == b->statement && a->steps == b->steps;
    return a->value == b->value && a->steps == b->steps &&
           memcmp(a->kept, b->kept, sizeof a->kept) == 0;
}

/* Copies a line of a program that is taken, counted from 1, without its byte 10. */
static void copy_line(struct text program, size_t n, char line[64]) {
    size_t start = 0, length = 0;

    for (; n > 1; start++) n -= program.bytes[start] == 10;
    while (program.bytes[start + length] != 10) length++;
    REQUIRE(length < 64);
    memcpy(line, program.bytes + start, length);
    line[length] = 0;
}

/* Copies the next line of a text that is taken, without its byte 10, and tells its length. */
static size_t next_line(struct text text, size_t *start, char line[128]) {
    size_t length = 0;

    while (text.bytes[*start + length] != 10) length++;
    REQUIRE(length < 128);
    memcpy(line, text.bytes + *start, length);
    line[length] = 0;
    *start += length + 1;
    return length;
}

/* The kinds of statements, in the order of their prices. */
enum { READ, WRITE, SKIP, IF, COPY, FIRST_SIGN };

/* The price of a statement, by its text. */
static uint32_t price_of(const char *line) {
    static const char signs[] = "+-*<=/";
    const char *right = strstr(line, " := ");

    if (right == NULL) {
        if (strcmp(line, "skip") == 0) return in_force(SKIP);
        if (strncmp(line, "if ", 3) == 0) return in_force(IF);
        return in_force(strncmp(line, "read ", 5) == 0 ? READ : WRITE);
    }
    right = strchr(right + 4, ' ');
    return in_force(right == NULL ? COPY : FIRST_SIGN + (size_t)(strchr(signs, right[1]) - signs));
}

/* The number that an operand stands for. */
static int64_t value_of(const char *operand, const uint32_t values[VARIABLES]) {
    union {
        uint32_t word;
        int32_t value;
    } value;

    if (operand[0] != 'i') return strtoll(operand, NULL, 10);
    value.word = values[strtoul(operand + 1, NULL, 10)];
    return value.value;
}

static int64_t absolute(int64_t number) { return number < 0 ? -number : number; }

/* A step of a run. Where it performs a division it faults, or leaves a quotient. */
static void check_step(struct text program, const struct run *before, const struct run *after) {
    char line[64], dividend[16], divisor[16];
    unsigned variable;
    int64_t a, b, quotient, rest;

    copy_line(program, before->statement, line);
    REQUIRE(after->ticks == before->ticks + price_of(line));
    if (sscanf(line, "i%u := %15[-i0-9] / %15s", &variable, dividend, divisor) != 3) {
        REQUIRE(after->ended != FAULT);
        return;
    }
    a = value_of(dividend, before->left);
    b = value_of(divisor, before->left);
    met(OF_CALLS, 80 + (a > 0) + 2 * (a < 0) + 3 * ((b > 0) + 2 * (b < 0)));
    REQUIRE(after->ended == (b == 0 ? FAULT : SPENT));
    if (b == 0) {
        REQUIRE(after->statement == before->statement);
        return;
    }
    REQUIRE(after->statement == before->statement + 1);
    snprintf(dividend, sizeof dividend, "i%u", variable);
    quotient = value_of(dividend, after->left);
    if (a == INT32_MIN && b == -1) {
        REQUIRE(quotient == INT32_MIN);
        met(OF_CALLS, 95);
        return;
    }
    rest = a - quotient * b;
    REQUIRE(absolute(rest) < absolute(b) && (rest == 0 || (rest < 0) == (a < 0)));
    for (size_t k = 0; k < VARIABLES; k++)
        REQUIRE(k == variable || after->left[k] == before->left[k]);
}

static void check_runs(struct text program, const uint32_t values[VARIABLES], uint32_t input,
                       uint32_t budget) {
    struct run before = {0}, after = {0};

    REQUIRE(run(program, values, input, 0, &before) == 0);
    REQUIRE(!before.ended && before.statement == 1 && before.ticks == 0);
    REQUIRE(memcmp(before.left, values, sizeof before.left) == 0);
    for (uint32_t b = 1; b <= budget; b++) {
        REQUIRE(run(program, values, input, b, &after) == 0);
        if (before.ended) {
            REQUIRE(agree(&before, &after) && after.ticks == before.ticks);
            break;
        }
        REQUIRE(!after.ended || after.steps == b);
        check_step(program, &before, &after);
        if (after.ended == ENDED) {
            REQUIRE(memcmp(after.kept, before.left + FIRST_KEPT, sizeof after.kept) == 0);
            met(OF_CALLS, 66 + (memcmp(after.kept, values + FIRST_KEPT, sizeof after.kept) == 0));
        }
        before = after;
    }
    met(OF_CALLS, 68 + before.ended);
}

/* Programs */

/* Whether a line, without its byte 10, is a statement: it is then one in a program of its own. */
static int is_statement(struct text line) {
    static const uint32_t values[VARIABLES];
    static uint8_t program[PAGE];
    struct run answer;
    size_t length = 8;
    uint8_t number;

    memcpy(program, "read i0\n", length);
    if (line.length > 0) memcpy(program + length, line.bytes, line.length);
    length += line.length;
    memcpy(program + length, "\nwrite i0\n", 10);
    number = run(put(&others, program, length + 10), values, 0, 0, &answer);
    REQUIRE(number == 0 || number == 2 || number == 4 || number == 5);
    return number != 2;
}

/* Each sign of a line that is a statement. The operator has a space behind it. */
static void check_signs(struct text line) {
    static const char least[] = "-2147483648";
    uint8_t bare[64];

    REQUIRE(line.length <= sizeof bare);
    for (size_t k = 0; k + 1 < line.length; k++) {
        size_t left = line.length - k, digits = 1;
        int is_least;

        if (line.bytes[k] != '-' || line.bytes[k + 1] == ' ') continue;
        REQUIRE(line.bytes[k + 1] >= '1' && line.bytes[k + 1] <= '9');
        REQUIRE(k > 0 && line.bytes[k - 1] == ' ');
        while (digits < left && line.bytes[k + digits] != ' ') digits++;
        is_least = digits == strlen(least) && memcmp(line.bytes + k, least, digits) == 0;
        memcpy(bare, line.bytes, k);
        memcpy(bare + k, line.bytes + k + 1, left - 1);
        REQUIRE(is_statement((struct text){bare, line.length - 1}) == !is_least);
        met(OF_CALLS, 1000 + is_least);
    }
}

/* The number by which a program is refused, or 0. */
static uint8_t check_program(struct text program) {
    static const uint32_t values[VARIABLES];
    struct run answer;
    uint8_t number = run(program, values, 0, 0, &answer);
    size_t start = 0, lines = lines_of(program);
    int spelled = program.length == 0 || program.bytes[program.length - 1] == 10;

    REQUIRE(run(program, values, 0, 1000001, &answer) == 15);
    REQUIRE(run(program, values, 0, UINT32_MAX, &answer) == 15);
    REQUIRE(number == 0 || (number >= 2 && number <= 5));
    for (size_t k = 0; k < program.length && spelled && lines < STATEMENTS + 44; k++)
        if (program.bytes[k] == 10) {
            if (k - start > 40) break;
            spelled = is_statement((struct text){program.bytes + start, k - start});
            if (spelled) {
                check_signs((struct text){program.bytes + start, k - start});
                met_text(OF_PROGRAMS, program.bytes + start, k - start);
            }
            start = k + 1;
        }
    if (!spelled) REQUIRE(number == 2);
    if (spelled && start == program.length) {
        REQUIRE(number != 2);
        REQUIRE((lines < 2 || lines > STATEMENTS) == (number == 3));
    }
    met(OF_CALLS, number);
    if (number == 0) met(OF_SIZES, (unsigned)lines);
    return number;
}

/* Tables */

struct table {
    uint32_t parts, satisfied, first;
    uint64_t words[TABLE_WORDS];
};

static uint8_t tabulate(struct text program, struct text condition, size_t room,
                        struct table *answer) {
    uint32_t places[7];
    uint64_t *words = (uint64_t *)(void *)lend(&tables, room * sizeof *words);
    uint8_t number;

    unset(places, 7);
    number = rewrites_tabulate(program.bytes, program.length, condition.bytes, condition.length,
                               words, room, &places[1], &places[3], &places[5]);
    for (size_t k = 0; k < 7; k++) REQUIRE((number == 0 && k % 2 == 1) || places[k] == UNSET);
    /* A place is told of what is refused for its line or its byte, and of nothing else. */
    if (number != 1) {
        uint32_t line = rewrites_blame_program(program.bytes, program.length);

        REQUIRE((line != 0) == (number == 2 || number == 4 || number == 5));
    }
    if (number == 0 || number >= 6) {
        uint32_t byte = rewrites_blame_condition(condition.bytes, condition.length);

        REQUIRE((byte != 0) == (number == 7) && byte <= condition.length + 1);
    }
    if (number == 0) {
        REQUIRE(places[1] >= 1 && places[1] <= 64);
        set(&tables, (uint8_t *)words, PART_WORDS * places[1] * sizeof *words);
        answer->parts = places[1];
        answer->satisfied = places[3];
        answer->first = places[5];
        memcpy(answer->words, words, PART_WORDS * places[1] * sizeof *words);
    }
    require_kept(&tables);
    return number;
}

static int holds(const uint64_t *row, size_t n) { return row[(n - 1) / 64] >> (n - 1) % 64 & 1; }

/* Paths */

/* Whether one statement of a program steps to another; backward, whether the other does, or nothing steps to the one
   and it is the other too. */
static int steps_to(struct text program, size_t from, size_t to) {
    unsigned tested, then, other;
    char line[64];

    copy_line(program, from, line);
    if (sscanf(line, "if i%u goto %u else %u", &tested, &then, &other) == 3) return to == then || to == other;
    return to == from + (strncmp(line, "write", 5) != 0);
}

static int steps_back(struct text program, size_t from, size_t to) {
    size_t lines = lines_of(program);

    if (from != to) return to < lines && steps_to(program, to, from);
    for (size_t n = 1; n < lines; n++)
        if (steps_to(program, n, from)) return from < lines && steps_to(program, from, from);
    return 1;
}

struct path {
    uint32_t length, turn, truth, statements[PATH_WORDS];
};

static uint8_t witness(struct text program, struct text condition, uint32_t part, uint32_t statement,
                       size_t room, struct path *answer) {
    uint32_t places[7];
    uint32_t *words = (uint32_t *)(void *)lend(&tables, room * sizeof *words);
    uint8_t number;

    unset(places, 7);
    number = rewrites_witness(program.bytes, program.length, condition.bytes, condition.length, part,
                              statement, words, room, &places[1], &places[3], &places[5]);
    for (size_t k = 0; k < 7; k++) REQUIRE((number == 0 && k % 2 == 1) || places[k] == UNSET);
    if (number == 0) {
        answer->length = places[1];
        answer->turn = places[3];
        answer->truth = places[5];
        /* A path keeps the truth. */
        REQUIRE(answer->length == 0 ? answer->truth <= 1 && answer->turn == 0 : answer->truth == UNSET);
        REQUIRE(answer->length <= STATEMENTS && answer->turn <= answer->length);
        set(&tables, (uint8_t *)words, answer->length * sizeof *words);
        memcpy(answer->statements, words, answer->length * sizeof *words);
    }
    require_kept(&tables);
    return number;
}

/* The path of a part, whose text ends where the condition does where it is the last, at a statement. */
static void check_path(struct text program, struct text condition, const struct table *table, uint32_t part,
                       uint32_t statement) {
    static struct path answer;
    const uint64_t *row = table->words + PART_WORDS * part;
    size_t lines = lines_of(program), depth = 0;
    int is_back, is_all, is_true;
    const uint8_t *text = condition.bytes;

    REQUIRE(witness(program, condition, part, statement, PATH_WORDS, &answer) == 0);
    if (statement < 1 || statement > lines || part >= table->parts) {
        REQUIRE(answer.length == 0 && answer.truth == 0);
        return;
    }
    is_true = holds(row, statement);
    if (answer.length == 0) REQUIRE(answer.truth == (uint32_t)is_true);
    met(OF_CALLS, 1500 + (answer.length > 0) + 2 * (answer.turn > 0) + 4 * (answer.length > 8));
    if (part + 1 < table->parts) return;

    /* Of the whole condition the operator is known by its text: `!` before it are looked through. */
    while (depth < condition.length && text[depth] == '!') depth++;
    if (depth == condition.length || (text[depth] != 'E' && text[depth] != 'A')) {
        REQUIRE(answer.length == 0);
        return;
    }
    is_all = text[depth] == 'A';
    REQUIRE((answer.length > 0) == (((is_true + depth) % 2 != 0) != is_all));
    if (answer.length == 0) return;
    if (text[depth + 1] == '[') {
        /* The letter between the operands, at the depth of this bracket. */
        size_t open = 0, at = depth + 1;

        for (;; at++) {
            open += text[at] == '[' || text[at] == '(';
            open -= text[at] == ']' || text[at] == ')';
            if (open == 1 && text[at] == ' ' && strchr("UWSB", text[at + 1]) && text[at + 2] == ' ') break;
        }
        is_back = text[at + 1] == 'S' || text[at + 1] == 'B';
    } else {
        is_back = strchr("YRM", text[depth + 1]) != NULL;
    }
    REQUIRE(answer.statements[0] == statement);
    for (size_t k = 0; k < answer.length; k++) {
        size_t from = answer.statements[k];
        size_t next = k + 1 < answer.length ? k + 1 : answer.turn > 0 ? answer.turn - 1 : k;

        REQUIRE(from >= 1 && from <= lines);
        /* From each statement the rest of the path shows the operator, but for that of X and Y. */
        if (!strchr("XY", text[depth + 1])) REQUIRE(holds(row, from) == is_true);
        if (next != k || answer.turn == answer.length) {
            size_t to = answer.statements[next];

            REQUIRE(to >= 1 && to <= lines);
            REQUIRE(is_back ? steps_back(program, from, to) : steps_to(program, from, to));
        }
    }
}

static void check_paths(struct text program, struct text condition, const struct table *table) {
    static struct path answer;
    const uint32_t lines = (uint32_t)lines_of(program), last = table->parts - 1;

    REQUIRE(witness(program, condition, last, 1, PATH_WORDS - 1, &answer) == 1);
    for (uint32_t n = 0; n <= lines + 1; n += lines > 40 && n > 4 ? lines / 8 : 1) {
        check_path(program, condition, table, last, n);
        check_path(program, condition, table, n % table->parts, n);
    }
    check_path(program, condition, table, last, lines);
    check_path(program, condition, table, table->parts, 1);
    check_path(program, condition, table, UINT32_MAX, UINT32_MAX);
}

static uint8_t check_condition(struct text program, struct text condition, uint8_t refused) {
    static struct table answer, opposite;
    static struct path path;
    static uint8_t longer[1025];
    size_t lines = lines_of(program), count = 0, first = 0;
    uint8_t number = tabulate(program, condition, TABLE_WORDS, &answer);
    const uint64_t *row;

    REQUIRE(tabulate(program, condition, TABLE_WORDS - 1, &opposite) == 1);
    met(OF_CALLS, 16 + number);
    REQUIRE(witness(program, condition, 0, 1, PATH_WORDS, &path) == number);
    if (refused != 0) {
        REQUIRE(number == refused);
        return number;
    }
    REQUIRE((condition.length > 1024) == (number == 6));
    REQUIRE(number == 0 || (number >= 6 && number <= 8));
    if (number != 0) return number;
    check_paths(program, condition, &answer);
    met(OF_CALLS, 512 + answer.parts);
    met_text(OF_CONDITIONS, condition.bytes, condition.length);
    for (size_t k = 0; k < answer.parts; k++)
        for (size_t n = lines + 1; n <= STATEMENTS; n++)
            REQUIRE(!holds(answer.words + PART_WORDS * k, n));
    row = answer.words + PART_WORDS * (answer.parts - 1);
    for (size_t n = lines; n >= 1; n--)
        if (holds(row, n)) {
            count++;
            first = n;
        }
    REQUIRE(answer.satisfied == count && answer.first == first);
    met(OF_CALLS, 600 + (count == 0) + 2 * (count == lines));

    if (condition.length == 1024) return 0;
    longer[0] = '!';
    memcpy(longer + 1, condition.bytes, condition.length);
    number = tabulate(program, put(&others, longer, condition.length + 1), TABLE_WORDS, &opposite);
    REQUIRE(number == (answer.parts == 64 ? 8 : 0));
    if (number == 0) {
        REQUIRE(opposite.parts == answer.parts + 1);
        REQUIRE(memcmp(opposite.words, answer.words, PART_WORDS * answer.parts * sizeof *row) == 0);
        for (size_t n = 1; n <= lines; n++)
            REQUIRE(holds(row, n) != holds(opposite.words + PART_WORDS * answer.parts, n));
        REQUIRE(opposite.satisfied == lines - count);
    }
    return 0;
}

/* Reviews */

struct review {
    uint32_t tables, lines, of_lines[4][REVIEW_LINES];
    uint64_t words[REVIEW_WORDS];
};

enum { TABLE_OF, PARTS, SATISFIED, FIRST };

static uint8_t review(struct text program, struct text lines, size_t room, struct review *answer) {
    /* Two words and four arrays, each between words that are kept. */
    uint32_t counts[5], places[1 + 4 * (REVIEW_LINES + 1)];
    uint64_t *words = (uint64_t *)(void *)lend(&tables, room * sizeof *words);
    uint32_t *of[4];
    uint8_t number;

    unset(counts, 5);
    unset(places, sizeof places / sizeof *places);
    for (size_t k = 0; k < 4; k++) of[k] = places + 1 + k * (REVIEW_LINES + 1);
    number = rewrites_review(program.bytes, program.length, lines.bytes, lines.length, words, room,
                             &counts[1], &counts[3], of[TABLE_OF], of[PARTS], of[SATISFIED],
                             of[FIRST]);
    for (size_t k = 0; k < 5; k++) REQUIRE((number == 0 && k % 2 == 1) || counts[k] == UNSET);
    if (number == 0) {
        REQUIRE(counts[1] >= 1 && counts[1] <= MOST_TABLES);
        REQUIRE(counts[3] >= 1 && counts[3] <= REVIEW_LINES);
        set(&tables, (uint8_t *)words, PART_WORDS * counts[1] * sizeof *words);
        answer->tables = counts[1];
        answer->lines = counts[3];
        memcpy(answer->words, words, PART_WORDS * counts[1] * sizeof *words);
        for (size_t k = 0; k < 4; k++) memcpy(answer->of_lines[k], of[k], sizeof answer->of_lines[k]);
    }
    for (size_t k = 0; k < sizeof places / sizeof *places; k++)
        REQUIRE((number == 0 && k > 0 && (k - 1) % (REVIEW_LINES + 1) < counts[3]) ||
                places[k] == UNSET);
    require_kept(&tables);
    return number;
}

/* The parts of a line that is taken, in the order in which their text ends. */
static struct text parts[MOST_PARTS];
static size_t part_count;

/* Adds the parts of the condition at a place of a line that is taken, and tells where it ends. */
static const uint8_t *add_parts(const uint8_t *start, const uint8_t *bound) {
    const uint8_t *at = start;

    if (*at == '!') {
        at = add_parts(at + 1, bound);
    } else if (*at == '(' || ((*at == 'E' || *at == 'A') && at[1] == '[')) {
        at = add_parts(at + (*at == '(' ? 1 : 2), bound);
        at = add_parts(at + 3, bound) + 1;
    } else if (*at == 'E' || *at == 'A') {
        at = add_parts(at + 3, bound);
    } else {
        while (at < bound && *at >= 'a' && *at <= 'z') at++;
        if (at < bound && *at == '(') {
            while (*at != ')') at++;
            at++;
        }
    }
    REQUIRE(at <= bound && part_count < MOST_PARTS);
    parts[part_count++] = (struct text){start, (size_t)(at - start)};
    return at;
}

static int alike(struct text one, struct text other) {
    return one.length == other.length && memcmp(one.bytes, other.bytes, one.length) == 0;
}

/* What is expected of a review, from its lines alone. */
struct expected {
    /* 0, or the first refusal of a line, 6 to 8. */
    uint8_t number;
    /* The first of the parts that are spelled alike, and each one's row. */
    struct text firsts[REVIEW_LINES * MOST_PARTS];
    uint64_t rows[REVIEW_LINES * MOST_PARTS][PART_WORDS];
    size_t tables;
    uint32_t of_lines[4][REVIEW_LINES];
};

/* Takes over what a line answers alone. */
static void expect_line(struct expected *all, size_t j, struct text line, const struct table *alone) {
    size_t k, at = 0;

    part_count = 0;
    REQUIRE(add_parts(line.bytes, line.bytes + line.length) == line.bytes + line.length);
    REQUIRE(part_count == alone->parts);
    for (k = 0; k < part_count; k++) {
        for (at = 0; at < all->tables && !alike(all->firsts[at], parts[k]); at++) continue;
        if (at == all->tables) {
            all->firsts[at] = parts[k];
            memcpy(all->rows[at], alone->words + PART_WORDS * k, sizeof all->rows[at]);
            all->tables++;
        }
        REQUIRE(memcmp(all->rows[at], alone->words + PART_WORDS * k, sizeof all->rows[at]) == 0);
    }
    all->of_lines[TABLE_OF][j] = (uint32_t)at;
    all->of_lines[PARTS][j] = alone->parts;
    all->of_lines[SATISFIED][j] = alone->satisfied;
    all->of_lines[FIRST][j] = alone->first;
}

static void expect(struct expected *all, struct text program, struct text lines) {
    static struct table alone;
    size_t start = 0;

    all->number = 0;
    all->tables = 0;
    for (size_t j = 0; start < lines.length && all->number == 0; j++) {
        struct text line = {lines.bytes + start, 0};

        while (start + line.length < lines.length && line.bytes[line.length] != 10) line.length++;
        if (start + line.length == lines.length) {
            all->number = line.length > LONGEST ? 6 : 7;
        } else {
            all->number = tabulate(program, put(&others, line.bytes, line.length), TABLE_WORDS, &alone);
            if (all->number == 0) expect_line(all, j, line, &alone);
        }
        start += line.length + 1;
    }
}

static void check_review(struct text program, struct text lines, uint8_t refused) {
    static struct review answer;
    static struct expected all;
    uint8_t number = review(program, lines, REVIEW_WORDS, &answer);
    size_t count = lines_of(lines) + (lines.length > 0 && lines.bytes[lines.length - 1] != 10);

    REQUIRE(review(program, lines, REVIEW_WORDS - 1, &answer) == 1);
    met(OF_CALLS, 48 + number);
    if (refused != 0 || count < 1 || count > REVIEW_LINES) {
        REQUIRE(number == (refused != 0 ? refused : 16));
        return;
    }
    expect(&all, program, lines);
    if (all.number == 0 && all.tables > MOST_TABLES) all.number = 17;
    REQUIRE(number == all.number);
    if (number != 0) return;
    REQUIRE(answer.tables == all.tables && answer.lines == count);
    REQUIRE(memcmp(answer.words, all.rows, all.tables * sizeof *all.rows) == 0);
    for (size_t k = 0; k < 4; k++)
        REQUIRE(memcmp(answer.of_lines[k], all.of_lines[k], count * sizeof **all.of_lines) == 0);
    met(OF_CALLS, 1100 + answer.tables);
    met(OF_CALLS, 1300 + answer.lines);
}

/* Whether a program that is taken ends with `write` of this variable. */
static int is_written(struct text program, unsigned variable) {
    char line[32];
    size_t length = (size_t)snprintf(line, sizeof line, "\nwrite i%u\n", variable);

    return program.length > length &&
           memcmp(program.bytes + program.length - length, line, length) == 0;
}

/* Whether a condition is true at the last statement of a program that is taken. */
static int holds_at_write(struct text program, const char *condition) {
    static struct table answer;

    REQUIRE(tabulate(program, put(&others, condition, strlen(condition)), TABLE_WORDS, &answer) ==
            0);
    return holds(answer.words + PART_WORDS * (answer.parts - 1), lines_of(program));
}

/* `use` of what the unit keeps, and of any variable, at the last statement. */
static void check_use_at_write(struct text program, unsigned variable) {
    static const char all_kept[] =
        "(use(i24) & (use(i25) & (use(i26) & (use(i27) & "
        "(use(i28) & (use(i29) & (use(i30) & use(i31))))))))";
    char condition[32];
    int is_kept = variable >= FIRST_KEPT && variable < FIRST_KEPT + KEPT;

    REQUIRE(holds_at_write(program, all_kept));
    snprintf(condition, sizeof condition, "use(i%u)", variable);
    REQUIRE(holds_at_write(program, condition) == (is_kept || is_written(program, variable)));
}

/* Games */

/* Whether a driver's list is one, and its variables as bits. */
static int names_of(struct text list, uint64_t *names) {
    size_t at = 0;

    *names = 0;
    if (list.length == 0) return 1;
    for (;;) {
        char name[8];
        size_t end = at;
        unsigned x = 0;

        while (end < list.length && list.bytes[end] != ' ') end++;
        for (; x < VARIABLES; x++) {
            size_t length = (size_t)snprintf(name, sizeof name, "i%u", x);
            if (end - at == length && memcmp(list.bytes + at, name, length) == 0) break;
        }
        if (x == VARIABLES || *names >> x & 1) return 0;
        *names |= (uint64_t)1 << x;
        if (end == list.length) return 1;
        at = end + 1;
    }
}

struct game {
    uint32_t number[STATEMENTS];
    uint8_t arm[STATEMENTS];
};

static uint8_t force(struct text program, struct text driver, struct text condition, size_t room,
                     struct table *table, struct game *answer) {
    uint32_t places[7], number[STATEMENTS + 2];
    uint8_t arm[STATEMENTS + 2], refused;
    uint64_t *words = (uint64_t *)(void *)lend(&tables, room * sizeof *words);
    size_t lines = lines_of(program);

    unset(places, 7);
    unset(number, STATEMENTS + 2);
    memset(arm, 0xa5, sizeof arm);
    refused = rewrites_force(program.bytes, program.length, driver.bytes, driver.length,
                             condition.bytes, condition.length, words, room, &places[1], &places[3],
                             &places[5], number + 1, arm + 1);
    for (size_t k = 0; k < 7; k++) REQUIRE((refused == 0 && k % 2 == 1) || places[k] == UNSET);
    REQUIRE(number[0] == UNSET && arm[0] == 0xa5);
    for (size_t k = refused == 0 ? lines + 1 : 1; k < STATEMENTS + 2; k++)
        REQUIRE(number[k] == UNSET && arm[k] == 0xa5);
    if (refused == 0) {
        REQUIRE(places[1] >= 1 && places[1] <= 64);
        set(&tables, (uint8_t *)words, PART_WORDS * places[1] * sizeof *words);
        table->parts = places[1];
        table->satisfied = places[3];
        table->first = places[5];
        memcpy(table->words, words, PART_WORDS * places[1] * sizeof *words);
        memcpy(answer->number, number + 1, lines * sizeof *number);
        memcpy(answer->arm, arm + 1, lines);
    }
    require_kept(&tables);
    return refused;
}

/* The number and the arm of a statement, counted from 1, by those of where it steps to. */
static void check_place(const char *line, int is_last, uint64_t names, size_t n, int is_met,
                        const struct game *answer) {
    const uint32_t *number = answer->number;
    uint32_t here = number[n - 1], one, other, wanted;
    unsigned x, then, otherwise;
    uint8_t arm = answer->arm[n - 1];

    REQUIRE((here == 0) == is_met);
    if (sscanf(line, "if i%u goto %u else %u", &x, &then, &otherwise) != 3) {
        REQUIRE(arm == 0);
        if (is_met) return;
        if (is_last) {
            REQUIRE(here == UNFORCED);
        } else {
            REQUIRE(here == (number[n] == UNFORCED ? UNFORCED : number[n] + 1));
        }
        return;
    }
    one = number[then - 1];
    other = number[otherwise - 1];
    if (names >> x & 1) {
        wanted = one < other ? one : other;
        REQUIRE(arm == (here == 0 || here == UNFORCED ? 0 : other < one ? 2 : 1));
    } else {
        wanted = one > other ? one : other;
        REQUIRE(arm == (here != UNFORCED ? 0 : one == UNFORCED ? 1 : 2));
    }
    if (!is_met) REQUIRE(here == (wanted == UNFORCED ? UNFORCED : wanted + 1));
    met(OF_CALLS, 1500 + arm + 4 * (unsigned)(names >> x & 1) + 8 * (here == 0) + 16 * (one != other));
}

static void check_force(struct text program, struct text driver, struct text condition,
                        uint8_t refused) {
    static struct table alone, table;
    static struct game answer;
    static char line[128];
    uint64_t names;
    int is_list = names_of(driver, &names);
    uint8_t expected = tabulate(program, condition, TABLE_WORDS, &alone);
    uint8_t number = force(program, driver, condition, TABLE_WORDS, &table, &answer);
    const uint64_t *row;

    REQUIRE(force(program, driver, condition, TABLE_WORDS - 1, &table, &answer) == 1);
    if (refused != 0) {
        REQUIRE(number == refused);
        return;
    }
    if (!is_list) {
        REQUIRE(number == 22);
        met(OF_CALLS, 1540);
        return;
    }
    REQUIRE(number == expected);
    if (number != 0) return;
    REQUIRE(table.parts == alone.parts && table.satisfied == alone.satisfied);
    REQUIRE(table.first == alone.first);
    REQUIRE(memcmp(table.words, alone.words, PART_WORDS * table.parts * sizeof *table.words) == 0);
    row = table.words + PART_WORDS * (table.parts - 1);
    for (size_t n = 1, start = 0; start < program.length; n++) {
        next_line(program, &start, line);
        check_place(line, start == program.length, names, n, holds(row, n), &answer);
    }
    met(OF_CALLS, 1541 + (answer.number[0] == UNFORCED) + 2 * (names != 0));
}

/* What the input's list can force, and what a list of the variables whose bits are set can. */
static void check_games(struct text program, struct text driver, struct text condition,
                        uint8_t refused, uint64_t names) {
    char list[VARIABLES * 4 + 1];
    size_t at = 0;

    check_force(program, driver, condition, refused);
    for (unsigned x = 0; x < VARIABLES; x++)
        if (names >> x & 1)
            at += (size_t)snprintf(list + at, sizeof list - at, at == 0 ? "i%u" : " i%u", x);
    check_force(program, put(&drivers, list, at), condition, refused);
    require_kept(&drivers);
}

/* Marks */

struct judgement {
    uint32_t marks, accepted, bytes;
    uint8_t verdicts[VERDICT_BYTES], text[TEXT_BYTES];
};

static uint8_t judge(struct text program, struct text marks, size_t verdict_room, size_t text_room,
                     struct judgement *answer) {
    uint32_t places[7];
    uint8_t *verdicts = lend(&verdict_bytes, verdict_room), *text = lend(&new_text, text_room);
    uint8_t number;

    unset(places, 7);
    number = rewrites_judge(program.bytes, program.length, marks.bytes, marks.length, verdicts,
                            verdict_room, text, text_room, &places[1], &places[3], &places[5]);
    for (size_t k = 0; k < 7; k++) REQUIRE((number == 0 && k % 2 == 1) || places[k] == UNSET);
    if (number == 0) {
        REQUIRE(places[1] <= MARKS && places[5] <= TEXT_BYTES);
        set(&verdict_bytes, verdicts, places[1]);
        set(&new_text, text, places[5]);
        answer->marks = places[1];
        answer->accepted = places[3];
        answer->bytes = places[5];
        memcpy(answer->verdicts, verdicts, places[1]);
        memcpy(answer->text, text, places[5]);
    }
    require_kept(&verdict_bytes);
    require_kept(&new_text);
    return number;
}

/* The statements that are to read each variable by the accepted `cse` lines of a list: the first of
   them, and how many there are. */
struct readers {
    unsigned long statements[VARIABLES][MOST_READERS];
    size_t counts[VARIABLES];
};

static void find_readers(struct text marks, const struct judgement *answer, struct readers *found) {
    static char line[128];
    size_t start = 0;

    memset(found, 0, sizeof *found);
    for (size_t j = 0; j < answer->marks; j++) {
        unsigned long n;
        unsigned variable;

        next_line(marks, &start, line);
        if (answer->verdicts[j] != 0) continue;
        if (sscanf(line, "%lu: mark(cse, i%u,", &n, &variable) != 2) continue;
        REQUIRE(variable < VARIABLES);
        if (found->counts[variable] < MOST_READERS)
            found->statements[variable][found->counts[variable]] = n;
        found->counts[variable]++;
    }
}

/* Puts into a text of so many bytes the condition of a mark that drops, each of the statements that are
   to read its variable a use. */
static void put_removal(char *text, size_t room, unsigned variable, const struct readers *readers) {
    size_t count = readers->counts[variable];
    size_t at = (size_t)snprintf(text, room, "!EX E[!def(i%u) U ", variable);

    for (size_t k = 0; k < count; k++) at += (size_t)snprintf(text + at, room - at, "(");
    at += (size_t)snprintf(text + at, room - at, "use(i%u)", variable);
    for (size_t k = 0; k < count; k++)
        at += (size_t)snprintf(text + at, room - at, " | node(%lu))",
                               readers->statements[variable][k]);
    at += (size_t)snprintf(text + at, room - at, "]");
    REQUIRE(at < room);
}

/* Whether the published condition of a mark is true at its statement. The line is one of a list
   that is taken. */
static int is_true(struct text program, const char *line, size_t n, const struct readers *readers) {
    static struct table answer;
    static char condition[LONGEST];
    char kind[4], right[64];
    unsigned x;

    REQUIRE(sscanf(line, "%*[0-9]: mark(%3[a-z], i%u, %63[^)])", kind, &x, right) == 3);
    if (strcmp(kind, "rm") == 0)
        put_removal(condition, sizeof condition, x, readers);
    else if (strcmp(kind, "rpl") == 0)
        snprintf(condition, sizeof condition,
                 "AY A[((!def(i%u) & trans(%s)) & !entry) B stmt(i%u := %s)]", x, right, x, right);
    else
        snprintf(condition, sizeof condition,
                 "AY A[((!def(i%u) & trans(%s)) & !entry) B (stmt(i%u := %s) & trans(%s))]", x, right, x,
                 right, right);
    REQUIRE(tabulate(program, put(&others, condition, strlen(condition)), TABLE_WORDS, &answer) ==
            0);
    return holds(answer.words + PART_WORDS * (answer.parts - 1), n);
}

/* The verdict, accepted or refused by its condition, of a mark that drops: in its list, and by itself. */
static void check_removal(struct text program, const char *line, size_t n,
                          const struct readers *readers, int is_accepted) {
    static const struct readers none;
    unsigned x;
    int alone;

    REQUIRE(sscanf(line, "%*[0-9]: mark(rm, i%u,", &x) == 1);
    alone = is_true(program, line, n, &none);
    if (is_accepted) REQUIRE(alone);
    if (readers->counts[x] <= MOST_READERS)
        REQUIRE(is_true(program, line, n, readers) == is_accepted);
    met(OF_CALLS, 1400 + (unsigned)(alone != is_accepted) + 2 * (readers->counts[x] > 0));
}

/* Whether a mark that drops stands beside its statement, and whether it then divides by a variable or
   by 0. It is one of a list that is taken, and the program has its statement. */
static int fits_assignment(struct text program, const char *line, size_t n, int *may_fault) {
    char statement[64], made[80], variable[4], right[64], divisor[16];

    *may_fault = 0;
    if (sscanf(line, "%*[0-9]: mark(rm, %3[i0-9], %63[^)])", variable, right) != 2) return 0;
    snprintf(made, sizeof made, "%s := %s", variable, right);
    copy_line(program, n, statement);
    if (strcmp(statement, made) != 0) return 0;
    *may_fault = sscanf(right, "%*[-i0-9] / %15s", divisor) == 1 &&
                 (divisor[0] == 'i' || strcmp(divisor, "0") == 0);
    return 1;
}

/* Whether a mark that reuses a sum stands beside its right side, which has two operands. */
static int fits_sum(struct text program, const char *line, size_t n) {
    char statement[64], right[64];
    const char *stands;

    if (sscanf(line, "%*[0-9]: mark(cse, %*[i0-9], %63[^)])", right) != 1) return 0;
    copy_line(program, n, statement);
    stands = strstr(statement, " := ");
    return stands != NULL && strcmp(stands + 4, right) == 0 && strchr(right, ' ') != NULL;
}

/* What an accepted mark that drops or reuses makes of its statement. */
static void check_made(struct text program, struct text made, const char *line, size_t n) {
    char before[64], after[64], wanted[80], variable[4];

    copy_line(program, n, before);
    copy_line(made, n, after);
    if (strstr(line, "mark(rm, ") != NULL) REQUIRE(strcmp(after, "skip") == 0);
    if (sscanf(line, "%*[0-9]: mark(cse, %3[i0-9],", variable) == 1) {
        *strchr(before, ' ') = 0;
        snprintf(wanted, sizeof wanted, "%s := %s", before, variable);
        REQUIRE(strcmp(after, wanted) == 0);
    }
}

/* Whether a mark on `write` fits: it replaces the written variable by a variable. */
static int fits_write(struct text program, const char *line) {
    unsigned variable;
    char by;

    if (sscanf(line, "%*[0-9]: mark(rpl, i%u, %c", &variable, &by) != 2) return 0;
    return by == 'i' && is_written(program, variable);
}

static void check_verdicts(struct text program, struct text marks, const struct judgement *answer) {
    static char line[128];
    static struct readers readers;
    const struct text made = {answer->text, answer->bytes};
    size_t lines = lines_of(program), start = 0, accepted = 0;
    uint8_t named[STATEMENTS + 1] = {0};

    find_readers(marks, answer, &readers);
    for (size_t j = 0; j < answer->marks; j++) {
        size_t length = next_line(marks, &start, line);
        unsigned long n = strtoul(line, NULL, 10);
        uint8_t verdict = answer->verdicts[j];
        int is_removal = strstr(line, "mark(rm, ") != NULL;

        accepted += verdict == 0;
        met(OF_MARKS, verdict);
        if (n < 1 || n > lines) {
            REQUIRE(verdict == 11);
        } else if (named[n]) {
            REQUIRE(verdict == 12);
        } else {
            int may_fault, fits = fits_assignment(program, line, n, &may_fault);

            REQUIRE(verdict == 0 || verdict == 13 || verdict == 14 || verdict == 18);
            REQUIRE((verdict == 18) == may_fault);
            if (is_removal) REQUIRE((verdict != 13) == fits);
            if (strstr(line, "mark(cse, ") != NULL) REQUIRE((verdict != 13) == fits_sum(program, line, n));
            if (n == lines) REQUIRE((verdict != 13) == fits_write(program, line));
            if (verdict != 13 && verdict != 18 && j < 40) {
                if (is_removal)
                    check_removal(program, line, n, &readers, verdict == 0);
                else
                    REQUIRE(is_true(program, line, n, &readers) == (verdict == 0));
            }
            if (verdict == 0) check_made(program, made, line, n);
            if (verdict != 13) met_text(OF_MARKS, (uint8_t *)line, length);
            named[n] = 1;
        }
    }
    REQUIRE(start == marks.length && accepted == answer->accepted);
}

/* Why a mark is refused */

struct reason {
    uint32_t verdict, length, culprit, path[PATH_WORDS];
};

static uint8_t why(struct text program, struct text marks, uint32_t line, size_t room, struct reason *answer) {
    uint32_t places[7];
    uint32_t *words = (uint32_t *)(void *)lend(&tables, room * sizeof *words);
    uint8_t number;

    unset(places, 7);
    number = rewrites_why(program.bytes, program.length, marks.bytes, marks.length, line, words, room, &places[1],
                          &places[3], &places[5]);
    for (size_t k = 0; k < 7; k++) REQUIRE((number == 0 && k % 2 == 1) || places[k] == UNSET);
    if (number == 0) {
        answer->verdict = places[1];
        answer->length = places[3];
        answer->culprit = places[5];
        REQUIRE(answer->length <= PATH_WORDS);
        set(&tables, (uint8_t *)words, answer->length * sizeof *words);
        memcpy(answer->path, words, answer->length * sizeof *words);
    }
    require_kept(&tables);
    return number;
}

/* Whether a variable stands in a text as a whole word. */
static int has_word(const char *text, const char *word) {
    size_t length = strlen(word);

    for (const char *at = strstr(text, word); at != NULL; at = strstr(at + length, word))
        if ((at == text || at[-1] == ' ') && (at[length] == 0 || at[length] == ' ')) return 1;
    return 0;
}

/* The variable that a statement defines, empty where it defines none. */
static void defined_by(const char *line, char name[8]) {
    name[0] = 0;
    if (sscanf(line, "read %7s", name) == 1) return;
    if (strstr(line, " := ") == NULL || sscanf(line, "%7s :=", name) != 1) name[0] = 0;
}

/* Of more statements that are to read a variable than are held, the rest isn't known. */
#define UNKNOWN UINT32_MAX

/* The culprit that a statement is for a mark, 0 where it is none; and whether a path may go on past it. */
static uint32_t culprit_at(struct text program, size_t n, const char *kind, const char *name, const char *right,
                           const struct readers *readers, int *passes) {
    char line[64], defined[8];
    unsigned variable;
    int is_copy;

    copy_line(program, n, line);
    defined_by(line, defined);
    REQUIRE(sscanf(name, "i%u", &variable) == 1);
    if (strcmp(kind, "rm") == 0) {
        const char *used = strstr(line, " := ");
        int is_kept = strncmp(line, "write", 5) == 0 && variable >= FIRST_KEPT && variable < FIRST_KEPT + KEPT;

        *passes = strcmp(defined, name) != 0;
        if (used != NULL) used += 4;
        else used = strncmp(line, "read", 4) == 0 ? "" : line;
        if (has_word(used, name) || is_kept) return REWRITES_USED;
        for (size_t k = 0; k < readers->counts[variable] && k < MOST_READERS; k++)
            if (readers->statements[variable][k] == n) return REWRITES_USED_BY_CSE;
        return readers->counts[variable] > MOST_READERS ? UNKNOWN : 0;
    }
    is_copy = strcmp(defined, name) == 0 && strncmp(line, "read", 4) != 0 && strcmp(strstr(line, " := ") + 4, right) == 0 &&
              (strcmp(kind, "rpl") == 0 || !has_word(right, name));
    *passes = !is_copy;
    if (is_copy) return 0;
    if (strcmp(defined, name) == 0) return REWRITES_REDEFINED;
    if (defined[0] != 0 && has_word(right, defined)) return REWRITES_OPERAND_REDEFINED;
    return n == 1 ? REWRITES_NOTHING_COPIED : 0;
}

/* What is told of a line with this verdict. */
static void check_reason(struct text program, struct text marks, uint32_t j, const char *mark, uint8_t verdict,
                         const struct readers *readers) {
    static struct reason answer;
    char kind[4], name[8], right[64];
    unsigned long number;
    size_t lines = lines_of(program);
    int passes;

    REQUIRE(why(program, marks, j, PATH_WORDS, &answer) == 0);
    REQUIRE(answer.verdict == verdict);
    if (verdict != REWRITES_UNMET) {
        REQUIRE(answer.length == 0 && answer.culprit == REWRITES_NO_CULPRIT);
        return;
    }
    REQUIRE(sscanf(mark, "%lu: mark(%3[a-z], %7[i0-9], %63[^)])", &number, kind, name, right) == 4);
    REQUIRE(answer.length >= 2 && answer.path[0] == number);
    for (size_t k = 1; k < answer.length; k++) {
        size_t from = answer.path[k - 1], to = answer.path[k];
        uint32_t culprit;

        REQUIRE(to >= 1 && to <= lines);
        REQUIRE(strcmp(kind, "rm") == 0 ? steps_to(program, from, to) : steps_back(program, from, to));
        culprit = culprit_at(program, to, kind, name, right, readers, &passes);
        if (k + 1 < answer.length)
            REQUIRE(passes && (culprit == 0 || culprit == UNKNOWN));
        else
            REQUIRE(culprit == answer.culprit || (culprit == UNKNOWN && answer.culprit == REWRITES_USED_BY_CSE));
    }
    met(OF_CALLS, 1520 + answer.culprit + 8 * (answer.length > 2) + 16 * (answer.length > 8));
}

/* Each line of a list, some of a long one, and such that aren't there. */
static void check_reasons(struct text program, struct text marks, uint8_t refused, const struct judgement *judged) {
    static struct readers readers;
    static struct reason answer;
    const uint32_t beyond[4] = {judged->marks, MARKS, 65536, UINT32_MAX};
    size_t start = 0;
    char line[128];

    REQUIRE(why(program, marks, 0, PATH_WORDS - 1, &answer) == 1);
    REQUIRE(why(program, marks, 0, PATH_WORDS, &answer) == refused);
    if (refused != 0) return;
    find_readers(marks, judged, &readers);
    for (uint32_t j = 0; j < judged->marks; j++) {
        next_line(marks, &start, line);
        if (judged->marks <= 24 || j % 64 == 3)
            check_reason(program, marks, j, line, judged->verdicts[j], &readers);
    }
    for (size_t k = 0; k < 4; k++) {
        REQUIRE(why(program, marks, beyond[k], PATH_WORDS, &answer) == 0);
        REQUIRE(beyond[k] < judged->marks || answer.verdict == REWRITES_MISSING);
    }
}

/* Reports */

/* The report on a list that judging answers with this number: the prices of both texts, line by line. */
static void check_report(struct text program, struct text marks, uint8_t refused, struct text made) {
    uint32_t places[7], before[STATEMENTS + 2], after[STATEMENTS + 2], sums[2] = {0, 0};
    uint32_t prices[KINDS + 2];
    union {
        uint32_t word;
        int32_t value;
    } saved;
    size_t lines = lines_of(program), starts[2] = {0, 0};
    char line[128];
    uint8_t number;

    unset(places, 7);
    unset(before, STATEMENTS + 2);
    unset(after, STATEMENTS + 2);
    saved.word = UNSET;
    memcpy(prices, held, sizeof held);
    number = rewrites_report(program.bytes, program.length, marks.bytes, marks.length, held + 1,
                             before + 1, after + 1, &places[1], &places[3], &places[5], &saved.value);
    REQUIRE(number == refused);
    require_held(prices);
    if (number != 0) {
        REQUIRE(saved.word == UNSET);
        lines = 0;
    }
    for (size_t k = 0; k < 7; k++) REQUIRE((number == 0 && k % 2 == 1) || places[k] == UNSET);
    REQUIRE(before[0] == UNSET && after[0] == UNSET);
    for (size_t k = lines + 1; k < STATEMENTS + 2; k++) REQUIRE(before[k] == UNSET && after[k] == UNSET);
    if (number != 0) return;

    REQUIRE(places[1] == lines);
    for (size_t k = 1; k <= lines; k++) {
        next_line(program, &starts[0], line);
        REQUIRE(before[k] == price_of(line));
        next_line(made, &starts[1], line);
        REQUIRE(after[k] == price_of(line) && (after[k] <= before[k] || !is_ours()));
        sums[0] += before[k];
        sums[1] += after[k];
    }
    REQUIRE(places[3] == sums[0] && places[5] == sums[1]);
    REQUIRE((int64_t)saved.value == (int64_t)sums[0] - (int64_t)sums[1]);
    met(OF_CALLS, 1410 + (saved.value > 0) + (saved.value > 1) + (saved.value > 20));
    met(OF_CALLS, 1414 + (saved.value < 0) + (saved.value < -65535));
}

static uint8_t mark_line(struct text marks, uint32_t line, size_t *begin, size_t *end) {
    size_t places[5];
    uint8_t number;

    for (size_t k = 0; k < 5; k++) places[k] = UNSET_SIZE;
    number = rewrites_mark_line(marks.bytes, marks.length, line, &places[1], &places[3]);
    for (size_t k = 0; k < 5; k++) REQUIRE((number == 0 && k % 2 == 1) || places[k] == UNSET_SIZE);
    *begin = places[1];
    *end = places[3];
    return number;
}

/* The lines of a list of so many marks, or its refusal, whichever line is asked for. */
static void check_lines(struct text marks, uint8_t refused, uint32_t count) {
    const uint32_t beyond[4] = {count, MARKS, 65536, UINT32_MAX};
    size_t start = 0, begin, end;

    REQUIRE((rewrites_blame_marks(marks.bytes, marks.length) != 0) == (refused == 9));
    /* Of a long list some lines are asked for, since each call reads the whole of it. */
    for (uint32_t j = 0; j < count; j++) {
        const uint8_t *last = memchr(marks.bytes + start, 10, marks.length - start);
        size_t next = (size_t)(last - marks.bytes) + 1;

        if (count <= 256 || j % 16 == 15) {
            REQUIRE(mark_line(marks, j, &begin, &end) == 0);
            REQUIRE(begin == start && end == next);
        }
        start = next;
    }
    for (size_t k = 0; k < 4; k++) {
        REQUIRE(mark_line(marks, beyond[k], &begin, &end) == refused);
        if (refused == 0) REQUIRE(begin == marks.length && end == marks.length);
    }
    if (refused == 0) REQUIRE(start == marks.length);
}

/* Finds the statements at which each variable is live, as rows, by two reviews. Every part of the 32 lines of
   each is spelled differently, so it fills as many tables as it can. */
static void find_live(struct text program, uint64_t live[VARIABLES][PART_WORDS]) {
    static struct review answer;
    static uint8_t lines[1024];

    for (unsigned first = 0; first < VARIABLES; first += REVIEW_LINES) {
        struct text all = {lines, 0};

        for (unsigned x = first; x < first + REVIEW_LINES; x++)
            all.length += (size_t)snprintf((char *)lines + all.length, sizeof lines - all.length,
                                           "E[!def(i%u) U use(i%u)]\n", x, x);
        REQUIRE(review(program, all, REVIEW_WORDS, &answer) == 0);
        REQUIRE(answer.tables == MOST_TABLES);
        for (unsigned j = 0; j < REVIEW_LINES; j++)
            memcpy(live[first + j], answer.words + PART_WORDS * answer.of_lines[TABLE_OF][j],
                   sizeof live[first + j]);
    }
}

/* Both runs are spent at one statement: they hold the same values of what is live there. */
static void check_live(uint64_t live[VARIABLES][PART_WORDS], const struct run *given,
                       const struct run *made) {
    for (unsigned x = 0; x < VARIABLES; x++) {
        if (given->left[x] == made->left[x]) continue;
        REQUIRE(!holds(live[x], given->statement));
        met(OF_CALLS, 96 + (x >= FIRST_KEPT) + (x >= FIRST_KEPT + KEPT));
    }
}

/* Lists of readers and writers */

struct listing {
    uint32_t defined[VARIABLES], used[VARIABLES];
    uint64_t words[LIST_WORDS];
};

/* The places of both counts, with a word on both sides of each. */
enum { DEFINED = 1, USED = VARIABLES + 2, COUNT_PLACES = 2 * VARIABLES + 3 };

/* Lends the words of a list, and takes over what a call leaves; without marks the list is made. A list
   with less room than it should have loses its last words. */
static uint8_t list(struct text program, const struct text *marks, size_t room,
                    struct listing *listing) {
    uint32_t places[COUNT_PLACES];
    uint64_t *words = (uint64_t *)(void *)(tables.end - room * sizeof *words);
    size_t lent = room < LIST_WORDS ? room : LIST_WORDS;
    uint8_t number;

    unset(places, COUNT_PLACES);
    memcpy(words, listing->words, lent * sizeof *words);
    lend(&tables, room * sizeof *words);
    if (marks == NULL)
        number = rewrites_list(program.bytes, program.length, words, room, places + DEFINED,
                               places + USED);
    else
        number = rewrites_relist(program.bytes, program.length, marks->bytes, marks->length, words,
                                 room, places + DEFINED, places + USED);
    for (size_t k = 0; k < COUNT_PLACES; k++)
        REQUIRE((number == 0 && k % (VARIABLES + 1) != 0) || places[k] == UNSET);
    if (number == 0) {
        REQUIRE(room >= LIST_WORDS);
        set(&tables, (uint8_t *)words, LIST_WORDS * sizeof *words);
        memcpy(listing->words, words, sizeof listing->words);
        memcpy(listing->defined, places + DEFINED, sizeof listing->defined);
        memcpy(listing->used, places + USED, sizeof listing->used);
    }
    require_kept(&tables);
    return number;
}

static uint32_t ones(const uint64_t *row) {
    uint32_t count = 0;
    for (size_t n = 1; n <= STATEMENTS; n++) count += (uint32_t)holds(row, n);
    return count;
}

static void check_counts(const struct listing *listing) {
    for (size_t v = 0; v < VARIABLES; v++) {
        REQUIRE(listing->defined[v] == ones(listing->words + SET_WORDS * v));
        REQUIRE(listing->used[v] == ones(listing->words + SET_WORDS * v + PART_WORDS));
    }
}

/* The list of a program, or its refusal. The rows of one variable are those of its conditions. */
static void check_list(struct text program, uint8_t refused, unsigned variable) {
    static const char *const atoms[2] = {"def", "use"};
    static struct listing made, other;
    static struct table answer;
    char condition[32];

    for (size_t k = 0; k < LIST_WORDS; k++) made.words[k] = other.words[k] = 0x5bd1e995u * (k + 1);
    REQUIRE(list(program, NULL, LIST_WORDS, &made) == refused);
    REQUIRE(list(program, NULL, LIST_WORDS - 1, &other) == 1);
    met(OF_CALLS, 1600 + refused);
    if (refused != 0) return;
    check_counts(&made);
    for (size_t k = 0; k < 2; k++) {
        snprintf(condition, sizeof condition, "%s(i%u)", atoms[k], variable);
        REQUIRE(tabulate(program, put(&others, condition, strlen(condition)), TABLE_WORDS, &answer) ==
                0);
        REQUIRE(memcmp(answer.words, made.words + SET_WORDS * variable + PART_WORDS * k,
                       PART_WORDS * sizeof *made.words) == 0);
    }
    memset(other.words, 0xff, sizeof other.words);
    REQUIRE(list(program, NULL, LIST_WORDS + 44, &other) == 0);
    REQUIRE(memcmp(&made, &other, sizeof made) == 0);
}

/* Lists after a round of marks that is taken; the new text stands beside the given one. */
static void check_rounds(struct text program, struct text marks, struct text rewritten,
                         uint32_t sum) {
    static struct listing given, afresh, any;
    static uint64_t before[LIST_WORDS];
    static char before_line[128], after_line[128];
    size_t starts[2] = {0, 0}, changed = 0;

    REQUIRE(list(program, NULL, LIST_WORDS, &given) == 0);
    REQUIRE(list(program, &marks, LIST_WORDS, &given) == 0);
    memset(afresh.words, 0xff, sizeof afresh.words);
    REQUIRE(list(rewritten, NULL, LIST_WORDS, &afresh) == 0);
    REQUIRE(memcmp(&given, &afresh, sizeof given) == 0);

    for (size_t k = 0; k < LIST_WORDS; k++) {
        uint64_t bits = ((uint64_t)sum + k) * 0x9e3779b97f4a7c15u;
        any.words[k] = before[k] = sum % 4 == 0 ? 0 : sum % 4 == 1 ? UINT64_MAX : bits;
    }
    REQUIRE(list(program, &marks, LIST_WORDS + sum % 2, &any) == 0);
    check_counts(&any);
    for (size_t n = 1; n <= STATEMENTS; n++) {
        int is_changed = 0;

        if (starts[0] < program.length) {
            next_line(program, &starts[0], before_line);
            next_line(rewritten, &starts[1], after_line);
            is_changed = strcmp(before_line, after_line) != 0;
        }
        changed += (size_t)is_changed;
        for (size_t k = 0; k < LIST_WORDS; k += PART_WORDS)
            REQUIRE(holds(any.words + k, n) ==
                    holds((is_changed ? afresh.words : before) + k, n));
    }
    met(OF_SIZES, 2200 + (unsigned)changed);
}

static void check_marks(struct text program, struct text marks, uint8_t refused,
                        const uint32_t values[VARIABLES], uint32_t input, uint32_t budget,
                        uint32_t sum) {
    static struct listing listing;
    static struct judgement answer, other;
    struct run given = {0}, made = {0};
    struct text rewritten;
    static uint64_t live[VARIABLES][PART_WORDS];
    uint8_t number = judge(program, marks, VERDICT_BYTES, TEXT_BYTES, &answer);

    REQUIRE(judge(program, marks, VERDICT_BYTES - 1, TEXT_BYTES, &other) == 1);
    REQUIRE(judge(program, marks, VERDICT_BYTES, TEXT_BYTES - 1, &other) == 1);
    REQUIRE(judge(program, marks, VERDICT_BYTES, 8704, &other) == 1);
    met(OF_CALLS, 32 + number);
    REQUIRE(list(program, &marks, LIST_WORDS - 1, &listing) == 1);
    REQUIRE(list(program, &marks, LIST_WORDS, &listing) == number);
    check_reasons(program, marks, number, &answer);
    if (refused != 0) {
        REQUIRE(number == refused);
        check_report(program, marks, number, program);
        return;
    }
    REQUIRE(number == 0 || number == 9 || number == 10);
    check_report(program, marks, number, (struct text){answer.text, answer.bytes});
    check_lines(marks, number, number == 0 ? answer.marks : 0);

    /* No marks give the program back. */
    REQUIRE(judge(program, (struct text){marks.bytes, 0}, VERDICT_BYTES, TEXT_BYTES, &other) == 0);
    REQUIRE(other.marks == 0 && other.accepted == 0 && other.bytes == program.length);
    REQUIRE(memcmp(other.text, program.bytes, program.length) == 0);
    if (number != 0) return;

    REQUIRE(answer.marks == lines_of(marks));
    met(OF_SIZES, 1100 + answer.marks);
    check_verdicts(program, marks, &answer);
    rewritten = put(&others, answer.text, answer.bytes);
    REQUIRE(lines_of(rewritten) == lines_of(program));
    if (answer.accepted == 0) REQUIRE(memcmp(answer.text, program.bytes, program.length) == 0);
    find_live(program, live);
    check_rounds(program, marks, rewritten, sum);
    for (uint32_t b = 0; b <= budget; b++) {
        REQUIRE(run(program, values, input, b, &given) == 0);
        REQUIRE(run(rewritten, values, input, b, &made) == 0);
        REQUIRE(agree(&given, &made) && (made.ticks <= given.ticks || !is_ours()));
        if (given.ended) break;
        check_live(live, &given, &made);
    }
}

/* Joined programs */

struct joined {
    uint32_t statements, bytes;
    uint8_t text[TEXT_BYTES];
};

static uint8_t join(struct text road, struct text creeper, size_t room, struct joined *answer) {
    uint32_t places[5];
    uint8_t *text = lend(&new_text, room), number;

    unset(places, 5);
    number = rewrites_join(road.bytes, road.length, creeper.bytes, creeper.length, text, room,
                           &places[1], &places[3]);
    for (size_t k = 0; k < 5; k++) REQUIRE((number == 0 && k % 2 == 1) || places[k] == UNSET);
    if (number == 0) {
        REQUIRE(places[3] <= TEXT_BYTES);
        set(&new_text, text, places[3]);
        answer->statements = places[1];
        answer->bytes = places[3];
        memcpy(answer->text, text, places[3]);
    }
    require_kept(&new_text);
    return number;
}

/* Each line of the joined text by those of the two programs. */
static void check_joined_lines(struct text road, struct text creeper, struct text made) {
    char line[128], found[128], wanted[192];
    size_t front = road.length - 1, start = 0, further = lines_of(road) - 1, at;
    unsigned long n, m;
    unsigned tested;

    while (road.bytes[front - 1] != 10) front--;
    REQUIRE(made.length > front && memcmp(made.bytes, road.bytes, front) == 0);
    at = front;
    next_line(creeper, &start, line);
    next_line(made, &at, found);
    snprintf(wanted, sizeof wanted, "%s := %.*s", line + strlen("read "),
             (int)(road.length - front - strlen("write \n")), road.bytes + front + strlen("write "));
    REQUIRE(strcmp(found, wanted) == 0);
    while (start < creeper.length) {
        REQUIRE(at < made.length);
        next_line(creeper, &start, line);
        next_line(made, &at, found);
        if (sscanf(line, "if i%u goto %lu else %lu", &tested, &n, &m) == 3)
            snprintf(line, sizeof line, "if i%u goto %lu else %lu", tested, n + further, m + further);
        REQUIRE(strcmp(found, line) == 0);
    }
    REQUIRE(at == made.length);
}

/* The joined program under each budget up to this one: it stands where the first does, or where the
   second does behind it. Its ticks are those of both, but for the seam, where an assignment stands for a
   `write` and a `read`. */
static void check_turns(struct text road, struct text creeper, struct text made,
                        const uint32_t values[VARIABLES], uint32_t input, uint32_t budget) {
    struct run whole = {0}, turn = {0}, left = {0};
    uint32_t further = (uint32_t)lines_of(road) - 1, steps;
    uint64_t ticks;

    for (uint32_t b = 0; b <= budget; b++) {
        REQUIRE(run(made, values, input, b, &whole) == 0);
        REQUIRE(run(road, values, input, b, &turn) == 0);
        met(OF_CALLS, 1500 + turn.ended);
        if (turn.ended == ENDED) {
            steps = turn.steps;
            ticks = turn.ticks;
            REQUIRE(run(road, values, input, steps - 1, &left) == 0 && left.ended == SPENT);
            REQUIRE(run(creeper, left.left, (uint32_t)turn.value, b + 1 - steps, &turn) == 0);
            turn.steps += steps - 1;
            turn.statement += further;
            turn.ticks += ticks - in_force(WRITE);
            turn.ticks += (uint64_t)in_force(COPY) - in_force(READ);
            met(OF_CALLS, 1504 + turn.ended);
        }
        REQUIRE(agree(&whole, &turn) && whole.ticks == turn.ticks);
        if (whole.ended) break;
        REQUIRE(memcmp(whole.left, turn.left, sizeof whole.left) == 0);
    }
}

static void check_join(struct text road, struct text creeper, uint8_t road_refused,
                       uint8_t creeper_refused, const uint32_t values[VARIABLES], uint32_t input,
                       uint32_t budget) {
    static struct joined answer;
    size_t count = lines_of(road) + lines_of(creeper) - 1;
    uint8_t number = join(road, creeper, TEXT_BYTES, &answer), expected = road_refused;
    struct text made;

    if (expected == 0) expected = creeper_refused;
    if (expected == 0 && count > STATEMENTS) expected = 21;
    REQUIRE(number == expected);
    REQUIRE(join(road, creeper, TEXT_BYTES - 1, &answer) == 1);
    met(OF_CALLS, 1510 + number);
    if (number != 0) return;
    REQUIRE(answer.statements == count);
    made = put(&joins, answer.text, answer.bytes);
    REQUIRE(lines_of(made) == count);
    check_joined_lines(road, creeper, made);
    check_turns(road, creeper, made, values, input, budget);
    require_kept(&joins);
}

/* Stages */

static uint8_t keep(uint8_t *stages, size_t room, struct text name, struct text program,
                    uint32_t *place) {
    uint32_t places[3];
    uint8_t number;

    unset(places, 3);
    number = rewrites_keep(stages, room, name.bytes, name.length, program.bytes, program.length, &places[1]);
    for (size_t k = 0; k < 3; k++) REQUIRE((number == 0 && k == 1) || places[k] == UNSET);
    *place = places[1];
    return number;
}

/* The text that is returned stands in new_text, where the next call may change it. */
static uint8_t go_back(const uint8_t *stages, size_t stages_room, struct text name, size_t room,
                       struct text *returned) {
    uint32_t places[3];
    uint8_t *text = lend(&new_text, room), number;

    unset(places, 3);
    number = rewrites_return(stages, stages_room, name.bytes, name.length, text, room, &places[1]);
    for (size_t k = 0; k < 3; k++) REQUIRE((number == 0 && k == 1) || places[k] == UNSET);
    if (number == 0) {
        REQUIRE(places[1] <= TEXT_BYTES);
        set(&new_text, text, places[1]);
        *returned = (struct text){text, places[1]};
    }
    require_kept(&new_text);
    return number;
}

static int is_name(struct text name) {
    for (size_t k = 0; k < name.length; k++)
        if (name.bytes[k] < 'a' || name.bytes[k] > 'z') return 0;
    return name.length >= 1 && name.length <= NAME_BYTES;
}

/* The name and the text that stand right in a place, whatever the others have. */
static int stands(const uint8_t *place, struct text *name, struct text *text) {
    static const uint32_t values[VARIABLES];
    struct run told;
    size_t letters = 0, length = place[NAME_BYTES] + 256u * place[NAME_BYTES + 1];

    while (letters < NAME_BYTES && place[letters] != 0) letters++;
    *name = (struct text){place, letters};
    if (!is_name(*name)) return 0;
    while (letters < NAME_BYTES)
        if (place[letters++] != 0) return 0;
    if (length > PLACE_BYTES - NAME_BYTES - 2) return 0;
    *text = (struct text){place + NAME_BYTES + 2, length};
    return run(*text, values, 0, 0, &told) == 0;
}

static int same(struct text one, struct text other) {
    return one.length == other.length && (one.length == 0 || memcmp(one.bytes, other.bytes, one.length) == 0);
}

/* What the places hold: a length of 0 for the name where one is empty. */
struct held {
    struct text name[PLACES], text[PLACES];
    size_t count;
};

static void find_held(const uint8_t *stages, struct held *held) {
    held->count = 0;
    for (size_t k = 0; k < PLACES; k++) {
        int is_held = stands(stages + k * PLACE_BYTES, &held->name[k], &held->text[k]);

        for (size_t j = 0; j < k; j++)
            if (held->name[j].length > 0 && same(held->name[j], held->name[k])) is_held = 0;
        if (!is_held) held->name[k].length = 0;
        held->count += (size_t)is_held;
    }
}

/* The place that holds a name, and the first that is empty; PLACES for none. */
static size_t place_of(const struct held *held, struct text name) {
    size_t k = 0;
    while (k < PLACES && !(held->name[k].length > 0 && same(held->name[k], name))) k++;
    return k;
}

static size_t first_empty(const struct held *held) {
    size_t k = 0;
    while (k < PLACES && held->name[k].length > 0) k++;
    return k;
}

/* Puts a record into a place, and damages it by some bits. */
static void put_record(uint8_t *place, struct text name, struct text text, uint32_t bits) {
    size_t letters = name.length < NAME_BYTES ? name.length : NAME_BYTES;
    size_t most = PLACE_BYTES - NAME_BYTES - 2, length = text.length < most ? text.length : most;

    memset(place, 0, NAME_BYTES);
    memcpy(place, name.bytes, letters);
    place[NAME_BYTES] = (uint8_t)length;
    place[NAME_BYTES + 1] = (uint8_t)(length >> 8);
    memcpy(place + NAME_BYTES + 2, text.bytes, length);
    switch (bits % 16) {
    case 0: place[bits / 16 % NAME_BYTES] ^= (uint8_t)(1u << (bits / 128 % 8)); break;
    case 1: place[NAME_BYTES] = (uint8_t)(bits / 16); break;
    case 2: place[NAME_BYTES + 1] = (uint8_t)(bits / 16); break;
    case 3: place[NAME_BYTES + 2 + bits / 16 % (length ? length : 1)] ^= (uint8_t)(1u << (bits >> 29)); break;
    case 4: place[NAME_BYTES] = 0, place[NAME_BYTES + 1] = 255; break;
    default: break;
    }
}

static void check_stages(struct text program, uint8_t refused, struct text name, struct text driver,
                         struct text marks, uint32_t sum) {
    static const char *const names[PLACES] = {"a",     "abcdefgh", "abcdefgi", "b",
                                              "first", "abcdefg",  "z",        "second"};
    static uint8_t before[STAGES_BYTES], kept[TEXT_BYTES];
    static struct judgement judgement;
    struct held held, after;
    struct text text, other;
    uint8_t *stages = lend(&stage_bytes, STAGES_BYTES), number, expected;
    uint32_t place = 0;
    size_t at;

    /* Zeros, or the bytes that stood there, then a record in each of some places. */
    if (sum % 2 == 0) memset(stages, 0, STAGES_BYTES);
    for (size_t k = 0; k < PLACES; k++) {
        uint32_t bits = (sum ^ (uint32_t)(k * 0x9e37u)) * 2654435761u;
        int is_full = sum / 2 % 4 == 0;
        const char *known = names[is_full ? k : bits >> 29];

        if (!is_full && (bits >> 26) % 4 == 0) continue;
        text = (struct text){(const uint8_t *)known, strlen(known)};
        if (!is_full && bits / 64 % 4 < 2) text = bits / 64 % 4 == 0 ? name : driver;
        other = bits / 256 % 2 ? program : (struct text){(const uint8_t *)P, strlen(P)};
        put_record(stages + k * PLACE_BYTES, text, other, sum / 8 % 2 ? bits >> 5 : 15);
    }
    memcpy(before, stages, STAGES_BYTES);
    memcpy(stage_bytes.shadow, stage_bytes.start, stage_bytes.size);
    find_held(before, &held);
    met(OF_CALLS, 1900 + (unsigned)held.count);

    REQUIRE(keep(stages + 1, STAGES_BYTES - 1, name, program, &place) == 1);
    REQUIRE(go_back(stages + 1, STAGES_BYTES - 1, name, TEXT_BYTES, &text) == 1);
    REQUIRE(go_back(stages, STAGES_BYTES, name, TEXT_BYTES - 1, &text) == 1);
    at = place_of(&held, name);
    expected = !is_name(name) ? 23 : at == PLACES ? 25 : 0;
    number = go_back(stages, STAGES_BYTES, name, TEXT_BYTES, &text);
    REQUIRE(number == expected);
    if (number == 0) REQUIRE(same(text, held.text[at]));
    met(OF_CALLS, 1920 + number);
    require_kept(&stage_bytes);

    if (at == PLACES) at = first_empty(&held);
    expected = refused != 0 ? refused : !is_name(name) ? 23 : at == PLACES ? 24 : 0;
    number = keep(stages, STAGES_BYTES, name, program, &place);
    REQUIRE(number == expected);
    met(OF_CALLS, 1950 + number + 32 * (unsigned)(at % PLACES));
    if (number != 0) {
        require_kept(&stage_bytes);
        return;
    }
    REQUIRE(place == at + 1);
    put_record(before + at * PLACE_BYTES, name, program, 15);
    REQUIRE(memcmp(before, stages, STAGES_BYTES) == 0);
    memcpy(stage_bytes.shadow, stage_bytes.start, stage_bytes.size);

    /* It is returned, and so is what every other place held. */
    find_held(stages, &after);
    for (size_t k = 0; k < PLACES; k++) {
        if (k == at || held.name[k].length == 0) continue;
        REQUIRE(go_back(stages, STAGES_BYTES, held.name[k], TEXT_BYTES, &text) == 0);
        REQUIRE(same(text, held.text[k]));
        REQUIRE(same(held.name[k], after.name[k]) && same(held.text[k], after.text[k]));
    }
    REQUIRE(go_back(stages, STAGES_BYTES, name, TEXT_BYTES, &text) == 0 && same(text, program));
    memcpy(kept, program.bytes, program.length);

    /* A round of marks, whose text is kept under another name. */
    if (judge(program, marks, VERDICT_BYTES, TEXT_BYTES, &judgement) != 0) return;
    other = (struct text){(const uint8_t *)names[sum % PLACES], strlen(names[sum % PLACES])};
    if (same(other, name)) return;
    number = keep(stages, STAGES_BYTES, other, (struct text){judgement.text, judgement.bytes}, &place);
    REQUIRE(number == 0 || number == 24);
    REQUIRE(number == 0 ? place != at + 1 : after.count == PLACES);
    REQUIRE(go_back(stages, STAGES_BYTES, name, TEXT_BYTES, &text) == 0);
    REQUIRE(text.length == program.length && memcmp(text.bytes, kept, text.length) == 0);
}

/* Each place is filled with lines to its end, and has a length past it: all are empty, and nothing is read
   behind the eighth, where the page can't be. */
static void check_far_lengths(void) {
    static const struct text names[2] = {{(const uint8_t *)"a", 1}, {(const uint8_t *)"h", 1}};
    static const uint8_t lengths[4][2] = {{0, 255}, {255, 255}, {0xaf, 0x88}, {0xb8, 0x88}};
    uint8_t *stages = lend(&stage_bytes, STAGES_BYTES);
    struct text text;

    for (size_t k = 0; k < 4; k++) {
        for (size_t at = 0; at < PLACES; at++) {
            uint8_t *place = stages + at * PLACE_BYTES;

            memset(place, 0, NAME_BYTES);
            place[0] = (uint8_t)('a' + at);
            memcpy(place + NAME_BYTES, lengths[k], 2);
            for (size_t b = NAME_BYTES + 2; b < PLACE_BYTES; b += 5) memcpy(place + b, "skip\n", 5);
        }
        memcpy(stage_bytes.shadow, stage_bytes.start, stage_bytes.size);
        for (size_t n = 0; n < 2; n++)
            REQUIRE(go_back(stages, STAGES_BYTES, names[n], TEXT_BYTES, &text) == 25);
        require_kept(&stage_bytes);
    }
}

/* Inputs */

static struct text cut(const uint8_t **rest, size_t *length) {
    struct text text = {*rest, 0};
    while (text.length < *length && (*rest)[text.length] != '%') text.length++;
    *rest += text.length;
    *length -= text.length;
    if (*length > 0) {
        *rest += 1;
        *length -= 1;
    }
    return text;
}

int LLVMFuzzerInitialize(int *count, char ***arguments) {
    (void)count;
    (void)arguments;
    map(&programs, 16);
    map(&others, 16);
    map(&conditions, 16);
    map(&tables, (LIST_WORDS + 44) * sizeof(uint64_t) / PAGE + 1);
    map(&verdict_bytes, VERDICT_BYTES / PAGE + 1);
    map(&new_text, TEXT_BYTES / PAGE + 1);
    map(&drivers, 16);
    map(&joins, TEXT_BYTES / PAGE + 1);
    map(&tariffs, 16);
    map(&stage_bytes, STAGES_BYTES / PAGE + 1);
    map(&stage_names, 16);
    check_far_lengths();
    return 0;
}

int LLVMFuzzerTestOneInput(const uint8_t *data, size_t size) {
    static const uint32_t edges[8] = {0, 1, 2, 0x7fffffff, 0x80000000, 0xffffffff, 0xfffffffe, 7};
    struct text program, given, condition, marks, choice, driver, prices, creeper, name;
    uint32_t values[VARIABLES], input, budget, sum = 0;
    struct run told;
    uint8_t refused, creeper_refused;

    if (size > 16 * PAGE) return 0;
    program = cut(&data, &size);
    condition = cut(&data, &size);
    marks = cut(&data, &size);
    choice = cut(&data, &size);
    driver = cut(&data, &size);
    prices = cut(&data, &size);
    name = cut(&data, &size);
    budget = choice.length > 0 ? choice.bytes[0] % 64 : 12;
    for (size_t k = 0; k < choice.length; k++) sum = sum * 31 + choice.bytes[k];
    for (size_t k = 0; k < VARIABLES; k++) {
        uint32_t bits = (sum + (uint32_t)k) * 2654435761u;
        values[k] = bits & 1 ? edges[bits >> 29] : bits >> 3;
    }
    input = edges[sum % 8];

    prices = put(&tariffs, prices.bytes, prices.length);
    check_prices(prices, sum);
    given = program;
    program = put(&programs, program.bytes, program.length);
    refused = check_program(program);
    if (refused == 0) {
        check_runs(program, values, input, budget);
        check_use_at_write(program, sum % VARIABLES);
    }
    check_list(program, refused, sum % VARIABLES);
    creeper = put(&others, choice.bytes, choice.length);
    creeper_refused = run(creeper, values, input, 0, &told);
    check_join(program, creeper, refused, creeper_refused, values, input, budget);
    creeper = put(&others, P, strlen(P));
    check_join(program, creeper, refused, 0, values, input, budget / 2);
    check_join(creeper, program, 0, refused, values, input, budget / 2);
    require_kept(&others);
    condition = put(&conditions, condition.bytes, condition.length);
    check_condition(program, condition, refused);
    check_review(program, condition, refused);
    driver = put(&drivers, driver.bytes, driver.length);
    check_games(program, driver, condition, refused, sum * (uint64_t)0x9e3779b97f4a7c15u);
    if (refused != 0) {
        struct text plain = put(&programs, P, strlen(P));
        check_condition(plain, condition, 0);
        check_review(plain, condition, 0);
    }
    require_kept(&conditions);
    marks = put(&conditions, marks.bytes, marks.length);
    if (refused != 0) {
        check_marks(put(&programs, P, strlen(P)), marks, 0, values, input, budget, sum);
    } else {
        check_marks(program, marks, refused, values, input, budget, sum);
    }
    require_kept(&programs);
    require_kept(&conditions);
    require_kept(&tariffs);
    program = put(&programs, given.bytes, given.length);
    name = put(&stage_names, name.bytes, name.length);
    check_stages(program, refused, name, driver, marks, sum);
    require_kept(&stage_names);
    require_kept(&drivers);
    return 0;
}
