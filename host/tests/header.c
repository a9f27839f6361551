/* A C host: calls the library through its header, and exits with 0 where each answer is right. */
#include "rewrites.h"

#include <stdio.h>
#include <string.h>

#define CHECK(holds)                                              \
    do {                                                          \
        if (!(holds)) {                                           \
            fprintf(stderr, "line %d: %s\n", __LINE__, #holds);   \
            return 1;                                             \
        }                                                         \
    } while (0)

static const char P[] =
    "read i0\ni1 := i0\ni2 := 7\ni3 := i1 + i2\n"
    "if i0 goto 6 else 8\ni0 := i0 - 1\nif i0 goto 4 else 8\nwrite i3\n";

/* What the header tells: sizes of programs and lists, and the least lengths of what is lent. */
enum {
    STATEMENTS = 1024,
    VARIABLES = 64,
    MARKS = 1024,
    PART = 16,
    TABLE = 1024,
    REVIEW = 2048,
    LIST = 2048,
    PATH = 1025,
    TEXT = 34816
};

/* The header's names have these numbers. Host crate and package are held to the header by their own tests. */
static int constants_answer(void) {
    CHECK(REWRITES_STATEMENTS == STATEMENTS && REWRITES_VARIABLES == VARIABLES && REWRITES_MARKS == MARKS);
    CHECK(REWRITES_PART_WORDS == PART && REWRITES_TABLE_WORDS == TABLE && REWRITES_REVIEW_WORDS == REVIEW);
    CHECK(REWRITES_LIST_WORDS == LIST && REWRITES_TEXT_BYTES == TEXT && REWRITES_VERDICT_BYTES == MARKS);
    CHECK(REWRITES_PATH_WORDS == PATH && REWRITES_PATH_WORDS == REWRITES_STATEMENTS + 1);
    CHECK(REWRITES_PARTS * PART == TABLE && REWRITES_REVIEW_TABLES * PART == REVIEW);
    CHECK(REWRITES_PLACES * REWRITES_PLACE_BYTES == REWRITES_STAGES_BYTES);
    CHECK(REWRITES_VERSION == REWRITES_VERSION_MAJOR * 10000 + REWRITES_VERSION_MINOR * 100 + REWRITES_VERSION_PATCH);
    CHECK(REWRITES_OK == 0 && REWRITES_ACCEPTED == 0 && REWRITES_UNFORCED == 0xffffffff);
    return 0;
}

/* Our prices, which rewrites_our_prices sets. */
static uint32_t ours[11];

static int run_answers(void) {
    uint8_t (*const run)(const uint8_t *, size_t, const uint32_t *, uint32_t, uint32_t,
                         const uint32_t *, uint32_t *, int32_t *, uint32_t *, uint32_t *, uint32_t *,
                         uint32_t *, uint64_t *) = rewrites_run;
    const uint8_t *program = (const uint8_t *)P;
    const size_t length = strlen(P);
    const uint32_t values[VARIABLES] = {0};
    uint32_t ended = 11, steps = 12, statement = 13, left[VARIABLES] = {14}, kept[8];
    int32_t value = -15;
    uint64_t ticks = 17;
    size_t k;

    for (k = 0; k < 8; k++) kept[k] = 16;
    CHECK(run(program, length, values, 2, 1000001, ours, &ended, &value, &steps, &statement, left, kept,
              &ticks) == 15);
    CHECK(run(program, length - 1, values, 2, 9, ours, &ended, &value, &steps, &statement, left, kept,
              &ticks) == 2);
    CHECK(run(program, 0, values, 2, 9, ours, &ended, &value, &steps, &statement, left, kept,
              &ticks) == 3);
    CHECK(run(NULL, 0, values, 2, 1000001, ours, &ended, &value, &steps, &statement, left, kept,
              &ticks) == 15);
    CHECK(run(NULL, 0, values, 2, 9, ours, &ended, &value, &steps, &statement, left, kept,
              &ticks) == 3);
    CHECK(ended == 11 && value == -15 && steps == 12 && statement == 13 && left[0] == 14);
    CHECK(ticks == 17);
    for (k = 0; k < 8; k++) CHECK(kept[k] == 16);

    CHECK(run(program, length, values, 2, 12, ours, &ended, &value, &steps, &statement, left, kept,
              &ticks) == 0);
    CHECK(ended == 1 && value == 9 && steps == 12 && statement == 13 && left[0] == 14);
    CHECK(ticks == 36);
    for (k = 0; k < 8; k++) CHECK(kept[k] == 0);

    for (k = 0; k < 8; k++) kept[k] = 16;
    CHECK(run(program, length, values, 2, 11, ours, &ended, &value, &steps, &statement, left, kept,
              &ticks) == 0);
    CHECK(ended == 0 && value == 9 && steps == 12 && statement == 8 && ticks == 32);
    CHECK(left[0] == 0 && left[1] == 2 && left[2] == 7 && left[3] == 9 && left[63] == 0);
    for (k = 0; k < 8; k++) CHECK(kept[k] == 16);
    return 0;
}

/* What the unit keeps: i24 to i31, told where the run ended. */
static int kept_answers(void) {
    static const char given[] = "read i0\ni24 := 5\ni31 := i0 - 1\nwrite i0\n";
    static const char bare[] = "read i24\nwrite i24\n";
    static const char used[] = "use(i24)", unused[] = "use(i23)", list[] = "2: mark(rm, i24, 5)\n";
    static uint8_t verdicts[MARKS], text[TEXT];
    const uint8_t *p = (const uint8_t *)given, *b = (const uint8_t *)bare;
    uint32_t values[VARIABLES] = {0}, ended, steps, statement, left[VARIABLES], first, second, third;
    uint32_t places[10]; /* kept, with a word on both sides of it */
    uint64_t table[TABLE] = {0};
    int32_t value;
    uint64_t ticks;
    size_t k;

    values[25] = 7;
    for (k = 0; k < 10; k++) places[k] = 0xa5c3e187;
    CHECK(rewrites_run(p, strlen(given), values, 0, 4, ours, &ended, &value, &steps, &statement, left,
                       places + 1, &ticks) == 0);
    CHECK(ended == 1 && value == 0 && steps == 4);
    CHECK(places[1] == 5 && places[2] == 7 && places[8] == 0xffffffff);
    for (k = 3; k < 8; k++) CHECK(places[k] == 0);
    CHECK(places[0] == 0xa5c3e187 && places[9] == 0xa5c3e187);

    /* The budget is spent one step before the end. */
    for (k = 0; k < 10; k++) places[k] = 0xa5c3e187;
    CHECK(rewrites_run(b, strlen(bare), values, 9, 1, ours, &ended, &value, &steps, &statement, left,
                       places + 1, &ticks) == 0);
    CHECK(ended == 0 && statement == 2 && left[24] == 9 && left[25] == 7);
    for (k = 0; k < 10; k++) CHECK(places[k] == 0xa5c3e187);
    CHECK(rewrites_run(b, strlen(bare), values, 9, 2, ours, &ended, &value, &steps, &statement, left,
                       places + 1, &ticks) == 0);
    CHECK(ended == 1 && value == 9 && steps == 2 && places[1] == 9 && places[2] == 7);

    /* They are used at `write`, so an assignment before it stays. */
    CHECK(rewrites_tabulate(p, strlen(given), (const uint8_t *)used, strlen(used), table, TABLE, &first,
                            &second, &third) == 0);
    CHECK(first == 1 && second == 1 && third == 4 && table[0] == 8);
    CHECK(rewrites_tabulate(p, strlen(given), (const uint8_t *)unused, strlen(unused), table, TABLE,
                            &first, &second, &third) == 0);
    CHECK(first == 1 && second == 0 && third == 0 && table[0] == 0);
    CHECK(rewrites_judge(p, strlen(given), (const uint8_t *)list, strlen(list), verdicts, MARKS, text,
                         TEXT, &first, &second, &third) == 0);
    CHECK(first == 1 && second == 0 && third == strlen(given) && verdicts[0] == 14);
    return 0;
}

/* Divisions: a quotient, a fault, and what may be dropped. */
static int division_answers(void) {
    static const char given[] = "read i0\ni1 := 10 / i0\nwrite i1\n";
    static const char dropped[] = "read i0\ni1 := i0 / i2\ni3 := i0 / 2\nwrite i0\n";
    static const char rewritten[] = "read i0\ni1 := i0 / i2\nskip\nwrite i0\n";
    static const char list[] = "2: mark(rm, i1, i0 / i2)\n3: mark(rm, i3, i0 / 2)\n";
    static const char forward[] = "EX node(3)";
    static uint8_t verdicts[MARKS], text[TEXT];
    const uint8_t *p = (const uint8_t *)given, *d = (const uint8_t *)dropped;
    const uint32_t values[VARIABLES] = {0};
    uint64_t table[TABLE] = {0};
    uint32_t ended = 11, steps = 12, statement = 13, left[VARIABLES], kept[8], first, second, third;
    int32_t value = -15;
    uint64_t ticks;
    size_t k;

    for (k = 0; k < VARIABLES; k++) left[k] = 14;
    for (k = 0; k < 8; k++) kept[k] = 16;
    CHECK(rewrites_run(p, strlen(given), values, 0, 2, ours, &ended, &value, &steps, &statement, left,
                       kept, &ticks) == 0);
    CHECK(ended == 2 && statement == 2 && steps == 2 && value == -15 && ticks == 28);
    for (k = 0; k < VARIABLES; k++) CHECK(left[k] == 14);
    for (k = 0; k < 8; k++) CHECK(kept[k] == 16);

    /* One step before, and by another divisor. */
    CHECK(rewrites_run(p, strlen(given), values, 0, 1, ours, &ended, &value, &steps, &statement, left,
                       kept, &ticks) == 0);
    CHECK(ended == 0 && statement == 2 && steps == 2 && value == -15 && left[0] == 0 && left[1] == 0);
    CHECK(rewrites_run(p, strlen(given), values, (uint32_t)-3, 3, ours, &ended, &value, &steps, &statement,
                       left, kept, &ticks) == 0);
    CHECK(ended == 1 && value == -3 && steps == 3 && kept[0] == 0 && ticks == 32);

    /* A division steps to the next line. */
    CHECK(rewrites_tabulate(p, strlen(given), (const uint8_t *)forward, strlen(forward), table, TABLE,
                            &first, &second, &third) == 0);
    CHECK(first == 2 && second == 2 && third == 2 && table[0] == 4 && table[PART] == 6);

    CHECK(rewrites_judge(d, strlen(dropped), (const uint8_t *)list, strlen(list), verdicts, MARKS, text,
                         TEXT, &first, &second, &third) == 0);
    CHECK(first == 2 && second == 1 && third == strlen(rewritten));
    CHECK(verdicts[0] == 18 && verdicts[1] == 0);
    CHECK(memcmp(text, rewritten, strlen(rewritten)) == 0);
    return 0;
}

/* Prices of each statement, before and after. */
static int report_answers(void) {
    uint8_t (*const report)(const uint8_t *, size_t, const uint8_t *, size_t, const uint32_t *,
                            uint32_t *, uint32_t *, uint32_t *, uint32_t *, uint32_t *, int32_t *) =
        rewrites_report;
    static const char given[] = "read i0\ni1 := i0 + 1\ni2 := i0 + 1\ni3 := i2 * i2\nwrite i2\n";
    static const char list[] =
        "3: mark(cse, i1, i0 + 1)\n4: mark(rm, i3, i2 * i2)\n2: mark(rm, i1, i0 + 1)\n";
    static const uint32_t prices[2][5] = {{4, 3, 3, 9, 4}, {4, 3, 2, 1, 4}};
    const uint8_t *p = (const uint8_t *)given, *m = (const uint8_t *)list;
    const size_t length = strlen(given), bound = strlen(list);
    /* Two arrays with a word on both sides of each. */
    enum { BEFORE = 1, AFTER = BEFORE + STATEMENTS + 1, ALL = AFTER + STATEMENTS + 1 };
    uint32_t places[ALL], *const before = places + BEFORE, *const after = places + AFTER;
    uint32_t statements = 11, total = 12, rewritten = 13;
    int32_t saved = -14;
    size_t k;

    for (k = 0; k < ALL; k++) places[k] = 0xa5c30000 + (uint32_t)k;
    CHECK(report(p, length - 1, m, bound, ours, before, after, &statements, &total, &rewritten, &saved) == 2);
    CHECK(report(p, 0, m, bound, ours, before, after, &statements, &total, &rewritten, &saved) == 3);
    CHECK(report(NULL, 0, NULL, 0, ours, before, after, &statements, &total, &rewritten, &saved) == 3);
    CHECK(report(p, length, m, bound - 1, ours, before, after, &statements, &total, &rewritten, &saved) == 9);
    CHECK(statements == 11 && total == 12 && rewritten == 13 && saved == -14);
    for (k = 0; k < ALL; k++) CHECK(places[k] == 0xa5c30000 + k);

    CHECK(report(p, length, m, bound, ours, before, after, &statements, &total, &rewritten, &saved) == 0);
    CHECK(statements == 5 && total == 23 && rewritten == 14 && saved == 9);
    for (k = 0; k < 5; k++) CHECK(before[k] == prices[0][k] && after[k] == prices[1][k]);
    for (k = BEFORE + 5; k < AFTER; k++) CHECK(places[k] == 0xa5c30000 + k);
    for (k = AFTER + 5; k < ALL; k++) CHECK(places[k] == 0xa5c30000 + k);
    CHECK(places[0] == 0xa5c30000);

    /* Without marks both columns are the same. */
    CHECK(report(p, length, NULL, 0, ours, before, after, &statements, &total, &rewritten, &saved) == 0);
    CHECK(statements == 5 && total == 23 && rewritten == 23 && saved == 0);
    for (k = 0; k < 5; k++) CHECK(before[k] == prices[0][k] && after[k] == prices[0][k]);
    return 0;
}

/* Our prices, and a buyer's own. */
static int prices_answers(void) {
    uint8_t (*const read)(const uint8_t *, size_t, uint32_t *) = rewrites_prices;
    void (*const set)(uint32_t *) = rewrites_our_prices;
    static const uint32_t first[11] = {4, 4, 1, 3, 2, 3, 3, 9, 3, 3, 24};
    static const char counted[] = "1\n2\n3\n4\n5\n6\n7\n8\n9\n10\n11\n12\n";
    static const char zero[] = "1\n2\n3\n4\n5\n6\n7\n8\n9\n10\n11\n0\n";
    static const char list[] = "2: mark(rm, i1, i0)\n", copy[] = "read i0\ni1 := i0\nwrite i0\n";
    const uint8_t *text = (const uint8_t *)counted, *p = (const uint8_t *)P;
    const size_t eleven = strlen(counted) - 3;
    const uint32_t values[VARIABLES] = {0};
    uint32_t places[13], *const prices = places + 1; /* with a word on both sides */
    uint32_t ended, steps, statement, left[VARIABLES], kept[8];
    static uint32_t before[STATEMENTS], after[STATEMENTS];
    uint32_t statements, given, rewritten;
    int32_t value, saved;
    uint64_t ticks;
    size_t k;

    for (k = 0; k < 13; k++) places[k] = 0xa5c3e187;
    set(prices);
    for (k = 0; k < 11; k++) CHECK(prices[k] == first[k] && ours[k] == first[k]);

    /* A refused table changes nothing: 19 before 20. */
    for (k = 0; k < 11; k++) prices[k] = 70000 + (uint32_t)k;
    CHECK(read(text, strlen(counted), prices) == 20);
    CHECK(read(text, eleven - 3, prices) == 20);
    CHECK(read(text, 0, prices) == 20 && read(NULL, 0, prices) == 20);
    CHECK(read(text, eleven - 1, prices) == 19 && read(text, strlen(counted) - 1, prices) == 19);
    CHECK(read((const uint8_t *)zero, strlen(zero), prices) == 19);
    CHECK(read((const uint8_t *)"65536\n", 6, prices) == 19 && read((const uint8_t *)"\n", 1, prices) == 19);
    for (k = 0; k < 11; k++) CHECK(prices[k] == 70000 + k);

    CHECK(read(text, eleven, prices) == 0);
    for (k = 0; k < 11; k++) CHECK(prices[k] == k + 1);
    CHECK(places[0] == 0xa5c3e187 && places[12] == 0xa5c3e187);

    /* P by the prices 1 to 11. */
    CHECK(rewrites_run(p, strlen(P), values, 2, 12, prices, &ended, &value, &steps, &statement, left,
                       kept, &ticks) == 0);
    CHECK(ended == 1 && value == 9 && steps == 12 && ticks == 55);
    CHECK(rewrites_report(p, strlen(P), NULL, 0, prices, before, after, &statements, &given, &rewritten,
                          &saved) == 0);
    CHECK(statements == 8 && given == 34 && rewritten == 34 && saved == 0);
    CHECK(before[0] == 1 && before[1] == 5 && before[3] == 6 && before[4] == 4 && before[5] == 7);
    CHECK(before[7] == 2 && memcmp(before, after, sizeof before) == 0);

    /* Where `skip` is dear, a dropped copy costs. Entries outside the range are ours. */
    for (k = 0; k < 11; k++) prices[k] = k == 2 ? 65535 : 1;
    CHECK(rewrites_report((const uint8_t *)copy, strlen(copy), (const uint8_t *)list, strlen(list),
                          prices, before, after, &statements, &given, &rewritten, &saved) == 0);
    CHECK(given == 3 && rewritten == 65537 && saved == -65534);
    prices[0] = 0;
    prices[1] = 65536;
    prices[2] = 0xffffffff;
    CHECK(rewrites_report((const uint8_t *)copy, strlen(copy), (const uint8_t *)list, strlen(list),
                          prices, before, after, &statements, &given, &rewritten, &saved) == 0);
    CHECK(before[0] == 4 && before[1] == 1 && before[2] == 4 && after[1] == 1);
    CHECK(given == 9 && rewritten == 9 && saved == 0);
    CHECK(prices[0] == 0 && prices[1] == 65536 && prices[2] == 0xffffffff && prices[3] == 1);
    return 0;
}

/* A sum that is computed twice, and what then stays. */
static int cse_answers(void) {
    static const char given[] = "read i0\ni1 := i0 + 1\ni2 := i0 + 1\nwrite i2\n";
    static const char reused[] = "read i0\ni1 := i0 + 1\ni2 := i1\nwrite i2\n";
    static const char dropped[] = "read i0\nskip\ni2 := i0 + 1\nwrite i2\n";
    static const char list[] = "2: mark(rm, i1, i0 + 1)\n3: mark(cse, i1, i0 + 1)\n";
    static const char turned[] = "3: mark(cse, i1, i0 + 1)\n2: mark(rm, i1, i0 + 1)\n";
    static const char named[] =
        "3: mark(rm, i2, i0 + 1)\n3: mark(cse, i1, i0 + 1)\n2: mark(rm, i1, i0 + 1)\n";
    static const char copies[] = "read i0\ni1 := i0\ni2 := i0\nwrite i2\n";
    static const char single[] = "3: mark(cse, i1, i0)\n", wrong[] = "3: mark(cse, i1, i0 + 1 + 1)\n";
    static const char dead[] = "!EX E[!def(i1) U use(i1)]";
    static uint8_t verdicts[MARKS], text[TEXT];
    const uint8_t *p = (const uint8_t *)given;
    const size_t length = strlen(given), line = 24;
    const uint32_t values[VARIABLES] = {0};
    uint64_t table[TABLE] = {0};
    uint32_t ended, steps, statement, left[VARIABLES], kept[8], first, second, third;
    size_t begin, end;
    int32_t value;
    uint64_t ticks;

    CHECK(rewrites_judge(p, length, (const uint8_t *)list, strlen(list), verdicts, MARKS, text, TEXT,
                         &first, &second, &third) == 0);
    CHECK(first == 2 && second == 1 && third == strlen(reused));
    CHECK(verdicts[0] == 14 && verdicts[1] == 0);
    CHECK(memcmp(text, reused, strlen(reused)) == 0);
    CHECK(rewrites_run(text, third, values, 4, 4, ours, &ended, &value, &steps, &statement, left, kept,
              &ticks) == 0);
    CHECK(ended == 1 && value == 5 && steps == 4);
    CHECK(rewrites_judge(p, length, (const uint8_t *)turned, strlen(turned), verdicts, MARKS, text, TEXT,
                         &first, &second, &third) == 0);
    CHECK(verdicts[0] == 0 && verdicts[1] == 14 && third == strlen(reused));
    CHECK(memcmp(text, reused, strlen(reused)) == 0);

    /* The rm by itself, by its condition's table too, and beside a cse that isn't accepted. */
    CHECK(rewrites_judge(p, length, (const uint8_t *)list, line, verdicts, MARKS, text, TEXT, &first,
                         &second, &third) == 0);
    CHECK(first == 1 && second == 1 && verdicts[0] == 0 && third == strlen(dropped));
    CHECK(memcmp(text, dropped, strlen(dropped)) == 0);
    CHECK(rewrites_tabulate(p, length, (const uint8_t *)dead, strlen(dead), table, TABLE, &first, &second,
                            &third) == 0);
    CHECK(first == 6 && (table[PART * 5] & 2) == 2);
    CHECK(rewrites_judge(p, length, (const uint8_t *)named, strlen(named), verdicts, MARKS, text, TEXT,
                         &first, &second, &third) == 0);
    CHECK(verdicts[0] == 14 && verdicts[1] == 12 && verdicts[2] == 0 && third == strlen(dropped));

    /* One operand doesn't fit; three are misspelled. */
    CHECK(rewrites_judge((const uint8_t *)copies, strlen(copies), (const uint8_t *)single,
                         strlen(single), verdicts, MARKS, text, TEXT, &first, &second, &third) == 0);
    CHECK(first == 1 && second == 0 && verdicts[0] == 13 && third == strlen(copies));
    CHECK(rewrites_judge(p, length, (const uint8_t *)wrong, strlen(wrong), verdicts, MARKS, text, TEXT,
                         &first, &second, &third) == 9);
    CHECK(rewrites_mark_line((const uint8_t *)list, strlen(list), 1, &begin, &end) == 0);
    CHECK(begin == line && end == strlen(list));
    CHECK(rewrites_mark_line((const uint8_t *)wrong, strlen(wrong), 0, &begin, &end) == 9);
    return 0;
}

static int tabulate_answers(void) {
    uint8_t (*const tabulate)(const uint8_t *, size_t, const uint8_t *, size_t, uint64_t *, size_t,
                              uint32_t *, uint32_t *, uint32_t *) = rewrites_tabulate;
    static const char used_next[] = "E[!def(i2) U use(i2)]";
    static const uint64_t rows[4] = {4, 251, 8, 120};
    const uint8_t *program = (const uint8_t *)P;
    const uint8_t *condition = (const uint8_t *)used_next;
    const size_t length = strlen(P), size = strlen(used_next);
    uint64_t table[TABLE];
    uint32_t parts = 11, satisfied = 12, first = 13;
    size_t k;

    for (k = 0; k < TABLE; k++) table[k] = 14;
    CHECK(tabulate(program, 0, condition, 0, table, TABLE - 1, &parts, &satisfied, &first) == 1);
    CHECK(tabulate(program, 0, condition, 0, table, TABLE, &parts, &satisfied, &first) == 3);
    CHECK(tabulate(program, length, condition, 0, table, TABLE, &parts, &satisfied, &first) == 7);
    CHECK(tabulate(program, length, condition, size, NULL, 0, &parts, &satisfied, &first) == 1);
    CHECK(tabulate(NULL, 0, NULL, 0, NULL, 0, &parts, &satisfied, &first) == 1);
    CHECK(tabulate(NULL, 0, NULL, 0, table, TABLE, &parts, &satisfied, &first) == 3);
    CHECK(tabulate(program, length, NULL, 0, table, TABLE, &parts, &satisfied, &first) == 7);
    CHECK(parts == 11 && satisfied == 12 && first == 13);
    for (k = 0; k < TABLE; k++) CHECK(table[k] == 14);

    CHECK(tabulate(program, length, condition, size, table, TABLE, &parts, &satisfied, &first) == 0);
    CHECK(parts == 4 && satisfied == 4 && first == 4);
    for (k = 0; k < 4 * PART; k++) CHECK(table[k] == (k % PART == 0 ? rows[k / PART] : 0));
    for (k = 4 * PART; k < TABLE; k++) CHECK(table[k] == 14);
    return 0;
}

/* What a driver can force on P, by i0 and by nothing. */
static int force_answers(void) {
    uint8_t (*const force)(const uint8_t *, size_t, const uint8_t *, size_t, const uint8_t *, size_t,
                           uint64_t *, size_t, uint32_t *, uint32_t *, uint32_t *, uint32_t *,
                           uint8_t *) = rewrites_force;
    static const char lever[] = "i0", wrong[] = "i0 i0", end[] = "exit", rubbish[] = "rubbish";
    static const uint32_t numbers[8] = {5, 4, 3, 2, 1, 2, 1, 0};
    const uint8_t *p = (const uint8_t *)P, *d = (const uint8_t *)lever, *w = (const uint8_t *)wrong;
    const uint8_t *c = (const uint8_t *)end, *r = (const uint8_t *)rubbish;
    const size_t length = strlen(P);
    /* The arrays, with an entry on both sides of each. */
    enum { ALL = STATEMENTS + 2 };
    uint32_t places[ALL], *const number = places + 1, parts = 11, satisfied = 12, first = 13;
    uint8_t marks[ALL], *const arm = marks + 1;
    uint64_t table[TABLE + 4];
    size_t k;

    for (k = 0; k < ALL; k++) places[k] = 0xa5c30000 + (uint32_t)k;
    for (k = 0; k < ALL; k++) marks[k] = (uint8_t)(3 + k % 200);
    for (k = 0; k < TABLE + 4; k++) table[k] = 14 + k;
    CHECK(force(p, 0, w, 5, r, 7, table, TABLE - 1, &parts, &satisfied, &first, number, arm) == 1);
    CHECK(force(p, length - 1, w, 5, r, 7, table, TABLE, &parts, &satisfied, &first, number, arm) == 2);
    CHECK(force(NULL, 0, NULL, 0, NULL, 0, NULL, 0, &parts, &satisfied, &first, number, arm) == 1);
    CHECK(force(NULL, 0, NULL, 0, NULL, 0, table, TABLE, &parts, &satisfied, &first, number, arm) == 3);
    CHECK(force(p, length, w, 5, r, 7, table, TABLE, &parts, &satisfied, &first, number, arm) == 22);
    CHECK(force(p, length, w, 3, c, 4, table, TABLE, &parts, &satisfied, &first, number, arm) == 22);
    CHECK(force(p, length, NULL, 0, r, 7, table, TABLE, &parts, &satisfied, &first, number, arm) == 7);
    CHECK(parts == 11 && satisfied == 12 && first == 13);
    for (k = 0; k < ALL; k++) CHECK(places[k] == 0xa5c30000 + k && marks[k] == 3 + k % 200);
    for (k = 0; k < TABLE + 4; k++) CHECK(table[k] == 14 + k);

    CHECK(force(p, length, d, 2, c, 4, table, TABLE, &parts, &satisfied, &first, number, arm) == 0);
    CHECK(parts == 1 && satisfied == 1 && first == 8 && table[0] == 128);
    for (k = 1; k < PART; k++) CHECK(table[k] == 0);
    for (k = PART; k < TABLE + 4; k++) CHECK(table[k] == 14 + k);
    for (k = 0; k < 8; k++) CHECK(number[k] == numbers[k]);
    for (k = 0; k < 8; k++) CHECK(arm[k] == (k == 4 || k == 6 ? 2 : 0));
    for (k = 9; k < ALL; k++) CHECK(places[k] == 0xa5c30000 + k && marks[k] == 3 + k % 200);
    CHECK(places[0] == 0xa5c30000 && marks[0] == 3);

    CHECK(force(p, length, NULL, 0, c, 4, table, TABLE, &parts, &satisfied, &first, number, arm) == 0);
    for (k = 0; k < 8; k++) CHECK(number[k] == (k == 7 ? 0 : 0xffffffff));
    for (k = 0; k < 8; k++) CHECK(arm[k] == (k == 4 || k == 6 ? 1 : 0));
    return 0;
}

/* Arrays of 32 entries with a marked word on both sides of each. */
enum {
    TABLE_OF = 1,
    PARTS = TABLE_OF + 33,
    SATISFIED = PARTS + 33,
    FIRST = SATISFIED + 33,
    PLACES = FIRST + 33
};

static int review_answers(void) {
    uint8_t (*const review)(const uint8_t *, size_t, const uint8_t *, size_t, uint64_t *, size_t,
                            uint32_t *, uint32_t *, uint32_t *, uint32_t *, uint32_t *, uint32_t *) =
        rewrites_review;
    static const char lines[] =
        "E[!def(i2) U use(i2)]\nEX exit\n(EX exit & E[!def(i2) U use(i2)])\nuse(i2)\nEX exit\n";
    static const uint64_t rows[7] = {4, 251, 8, 120, 128, 208, 80};
    static const uint32_t expected[4][5] = {
        {3, 5, 6, 2, 5}, {4, 2, 7, 1, 2}, {4, 3, 2, 1, 3}, {4, 5, 5, 4, 5}};
    const uint8_t *p = (const uint8_t *)P, *c = (const uint8_t *)lines;
    const size_t length = strlen(P), size = strlen(lines);
    uint64_t memory[4 + REVIEW + 4], *const table = memory + 4;
    uint32_t tables = 11, count = 12, places[PLACES];
    uint32_t *const a = places + TABLE_OF, *const b = places + PARTS, *const s = places + SATISFIED,
                    *const f = places + FIRST;
    size_t k, j;

    for (k = 0; k < REVIEW + 8; k++) memory[k] = 13 + k;
    for (k = 0; k < PLACES; k++) places[k] = 0xa5c30000 + (uint32_t)k;
    CHECK(review(p, length, c, size, table, REVIEW - 1, &tables, &count, a, b, s, f) == 1);
    CHECK(review(p, 0, c, 0, table, REVIEW - 1, &tables, &count, a, b, s, f) == 1);
    CHECK(review(p, 0, c, 0, table, REVIEW, &tables, &count, a, b, s, f) == 3);
    CHECK(review(p, length, c, 0, table, REVIEW, &tables, &count, a, b, s, f) == 16);
    CHECK(review(p, length, c, size - 1, table, REVIEW, &tables, &count, a, b, s, f) == 7);
    CHECK(review(p, length, c, size, NULL, 0, &tables, &count, a, b, s, f) == 1);
    CHECK(review(NULL, 0, NULL, 0, NULL, 0, &tables, &count, a, b, s, f) == 1);
    CHECK(review(NULL, 0, NULL, 0, table, REVIEW, &tables, &count, a, b, s, f) == 3);
    CHECK(review(p, length, NULL, 0, table, REVIEW, &tables, &count, a, b, s, f) == 16);
    CHECK(tables == 11 && count == 12);
    for (k = 0; k < REVIEW + 8; k++) CHECK(memory[k] == 13 + k);
    for (k = 0; k < PLACES; k++) CHECK(places[k] == 0xa5c30000 + k);

    CHECK(review(p, length, c, size, table, REVIEW, &tables, &count, a, b, s, f) == 0);
    CHECK(tables == 7 && count == 5);
    for (k = 0; k < 7 * PART; k++) CHECK(table[k] == (k % PART == 0 ? rows[k / PART] : 0));
    for (k = 0; k < REVIEW + 8; k++)
        CHECK((k >= 4 && k < 4 + 7 * PART) || memory[k] == 13 + k);
    for (k = 0; k < 4; k++)
        for (j = 0; j < 5; j++) CHECK(places[TABLE_OF + 33 * k + j] == expected[k][j]);
    for (k = 0; k < PLACES; k++)
        CHECK((k > 0 && (k - 1) % 33 < 5) || places[k] == 0xa5c30000 + k);
    return 0;
}

/* 32 lines fill every entry, and 128 tables every word. */
static int full_review_answers(void) {
    static char lines[32 * 16], refused[33 * 16];
    uint64_t memory[2 + REVIEW + 2], *const table = memory + 2;
    uint32_t tables = 0, count = 0, places[PLACES];
    size_t size = 0, k;

    for (k = 0; k < 32; k++) size += (size_t)sprintf(lines + size, "!!!node(%u)\n", (unsigned)k);
    for (k = 0; k < REVIEW + 4; k++) memory[k] = 13 + k;
    for (k = 0; k < PLACES; k++) places[k] = 0xa5c30000 + (uint32_t)k;
    CHECK(rewrites_review((const uint8_t *)P, strlen(P), (const uint8_t *)lines, size, table, REVIEW, &tables,
                          &count, places + TABLE_OF, places + PARTS, places + SATISFIED,
                          places + FIRST) == 0);
    CHECK(tables == 128 && count == 32);
    CHECK(memory[0] == 13 && memory[1] == 14);
    CHECK(memory[REVIEW + 2] == REVIEW + 15 && memory[REVIEW + 3] == REVIEW + 16);
    CHECK(table[0] == 0 && table[PART] == 255);
    CHECK(table[REVIEW - PART] == 255 && table[REVIEW - 1] == 0);
    for (k = 0; k < 32; k++) CHECK(places[TABLE_OF + k] == 4 * k + 3 && places[PARTS + k] == 4);
    CHECK(places[SATISFIED] == 8 && places[SATISFIED + 1] == 7 && places[SATISFIED + 31] == 8);
    CHECK(places[FIRST] == 1 && places[FIRST + 1] == 2 && places[FIRST + 31] == 1);
    for (k = 0; k < PLACES; k += 33) CHECK(places[k] == 0xa5c30000 + k);

    /* One part more, and one line more. */
    sprintf(refused, "!%s", lines);
    CHECK(rewrites_review((const uint8_t *)P, strlen(P), (const uint8_t *)refused, size + 1, table, REVIEW,
                          &tables, &count, places + TABLE_OF, places + PARTS, places + SATISFIED,
                          places + FIRST) == 17);
    sprintf(refused, "%st", lines);
    CHECK(rewrites_review((const uint8_t *)P, strlen(P), (const uint8_t *)refused, size + 1, table, REVIEW,
                          &tables, &count, places + TABLE_OF, places + PARTS, places + SATISFIED,
                          places + FIRST) == 16);
    return 0;
}

static int judge_answers(void) {
    uint8_t (*const judge)(const uint8_t *, size_t, const uint8_t *, size_t, uint8_t *, size_t,
                           uint8_t *, size_t, uint32_t *, uint32_t *, uint32_t *) = rewrites_judge;
    static const char list[] =
        "4: mark(rpl, i2, 7)\n3: mark(rm, i2, 7)\n4: mark(rpl, i1, i0)\n"
        "6: mark(rm, i0, 1)\n9: mark(rm, i2, 7)\n";
    static const char rewritten[] =
        "read i0\ni1 := i0\ni2 := 7\ni3 := i1 + 7\n"
        "if i0 goto 6 else 8\ni0 := i0 - 1\nif i0 goto 4 else 8\nwrite i3\n";
    static const uint8_t bytes_of_list[5] = {0, 14, 12, 13, 11};
    static uint8_t verdicts[MARKS], text[TEXT];
    const uint8_t *p = (const uint8_t *)P, *m = (const uint8_t *)list;
    const size_t length = strlen(P), size = strlen(list), filled = strlen(rewritten);
    uint32_t count = 15, accepted = 16, bytes = 17;
    size_t k;

    for (k = 0; k < MARKS; k++) verdicts[k] = 18;
    for (k = 0; k < TEXT; k++) text[k] = 19;
    CHECK(judge(p, 0, m, 1, verdicts, MARKS - 1, text, TEXT, &count, &accepted, &bytes) == 1);
    CHECK(judge(p, 0, m, 1, verdicts, MARKS, text, TEXT - 1, &count, &accepted, &bytes) == 1);
    CHECK(judge(p, 0, m, 1, verdicts, MARKS, text, 8704, &count, &accepted, &bytes) == 1);
    CHECK(judge(p, 0, m, 1, verdicts, MARKS, text, TEXT, &count, &accepted, &bytes) == 3);
    CHECK(judge(p, length, m, size - 1, verdicts, MARKS, text, TEXT, &count, &accepted, &bytes) == 9);
    CHECK(judge(p, length, m, size, NULL, 0, text, TEXT, &count, &accepted, &bytes) == 1);
    CHECK(judge(p, length, m, size, verdicts, MARKS, NULL, 0, &count, &accepted, &bytes) == 1);
    CHECK(judge(NULL, 0, NULL, 0, NULL, 0, NULL, 0, &count, &accepted, &bytes) == 1);
    CHECK(judge(NULL, 0, NULL, 0, verdicts, MARKS, text, TEXT, &count, &accepted, &bytes) == 3);
    CHECK(count == 15 && accepted == 16 && bytes == 17);
    for (k = 0; k < MARKS; k++) CHECK(verdicts[k] == 18);
    for (k = 0; k < TEXT; k++) CHECK(text[k] == 19);

    CHECK(judge(p, length, m, size, verdicts, MARKS, text, TEXT, &count, &accepted, &bytes) == 0);
    CHECK(count == 5 && accepted == 1 && bytes == filled);
    CHECK(memcmp(verdicts, bytes_of_list, 5) == 0);
    CHECK(memcmp(text, rewritten, filled) == 0);
    for (k = 5; k < MARKS; k++) CHECK(verdicts[k] == 18);
    for (k = filled; k < TEXT; k++) CHECK(text[k] == 19);

    /* No marks give the program back. */
    for (k = 0; k < 5; k++) verdicts[k] = 18;
    CHECK(judge(p, length, NULL, 0, verdicts, MARKS, text, TEXT, &count, &accepted, &bytes) == 0);
    CHECK(count == 0 && accepted == 0 && bytes == length);
    CHECK(memcmp(text, P, length) == 0);
    for (k = 0; k < MARKS; k++) CHECK(verdicts[k] == 18);
    return 0;
}

/* Constants below zero, in each of the texts. */
static int below_zero_answers(void) {
    static const char given[] = "read i0\ni1 := -40\ni2 := i0 - i1\nwrite i2\n";
    static const char rewritten[] = "read i0\ni1 := -40\ni2 := i0 - -40\nwrite i2\n";
    static const char condition[] = "stmt(i1 := -40)", wrong[] = "stmt(i1 := -0)";
    static const char list[] = "3: mark(rpl, i1, -40)\n2: mark(rm, i1, -40)\n";
    static uint8_t verdicts[MARKS], text[TEXT];
    const uint8_t *p = (const uint8_t *)given, *m = (const uint8_t *)list;
    const uint32_t values[VARIABLES] = {0};
    uint64_t table[TABLE] = {0};
    uint32_t ended, steps, statement, left[VARIABLES], kept[8], first, second, third;
    int32_t value;
    uint64_t ticks;

    CHECK(rewrites_run(p, strlen(given), values, 2, 4, ours, &ended, &value, &steps, &statement, left,
                       kept, &ticks) == 0);
    CHECK(ended == 1 && value == 42 && steps == 4);

    CHECK(rewrites_tabulate(p, strlen(given), (const uint8_t *)condition, strlen(condition), table, TABLE,
                            &first, &second, &third) == 0);
    CHECK(first == 1 && second == 1 && third == 2 && table[0] == 2);
    CHECK(rewrites_tabulate(p, strlen(given), (const uint8_t *)wrong, strlen(wrong), table, TABLE,
                            &first, &second, &third) == 7);

    CHECK(rewrites_judge(p, strlen(given), m, strlen(list), verdicts, MARKS, text, TEXT, &first, &second,
                         &third) == 0);
    CHECK(first == 2 && second == 1 && third == strlen(rewritten));
    CHECK(verdicts[0] == 0 && verdicts[1] == 14);
    CHECK(memcmp(text, rewritten, strlen(rewritten)) == 0);
    return 0;
}

/* Where the lines of a list lie. */
static int mark_line_answers(void) {
    uint8_t (*const mark_line)(const uint8_t *, size_t, uint32_t, size_t *, size_t *) =
        rewrites_mark_line;
    static const char list[] =
        "4: mark(rpl, i2, 7)\n3: mark(rm, i2, 7)\n4: mark(rpl, i1, i0)\n"
        "6: mark(rm, i0, 1)\n9: mark(rm, i2, 7)\n";
    static const size_t bounds[6] = {0, 20, 39, 60, 79, 98};
    static const uint32_t beyond[6] = {5, 6, MARKS, 65536, 0x80000000, 0xffffffff};
    static const char one[] = "2147483647: mark(rm, i63, 2147483647 + 2147483647)\n";
    static uint8_t many[(MARKS + 1) * (sizeof one - 1)];
    const uint8_t *m = (const uint8_t *)list;
    const size_t size = strlen(list), length = sizeof one - 1, mark = (size_t)-1 / 3;
    size_t places[5]; /* begin and end, with a word on both sides of each */
    size_t j, k;

    for (k = 0; k <= MARKS; k++) memcpy(many + k * length, one, length);
    for (k = 0; k < 5; k++) places[k] = mark + k;
    CHECK(mark_line(m, size - 1, 0, &places[1], &places[3]) == 9);
    CHECK(mark_line(m, 1, 0xffffffff, &places[1], &places[3]) == 9);
    CHECK(mark_line(many, (MARKS + 1) * length, 0, &places[1], &places[3]) == 10);
    CHECK(mark_line(many, (MARKS + 1) * length, 0xffffffff, &places[1], &places[3]) == 10);
    CHECK(mark_line(many, (MARKS + 1) * length - 1, 0, &places[1], &places[3]) == 9);
    for (k = 0; k < 5; k++) CHECK(places[k] == mark + k);

    for (j = 0; j < 5; j++) {
        CHECK(mark_line(m, size, (uint32_t)j, &places[1], &places[3]) == 0);
        CHECK(places[1] == bounds[j] && places[3] == bounds[j + 1]);
    }
    for (j = 0; j < 6; j++) {
        places[1] = places[3] = mark;
        CHECK(mark_line(m, size, beyond[j], &places[1], &places[3]) == 0);
        CHECK(places[1] == size && places[3] == size);
        CHECK(mark_line(NULL, 0, beyond[j], &places[1], &places[3]) == 0);
        CHECK(places[1] == 0 && places[3] == 0);
    }
    for (j = 0; j <= MARKS; j++) {
        CHECK(mark_line(many, MARKS * length, (uint32_t)j, &places[1], &places[3]) == 0);
        CHECK(places[1] == j * length);
        CHECK(places[3] == (j < MARKS ? j + 1 : j) * length);
    }
    for (k = 0; k < 5; k += 2) CHECK(places[k] == mark + k);

    /* The places may stand in the other order. */
    CHECK(mark_line(m, size, 1, &places[3], &places[1]) == 0);
    CHECK(places[3] == 20 && places[1] == 39);
    return 0;
}

/* The places of both counts, with a word on both sides of each. */
enum { DEFINED = 1, USED = DEFINED + VARIABLES + 1, COUNT_PLACES = USED + VARIABLES + 1 };

/* The list of P, made and brought up to date. */
static int list_answers(void) {
    uint8_t (*const list)(const uint8_t *, size_t, uint64_t *, size_t, uint32_t *, uint32_t *) =
        rewrites_list;
    uint8_t (*const relist)(const uint8_t *, size_t, const uint8_t *, size_t, uint64_t *, size_t,
                            uint32_t *, uint32_t *) = rewrites_relist;
    static const char marks[] =
        "4: mark(rpl, i2, 7)\n3: mark(rm, i2, 7)\n4: mark(rpl, i1, i0)\n"
        "6: mark(rm, i0, 1)\n9: mark(rm, i2, 7)\n";
    static const uint64_t first[8] = {33, 114, 2, 8, 4, 8, 8, 128}; /* each PARTth word */
    static uint8_t many[(MARKS + 1) * 19];
    const uint8_t *p = (const uint8_t *)P, *m = (const uint8_t *)marks;
    const size_t length = strlen(P), size = strlen(marks);
    enum { ALL = 4 + LIST + 44 + 4 };
    uint64_t memory[ALL], *const words = memory + 4;
    uint32_t places[COUNT_PLACES], *const d = places + DEFINED, *const u = places + USED;
    size_t k;

    for (k = 0; k <= MARKS; k++) memcpy(many + 19 * k, "2: mark(rm, i0, 1)\n", 19);
    for (k = 0; k < ALL; k++) memory[k] = 13 + k;
    for (k = 0; k < COUNT_PLACES; k++) places[k] = 0xa5c30000 + (uint32_t)k;
    CHECK(list(p, length, words, LIST - 1, d, u) == 1);
    CHECK(list(p, length - 1, words, LIST - 1, d, u) == 1);
    CHECK(list(p, length - 1, words, LIST, d, u) == 2);
    CHECK(list(p, 0, words, LIST, d, u) == 3);
    CHECK(list(p, length, NULL, 0, d, u) == 1);
    CHECK(list(NULL, 0, NULL, 0, d, u) == 1);
    CHECK(list(NULL, 0, words, LIST, d, u) == 3);
    CHECK(relist(p, length, m, size, words, LIST - 1, d, u) == 1);
    CHECK(relist(p, length - 1, m, 1, words, LIST - 1, d, u) == 1);
    CHECK(relist(p, length - 1, m, 1, words, LIST, d, u) == 2);
    CHECK(relist(p, length, m, size - 1, words, LIST, d, u) == 9);
    CHECK(relist(p, length, many, sizeof many, words, LIST, d, u) == 10);
    CHECK(relist(p, length, m, size, NULL, 0, d, u) == 1);
    CHECK(relist(NULL, 0, NULL, 0, NULL, 0, d, u) == 1);
    CHECK(relist(NULL, 0, NULL, 0, words, LIST, d, u) == 3);
    for (k = 0; k < ALL; k++) CHECK(memory[k] == 13 + k);
    for (k = 0; k < COUNT_PLACES; k++) CHECK(places[k] == 0xa5c30000 + k);

    CHECK(list(p, length, words, LIST + 44, d, u) == 0);
    for (k = 0; k < LIST; k++) {
        const size_t v = k / (2 * PART);
        const uint64_t kept = v >= 24 && v < 32 && k % (2 * PART) == PART ? 128 : 0;
        CHECK(words[k] == (v < 4 && k % PART == 0 ? first[k / PART] : kept));
    }
    for (k = 0; k < VARIABLES; k++) {
        CHECK(d[k] == (k == 0 ? 2 : k <= 3));
        CHECK(u[k] == (k == 0 ? 4 : k <= 3 || (k >= 24 && k < 32)));
    }

    /* Statement 4 becomes `i3 := i1 + 7`, and loses its use of i2. */
    CHECK(relist(p, length, m, size, words, LIST + 44, d, u) == 0);
    for (k = 0; k < 8; k++) CHECK(words[PART * k] == (k == 5 ? 0 : first[k]));
    CHECK(d[2] == 1 && u[2] == 0 && u[0] == 4 && u[1] == 1);

    /* On zeros its other bits are set, and on ones its others cleared. */
    for (k = 0; k < LIST; k++) words[k] = 0;
    CHECK(relist(p, length, m, size, words, LIST + 44, d, u) == 0);
    for (k = 0; k < LIST; k++) CHECK(words[k] == (k == 3 * PART || k == 6 * PART ? 8 : 0));
    for (k = 0; k < VARIABLES; k++) CHECK(d[k] == (k == 3) && u[k] == (k == 1));
    for (k = 0; k < LIST; k++) words[k] = UINT64_MAX;
    CHECK(relist(p, length, m, size, words, LIST + 44, d, u) == 0);
    for (k = 0; k < LIST; k++) {
        const int is_kept = k % PART != 0 || k == 3 * PART || k == 6 * PART;
        CHECK(words[k] == (is_kept ? UINT64_MAX : UINT64_MAX - 8));
    }
    for (k = 0; k < VARIABLES; k++) {
        CHECK(d[k] == (k == 3 ? STATEMENTS : STATEMENTS - 1));
        CHECK(u[k] == (k == 1 ? STATEMENTS : STATEMENTS - 1));
    }

    /* No marks change no bit. */
    CHECK(relist(p, length, NULL, 0, words, LIST, d, u) == 0);
    CHECK(words[0] == UINT64_MAX - 8 && d[3] == STATEMENTS && u[1] == STATEMENTS);
    for (k = 0; k < ALL; k++) CHECK((k >= 4 && k < 4 + LIST) || memory[k] == 13 + k);
    for (k = 0; k < COUNT_PLACES; k += VARIABLES + 1) CHECK(places[k] == 0xa5c30000 + k);
    return 0;
}

static int join_answers(void) {
    uint8_t (*const join)(const uint8_t *, size_t, const uint8_t *, size_t, uint8_t *, size_t,
                          uint32_t *, uint32_t *) = rewrites_join;
    static const char road[] = "read i0\ni1 := i0 + 1\nwrite i1\n";
    static const char creeper[] = "read i2\nif i2 goto 3 else 4\ni1 := i1 * i2\nwrite i1\n";
    static const char joined[] =
        "read i0\ni1 := i0 + 1\ni2 := i1\nif i2 goto 5 else 6\ni1 := i1 * i2\nwrite i1\n";
    static const char wrong[] = "read i0\nif i0 goto 1 else 2\nwrite i0\n";
    static uint8_t text[TEXT + 16], many[6 * STATEMENTS];
    const uint8_t *r = (const uint8_t *)road, *c = (const uint8_t *)creeper;
    const size_t m = strlen(road), n = strlen(creeper), bytes = strlen(joined);
    uint32_t places[5] = {1, 2, 3, 4, 5}; /* the second and the fourth are lent */
    uint32_t values[VARIABLES] = {0}, ended, steps, statement, left[VARIABLES], kept[8];
    uint64_t ticks;
    size_t k, length;
    int32_t value;

    memset(text, 0xee, sizeof text);
    CHECK(join(r, m, c, n, text + 8, TEXT - 1, &places[1], &places[3]) == 1);
    CHECK(join(NULL, 0, NULL, 0, NULL, 0, &places[1], &places[3]) == 1);
    CHECK(join(r, m - 1, c, n, text + 8, TEXT, &places[1], &places[3]) == 2);
    CHECK(join(NULL, 0, c, n - 1, text + 8, TEXT, &places[1], &places[3]) == 3);
    CHECK(join(r, m, c, n - 1, text + 8, TEXT, &places[1], &places[3]) == 2);
    CHECK(join(r, m, NULL, 0, text + 8, TEXT, &places[1], &places[3]) == 3);
    CHECK(join(r, 8, c, 8, text + 8, TEXT, &places[1], &places[3]) == 3);
    CHECK(join(r, m, (const uint8_t *)wrong, strlen(wrong), text + 8, TEXT, &places[1], &places[3]) == 5);

    /* 1,024 statements, and a creeper program of three. */
    length = (size_t)sprintf((char *)many, "read i0\n");
    for (k = 2; k < STATEMENTS; k++) length += (size_t)sprintf((char *)many + length, "skip\n");
    length += (size_t)sprintf((char *)many + length, "write i0\n");
    CHECK(join(many, length, r, m, text + 8, TEXT, &places[1], &places[3]) == 21);
    CHECK(join(many, length, r, m - 1, text + 8, TEXT, &places[1], &places[3]) == 2);
    for (k = 0; k < sizeof text; k++) CHECK(text[k] == 0xee);
    for (k = 0; k < 5; k++) CHECK(places[k] == k + 1);

    CHECK(join(r, m, c, n, text + 8, TEXT, &places[1], &places[3]) == 0);
    CHECK(places[0] == 1 && places[1] == 6 && places[2] == 3 && places[3] == bytes && places[4] == 5);
    CHECK(memcmp(text + 8, joined, bytes) == 0);
    for (k = 0; k < sizeof text; k++) CHECK((k >= 8 && k < 8 + bytes) || text[k] == 0xee);
    CHECK(rewrites_run(text + 8, bytes, values, 4, 100, ours, &ended, &value, &steps, &statement, left, kept,
                       &ticks) == 0);
    CHECK(ended == 1 && value == 25 && steps == 6 && ticks == 25);
    CHECK(rewrites_run(text + 8, bytes, values, 0xffffffff, 100, ours, &ended, &value, &steps, &statement, left,
                       kept, &ticks) == 0);
    CHECK(ended == 1 && value == 0 && steps == 5 && ticks == 16);
    return 0;
}

static const char EIGHT[8][8] = {"one", "two", "three", "four", "five", "six", "seven", "eight"};

/* Stages in 70,000 bytes and more, between bytes that stay. */
static int stages_answer(void) {
    uint8_t (*const keep)(uint8_t *, size_t, const uint8_t *, size_t, const uint8_t *, size_t,
                          uint32_t *) = rewrites_keep;
    uint8_t (*const go_back)(const uint8_t *, size_t, const uint8_t *, size_t, uint8_t *, size_t,
                             uint32_t *) = rewrites_return;
    enum { ALL = 280000, PLACE = ALL / 8 };
    static const uint8_t first[10] = {'f', 'i', 'r', 's', 't', 0, 0, 0, 101, 0};
    static const char least[] = "read i0\nwrite i0\n";
    static uint8_t memory[8 + ALL + 8], before[ALL], text[TEXT + 16];
    const uint8_t *p = (const uint8_t *)P, *name = (const uint8_t *)"first", *l = (const uint8_t *)least;
    const size_t length = strlen(P), short_length = strlen(least);
    uint8_t *const stages = memory + 8;
    uint32_t places[3] = {1, 2, 3}; /* the second is lent */
    size_t k, j;

    memset(memory, 0xee, sizeof memory);
    memset(stages, 0, ALL);
    memset(text, 0xee, sizeof text);
    CHECK(keep(stages, ALL - 1, name, 5, p, length, &places[1]) == 1);
    CHECK(keep(NULL, 0, NULL, 0, NULL, 0, &places[1]) == 1);
    CHECK(keep(stages, ALL, NULL, 0, NULL, 0, &places[1]) == 3);
    CHECK(keep(stages, ALL, name, 5, p, length - 1, &places[1]) == 2);
    CHECK(keep(stages, ALL, name, 0, p, length, &places[1]) == 23);
    CHECK(keep(stages, ALL, NULL, 0, p, length, &places[1]) == 23);
    CHECK(keep(stages, ALL, (const uint8_t *)"abcdefghi", 9, p, length, &places[1]) == 23);
    CHECK(keep(stages, ALL, (const uint8_t *)"A", 1, p, length, &places[1]) == 23);
    CHECK(keep(stages, ALL, (const uint8_t *)"a\0b", 3, p, length, &places[1]) == 23);
    CHECK(go_back(stages, ALL - 1, name, 5, text + 8, TEXT, &places[1]) == 1);
    CHECK(go_back(stages, ALL, name, 5, text + 8, TEXT - 1, &places[1]) == 1);
    CHECK(go_back(NULL, 0, NULL, 0, NULL, 0, &places[1]) == 1);
    CHECK(go_back(stages, ALL, NULL, 0, text + 8, TEXT, &places[1]) == 23);
    CHECK(go_back(stages, ALL, name, 5, text + 8, TEXT, &places[1]) == 25);
    for (k = 0; k < sizeof memory; k++) CHECK(memory[k] == (k < 8 || k >= 8 + ALL ? 0xee : 0));
    for (k = 0; k < sizeof text; k++) CHECK(text[k] == 0xee);
    CHECK(places[0] == 1 && places[1] == 2 && places[2] == 3);

    CHECK(keep(stages, ALL, name, 5, p, length, &places[1]) == 0 && places[1] == 1);
    CHECK(memcmp(stages, first, 10) == 0 && memcmp(stages + 10, p, length) == 0 && length == 101);
    for (k = 10 + length; k < ALL; k++) CHECK(stages[k] == 0);
    CHECK(go_back(stages, ALL, name, 5, text + 8, TEXT, &places[1]) == 0 && places[1] == length);
    CHECK(memcmp(text + 8, p, length) == 0);
    for (k = 0; k < sizeof text; k++) CHECK((k >= 8 && k < 8 + length) || text[k] == 0xee);

    /* The same record in place 2 is empty, until the text of place 1 is damaged. */
    memcpy(stages + PLACE, stages, PLACE);
    CHECK(keep(stages, ALL, name, 5, l, short_length, &places[1]) == 0 && places[1] == 1);
    CHECK(stages[8] == short_length && memcmp(stages + 10 + short_length, p + short_length,
                                              length - short_length) == 0);
    CHECK(go_back(stages, ALL, name, 5, text + 8, TEXT, &places[1]) == 0 && places[1] == short_length);
    stages[10] = 'x';
    CHECK(go_back(stages, ALL, name, 5, text + 8, TEXT, &places[1]) == 0 && places[1] == length);
    CHECK(keep(stages, ALL, name, 5, p, length, &places[1]) == 0 && places[1] == 2);

    /* Eight names and a ninth; each known one is replaced where it stands. */
    memset(stages, 0, ALL);
    for (k = 0; k < 8; k++) {
        CHECK(keep(stages, ALL, (const uint8_t *)EIGHT[k], strlen(EIGHT[k]), p, length, &places[1]) == 0);
        CHECK(places[1] == k + 1);
    }
    memcpy(before, stages, ALL);
    CHECK(keep(stages, ALL, (const uint8_t *)"nine", 4, p, length, &places[1]) == 24);
    CHECK(go_back(stages, ALL, (const uint8_t *)"nine", 4, text + 8, TEXT, &places[1]) == 25);
    CHECK(memcmp(before, stages, ALL) == 0 && places[1] == 8);
    for (k = 0; k < 8; k++) {
        CHECK(keep(stages, ALL, (const uint8_t *)EIGHT[k], strlen(EIGHT[k]), l, short_length,
                   &places[1]) == 0);
        CHECK(places[1] == k + 1);
    }

    /* Lengths of 65,280 in all of them, the last at the end of what is lent. */
    for (k = 0; k < 8; k++) {
        stages[k * PLACE + 8] = 0;
        stages[k * PLACE + 9] = 255;
    }
    for (k = 0; k < 8; k++) {
        const uint8_t *its = (const uint8_t *)EIGHT[k];
        CHECK(go_back(stages, ALL, its, strlen(EIGHT[k]), text + 8, TEXT, &places[1]) == 25);
    }
    CHECK(keep(stages, ALL, (const uint8_t *)"nine", 4, p, length, &places[1]) == 0 && places[1] == 1);
    for (k = 0; k < 8; k++) CHECK(memory[k] == 0xee && memory[8 + ALL + k] == 0xee);
    for (j = 0; j < 3; j += 2) CHECK(places[j] == j + 1);
    return 0;
}

/* The places beside a path, with a word on both sides of each. */
enum { LENGTH = 1, TURN = 3, TRUTH = 5, PATH_PLACES = 7 };

/* Whether these are the words of a path and of the places beside it, and all others are as they were. */
static int told_so(const uint32_t *memory, const uint32_t *places, const char *path, uint32_t turn,
                   uint32_t truth) {
    const uint32_t length = (uint32_t)strlen(path);
    size_t k;

    for (k = 0; k < PATH + 8; k++) {
        const int is_of_path = k >= 4 && k < 4 + length;
        if (memory[k] != (is_of_path ? (uint32_t)(path[k - 4] - '0') : 700 + k)) return 0;
    }
    for (k = 0; k < PATH_PLACES; k += 2)
        if (places[k] != 900 + k) return 0;
    return places[LENGTH] == length && places[TURN] == turn && places[TRUTH] == truth;
}

/* Paths on P, each with its statements as digits. */
static int witness_answers(void) {
    uint8_t (*const witness)(const uint8_t *, size_t, const uint8_t *, size_t, uint32_t, uint32_t,
                             uint32_t *, size_t, uint32_t *, uint32_t *, uint32_t *) = rewrites_witness;
    static const struct {
        const char *condition;
        uint32_t part, statement;
        const char *path; /* none where it is empty */
        uint32_t turn, truth;
    } asked[] = {
        {"EX exit", 1, 5, "58", 0, 13},
        {"AX exit", 1, 5, "56", 0, 13},
        {"EX exit", 1, 6, "", 0, 0},
        {"AX exit", 1, 8, "", 0, 1},
        {"EF exit", 1, 1, "123458", 0, 13},
        {"EF exit", 1, 8, "8", 0, 13},
        {"EG true", 1, 8, "8", 1, 13},
        {"AF exit", 1, 1, "1234567", 4, 13},
        {"AF exit", 1, 5, "5674", 1, 13},
        {"!!AF exit", 3, 5, "5674", 1, 13},
        {"!AF exit", 2, 8, "", 0, 0},
        {"!!AF exit", 3, 8, "", 0, 1},
        {"AG !exit", 2, 7, "78", 0, 13},
        {"E[!def(i2) U use(i2)]", 3, 5, "5674", 0, 13},
        {"E[!def(i2) U use(i2)]", 2, 4, "", 0, 1},
        {"E[!def(i2) U use(i2)]", 4, 4, "", 0, 0},
        {"E[!def(i2) U use(i2)]", 0xffffffff, 4, "", 0, 0},
        {"E[!def(i2) U use(i2)]", 3, 0, "", 0, 0},
        {"E[!def(i2) U use(i2)]", 3, 9, "", 0, 0},
        {"E[!def(i2) U use(i2)]", 3, 0xffffffff, "", 0, 0},
        {"ER entry", 1, 6, "654321", 0, 13},
        {"EY true", 1, 1, "11", 0, 13},
        {"EM entry", 1, 1, "1", 1, 13},
        {"(EF exit & AF exit)", 4, 8, "", 0, 1},
    };
    const uint8_t *p = (const uint8_t *)P, *c = (const uint8_t *)"AF exit";
    const size_t length = strlen(P);
    uint32_t memory[PATH + 8], *const path = memory + 4, places[PATH_PLACES];
    uint32_t *const l = places + LENGTH, *const n = places + TURN, *const t = places + TRUTH;
    size_t j, k;

    for (k = 0; k < PATH + 8; k++) memory[k] = 700 + (uint32_t)k;
    for (k = 0; k < PATH_PLACES; k++) places[k] = 900 + (uint32_t)k;
    CHECK(witness(p, length, c, 7, 1, 1, path, PATH - 1, l, n, t) == REWRITES_BUFFER);
    CHECK(witness(p, length - 1, c, 6, 1, 1, path, PATH - 1, l, n, t) == 1);
    CHECK(witness(NULL, 0, NULL, 0, 1, 1, NULL, 0, l, n, t) == 1);
    CHECK(witness(p, length - 1, c, 6, 1, 1, path, PATH, l, n, t) == 2);
    CHECK(witness(NULL, 0, c, 7, 1, 1, path, PATH, l, n, t) == 3);
    CHECK(witness(p, length, NULL, 0, 9, 9, path, PATH, l, n, t) == 7);
    CHECK(witness(p, length, c, 6, 1, 1, path, PATH, l, n, t) == 7);
    for (k = 0; k < PATH + 8; k++) CHECK(memory[k] == 700 + k);
    for (k = 0; k < PATH_PLACES; k++) CHECK(places[k] == 900 + k);

    for (j = 0; j < sizeof asked / sizeof *asked; j++) {
        const char *condition = asked[j].condition;
        for (k = 0; k < PATH + 8; k++) memory[k] = 700 + (uint32_t)k;
        *l = 11, *n = 12, *t = 13;
        CHECK(witness(p, length, (const uint8_t *)condition, strlen(condition), asked[j].part,
                      asked[j].statement, path, PATH, l, n, t) == 0);
        if (!told_so(memory, places, asked[j].path, asked[j].turn, asked[j].truth)) {
            fprintf(stderr, "%s, part %u at %u\n", condition, (unsigned)asked[j].part,
                    (unsigned)asked[j].statement);
            return 1;
        }
    }
    return 0;
}

/* Reasons on P, each with its statements as digits. The places beside a path have other names here. */
static int why_answers(void) {
    uint8_t (*const why)(const uint8_t *, size_t, const uint8_t *, size_t, uint32_t, uint32_t *, size_t,
                         uint32_t *, uint32_t *, uint32_t *) = rewrites_why;
    static const char list[] =
        "3: mark(rm, i2, 7)\n4: mark(rpl, i2, 7)\n8: mark(rpl, i3, i1)\n4: mark(rpl, i1, i0)\n"
        "7: mark(rm, i2, 7)\n9: mark(rm, i2, 7)\n";
    static const struct {
        uint32_t line;
        const char *path;
        uint32_t verdict, culprit;
    } asked[] = {
        {0, "34", REWRITES_UNMET, REWRITES_USED},
        {1, "", REWRITES_ACCEPTED, REWRITES_NO_CULPRIT},
        {2, "854", REWRITES_UNMET, REWRITES_REDEFINED},
        {3, "", REWRITES_REPEATED, REWRITES_NO_CULPRIT},
        {4, "", REWRITES_UNFIT, REWRITES_NO_CULPRIT},
        {5, "", REWRITES_MISSING, REWRITES_NO_CULPRIT},
        {6, "", REWRITES_MISSING, REWRITES_NO_CULPRIT},
        {0xffffffff, "", REWRITES_MISSING, REWRITES_NO_CULPRIT},
    };
    const uint8_t *p = (const uint8_t *)P, *m = (const uint8_t *)list;
    const size_t length = strlen(P), size = strlen(list);
    uint32_t memory[PATH + 8], *const path = memory + 4, places[PATH_PLACES];
    uint32_t *const l = places + LENGTH, *const v = places + TURN, *const c = places + TRUTH;
    size_t j, k;

    for (k = 0; k < PATH + 8; k++) memory[k] = 700 + (uint32_t)k;
    for (k = 0; k < PATH_PLACES; k++) places[k] = 900 + (uint32_t)k;
    CHECK(why(p, length, m, size, 0, path, PATH - 1, v, l, c) == REWRITES_BUFFER);
    CHECK(why(p, length - 1, m, size - 1, 0, path, PATH - 1, v, l, c) == 1);
    CHECK(why(NULL, 0, NULL, 0, 0, NULL, 0, v, l, c) == 1);
    CHECK(why(p, length - 1, m, size - 1, 0, path, PATH, v, l, c) == 2);
    CHECK(why(NULL, 0, m, size - 1, 0, path, PATH, v, l, c) == 3);
    CHECK(why(p, length, m, size - 1, 0, path, PATH, v, l, c) == 9);
    for (k = 0; k < PATH + 8; k++) CHECK(memory[k] == 700 + k);
    for (k = 0; k < PATH_PLACES; k++) CHECK(places[k] == 900 + k);

    for (j = 0; j < sizeof asked / sizeof *asked; j++) {
        for (k = 0; k < PATH + 8; k++) memory[k] = 700 + (uint32_t)k;
        *l = 11, *v = 12, *c = 13;
        CHECK(why(p, length, m, size, asked[j].line, path, PATH, v, l, c) == 0);
        if (!told_so(memory, places, asked[j].path, asked[j].verdict, asked[j].culprit)) {
            fprintf(stderr, "line %u of the marks\n", (unsigned)asked[j].line);
            return 1;
        }
    }
    *l = 11, *v = 12, *c = 13;
    CHECK(why(p, length, NULL, 0, 0, path, PATH, v, l, c) == 0 && *v == 11 && *l == 0 && *c == 0);
    return 0;
}

/* Where a text is wrong, and 0 where it is about no place. */
static int blame_answers(void) {
    uint32_t (*const program)(const uint8_t *, size_t) = rewrites_blame_program;
    uint32_t (*const marks)(const uint8_t *, size_t) = rewrites_blame_marks;
    uint32_t (*const condition)(const uint8_t *, size_t) = rewrites_blame_condition;
    static const struct {
        const char *text;
        uint32_t line, mark, byte; /* of it as a program, a list and a condition */
    } texts[] = {
        {"", 0, 0, 1},
        {P, 0, 1, 1},
        {"read i0\nskip\nif i0 goto 9 else 2\nwrite i0\n", 3, 1, 1},
        {"read i0\nwrite i0", 2, 1, 1},
        {"3: mark(rm, i2, 7)\n3: mark(rm, i2)\n", 1, 2, 1},
        {"E[true U node(05)]", 1, 1, 16},
        {"EX (exit)", 1, 1, 9},
        {"AF exit", 1, 1, 0},
    };
    size_t k;

    CHECK(program(NULL, 0) == 0 && marks(NULL, 0) == 0 && condition(NULL, 0) == 1);
    for (k = 0; k < sizeof texts / sizeof *texts; k++) {
        const uint8_t *text = (const uint8_t *)texts[k].text;
        const size_t length = strlen(texts[k].text);
        CHECK(program(text, length) == texts[k].line);
        CHECK(marks(text, length) == texts[k].mark);
        CHECK(condition(text, length) == texts[k].byte);
    }
    return 0;
}

/* The library is the header's. */
static int version_answers(void) {
    uint32_t (*const version)(void) = rewrites_version;
    CHECK(version() == REWRITES_VERSION);
    return 0;
}

int main(void) {
    rewrites_our_prices(ours);
    return constants_answer() || run_answers() || kept_answers() || division_answers() || report_answers() || prices_answers() ||
           cse_answers() ||
           tabulate_answers() || force_answers() || review_answers() || full_review_answers() ||
           judge_answers() ||
           below_zero_answers() || mark_line_answers() || list_answers() || join_answers() ||
           stages_answer() || witness_answers() || why_answers() || blame_answers() ||
           version_answers();
}
