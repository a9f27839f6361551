/* Prints how many bytes of stack the deepest calls take. Each runs in a thread whose stack was filled
   with a pattern before; what the thread alone overwrites is not counted. Exits with 0 where `run`,
   `judge`, `tabulate`, `review`, `mark_line`, `report`, `force`, `list`, `relist`, `join`, `prices`,
   `keep`, `return`, the three that tell where a text is wrong, `witness` and `why` take no more than the
   bytes given as arguments. */
#define _POSIX_C_SOURCE 200112L
#include "rewrites.h"

#include <pthread.h>
#include <stdio.h>
#include <stdlib.h>
#include <string.h>

#define ROOM ((size_t)4 << 20)
#define STATEMENTS 1024
#define MARKS 1024
#define VARIABLES 64
#define TABLE 1024
#define REVIEW 2048
#define LIST 2048
#define PATH 1025
#define TEXT 34816
#define STAGES 280000
#define PATTERN 0xa5
#define CALLS 18

static uint8_t program[TEXT], condition[1024], conditions[32 * 1025], marks[64 * MARKS];
static size_t program_len, condition_len, conditions_len, marks_len;
static uint8_t number;

/* A table whose entries all are outside the range, so that each counts as ours. */
static uint32_t prices[11];

static void *nothing(void *unused) { return unused; }

static void *run(void *unused) {
    static uint32_t values[VARIABLES], ended, steps, statement, left[VARIABLES], kept[8];
    static uint64_t ticks;
    static int32_t value;
    number = rewrites_run(program, program_len, values, 0, 5000, prices, &ended, &value, &steps,
                          &statement, left, kept, &ticks);
    return unused;
}

static void *tabulate(void *unused) {
    static uint64_t table[TABLE];
    static uint32_t parts, satisfied, first;
    number = rewrites_tabulate(program, program_len, condition, condition_len, table, TABLE, &parts,
                               &satisfied, &first);
    return unused;
}

static void *review(void *unused) {
    static uint64_t table[REVIEW];
    static uint32_t tables, lines, table_of[32], parts[32], satisfied[32], first[32];
    number = rewrites_review(program, program_len, conditions, conditions_len, table, REVIEW, &tables,
                             &lines, table_of, parts, satisfied, first);
    return unused;
}

/* The whole condition's part, at the statement from which all others are come by. */
static uint32_t whole, path[PATH], length, turn, truth;

static void *witness(void *unused) {
    number = rewrites_witness(program, program_len, condition, condition_len, whole, 2, path, PATH,
                              &length, &turn, &truth);
    return unused;
}

/* The line that is asked for, and what is told of it. */
static uint32_t asked, verdict, culprit;

static void *why(void *unused) {
    number = rewrites_why(program, program_len, marks, marks_len, asked, path, PATH, &verdict, &length,
                          &culprit);
    return unused;
}

static void *force(void *unused) {
    static const uint8_t driver[] = "i63";
    static uint64_t table[TABLE];
    static uint32_t parts, satisfied, first, least[STATEMENTS];
    static uint8_t arm[STATEMENTS];
    number = rewrites_force(program, program_len, driver, 3, condition, condition_len, table, TABLE,
                            &parts, &satisfied, &first, least, arm);
    return unused;
}

static void *judge(void *unused) {
    static uint8_t verdicts[MARKS], text[TEXT];
    static uint32_t count, accepted, bytes;
    number = rewrites_judge(program, program_len, marks, marks_len, verdicts, MARKS, text, TEXT, &count,
                            &accepted, &bytes);
    return unused;
}

static void *report(void *unused) {
    static uint32_t before[STATEMENTS], after[STATEMENTS], statements, given, rewritten;
    static int32_t saved;
    number = rewrites_report(program, program_len, marks, marks_len, prices, before, after, &statements,
                             &given, &rewritten, &saved);
    return unused;
}

static void *mark_line(void *unused) {
    static size_t begin, end;
    number = rewrites_mark_line(marks, marks_len, MARKS - 1, &begin, &end);
    return unused;
}

/* Where each text is wrong, in turn. */
static uint32_t place;

static void *blame_program(void *unused) {
    place = rewrites_blame_program(program, program_len);
    return unused;
}

static void *blame_marks(void *unused) {
    place = rewrites_blame_marks(marks, marks_len);
    return unused;
}

static void *blame_condition(void *unused) {
    place = rewrites_blame_condition(condition, sizeof condition);
    return unused;
}

static void *list(void *unused) {
    static uint64_t words[LIST];
    static uint32_t defined[VARIABLES], used[VARIABLES];
    number = rewrites_list(program, program_len, words, LIST, defined, used);
    return unused;
}

static void *relist(void *unused) {
    static uint64_t words[LIST];
    static uint32_t defined[VARIABLES], used[VARIABLES];
    number = rewrites_relist(program, program_len, marks, marks_len, words, LIST, defined, used);
    return unused;
}

/* A table of prices, or lines of one, and the digits of one line. */
static uint8_t tariff[TEXT];
static size_t tariff_len;

static void *read_prices(void *unused) {
    static uint32_t read[11];
    number = rewrites_prices(tariff, tariff_len, read);
    return unused;
}

/* Two programs of 512 and 513 lines, each of the longest statement: the joined one has 1,024. */
static uint8_t road[TEXT], creeper[TEXT];
static size_t road_len, creeper_len;

static size_t put_program(uint8_t *text, int lines) {
    size_t length = sprintf((char *)text, "read i63\n");
    while (lines-- > 2)
        length += sprintf((char *)text + length, "i63 := -2147483648 + -2147483648\n");
    return length + sprintf((char *)text + length, "write i63\n");
}

static void *join(void *unused) {
    static uint8_t text[TEXT];
    static uint32_t statements, bytes;
    number = rewrites_join(road, road_len, creeper, creeper_len, text, TEXT, &statements, &bytes);
    return unused;
}

/* Eight places, each with a program of 1,024 lines of the longest statement. */
static uint8_t stages[STAGES], longest[TEXT], name[] = "a";
static size_t longest_len;

static void *keep(void *unused) {
    static uint32_t place;
    number = rewrites_keep(stages, sizeof stages, name, 1, longest, longest_len, &place);
    return unused;
}

static void *go_back(void *unused) {
    static uint8_t text[TEXT];
    static uint32_t bytes;
    number = rewrites_return(stages, sizeof stages, name, 1, text, TEXT, &bytes);
    return unused;
}

/* The bytes of its stack that a thread overwrites. */
static size_t overwritten(void *(*body)(void *)) {
    pthread_attr_t attributes;
    pthread_t thread;
    void *stack;
    size_t k = 0;

    if (posix_memalign(&stack, 4096, ROOM)) exit(2);
    memset(stack, PATTERN, ROOM);
    if (pthread_attr_init(&attributes)) exit(2);
    if (pthread_attr_setstack(&attributes, stack, ROOM)) exit(2);
    if (pthread_create(&thread, &attributes, body, NULL)) exit(2);
    if (pthread_join(thread, NULL)) exit(2);
    while (k < ROOM && ((uint8_t *)stack)[k] == PATTERN) k++;
    free(stack);
    return ROOM - k;
}

/* Puts a word into the condition so many times. */
static void put(const char *word, int times) {
    size_t length = strlen(word);
    while (times-- > 0) {
        memcpy(condition + condition_len, word, length);
        condition_len += length;
    }
}

/* Puts the condition into the review as a line. */
static void put_line(void) {
    memcpy(conditions + conditions_len, condition, condition_len);
    conditions_len += condition_len;
    conditions[conditions_len++] = 10;
}

/* 1,024 lines, in which each of 511 sums is computed twice, and 1,024 marks: the second of each is to read
   the first's variable, and the first is to go, which only that refuses. */
static void put_sums(void) {
    int line, sum;

    program_len = sprintf((char *)program, "read i63\n");
    for (line = 2; line < STATEMENTS; line++) {
        sum = line / 2;
        program_len += sprintf((char *)program + program_len, "i%d := i63 + %d\n", line % 2, sum);
        marks_len += sprintf((char *)marks + marks_len, "%d: mark(%s, i0, i63 + %d)\n", line,
                             line % 2 ? "cse" : "rm", sum);
    }
    program_len += sprintf((char *)program + program_len, "write i63\n");
    for (line = 1; line <= STATEMENTS; line += STATEMENTS - 1)
        marks_len += sprintf((char *)marks + marks_len, "%d: mark(cse, i0, i63 + 1)\n", line);
}

int main(int count, char **arguments) {
    static const struct {
        const char *open, *middle, *close;
        int depth, number;
    } cases[] = {
        {"", "true", "", 0, 0},      {"!", "true", "", 63, 0},    {"AG ", "exit", "", 63, 0},
        {"E[true U ", "exit", "]", 31, 0}, {"(", "exit", " | exit)", 31, 0},
        {"EX ", "true", "", 340, 8}, {"!", "true", "", 1020, 8},  {"E[", "", "", 512, 7},
        {"(", "true", "", 1020, 7},  {"(", "", "", 1024, 7},
    };
    size_t most[CALLS];
    size_t alone = overwritten(nothing), bytes, k;
    int fails = 0, line;

    for (k = 0; k < CALLS; k++)
        most[k] = k + 1 < (size_t)count ? strtoul(arguments[k + 1], NULL, 10) : ROOM;

    put_sums();
    bytes = overwritten(judge) - alone;
    printf("%7lu bytes of stack: judge, 1,024 marks, of which 511 add a use\n", (unsigned long)bytes);
    fails += number != 0 || bytes > most[1];
    bytes = overwritten(report) - alone;
    printf("%7lu bytes of stack: report, 1,024 marks, of which 511 add a use\n", (unsigned long)bytes);
    fails += number != 0 || bytes > most[5];
    bytes = overwritten(why) - alone;
    printf("%7lu bytes of stack: why, 1,024 marks, of which 511 add a use: %u, %u statements, culprit %u\n",
           (unsigned long)bytes, (unsigned)verdict, (unsigned)length, (unsigned)culprit);
    fails += number != 0 || bytes > most[17] || verdict != 14 || length != 2 || culprit != 2;
    marks_len = 0;

    /* 1,024 lines: each goes to the line before. */
    program_len = sprintf((char *)program, "read i63\n");
    for (line = 2; line < STATEMENTS; line++)
        program_len += sprintf((char *)program + program_len, "if i63 goto %d else %d\n",
                               line > 2 ? line - 1 : STATEMENTS - 1, STATEMENTS);
    program_len += sprintf((char *)program + program_len, "write i63\n");

    /* 1,024 marks: each fits, or is of the other kind. */
    for (line = 1; line <= MARKS; line++)
        marks_len += sprintf((char *)marks + marks_len, "%d: mark(%s, i63, i62)\n", line,
                             line % 8 ? "rpl" : "rm");

    bytes = overwritten(run) - alone;
    printf("%7lu bytes of stack: run\n", (unsigned long)bytes);
    fails += number != 0 || bytes > most[0];
    bytes = overwritten(judge) - alone;
    printf("%7lu bytes of stack: judge, 1,024 marks\n", (unsigned long)bytes);
    fails += number != 0 || bytes > most[1];
    bytes = overwritten(report) - alone;
    printf("%7lu bytes of stack: report, 1,024 marks\n", (unsigned long)bytes);
    fails += number != 0 || bytes > most[5];
    /* Back from statement 3 by all others but the last to the first. */
    asked = 2;
    bytes = overwritten(why) - alone;
    printf("%7lu bytes of stack: why, 1,024 marks: %u, %u statements, culprit %u\n", (unsigned long)bytes,
           (unsigned)verdict, (unsigned)length, (unsigned)culprit);
    fails += number != 0 || bytes > most[17] || verdict != 14 || length != STATEMENTS - 1;
    bytes = overwritten(mark_line) - alone;
    printf("%7lu bytes of stack: mark_line, the last of 1,024 marks\n", (unsigned long)bytes);
    fails += number != 0 || bytes > most[4];
    bytes = overwritten(blame_program) - alone;
    printf("%7lu bytes of stack: blame_program\n", (unsigned long)bytes);
    fails += place != 0 || bytes > most[13];
    /* The last line lacks its byte 10. */
    marks_len--;
    bytes = overwritten(blame_marks) - alone;
    printf("%7lu bytes of stack: blame_marks, the last of 1,024 lines\n", (unsigned long)bytes);
    fails += place != MARKS || bytes > most[14];
    marks_len++;
    /* Nothing in it is wrong, and it ends too early. */
    memset(condition, '(', sizeof condition);
    bytes = overwritten(blame_condition) - alone;
    printf("%7lu bytes of stack: blame_condition, 1,024 of '('\n", (unsigned long)bytes);
    fails += place != sizeof condition + 1 || bytes > most[15];
    for (line = 0; line < 11; line++) tariff_len += sprintf((char *)tariff + tariff_len, "65535\n");
    bytes = overwritten(read_prices) - alone;
    printf("%7lu bytes of stack: prices, eleven lines\n", (unsigned long)bytes);
    fails += number != 0 || bytes > most[10];
    for (line = 11; line < 5000; line++) tariff_len += sprintf((char *)tariff + tariff_len, "65535\n");
    bytes = overwritten(read_prices) - alone;
    printf("%7lu bytes of stack: prices, 5,000 lines: %d\n", (unsigned long)bytes, number);
    fails += number != 20 || bytes > most[10];
    memset(tariff, '1', sizeof tariff);
    bytes = overwritten(read_prices) - alone;
    printf("%7lu bytes of stack: prices, a line of 34,816 digits: %d\n", (unsigned long)bytes, number);
    fails += number != 19 || bytes > most[10];
    road_len = put_program(road, STATEMENTS / 2);
    creeper_len = put_program(creeper, STATEMENTS / 2 + 1);
    bytes = overwritten(join) - alone;
    printf("%7lu bytes of stack: join, 512 and 513 statements\n", (unsigned long)bytes);
    fails += number != 0 || bytes > most[9];
    road_len = put_program(road, STATEMENTS);
    creeper_len = put_program(creeper, STATEMENTS);
    bytes = overwritten(join) - alone;
    printf("%7lu bytes of stack: join, 1,024 and 1,024 statements: %d\n", (unsigned long)bytes, number);
    fails += number != 21 || bytes > most[9];
    bytes = overwritten(list) - alone;
    printf("%7lu bytes of stack: list\n", (unsigned long)bytes);
    fails += number != 0 || bytes > most[7];
    bytes = overwritten(relist) - alone;
    printf("%7lu bytes of stack: relist, 1,024 marks\n", (unsigned long)bytes);
    fails += number != 0 || bytes > most[8];
    longest_len = put_program(longest, STATEMENTS);
    for (line = 0; line < 8; line++) {
        name[0] = (uint8_t)('a' + line);
        bytes = overwritten(keep) - alone;
        fails += number != 0 || bytes > most[11];
    }
    printf("%7lu bytes of stack: keep, into the eighth place\n", (unsigned long)bytes);
    bytes = overwritten(go_back) - alone;
    printf("%7lu bytes of stack: return, to the eighth place\n", (unsigned long)bytes);
    fails += number != 0 || bytes > most[12];
    name[0] = 'i';
    bytes = overwritten(keep) - alone;
    printf("%7lu bytes of stack: keep, a ninth name: %d\n", (unsigned long)bytes, number);
    fails += number != 24 || bytes > most[11];
    bytes = overwritten(go_back) - alone;
    printf("%7lu bytes of stack: return, a ninth name: %d\n", (unsigned long)bytes, number);
    fails += number != 25 || bytes > most[12];
    for (k = 0; k < sizeof cases / sizeof *cases; k++) {
        condition_len = 0;
        put(cases[k].open, cases[k].depth);
        put(cases[k].middle, 1);
        put(cases[k].close, cases[k].depth);
        bytes = overwritten(tabulate) - alone;
        printf("%7lu bytes of stack: tabulate, %4d of '%s', then '%s': %d\n", (unsigned long)bytes,
               cases[k].depth, cases[k].open, cases[k].middle, number);
        fails += number != cases[k].number || bytes > most[2];
        bytes = overwritten(force) - alone;
        printf("%7lu bytes of stack: force, %4d of '%s', then '%s': %d\n", (unsigned long)bytes,
               cases[k].depth, cases[k].open, cases[k].middle, number);
        fails += number != cases[k].number || bytes > most[6];

        whole = (uint32_t)cases[k].depth * (*cases[k].close ? 2 : 1);
        bytes = overwritten(witness) - alone;
        printf("%7lu bytes of stack: witness, %4d of '%s', then '%s': %d, %u statements, turn %u\n",
               (unsigned long)bytes, cases[k].depth, cases[k].open, cases[k].middle, number,
               (unsigned)length, (unsigned)turn);
        fails += number != cases[k].number || bytes > most[16];

        /* The same on each line of a review; where it is refused, on the last of 32. */
        conditions_len = 0;
        for (line = 1; line < 32 && cases[k].number != 0; line++)
            conditions_len += sprintf((char *)conditions + conditions_len, "!!!node(%d)\n", line);
        for (line = 1; line <= (cases[k].number == 0 ? 32 : 1); line++) put_line();
        bytes = overwritten(review) - alone;
        printf("%7lu bytes of stack: review, %4d of '%s', then '%s': %d\n", (unsigned long)bytes,
               cases[k].depth, cases[k].open, cases[k].middle, number);
        fails += number != cases[k].number || bytes > most[3];
    }

    /* A path by all statements, and one that goes round. */
    for (line = 0; line < 2; line++) {
        condition_len = 0;
        put(line ? "AF exit" : "EF node(3)", 1);
        whole = 1;
        bytes = overwritten(witness) - alone;
        printf("%7lu bytes of stack: witness, %u statements, turn %u\n", (unsigned long)bytes,
               (unsigned)length, (unsigned)turn);
        fails += number != 0 || bytes > most[16] || length != STATEMENTS - 2 || turn != (uint32_t)line;
    }

    /* 128 differing parts. */
    for (line = 0, conditions_len = 0; line < 32; line++)
        conditions_len += sprintf((char *)conditions + conditions_len, "AG EF !node(%d)\n", line);
    bytes = overwritten(review) - alone;
    printf("%7lu bytes of stack: review, 128 tables\n", (unsigned long)bytes);
    fails += number != 0 || bytes > most[3];
    return fails > 0;
}
