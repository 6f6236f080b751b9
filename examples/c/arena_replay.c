/*
 * Replays cases of readings, weighings and batch costs, and prints those that disagree.
 *
 * Standard input is that of the program crates/replay; crates/arena_replay says what such a case is. Other cases are passed over.
 * Every slice is just as long as the call needs it, so that a sanitizer sees an entry past it.
 */
#include "ruby_marshal.h"

#include <stdio.h>
#include <stdlib.h>
#include <string.h>

#define MOST 1024u

/* The case, as bytes and as words. */
static uint8_t raw[4 * MOST];
static uint32_t given[MOST];

/* The calls. */
enum { READING = 16, WET_WEIGHT = 17, BATCH_COST = 18 };

/* Places in a case. */
enum { CALL = 1, SIZES = 2, BYTES_AT = 15, ANSWER = 18, ANSWERED = 25, FIRST_NODE = ANSWERED + RUBY_MARSHAL_NODE_WORDS };

/* The tables and counts of the case, and its handles. */
static uint32_t *nodes, *references;
static uint8_t *bytes;

#define TABLES nodes, given[SIZES], references, given[SIZES + 1], bytes, given[SIZES + 2]
#define COUNTS given[5], given[6], given[7], given[8]
#define FIRST_HANDLE given[9]
#define SECOND_HANDLE given[10]

static uint32_t word_of(const uint8_t *b)
{
    return (uint32_t)b[0] | (uint32_t)b[1] << 8 | (uint32_t)b[2] << 16 | (uint32_t)b[3] << 24;
}

/* The next case; false at the end. */
static bool next_case(void)
{
    size_t i;
    if (fread(raw, 1, 4, stdin) != 4)
        return false;
    given[0] = word_of(raw);
    if (given[0] == 0 || given[0] > MOST || fread(raw + 4, 4, given[0] - 1, stdin) != given[0] - 1)
        return false;
    for (i = 1; i < given[0]; i++)
        given[i] = word_of(raw + 4 * i);
    return true;
}

/* So many entries, and not one more, copied from there where it is given. */
static void *room(size_t n, size_t size, const void *from)
{
    void *at = malloc(n == 0 ? 1 : n * size);
    if (at == NULL)
        exit(1);
    if (from != NULL && n != 0)
        memcpy(at, from, n * size);
    return at;
}

static bool same_answer(uint32_t number, const uint64_t *answer)
{
    return number == given[ANSWER] && (uint32_t)answer[RUBY_MARSHAL_FIRST] == given[ANSWER + 1]
        && answer[RUBY_MARSHAL_SECOND] == given[ANSWER + 2];
}

/* 64 bits in two words, the low one first. */
static uint64_t long_at(const uint32_t *words)
{
    return (uint64_t)words[1] << 32 | words[0];
}

static bool same_double(double x, const uint32_t *expected)
{
    uint64_t bits;
    memcpy(&bits, &x, sizeof bits);
    return bits == long_at(expected);
}

static bool reading_agrees(void)
{
    uint64_t *answer = (uint64_t *)room(RUBY_MARSHAL_READING_WORDS, sizeof *answer, NULL);
    double *number = (double *)room(RUBY_MARSHAL_READING_DOUBLES, sizeof *number, NULL);
    uint32_t returned = ruby_marshal_reading(
        TABLES, COUNTS, FIRST_HANDLE, number, RUBY_MARSHAL_READING_DOUBLES, answer, RUBY_MARSHAL_READING_WORDS);
    static const uint32_t none[2] = { 0, 0 };
    uint64_t reads_as = answer[RUBY_MARSHAL_READS_AS];
    bool agrees = same_answer(returned, answer) && reads_as == given[ANSWERED]
        && (uint32_t)ruby_marshal_whole(answer) == (reads_as == RUBY_MARSHAL_READS_WHOLE ? given[ANSWERED + 1] : 0)
        && same_double(number[0], reads_as == RUBY_MARSHAL_READS_DOUBLE ? given + ANSWERED + 1 : none);
    free(answer);
    free(number);
    return agrees;
}

static bool weighing_agrees(void)
{
    uint64_t *answer = (uint64_t *)room(RUBY_MARSHAL_WET_WEIGHT_WORDS, sizeof *answer, NULL);
    double *weighing = (double *)room(RUBY_MARSHAL_WET_WEIGHT_DOUBLES, sizeof *weighing, NULL);
    uint32_t returned = ruby_marshal_wet_weight(TABLES, COUNTS, FIRST_HANDLE, SECOND_HANDLE, weighing,
        RUBY_MARSHAL_WET_WEIGHT_DOUBLES, answer, RUBY_MARSHAL_WET_WEIGHT_WORDS);
    bool agrees = same_answer(returned, answer) && same_double(weighing[RUBY_MARSHAL_DRY], given + ANSWERED)
        && same_double(weighing[RUBY_MARSHAL_MOISTURE], given + ANSWERED + 2)
        && same_double(weighing[RUBY_MARSHAL_WET], given + ANSWERED + 4);
    free(answer);
    free(weighing);
    return agrees;
}

static bool cost_agrees(void)
{
    uint64_t *answer = (uint64_t *)room(RUBY_MARSHAL_BATCH_COST_WORDS, sizeof *answer, NULL);
    uint32_t returned = ruby_marshal_batch_cost(
        TABLES, COUNTS, FIRST_HANDLE, SECOND_HANDLE, answer, RUBY_MARSHAL_BATCH_COST_WORDS);
    bool agrees = same_answer(returned, answer) && answer[RUBY_MARSHAL_CENTS] == long_at(given + ANSWERED);
    free(answer);
    return agrees;
}

int main(void)
{
    unsigned long cases = 0, disagree = 0;
    while (next_case()) {
        bool agrees;
        if (given[CALL] < READING || given[CALL] > BATCH_COST)
            continue;
        nodes = (uint32_t *)room(given[SIZES], sizeof *nodes, given + FIRST_NODE);
        references = (uint32_t *)room(given[SIZES + 1], sizeof *references, given + FIRST_NODE + given[SIZES]);
        bytes = (uint8_t *)room(given[SIZES + 2], sizeof *bytes, raw + given[BYTES_AT]);
        agrees = given[CALL] == READING ? reading_agrees() : given[CALL] == WET_WEIGHT ? weighing_agrees() : cost_agrees();
        if (!agrees) {
            printf("case %lu disagrees\n", cases);
            disagree++;
        }
        free(nodes);
        free(references);
        free(bytes);
        cases++;
    }
    printf("%lu cases, %lu disagree\n", cases, disagree);
    return 0;
}
