/*
 * Calls every function, and tests what it returns, the answer words, and what is lent: accepted, refused, with every wrong
 * length of tables, and with too few answer words or doubles. Prints how many calls were made.
 *
 * Each slice ends where a page ends that nothing may touch, so that an entry past the slice stops the program. (POSIX)
 */
#define _DEFAULT_SOURCE
#include "ruby_marshal.h"

#include <stdio.h>
#include <stdlib.h>
#include <string.h>
#include <sys/mman.h>
#include <unistd.h>

static unsigned long calls;

#define EXPECT(test)                                                                 \
    do {                                                                             \
        if (!(test)) {                                                               \
            fprintf(stderr, "%s:%d: not so: %s\n", __FILE__, __LINE__, #test);       \
            exit(1);                                                                 \
        }                                                                            \
    } while (0)

/* ---- slices that end at a page that nothing may touch ---- */

#define ROOM 4096u

/* So many bytes, all of them 0xA5. They are never given back. */
static void *slice(size_t size)
{
    size_t page = (size_t)sysconf(_SC_PAGESIZE);
    size_t whole = (size + page - 1) / page * page;
    uint8_t *start = (uint8_t *)mmap(NULL, whole + page, PROT_READ | PROT_WRITE, MAP_PRIVATE | MAP_ANONYMOUS, -1, 0);
    EXPECT(start != (uint8_t *)MAP_FAILED);
    EXPECT(mprotect(start + whole, page, PROT_NONE) == 0);
    memset(start + whole - size, 0xA5, size);
    return start + whole - size;
}

/* The last n entries of such memory: the end stays where it is. Of 0 entries the pointer is past the end, not null. */
struct words {
    uint32_t *at;
    size_t length;
};

struct bytes {
    uint8_t *at;
    size_t length;
};

static uint32_t *word_room[6];
static uint8_t *byte_room[3];
static uint64_t *answer_room;
static double *double_room;

static struct words words(int which, size_t length)
{
    struct words w;
    w.at = word_room[which] + ROOM - length;
    w.length = length;
    return w;
}

static struct bytes bytes(int which, size_t length)
{
    struct bytes b;
    b.at = byte_room[which] + ROOM - length;
    b.length = length;
    return b;
}

/* ---- everything that a call is lent ---- */

enum { NODES, REFERENCES, SYMBOLS, OBJECTS, BUCKETS, SCRATCH };
enum { INPUT, BYTES, OUTPUT };

struct lent {
    struct bytes input;
    struct words nodes;
    struct words references;
    struct bytes bytes;
    struct words symbols;
    struct words objects;
    struct words buckets;
    struct words scratch;
    struct bytes output;
    uint64_t *answer;
    size_t answer_length;
    double *doubles;
    size_t doubles_length;
    struct ruby_marshal_counts counts;
};

/* The bucket table is as short as it may be. */
static struct lent lend(size_t input, size_t nodes, size_t references, size_t byte_count, size_t lists, size_t scratch, size_t output)
{
    struct lent l;
    l.input = bytes(INPUT, input);
    l.nodes = words(NODES, nodes);
    l.references = words(REFERENCES, references);
    l.bytes = bytes(BYTES, byte_count);
    l.symbols = words(SYMBOLS, lists);
    l.objects = words(OBJECTS, lists);
    l.buckets = words(BUCKETS, nodes / RUBY_MARSHAL_NODE_WORDS);
    l.scratch = words(SCRATCH, scratch);
    l.output = bytes(OUTPUT, output);
    l.answer = answer_room + ROOM - RUBY_MARSHAL_ANSWER_WORDS;
    l.answer_length = RUBY_MARSHAL_ANSWER_WORDS;
    l.doubles_length = RUBY_MARSHAL_WET_WEIGHT_DOUBLES + 1;
    l.doubles = double_room + ROOM - l.doubles_length;
    memset(&l.counts, 0, sizeof l.counts);
    return l;
}

/* What all rooms hold, to be compared with later. */
static uint8_t kept[6 * ROOM * 4 + 3 * ROOM + 2 * ROOM * 8];

static size_t each_room(uint8_t *to, const uint8_t *other)
{
    size_t at = 0, differ = 0;
    int i;
    for (i = 0; i < 11; i++) {
        const uint8_t *room = i < 6 ? (const uint8_t *)word_room[i]
            : i < 9 ? byte_room[i - 6] : i < 10 ? (const uint8_t *)answer_room : (const uint8_t *)double_room;
        size_t size = i < 6 ? ROOM * 4 : i < 9 ? ROOM : ROOM * 8;
        if (to != NULL)
            memcpy(to + at, room, size);
        else
            differ += memcmp(other + at, room, size) != 0;
        at += size;
    }
    return differ;
}

static void keep(void)
{
    each_room(kept, NULL);
}

static bool untouched(void)
{
    return each_room(NULL, kept) == 0;
}

/* ---- each function over what is lent ---- */

enum call {
    LOAD, LOAD_MEASURED, LOAD_HASHED, DUMP, ROOT, KIND, GET, GET_SYMBOL, READING, WET_WEIGHT, BATCH_COST, NEW, REPLACE_ROOT,
    REPLACE_CLASS, CREATE_NIL, CREATE_BOOL, CREATE_FIXNUM, CREATE_SYMBOL, CREATE_NEW_SYMBOL, CREATE_ARRAY, CREATE_HASH, CREATE_OBJECT,
    CREATE_STRING, CREATE_USER_DEFINED, CREATE_FLOAT, CREATE_BIGNUM, CALLS
};

static const size_t answer_words[CALLS] = {
    RUBY_MARSHAL_LOAD_WORDS, RUBY_MARSHAL_LOAD_MEASURED_WORDS, RUBY_MARSHAL_LOAD_HASHED_WORDS, RUBY_MARSHAL_DUMP_WORDS,
    RUBY_MARSHAL_ROOT_WORDS, RUBY_MARSHAL_KIND_WORDS, RUBY_MARSHAL_GET_WORDS, RUBY_MARSHAL_GET_SYMBOL_WORDS,
    RUBY_MARSHAL_READING_WORDS, RUBY_MARSHAL_WET_WEIGHT_WORDS, RUBY_MARSHAL_BATCH_COST_WORDS, RUBY_MARSHAL_NEW_WORDS,
    RUBY_MARSHAL_CREATE_WORDS, RUBY_MARSHAL_CREATE_WORDS, RUBY_MARSHAL_CREATE_WORDS, RUBY_MARSHAL_CREATE_WORDS,
    RUBY_MARSHAL_CREATE_WORDS, RUBY_MARSHAL_CREATE_WORDS, RUBY_MARSHAL_CREATE_WORDS, RUBY_MARSHAL_CREATE_WORDS,
    RUBY_MARSHAL_CREATE_WORDS, RUBY_MARSHAL_CREATE_WORDS, RUBY_MARSHAL_CREATE_WORDS, RUBY_MARSHAL_CREATE_WORDS,
    RUBY_MARSHAL_CREATE_WORDS, RUBY_MARSHAL_CREATE_WORDS
};

/* What the functions take besides: a limit or handle, a second handle, a number, a bignum, words, bytes. */
struct given {
    uint32_t number;
    uint32_t other;
    int32_t value;
    bool minus;
    uint64_t magnitude;
    const uint32_t *list;
    size_t list_length;
    const uint8_t *string;
    size_t string_length;
};

#define TABLES l->nodes.at, l->nodes.length, l->references.at, l->references.length, l->bytes.at, l->bytes.length
#define INPUT_OF l->input.at, l->input.length
#define LISTS l->symbols.at, l->symbols.length, l->objects.at, l->objects.length
#define BUCKETS_OF l->buckets.at, l->buckets.length
#define COUNTS l->counts.nodes, l->counts.references, l->counts.bytes, l->counts.root
#define ANSWER l->answer, l->answer_length
#define DOUBLES l->doubles, l->doubles_length

static uint32_t call(enum call which, const struct lent *l, struct given g)
{
    calls++;
    switch (which) {
    case LOAD: return ruby_marshal_load(INPUT_OF, TABLES, LISTS, g.number, ANSWER);
    case LOAD_MEASURED: return ruby_marshal_load_measured(INPUT_OF, TABLES, LISTS, g.number, ANSWER);
    case LOAD_HASHED: return ruby_marshal_load_hashed(INPUT_OF, TABLES, LISTS, BUCKETS_OF, g.number, ANSWER);
    case DUMP:
        return ruby_marshal_dump(TABLES, COUNTS, l->scratch.at, l->scratch.length, l->output.at, l->output.length, g.number, ANSWER);
    case ROOT: return ruby_marshal_root(TABLES, COUNTS, ANSWER);
    case KIND: return ruby_marshal_kind(TABLES, COUNTS, g.number, ANSWER);
    case GET: return ruby_marshal_get(TABLES, COUNTS, g.number, ANSWER);
    case GET_SYMBOL: return ruby_marshal_get_symbol(TABLES, COUNTS, g.number, ANSWER);
    case READING: return ruby_marshal_reading(TABLES, COUNTS, g.number, DOUBLES, ANSWER);
    case WET_WEIGHT: return ruby_marshal_wet_weight(TABLES, COUNTS, g.number, g.other, DOUBLES, ANSWER);
    case BATCH_COST: return ruby_marshal_batch_cost(TABLES, COUNTS, g.number, g.other, ANSWER);
    case NEW: return ruby_marshal_new(TABLES, ANSWER);
    case REPLACE_ROOT: return ruby_marshal_replace_root(TABLES, COUNTS, g.number, ANSWER);
    case REPLACE_CLASS: return ruby_marshal_replace_class(TABLES, COUNTS, g.number, g.other, ANSWER);
    case CREATE_NIL: return ruby_marshal_create_nil(TABLES, COUNTS, ANSWER);
    case CREATE_BOOL: return ruby_marshal_create_bool(TABLES, COUNTS, g.value != 0, ANSWER);
    case CREATE_FIXNUM: return ruby_marshal_create_fixnum(TABLES, COUNTS, g.value, ANSWER);
    case CREATE_SYMBOL: return ruby_marshal_create_symbol(TABLES, COUNTS, g.string, g.string_length, ANSWER);
    case CREATE_NEW_SYMBOL: return ruby_marshal_create_new_symbol(TABLES, COUNTS, g.string, g.string_length, ANSWER);
    case CREATE_ARRAY: return ruby_marshal_create_array(TABLES, COUNTS, g.list, g.list_length, ANSWER);
    case CREATE_HASH: return ruby_marshal_create_hash(TABLES, COUNTS, g.list, g.list_length, g.number, ANSWER);
    case CREATE_OBJECT: return ruby_marshal_create_object(TABLES, COUNTS, g.number, g.list, g.list_length, ANSWER);
    case CREATE_STRING: return ruby_marshal_create_string(TABLES, COUNTS, g.string, g.string_length, ANSWER);
    case CREATE_USER_DEFINED:
        return ruby_marshal_create_user_defined(TABLES, COUNTS, g.number, g.string, g.string_length, ANSWER);
    case CREATE_FLOAT: return ruby_marshal_create_float(TABLES, COUNTS, g.string, g.string_length, ANSWER);
    case CREATE_BIGNUM:
        return ruby_marshal_create_bignum(TABLES, COUNTS, g.minus, (uint32_t)g.magnitude, (uint32_t)(g.magnitude >> 32), ANSWER);
    case CALLS: break;
    }
    return 99;
}

static const uint32_t no_words[1] = { 0 };

static struct given give(uint32_t number)
{
    struct given g;
    memset(&g, 0, sizeof g);
    g.number = number;
    g.list = no_words;
    g.string = (const uint8_t *)"";
    return g;
}

static struct given give_two(uint32_t number, uint32_t other)
{
    struct given g = give(number);
    g.other = other;
    return g;
}

static struct given give_list(uint32_t number, const uint32_t *list, size_t length)
{
    struct given g = give(number);
    g.list = list;
    g.list_length = length;
    return g;
}

static struct given give_string(uint32_t number, const char *string)
{
    struct given g = give(number);
    g.string = (const uint8_t *)string;
    g.string_length = strlen(string);
    return g;
}

static struct given give_value(int32_t value)
{
    struct given g = give(0);
    g.value = value;
    return g;
}

static struct given give_bignum(bool minus, uint64_t magnitude)
{
    struct given g = give(0);
    g.minus = minus;
    g.magnitude = magnitude;
    return g;
}

static void put(struct lent *l, const char *input)
{
    memcpy(l->input.at, input, l->input.length);
}

/* A refusal with its details; of what else is answered the first word. */
static void refused(enum call which, const struct lent *l, struct given g, uint32_t number, int64_t first, uint64_t second)
{
    EXPECT(call(which, l, g) == number);
    EXPECT(ruby_marshal_detail(l->answer) == first);
    EXPECT(l->answer[RUBY_MARSHAL_SECOND] == second);
}

static void accepted(enum call which, struct lent *l, struct given g)
{
    uint32_t returned;
    size_t i;
    for (i = 0; i < RUBY_MARSHAL_ANSWER_WORDS; i++)
        l->answer[i] = UINT64_MAX - i;
    returned = call(which, l, g);
    if (returned != RUBY_MARSHAL_ACCEPTED) {
        fprintf(stderr, "call %d: %s %ld\n", (int)which, ruby_marshal_name(returned), (long)ruby_marshal_detail(l->answer));
        exit(1);
    }
    EXPECT(l->answer[RUBY_MARSHAL_FIRST] == 0 && l->answer[RUBY_MARSHAL_SECOND] == 0);
    for (i = answer_words[which]; i < RUBY_MARSHAL_ANSWER_WORDS; i++)
        EXPECT(l->answer[i] == UINT64_MAX - i);
    if (answer_words[which] >= RUBY_MARSHAL_NEW_WORDS && which != GET)
        l->counts = ruby_marshal_counts_of(l->answer);
}

/* A node is made: it is the next one. */
static uint32_t made(enum call which, struct lent *l, struct given g)
{
    size_t before = l->counts.nodes;
    accepted(which, l, g);
    EXPECT(l->counts.nodes == before + 1 && l->answer[RUBY_MARSHAL_HANDLE] == before);
    return (uint32_t)l->answer[RUBY_MARSHAL_HANDLE];
}

static bool zero(const void *from, size_t size)
{
    const uint8_t *byte = (const uint8_t *)from;
    size_t i;
    for (i = 0; i < size; i++)
        if (byte[i] != 0)
            return false;
    return true;
}

/* A bignum's number, by get. */
static int64_t bignum_at(struct lent *l, uint32_t handle)
{
    const uint64_t *w = l->answer + RUBY_MARSHAL_WORDS;
    accepted(GET, l, give(handle));
    EXPECT(w[RUBY_MARSHAL_WORD_KIND] == RUBY_MARSHAL_BIGNUM);
    return ruby_marshal_bignum(
        (uint32_t)w[RUBY_MARSHAL_WORD_LOW], (uint32_t)w[RUBY_MARSHAL_WORD_HIGH], (uint32_t)w[RUBY_MARSHAL_WORD_SIGN]);
}

/* ---- the tests ---- */

/* Every kind is built, looked at, dumped, loaded, and dumped again. */
static void build_dump_load(void)
{
    struct lent l = lend(200, 14 * RUBY_MARSHAL_NODE_WORDS, 9, 16, 14, 14, 200);
    uint32_t nil, yes, number, name, other, list[5], pairs[2], array, hash, object, string, user, real, big;
    size_t written;

    accepted(NEW, &l, give(0));
    EXPECT(l.counts.nodes == 1 && l.counts.references == 0 && l.counts.bytes == 0 && l.counts.root == 0);
    EXPECT(zero(l.nodes.at, l.nodes.length * 4) && zero(l.references.at, l.references.length * 4) && zero(l.bytes.at, l.bytes.length));
    nil = made(CREATE_NIL, &l, give(0));
    yes = made(CREATE_BOOL, &l, give_value(1));
    number = made(CREATE_FIXNUM, &l, give_value(INT32_MIN));
    name = made(CREATE_SYMBOL, &l, give_string(0, "sand"));
    accepted(CREATE_SYMBOL, &l, give_string(0, "sand"));
    EXPECT(l.answer[RUBY_MARSHAL_HANDLE] == name && l.counts.nodes == name + 1);
    other = made(CREATE_NEW_SYMBOL, &l, give_string(0, "sand"));
    real = made(CREATE_FLOAT, &l, give_string(0, "1.25"));
    big = made(CREATE_BIGNUM, &l, give_bignum(true, INT64_MAX));
    list[0] = nil, list[1] = yes, list[2] = number, list[3] = real, list[4] = big;
    array = made(CREATE_ARRAY, &l, give_list(0, list, 5));
    pairs[0] = name, pairs[1] = array;
    hash = made(CREATE_HASH, &l, give_list(nil + 1, pairs, 2));
    string = made(CREATE_STRING, &l, give_string(0, "dry"));
    user = made(CREATE_USER_DEFINED, &l, give_string(name, "\x01"));
    pairs[1] = hash;
    object = made(CREATE_OBJECT, &l, give_list(name, pairs, 2));
    accepted(REPLACE_ROOT, &l, give(object));
    EXPECT(l.counts.root == object && l.answer[RUBY_MARSHAL_HANDLE] == 0);
    accepted(REPLACE_CLASS, &l, give_two(hash, other + 1));
    EXPECT(l.counts.root == object && l.answer[RUBY_MARSHAL_HANDLE] == 0);
    accepted(REPLACE_CLASS, &l, give_two(hash, name + 1));
    EXPECT(l.answer[RUBY_MARSHAL_HANDLE] == other + 1);

    accepted(ROOT, &l, give(0));
    EXPECT(l.answer[RUBY_MARSHAL_VALUE] == object);
    accepted(KIND, &l, give(user));
    EXPECT(l.answer[RUBY_MARSHAL_VALUE] == RUBY_MARSHAL_USER_DEFINED);
    accepted(KIND, &l, give(string));
    EXPECT(l.answer[RUBY_MARSHAL_VALUE] == RUBY_MARSHAL_STRING);
    accepted(KIND, &l, give(real));
    EXPECT(l.answer[RUBY_MARSHAL_VALUE] == RUBY_MARSHAL_FLOAT);
    accepted(GET, &l, give(real));
    EXPECT(l.answer[RUBY_MARSHAL_WORDS + RUBY_MARSHAL_WORD_LENGTH] == 4);
    EXPECT(memcmp(l.bytes.at + l.answer[RUBY_MARSHAL_WORDS + RUBY_MARSHAL_WORD_START], "1.25", 4) == 0);
    EXPECT(zero(l.answer + RUBY_MARSHAL_WORDS + RUBY_MARSHAL_WORD_LIST, 5 * 8));
    EXPECT(bignum_at(&l, big) == -INT64_MAX);
    EXPECT(l.answer[RUBY_MARSHAL_WORDS + RUBY_MARSHAL_WORD_LIST] == 0);
    EXPECT(zero(l.answer + RUBY_MARSHAL_WORDS + RUBY_MARSHAL_WORD_NAME, 3 * 8));
    accepted(GET, &l, give(number));
    EXPECT(l.answer[RUBY_MARSHAL_WORDS + RUBY_MARSHAL_WORD_KIND] == RUBY_MARSHAL_FIXNUM);
    EXPECT(ruby_marshal_fixnum((uint32_t)l.answer[RUBY_MARSHAL_WORDS + RUBY_MARSHAL_WORD_VALUE]) == INT32_MIN);
    accepted(GET, &l, give(hash));
    EXPECT(l.answer[RUBY_MARSHAL_WORDS + RUBY_MARSHAL_WORD_COUNT] == 1);
    EXPECT(l.answer[RUBY_MARSHAL_WORDS + RUBY_MARSHAL_WORD_DEFAULT] == nil + 1);
    EXPECT(l.answer[RUBY_MARSHAL_WORDS + RUBY_MARSHAL_WORD_CLASS] == name + 1);
    accepted(GET_SYMBOL, &l, give(other));
    EXPECT(l.answer[RUBY_MARSHAL_LENGTH] == 4 && memcmp(l.bytes.at + l.answer[RUBY_MARSHAL_START], "sand", 4) == 0);

    refused(GET, &l, give(14), RUBY_MARSHAL_BAD_HANDLE, 14, 0);
    EXPECT(zero(l.answer + RUBY_MARSHAL_WORDS, RUBY_MARSHAL_NODE_WORDS * 8));
    refused(KIND, &l, give(UINT32_MAX), RUBY_MARSHAL_BAD_HANDLE, UINT32_MAX, 0);
    refused(GET_SYMBOL, &l, give(string), RUBY_MARSHAL_WRONG_KIND, string, 0);
    refused(GET_SYMBOL, &l, give(real), RUBY_MARSHAL_WRONG_KIND, real, 0);
    refused(REPLACE_ROOT, &l, give(14), RUBY_MARSHAL_BAD_HANDLE, 14, 0);
    EXPECT(ruby_marshal_counts_of(l.answer).root == object && l.answer[RUBY_MARSHAL_HANDLE] == 0);
    keep();
    refused(REPLACE_CLASS, &l, give_two(14, 15), RUBY_MARSHAL_BAD_HANDLE, 14, 0);
    refused(REPLACE_CLASS, &l, give_two(nil, 15), RUBY_MARSHAL_BAD_HANDLE, 14, 0);
    refused(REPLACE_CLASS, &l, give_two(nil, 0), RUBY_MARSHAL_WRONG_KIND, nil, 0);
    refused(REPLACE_CLASS, &l, give_two(user, string + 1), RUBY_MARSHAL_WRONG_KIND, user, 0);
    refused(REPLACE_CLASS, &l, give_two(array, string + 1), RUBY_MARSHAL_WRONG_KIND, string, 0);
    EXPECT(memcmp(kept, word_room[NODES], ROOM * 4) == 0);
    refused(CREATE_OBJECT, &l, give(string), RUBY_MARSHAL_WRONG_KIND, string, 0);
    refused(CREATE_USER_DEFINED, &l, give_string(nil, ""), RUBY_MARSHAL_WRONG_KIND, nil, 0);
    refused(CREATE_HASH, &l, give_list(0, pairs, 1), RUBY_MARSHAL_BAD_TABLES, RUBY_MARSHAL_SLICE_LIST, 0);
    refused(CREATE_HASH, &l, give(UINT32_MAX), RUBY_MARSHAL_BAD_HANDLE, (int64_t)UINT32_MAX - 1, 0);
    refused(CREATE_STRING, &l, give_string(0, "0123456789abcdef"), RUBY_MARSHAL_NO_SPACE, RUBY_MARSHAL_SLICE_BYTES, 0);
    refused(CREATE_FLOAT, &l, give_string(0, "1"), RUBY_MARSHAL_NO_SPACE, RUBY_MARSHAL_SLICE_BYTES, 0);
    refused(CREATE_BIGNUM, &l, give_bignum(true, (uint64_t)INT64_MAX + 1), RUBY_MARSHAL_TOO_BIG, 4, 0);
    refused(CREATE_ARRAY, &l, give_list(0, list, 3), RUBY_MARSHAL_NO_SPACE, RUBY_MARSHAL_SLICE_REFERENCES, 0);
    accepted(CREATE_NIL, &l, give(0));
    refused(CREATE_NIL, &l, give(0), RUBY_MARSHAL_NO_SPACE, RUBY_MARSHAL_SLICE_NODES, 0);
    refused(CREATE_FLOAT, &l, give(0), RUBY_MARSHAL_NO_SPACE, RUBY_MARSHAL_SLICE_NODES, 0);
    refused(CREATE_BIGNUM, &l, give(0), RUBY_MARSHAL_NO_SPACE, RUBY_MARSHAL_SLICE_NODES, 0);
    refused(CREATE_BIGNUM, &l, give_bignum(false, UINT64_MAX), RUBY_MARSHAL_TOO_BIG, 4, 0);

    accepted(DUMP, &l, give(RUBY_MARSHAL_LIMIT));
    written = (size_t)l.answer[RUBY_MARSHAL_WRITTEN];
    EXPECT(zero(l.scratch.at, l.scratch.length * 4) && zero(l.output.at + written, l.output.length - written));
    refused(DUMP, &l, give(2), RUBY_MARSHAL_TOO_DEEP, 2, 0);
    EXPECT(l.answer[RUBY_MARSHAL_WRITTEN] == 0 && zero(l.output.at, l.output.length));
    accepted(DUMP, &l, give(RUBY_MARSHAL_LIMIT));
    memcpy(l.input.at, l.output.at, written);
    accepted(LOAD, &l, give(RUBY_MARSHAL_LIMIT));
    EXPECT(l.answer[RUBY_MARSHAL_USED] == written && l.answer[RUBY_MARSHAL_DUMP_FORM] == 1);
    EXPECT(zero(l.symbols.at, l.symbols.length * 4) && zero(l.objects.at, l.objects.length * 4));
    accepted(DUMP, &l, give(RUBY_MARSHAL_LIMIT));
    EXPECT(l.answer[RUBY_MARSHAL_WRITTEN] == written && memcmp(l.input.at, l.output.at, written) == 0);
}

/* Bignums that are built, loaded and dumped: the fewest units, zero without a sign. */
static void bignums(void)
{
    static const struct {
        bool minus;
        uint64_t magnitude;
        int64_t value;
        const char *dump;
        size_t length;
    } cases[] = {
        { false, 0, 0, "\x04\x08l+\0", 5 },
        { true, 0, 0, "\x04\x08l+\0", 5 },
        { true, 1, -1, "\x04\x08l-\x06\x01\0", 7 },
        { false, 0xFFFF, 0xFFFF, "\x04\x08l+\x06\xFF\xFF", 7 },
        { false, 0x10000, 0x10000, "\x04\x08l+\x07\0\0\x01\0", 9 },
        { true, 0x123456789ABC, -0x123456789ABC, "\x04\x08l-\x08\xBC\x9A\x78\x56\x34\x12", 11 },
        { true, INT64_MAX, -INT64_MAX, "\x04\x08l-\x09\xFF\xFF\xFF\xFF\xFF\xFF\xFF\x7F", 13 },
    };
    size_t i;
    for (i = 0; i < sizeof cases / sizeof cases[0]; i++) {
        struct lent l = lend(cases[i].length, 2 * RUBY_MARSHAL_NODE_WORDS, 0, 0, 1, 2, 13);
        accepted(NEW, &l, give(0));
        EXPECT(made(CREATE_BIGNUM, &l, give_bignum(cases[i].minus, cases[i].magnitude)) == 1);
        accepted(REPLACE_ROOT, &l, give(1));
        EXPECT(bignum_at(&l, 1) == cases[i].value);
        accepted(DUMP, &l, give(1));
        EXPECT(l.answer[RUBY_MARSHAL_WRITTEN] == cases[i].length && memcmp(l.output.at, cases[i].dump, cases[i].length) == 0);
        put(&l, cases[i].dump);
        accepted(LOAD, &l, give(1));
        EXPECT(l.answer[RUBY_MARSHAL_USED] == cases[i].length && l.answer[RUBY_MARSHAL_DUMP_FORM] == 1);
        EXPECT(l.counts.root == 1 && bignum_at(&l, 1) == cases[i].value);
    }
}

/* The same double, the sign of zero too. */
static bool same(double a, double b)
{
    return memcmp(&a, &b, sizeof a) == 0;
}

/* What nodes read as, and weighings of them. */
static void weighings(void)
{
    static const struct {
        const char *text;
        uint64_t reads_as;
        double number;
    } texts[] = {
        { "0.25", RUBY_MARSHAL_READS_DOUBLE, 0.25 },
        { "-0", RUBY_MARSHAL_READS_DOUBLE, -0.0 },
        { "0.3", RUBY_MARSHAL_READS_DOUBLE, 0.3 },
        { "-12.50", RUBY_MARSHAL_READS_DOUBLE, -12.5 },
        { "999999999999999", RUBY_MARSHAL_READS_DOUBLE, 999999999999999.0 },
        { "9999999999999999", RUBY_MARSHAL_READS_NOTHING, 0.0 },
        { "1e2", RUBY_MARSHAL_READS_NOTHING, 0.0 },
        { ".5", RUBY_MARSHAL_READS_NOTHING, 0.0 },
        { "5.", RUBY_MARSHAL_READS_NOTHING, 0.0 },
        { "", RUBY_MARSHAL_READS_NOTHING, 0.0 },
    };
    struct lent l = lend(0, 16 * RUBY_MARSHAL_NODE_WORDS, 0, 80, 0, 0, 0);
    uint32_t nil, least, kilograms, big, text[10];
    size_t i;

    accepted(NEW, &l, give(0));
    nil = made(CREATE_NIL, &l, give(0));
    least = made(CREATE_FIXNUM, &l, give_value(INT32_MIN));
    kilograms = made(CREATE_FIXNUM, &l, give_value(600));
    big = made(CREATE_BIGNUM, &l, give_bignum(false, 1));
    l.doubles[RUBY_MARSHAL_READING_DOUBLES] = 7.5;
    for (i = 0; i < sizeof texts / sizeof texts[0]; i++) {
        text[i] = made(CREATE_FLOAT, &l, give_string(0, texts[i].text));
        accepted(READING, &l, give(text[i]));
        EXPECT(l.answer[RUBY_MARSHAL_READS_AS] == texts[i].reads_as && l.answer[RUBY_MARSHAL_WHOLE] == 0);
        EXPECT(same(l.doubles[0], texts[i].number) && l.doubles[RUBY_MARSHAL_READING_DOUBLES] == 7.5);
    }
    accepted(READING, &l, give(least));
    EXPECT(l.answer[RUBY_MARSHAL_READS_AS] == RUBY_MARSHAL_READS_WHOLE && ruby_marshal_whole(l.answer) == INT32_MIN);
    accepted(READING, &l, give(kilograms));
    EXPECT(l.answer[RUBY_MARSHAL_READS_AS] == RUBY_MARSHAL_READS_WHOLE && ruby_marshal_whole(l.answer) == 600);
    EXPECT(same(l.doubles[0], 0.0));
    accepted(READING, &l, give(big));
    EXPECT(l.answer[RUBY_MARSHAL_READS_AS] == RUBY_MARSHAL_READS_NOTHING);
    refused(READING, &l, give(99), RUBY_MARSHAL_BAD_HANDLE, 99, 0);
    EXPECT(zero(l.answer + RUBY_MARSHAL_READS_AS, 2 * 8));

    l.doubles[RUBY_MARSHAL_WET_WEIGHT_DOUBLES] = 7.5;
    accepted(WET_WEIGHT, &l, give_two(kilograms, text[0]));
    EXPECT(same(l.doubles[RUBY_MARSHAL_DRY], 600) && same(l.doubles[RUBY_MARSHAL_MOISTURE], 0.25));
    EXPECT(same(l.doubles[RUBY_MARSHAL_WET], 800));
    accepted(WET_WEIGHT, &l, give_two(text[1], text[1]));
    EXPECT(same(l.doubles[RUBY_MARSHAL_DRY], -0.0) && same(l.doubles[RUBY_MARSHAL_MOISTURE], -0.0));
    EXPECT(same(l.doubles[RUBY_MARSHAL_WET], -0.0));
    refused(WET_WEIGHT, &l, give_two(99, 98), RUBY_MARSHAL_BAD_HANDLE, 99, 0);
    refused(WET_WEIGHT, &l, give_two(text[3], nil), RUBY_MARSHAL_NOT_A_WEIGHT, text[3], 0);
    refused(WET_WEIGHT, &l, give_two(kilograms, nil), RUBY_MARSHAL_NOT_A_WEIGHT, nil, 0);
    refused(WET_WEIGHT, &l, give_two(big, kilograms), RUBY_MARSHAL_NOT_A_WEIGHT, big, 0);
    refused(WET_WEIGHT, &l, give_two(kilograms, text[3]), RUBY_MARSHAL_BAD_MOISTURE, 0, 0);
    refused(WET_WEIGHT, &l, give_two(kilograms, kilograms), RUBY_MARSHAL_BAD_MOISTURE, 0, 0);
    EXPECT(zero(l.doubles, RUBY_MARSHAL_WET_WEIGHT_DOUBLES * 8) && l.doubles[RUBY_MARSHAL_WET_WEIGHT_DOUBLES] == 7.5);
    EXPECT(strcmp(ruby_marshal_name(RUBY_MARSHAL_NOT_A_WEIGHT), "?") != 0);
    EXPECT(strcmp(ruby_marshal_name(RUBY_MARSHAL_BAD_MOISTURE), "?") != 0);
}

/* A hash of those pairs. */
static uint32_t hash_of(struct lent *l, const uint32_t *pairs, size_t count)
{
    return made(CREATE_HASH, l, give_list(0, pairs, count * 2));
}

/* What is answered is the sum. */
static void costs_so_much(struct lent *l, uint32_t recipe, uint32_t prices, uint64_t cents)
{
    accepted(BATCH_COST, l, give_two(recipe, prices));
    EXPECT(l->answer[RUBY_MARSHAL_CENTS] == cents);
}

/* A refusal leaves no cents. */
static void costs_nothing(struct lent *l, uint32_t recipe, uint32_t prices, uint32_t number, uint32_t node)
{
    l->answer[RUBY_MARSHAL_CENTS] = 7;
    refused(BATCH_COST, l, give_two(recipe, prices), number, node, 0);
    EXPECT(l->answer[RUBY_MARSHAL_CENTS] == 0);
}

/* Recipes at prices. */
static void costs(void)
{
    struct lent l = lend(0, 40 * RUBY_MARSHAL_NODE_WORDS, 2200, 16, 0, 0, 0);
    uint32_t nil, a, b, again, nothing, one, half, least, most, big, pairs[2 * (RUBY_MARSHAL_RECIPE_PAIRS + 1)];
    uint32_t none, cent, free_of_charge, recipe, full, over, wrong;
    size_t i;

    accepted(NEW, &l, give(0));
    nil = made(CREATE_NIL, &l, give(0));
    a = made(CREATE_SYMBOL, &l, give_string(0, "a"));
    b = made(CREATE_SYMBOL, &l, give_string(0, "b"));
    again = made(CREATE_NEW_SYMBOL, &l, give_string(0, "a"));
    nothing = made(CREATE_FIXNUM, &l, give_value(0));
    one = made(CREATE_FIXNUM, &l, give_value(1));
    half = made(CREATE_FIXNUM, &l, give_value(500));
    least = made(CREATE_FIXNUM, &l, give_value(-1));
    most = made(CREATE_FIXNUM, &l, give_value(INT32_MAX));
    big = made(CREATE_BIGNUM, &l, give_bignum(false, 1));
    none = hash_of(&l, no_words, 0);
    pairs[0] = a, pairs[1] = one, pairs[2] = b, pairs[3] = one;
    cent = hash_of(&l, pairs, 2);
    pairs[1] = pairs[3] = nothing;
    free_of_charge = hash_of(&l, pairs, 2);

    /* an exact half goes up, line by line */
    pairs[1] = pairs[3] = half;
    recipe = hash_of(&l, pairs, 2);
    costs_so_much(&l, recipe, cent, 2);
    costs_so_much(&l, recipe, recipe, 500);
    costs_so_much(&l, recipe, free_of_charge, 0);
    costs_so_much(&l, cent, cent, 0);
    costs_so_much(&l, none, none, 0);
    costs_so_much(&l, none, recipe, 0);
    costs_nothing(&l, recipe, none, RUBY_MARSHAL_NO_PRICE, a);

    /* b, and the later a: of another node, but of the same name; the default is no price */
    pairs[0] = a, pairs[1] = most, pairs[2] = b, pairs[3] = half, pairs[4] = again, pairs[5] = half;
    recipe = hash_of(&l, pairs, 3);
    costs_so_much(&l, recipe, cent, 2);
    costs_nothing(&l, recipe, hash_of(&l, pairs, 1), RUBY_MARSHAL_NO_PRICE, b);
    costs_nothing(&l, recipe, made(CREATE_HASH, &l, give_list(one + 1, pairs + 2, 2)), RUBY_MARSHAL_NO_PRICE, again);

    /* the greatest lines of the most pairs, of which all but the last are superseded; one pair more */
    for (i = 0; i < RUBY_MARSHAL_RECIPE_PAIRS + 1; i++)
        pairs[2 * i] = i % 2 == 0 ? a : again, pairs[2 * i + 1] = most;
    full = hash_of(&l, pairs, RUBY_MARSHAL_RECIPE_PAIRS);
    costs_so_much(&l, full, full, 4611686014132421u);
    over = hash_of(&l, pairs, RUBY_MARSHAL_RECIPE_PAIRS + 1);
    costs_nothing(&l, over, over, RUBY_MARSHAL_NOT_A_RECIPE, over);
    costs_so_much(&l, full, over, 4611686014132421u);

    /* handles, then the recipe whole, then the prices whole; in a pair the key first, and what is superseded too */
    costs_nothing(&l, 99, 98, RUBY_MARSHAL_BAD_HANDLE, 99);
    costs_nothing(&l, nil, 98, RUBY_MARSHAL_BAD_HANDLE, 98);
    costs_nothing(&l, a, nil, RUBY_MARSHAL_NOT_A_RECIPE, a);
    costs_nothing(&l, recipe, nil, RUBY_MARSHAL_NOT_A_RECIPE, nil);
    pairs[0] = nil, pairs[1] = least;
    wrong = hash_of(&l, pairs, 1);
    costs_nothing(&l, wrong, nil, RUBY_MARSHAL_NOT_A_RECIPE, nil);
    costs_nothing(&l, recipe, wrong, RUBY_MARSHAL_NOT_A_RECIPE, nil);
    pairs[0] = a, pairs[2] = again, pairs[3] = one, pairs[4] = nil;
    costs_nothing(&l, hash_of(&l, pairs, 3), cent, RUBY_MARSHAL_NOT_A_RECIPE, least);
    pairs[1] = big;
    costs_nothing(&l, cent, hash_of(&l, pairs, 1), RUBY_MARSHAL_NOT_A_RECIPE, big);
    EXPECT(strcmp(ruby_marshal_name(RUBY_MARSHAL_NOT_A_RECIPE), "?") != 0);
    EXPECT(strcmp(ruby_marshal_name(RUBY_MARSHAL_NO_PRICE), "?") != 0);
}

/* An array that is its own member: a pass over the nodes ends, and so does dump. */
static void cycle(void)
{
    struct lent l = lend(6, 2 * RUBY_MARSHAL_NODE_WORDS, 1, 0, 1, 2, 6);
    put(&l, "\x04\x08[\x06@\x00");
    accepted(LOAD, &l, give(2));
    EXPECT(l.counts.nodes == 2 && l.counts.root == 1 && l.references.at[0] == 1);
    accepted(DUMP, &l, give(2));
    EXPECT(l.answer[RUBY_MARSHAL_WRITTEN] == 6 && memcmp(l.output.at, "\x04\x08[\x06@\x00", 6) == 0);
}

/* Dump form: 1 exactly where dump, under load's limit, writes the bytes that were used. */
static void dump_form(void)
{
    static const struct {
        const char *input;
        size_t length, used;
        uint32_t limit;
        uint64_t form;
    } cases[] = {
        { "\x04\x08" "0", 3, 3, 1, 1 },
        { "\x04\x08" "0\xFF", 4, 3, 1, 1 },
        { "\x04\x07" "0", 3, 3, 1, 0 },
        { "\x04\x08i\x01\x7B", 5, 5, 1, 1 },
        { "\x04\x08i\x01\x7A", 5, 5, 1, 0 },
        { "\x04\x08\"\x05", 4, 4, 1, 0 },
        { "\x04\x08[\x07:\x06" "a;\x00", 9, 9, 2, 1 },
        { "\x04\x08[\x07:\x06" "a:\x06" "a", 10, 10, 2, 0 },
        { "\x04\x08I\"\0\0", 6, 6, 2, 1 },
        { "\x04\x08II\"\0\0\0", 8, 8, 3, 0 },
        { "\x04\x08[\x07\"\0I@\x06\0", 10, 10, 3, 0 },
        { "\x04\x08[\x07[\x06\"\0I@\x07\0", 12, 12, 3, 0 }, /* dump wants a fourth level */
        { "\x04\x08" "C:\x06" "a[\0", 8, 8, 1, 1 },
        { "\x04\x08IC:\x06" "a\"\0\0", 10, 10, 2, 1 },
        { "\x04\x08l+\x06\x01\0", 7, 7, 1, 1 },
        { "\x04\x08l+\x07\x01\0\0\0", 9, 9, 1, 0 }, /* a high zero unit */
        { "\x04\x08l-\0", 5, 5, 1, 0 },
    };
    size_t i;
    for (i = 0; i < sizeof cases / sizeof cases[0]; i++) {
        struct lent l = lend(cases[i].length, 4 * RUBY_MARSHAL_NODE_WORDS, 3, 2, 3, 4, 12);
        bool same;
        put(&l, cases[i].input);
        accepted(LOAD, &l, give(cases[i].limit));
        EXPECT(l.answer[RUBY_MARSHAL_USED] == cases[i].used && l.answer[RUBY_MARSHAL_DUMP_FORM] == cases[i].form);
        same = call(DUMP, &l, give(cases[i].limit)) == RUBY_MARSHAL_ACCEPTED && l.answer[RUBY_MARSHAL_WRITTEN] == cases[i].used
            && memcmp(l.input.at, l.output.at, cases[i].used) == 0;
        EXPECT(same == (cases[i].form == 1));
    }
}

/* Another load of an input of at most two levels: its answer begins with load's, and it leaves what load leaves. */
static void loads_alike(enum call which, struct lent *l)
{
    uint64_t loaded[RUBY_MARSHAL_LOAD_WORDS], more[RUBY_MARSHAL_ANSWER_WORDS];
    size_t i;
    accepted(LOAD, l, give(2));
    memcpy(loaded, l->answer, sizeof loaded);
    memset(l->buckets.at, which == LOAD_HASHED ? 0 : 0xA5, l->buckets.length * 4);
    keep();
    memset(l->nodes.at, 0xA5, l->nodes.length * 4);
    memset(l->references.at, 0xA5, l->references.length * 4);
    memset(l->bytes.at, 0xA5, l->bytes.length);
    memset(l->symbols.at, 0xA5, l->symbols.length * 4);
    memset(l->objects.at, 0xA5, l->objects.length * 4);
    memset(l->buckets.at, 0xA5, l->buckets.length * 4);
    accepted(which, l, give(2));
    EXPECT(memcmp(loaded, l->answer, sizeof loaded) == 0);
    memcpy(more, l->answer, sizeof more);
    for (i = RUBY_MARSHAL_LOAD_WORDS; i < answer_words[which]; i++)
        l->answer[i] = UINT64_MAX - i;
    EXPECT(untouched());
    memcpy(l->answer, more, sizeof more);
}

/* What the measuring load counts. */
static void measured(void)
{
    static const struct {
        const char *input;
        size_t length;
        uint64_t copied, compared;
    } cases[] = {
        { "\x04\x08[\x07:\x06" "a:\x06" "a", 10, 1, 1 },
        { "\x04\x08[\x07:\x06" "a:\x06" "b", 10, 2, 1 },
        { "\x04\x08[\x07:\x06" "a:\x07" "ab", 11, 3, 0 },
        { "\x04\x08[\x08:\x06" "a:\x06" "a:\x06" "a", 13, 1, 2 },
        { "\x04\x08[\x08:\x07" "ab:\x07" "ac:\x07" "ac", 16, 4, 6 },
        { "\x04\x08[\x08:\x07" "ab:\x07" "ac;\x06", 14, 4, 2 },
        { "\x04\x08[\x07\"\x06" "a:\x06" "a", 10, 2, 0 },
        { "\x04\x08[\x07:\x00:\x00", 8, 0, 0 },
        { "\x04\x08o:\x06" "a\x06:\x06" "af\x06" "1", 13, 2, 1 },
    };
    size_t i;
    for (i = 0; i < sizeof cases / sizeof cases[0]; i++) {
        struct lent l = lend(cases[i].length, 4 * RUBY_MARSHAL_NODE_WORDS, 3, 4, 3, 0, 0);
        put(&l, cases[i].input);
        loads_alike(LOAD_MEASURED, &l);
        EXPECT(l.answer[RUBY_MARSHAL_COPIED] == cases[i].copied && l.answer[RUBY_MARSHAL_COMPARED] == cases[i].compared);
        EXPECT(l.answer[RUBY_MARSHAL_BYTES] == cases[i].copied);
    }
}

/* The words that the hashed load looks at. Of 4 words, a and e start at the first, b and f at the next, d and h at the last. */
static void hashed(void)
{
    static const struct {
        const char *input;
        size_t length, buckets;
        uint64_t looked;
    } cases[] = {
        { "\x04\x08" "0", 3, 4, 0 },
        { "\x04\x08:\x06" "a", 5, 4, 1 },
        { "\x04\x08[\x07:\x06" "a:\x06" "a", 10, 4, 2 },
        { "\x04\x08[\x07:\x06" "a:\x06" "d", 10, 4, 2 },
        { "\x04\x08[\x07:\x06" "a:\x06" "e", 10, 4, 3 },
        { "\x04\x08[\x07:\x06" "b:\x06" "f", 10, 4, 3 },
        { "\x04\x08[\x07:\x06" "d:\x06" "h", 10, 4, 3 }, /* h goes round */
        { "\x04\x08[\x08:\x06" "d:\x06" "h:\x06" "h", 13, 4, 5 },
        { "\x04\x08[\x08:\x06" "d:\x06" "h;\x06", 12, 4, 3 },
        { "\x04\x08[\x07:\x06" "a:\x06" "e", 10, 5, 2 },
        { "\x04\x08[\x07:\x06" "c:\x06" "d", 10, 5, 3 },
        { "\x04\x08[\x07\"\x06" "a:\x06" "a", 10, 4, 1 },
        { "\x04\x08[\x07:\x00:\x00", 8, 4, 2 },
        { "\x04\x08o:\x06" "a\x06:\x06" "af\x06" "1", 13, 4, 2 },
    };
    size_t i;
    for (i = 0; i < sizeof cases / sizeof cases[0]; i++) {
        struct lent l = lend(cases[i].length, 4 * RUBY_MARSHAL_NODE_WORDS, 3, 4, 3, 0, 0);
        l.buckets = words(BUCKETS, cases[i].buckets);
        put(&l, cases[i].input);
        loads_alike(LOAD_HASHED, &l);
        EXPECT(l.answer[RUBY_MARSHAL_LOOKED] == cases[i].looked);
    }
}

/* Each refusal of the loads, with its details and their signs. */
static void refusals(void)
{
    static const struct {
        const char *input;
        size_t length;
        uint32_t limit, number;
        int64_t first;
        uint64_t second;
    } cases[] = {
        { "\x04\x08" "0", 3, 129, RUBY_MARSHAL_BAD_TABLES, RUBY_MARSHAL_SLICE_LIMIT, 0 },
        { "\x04\x09" "0", 3, 1, RUBY_MARSHAL_INVALID_VERSION, 4, 9 },
        { "", 0, 1, RUBY_MARSHAL_SHORT_INPUT, 0, 0 },
        { "\x04\x08?", 3, 1, RUBY_MARSHAL_INVALID_KIND, '?', 0 },
        { "\x04\x08[\xFA", 4, 1, RUBY_MARSHAL_NEGATIVE_COUNT, -1, 0 },
        { "\x04\x08[\xFC\0\0\0\x80", 8, 1, RUBY_MARSHAL_NEGATIVE_COUNT, INT32_MIN, 0 },
        { "\x04\x08;\x06", 4, 1, RUBY_MARSHAL_MISSING_SYMBOL, 1, 0 },
        { "\x04\x08@\x04\xFF\xFF\xFF\x7F", 8, 1, RUBY_MARSHAL_MISSING_OBJECT, INT32_MAX, 0 },
        { "\x04\x08o0", 4, 1, RUBY_MARSHAL_NOT_A_SYMBOL, '0', 0 },
        { "\x04\x08I0\0", 5, 2, RUBY_MARSHAL_NOT_AN_OBJECT, 0, 0 },
        { "\x04\x08[\x06" "0", 5, 1, RUBY_MARSHAL_TOO_DEEP, 1, 0 },
        { "\x04\x08[\x08", 4, 1, RUBY_MARSHAL_NO_SPACE, RUBY_MARSHAL_SLICE_REFERENCES, 0 },
        { "\x04\x08l*", 4, 1, RUBY_MARSHAL_BAD_SIGN, '*', 0 },
        { "\x04\x08l+\x0A", 5, 1, RUBY_MARSHAL_TOO_BIG, 5, 0 },
        { "\x04\x08l-\x09\0\0\0\0\0\0\0\x80", 13, 1, RUBY_MARSHAL_TOO_BIG, 4, 0 },
        { "\x04\x08" "C:\x06" "a0", 7, 1, RUBY_MARSHAL_NOT_WRAPPABLE, '0', 0 },
        { "\x04\x08" "C:\x06" "aC", 7, 1, RUBY_MARSHAL_NOT_WRAPPABLE, 'C', 0 },
        { "\x04\x08i\xFC\0\0\0\0", 8, 1, RUBY_MARSHAL_WRONG_SIGN, 0xFC, 0 },
        { "\x04\x08[\x04\0\0\0\x80", 8, 1, RUBY_MARSHAL_WRONG_SIGN, 4, 0 }, /* before NEGATIVE_COUNT */
        { "\x04\x08@\xFC\xFF\xFF\xFF\x7F", 8, 1, RUBY_MARSHAL_WRONG_SIGN, 0xFC, 0 },
    };
    size_t i;
    for (i = 0; i < sizeof cases / sizeof cases[0]; i++) {
        int which;
        for (which = LOAD; which <= LOAD_HASHED; which++) {
            struct lent l = lend(cases[i].length, 3 * RUBY_MARSHAL_NODE_WORDS, 2, 2, 2, 0, 0);
            put(&l, cases[i].input);
            memset(l.answer, 0xA5, RUBY_MARSHAL_ANSWER_WORDS * 8);
            memset(l.buckets.at, 0xA5, l.buckets.length * 4);
            refused((enum call)which, &l, give(cases[i].limit), cases[i].number, cases[i].first, cases[i].second);
            EXPECT(l.answer[RUBY_MARSHAL_NODES] == (cases[i].number == RUBY_MARSHAL_BAD_TABLES ? 0u : 1u));
            EXPECT(zero(l.answer + RUBY_MARSHAL_REFERENCES, (answer_words[which] - RUBY_MARSHAL_REFERENCES) * 8));
            EXPECT(zero(l.buckets.at, l.buckets.length * 4) == (which == LOAD_HASHED && cases[i].number != RUBY_MARSHAL_BAD_TABLES));
        }
        EXPECT(strcmp(ruby_marshal_name(cases[i].number), "?") != 0);
    }
    {
        struct lent l = lend(0, 2 * RUBY_MARSHAL_NODE_WORDS, 0, 0, 0, 2, 3);
        memset(l.nodes.at, 0, l.nodes.length * 4);
        refused(ROOT, &l, give(0), RUBY_MARSHAL_BAD_ARENA, -1, 0);
        l.counts.nodes = 2;
        l.nodes.at[RUBY_MARSHAL_NODE_WORDS] = 99;
        refused(DUMP, &l, give(1), RUBY_MARSHAL_BAD_ARENA, 1, 0);
    }
}

/* Of every function: too few answer words, of each number, touch nothing; the number stated is enough. */
static void few_words(void)
{
    int which;
    size_t n;
    for (which = 0; which < CALLS; which++) {
        for (n = 0; n <= answer_words[which]; n++) {
            struct lent l = lend(3, 2 * RUBY_MARSHAL_NODE_WORDS, 2, 2, 2, 2, 3);
            put(&l, "\x04\x08" "0");
            memset(l.nodes.at, 0, l.nodes.length * 4);
            l.counts.nodes = 1;
            l.answer = answer_room + ROOM - n;
            l.answer_length = n;
            keep();
            if (n < answer_words[which]) {
                EXPECT(call((enum call)which, &l, give(0)) == RUBY_MARSHAL_BAD_TABLES);
                EXPECT(untouched());
            } else {
                EXPECT(call((enum call)which, &l, give(0)) != RUBY_MARSHAL_BAD_TABLES);
            }
        }
    }
}

/* Of the two that answer doubles: too few of them touch nothing; the number stated is enough. */
static void few_doubles(void)
{
    int which;
    size_t n;
    for (which = READING; which <= WET_WEIGHT; which++) {
        size_t enough = which == READING ? RUBY_MARSHAL_READING_DOUBLES : RUBY_MARSHAL_WET_WEIGHT_DOUBLES;
        for (n = 0; n <= enough; n++) {
            struct lent l = lend(0, RUBY_MARSHAL_NODE_WORDS, 0, 0, 0, 0, 0);
            memset(l.nodes.at, 0, l.nodes.length * 4);
            l.counts.nodes = 1;
            l.doubles = double_room + ROOM - n;
            l.doubles_length = n;
            keep();
            if (n < enough) {
                EXPECT(call((enum call)which, &l, give(0)) == RUBY_MARSHAL_BAD_TABLES);
                EXPECT(untouched());
            } else {
                EXPECT(call((enum call)which, &l, give(0)) != RUBY_MARSHAL_BAD_TABLES);
            }
        }
    }
}

/* Tables of every wrong length: of every function that takes them, nothing but the answer is touched, doubles are zeros. */
static void lengths(void)
{
    int which;
    size_t n, i;
    for (which = 0; which < CALLS; which++) {
        for (n = 0; n <= 30; n++) {
            struct lent l = lend(3, n, 0, 0, 0, 5, 5);
            uint32_t returned;
            put(&l, "\x04\x08" "0");
            memset(l.nodes.at, 0, n * 4);
            l.counts.nodes = 1;
            memset(l.answer, 0, RUBY_MARSHAL_ANSWER_WORDS * 8);
            memset(l.doubles, 0, l.doubles_length * 8);
            keep();
            returned = call((enum call)which, &l, give(which <= DUMP ? 1 : 0));
            if (n == 0 || n % RUBY_MARSHAL_NODE_WORDS != 0) {
                EXPECT(returned == RUBY_MARSHAL_BAD_TABLES && l.answer[RUBY_MARSHAL_FIRST] == RUBY_MARSHAL_SLICE_NODES);
                for (i = 0; i < RUBY_MARSHAL_ANSWER_WORDS; i++)
                    l.answer[i] = 0;
                EXPECT(untouched());
            } else {
                EXPECT(returned != RUBY_MARSHAL_BAD_TABLES && returned != RUBY_MARSHAL_BAD_ARENA);
            }
        }
    }
    for (n = 0; n <= 5; n++) {
        struct lent l = lend(0, 4 * RUBY_MARSHAL_NODE_WORDS, 0, 0, 0, n, 3);
        memset(l.nodes.at, 0, l.nodes.length * 4);
        l.counts.nodes = 1;
        keep();
        if (n < 4)
            refused(DUMP, &l, give(1), RUBY_MARSHAL_BAD_TABLES, RUBY_MARSHAL_SLICE_SCRATCH, 0);
        else
            accepted(DUMP, &l, give(1));
    }
    for (n = 0; n <= 5; n++) {
        struct lent l = lend(3, 4 * RUBY_MARSHAL_NODE_WORDS, 0, 0, 0, 0, 0);
        put(&l, "\x04\x08" "0");
        l.buckets = words(BUCKETS, n);
        memset(l.answer, 0, RUBY_MARSHAL_ANSWER_WORDS * 8);
        keep();
        if (n < 4) {
            /* after every slice of a lower number */
            refused(LOAD_HASHED, &l, give(129), RUBY_MARSHAL_BAD_TABLES, RUBY_MARSHAL_SLICE_LIMIT, 0);
            refused(LOAD_HASHED, &l, give(1), RUBY_MARSHAL_BAD_TABLES, RUBY_MARSHAL_SLICE_BUCKETS, 0);
            l.answer[RUBY_MARSHAL_FIRST] = 0;
            EXPECT(untouched());
        } else {
            accepted(LOAD_HASHED, &l, give(1));
        }
    }
}

int main(void)
{
    int i;
    for (i = 0; i < 6; i++)
        word_room[i] = (uint32_t *)slice(ROOM * 4);
    for (i = 0; i < 3; i++)
        byte_room[i] = (uint8_t *)slice(ROOM);
    answer_room = (uint64_t *)slice(ROOM * 8);
    double_room = (double *)slice(ROOM * 8);
    build_dump_load();
    bignums();
    weighings();
    costs();
    cycle();
    dump_form();
    measured();
    hashed();
    refusals();
    few_words();
    few_doubles();
    lengths();
    printf("%d functions, %lu calls\n", CALLS, calls);
    return 0;
}
