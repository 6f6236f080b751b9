/*
 * Ruby Marshal 4.8 in lent tables: load, dump, the arena's getters, weighing, costing and builder. For C11 and C++.
 *
 * Link libmarshal_c.a, which `rt lib` in crates/marshal_c writes to crates/marshal_c/out (x86-64 Linux). It allocates nothing,
 * keeps nothing between calls, and needs of the C library at most memcpy, memmove, memset and memcmp.
 *
 * Every function is proved to return and leave what its definition says, for whatever the slices and numbers hold. What the
 * proof takes for granted is that the arguments are what their C types say; that is the caller's part:
 *   - A slice is a pointer and its number of entries. The pointer refers to that many entries, which the function may read,
 *     and write where the parameter is not const.
 *   - It is never null, and aligned for its entries, also where the number is 0 (it need refer to nothing then).
 *   - A slice that is not const overlaps no other slice of the call. Slices that are const may overlap each other.
 *   - During the call nothing else writes a slice, and nothing else reads one that is not const.
 *   - A bool is true or false. A double is IEEE 754's binary64, and the thread's rounding mode is to nearest, in which every
 *     program starts (FE_TONEAREST).
 * The linker does not compare these declarations with the library: header and archive must be of one version. (tools/bindings
 * compares them with the source.)
 *
 * The loads and dump call themselves for each level of nesting. docs/PERFORMANCE.md says how much stack the levels take.
 */
#ifndef RUBY_MARSHAL_H
#define RUBY_MARSHAL_H

#include <stdbool.h>
#include <stddef.h>
#include <stdint.h>

#ifdef __cplusplus
extern "C" {
#endif

/* ---- what a function returns ---- */

/* 0, or why the call is refused. In parentheses the first detail, and the second where there is one; others are 0. */
enum ruby_marshal_refusal {
    RUBY_MARSHAL_ACCEPTED = 0,
    RUBY_MARSHAL_BAD_TABLES = 1,      /* (slice) wrong size, limit above 128, odd pair list */
    RUBY_MARSHAL_BAD_ARENA = 2,       /* (lowest faulty node, or -1 for counts) not well formed */
    RUBY_MARSHAL_INVALID_VERSION = 3, /* (major, minor) header */
    RUBY_MARSHAL_SHORT_INPUT = 4,     /* byte missing */
    RUBY_MARSHAL_INVALID_KIND = 5,    /* (byte) unknown kind */
    RUBY_MARSHAL_NEGATIVE_COUNT = 6,  /* (value) length, count or index below 0 */
    RUBY_MARSHAL_MISSING_SYMBOL = 7,  /* (index) past the symbol list */
    RUBY_MARSHAL_MISSING_OBJECT = 8,  /* (index) past the object list */
    RUBY_MARSHAL_NOT_A_SYMBOL = 9,    /* (byte) symbol-like wanted */
    RUBY_MARSHAL_NOT_AN_OBJECT = 10,  /* instance variables on another kind than string or user-defined */
    RUBY_MARSHAL_TOO_DEEP = 11,       /* (limit) level above limit */
    RUBY_MARSHAL_NO_SPACE = 12,       /* (slice) next item doesn't fit */
    RUBY_MARSHAL_BAD_HANDLE = 13,     /* (handle) not below node count */
    RUBY_MARSHAL_WRONG_KIND = 14,     /* (handle) symbol wanted; replace_class: or string, array or hash */
    RUBY_MARSHAL_BAD_SIGN = 15,       /* (byte) bignum's sign, neither + nor - */
    RUBY_MARSHAL_TOO_BIG = 16,        /* (units) bignum of more than 4 units of 16 bits, or of 2^63 and more */
    RUBY_MARSHAL_NOT_A_WEIGHT = 17,   /* (node) no number, or a dry weight below 0 */
    RUBY_MARSHAL_BAD_MOISTURE = 18,   /* moisture below 0 or above 0.5 */
    RUBY_MARSHAL_WRONG_SIGN = 19,     /* (size byte) integer below 0 after 4, or not below 0 after 252 */
    RUBY_MARSHAL_NOT_A_RECIPE = 20,   /* (node) wrong kind or below 0 in a recipe or prices; recipe of over 512 pairs */
    RUBY_MARSHAL_NO_PRICE = 21,       /* (key's node) name in the recipe without a price */
    RUBY_MARSHAL_NOT_WRAPPABLE = 22   /* (byte) class on another kind than string, array or hash */
};

/* The slices that BAD_TABLES and NO_SPACE name; the lowest wrong one is named. No slice has more than 2147483647 entries. */
enum ruby_marshal_slice {
    RUBY_MARSHAL_SLICE_NODES = 1,      /* words, a whole number of nodes, at least one node */
    RUBY_MARSHAL_SLICE_REFERENCES = 2,
    RUBY_MARSHAL_SLICE_BYTES = 3,
    RUBY_MARSHAL_SLICE_SYMBOLS = 4,    /* symbol list */
    RUBY_MARSHAL_SLICE_OBJECTS = 5,    /* object list */
    RUBY_MARSHAL_SLICE_OUTPUT = 6,
    RUBY_MARSHAL_SLICE_LIMIT = 7,      /* no slice: the limit */
    RUBY_MARSHAL_SLICE_INPUT = 8,      /* the input, or a builder's byte string */
    RUBY_MARSHAL_SLICE_LIST = 9,       /* a builder's members or pairs */
    RUBY_MARSHAL_SLICE_SCRATCH = 10,   /* dump scratch: at least one word for each node that the node table can hold */
    RUBY_MARSHAL_SLICE_BUCKETS = 11    /* bucket table: likewise */
};

/* The greatest limit: levels of nesting. */
#define RUBY_MARSHAL_LIMIT 128u

/* ---- the answer words ----
 *
 * The last slice of every function. Words 0 and 1 are the two details, 0 where the call is accepted; then comes what else
 * the call answers, 0 where it is refused unless said. Words past those stay as they were. The two functions that answer
 * doubles write them into a slice before it; doubles past those stay as they were too.
 *
 * Fewer words or doubles than a function writes: it returns BAD_TABLES, and nothing at all is written, so that no detail
 * names the slice. Their number is the caller's own, so a caller that passes what is stated here never sees this.
 */
#define RUBY_MARSHAL_ANSWER_WORDS 10u /* enough for every function */
#define RUBY_MARSHAL_LOAD_WORDS 8u
#define RUBY_MARSHAL_LOAD_MEASURED_WORDS 10u
#define RUBY_MARSHAL_LOAD_HASHED_WORDS 9u
#define RUBY_MARSHAL_DUMP_WORDS 3u
#define RUBY_MARSHAL_NEW_WORDS 6u
#define RUBY_MARSHAL_ROOT_WORDS 3u
#define RUBY_MARSHAL_KIND_WORDS 3u
#define RUBY_MARSHAL_GET_WORDS 10u
#define RUBY_MARSHAL_GET_SYMBOL_WORDS 4u
#define RUBY_MARSHAL_READING_WORDS 4u
#define RUBY_MARSHAL_READING_DOUBLES 1u
#define RUBY_MARSHAL_WET_WEIGHT_WORDS 2u
#define RUBY_MARSHAL_WET_WEIGHT_DOUBLES 3u
#define RUBY_MARSHAL_BATCH_COST_WORDS 3u
#define RUBY_MARSHAL_CREATE_WORDS 7u /* every create_ function, replace_root and replace_class */

enum ruby_marshal_answer {
    RUBY_MARSHAL_FIRST = 0,      /* first detail, in two's complement: ruby_marshal_detail */
    RUBY_MARSHAL_SECOND = 1,     /* second detail, never below 0 */
    RUBY_MARSHAL_NODES = 2,      /* the loads, new, replace_root, replace_class, create_: the four counts */
    RUBY_MARSHAL_REFERENCES = 3,
    RUBY_MARSHAL_BYTES = 4,
    RUBY_MARSHAL_ROOT = 5,
    RUBY_MARSHAL_USED = 6,       /* the loads: bytes of input used, */
    RUBY_MARSHAL_DUMP_FORM = 7,  /*            and 1 where they are in dump form, else 0 */
    RUBY_MARSHAL_COPIED = 8,     /* load_measured: bytes copied to the byte table, */
    RUBY_MARSHAL_COMPARED = 9,   /*                and bytes compared in searches for names */
    RUBY_MARSHAL_LOOKED = 8,     /* load_hashed: words of the bucket table looked at */
    RUBY_MARSHAL_HANDLE = 6,     /* create_: the node; replace_root: the old root; replace_class: the old class word */
    RUBY_MARSHAL_WRITTEN = 2,    /* dump: bytes of output written */
    RUBY_MARSHAL_VALUE = 2,      /* root: the root's node; kind: the node's kind */
    RUBY_MARSHAL_WORDS = 2,      /* get: the node's eight words, 2 to 9 */
    RUBY_MARSHAL_START = 2,      /* get_symbol: where the name's bytes start, */
    RUBY_MARSHAL_LENGTH = 3,     /*             and how many they are */
    RUBY_MARSHAL_READS_AS = 2,   /* reading: enum ruby_marshal_reading, */
    RUBY_MARSHAL_WHOLE = 3,      /*          and the whole number, in two's complement: ruby_marshal_whole */
    RUBY_MARSHAL_CENTS = 2       /* batch_cost: the sum in cents */
};

/* What a node reads as. */
enum ruby_marshal_reading {
    RUBY_MARSHAL_READS_NOTHING = 0, /* not a number */
    RUBY_MARSHAL_READS_WHOLE = 1,   /* a fixnum */
    RUBY_MARSHAL_READS_DOUBLE = 2   /* a float whose text is a number */
};

/* A weighing's doubles. */
enum ruby_marshal_weighing {
    RUBY_MARSHAL_DRY = 0,
    RUBY_MARSHAL_MOISTURE = 1,
    RUBY_MARSHAL_WET = 2
};

/* ---- the arena ----
 *
 * Three tables: nodes of eight words, references (nodes by number, in lists), bytes. Four counts say how much of each is
 * used, and which node is the root. A handle is a node's number. Well formed: counts fit the tables, node count at least 1,
 * root below it, each word as below, byte and list ranges inside the counts, members below the node count, names and classes
 * symbols. Entries past the counts are not examined. An arena may hold itself: a node can be its own member.
 */
#define RUBY_MARSHAL_NODE_WORDS 8u

enum ruby_marshal_word {
    RUBY_MARSHAL_WORD_KIND = 0,
    RUBY_MARSHAL_WORD_VALUE = 1,     /* bool: 0 or 1; fixnum: 32 bits in two's complement */
    RUBY_MARSHAL_WORD_START = 1,     /* symbol, string, user-defined, float: where its bytes start, */
    RUBY_MARSHAL_WORD_LENGTH = 2,    /*                                      and how many they are */
    RUBY_MARSHAL_WORD_LOW = 1,       /* bignum: the low 32 bits of its magnitude, which is at most 2^63 - 1, */
    RUBY_MARSHAL_WORD_HIGH = 2,      /*         its high 32 bits, */
    RUBY_MARSHAL_WORD_SIGN = 4,      /*         and 1 for minus, which zero has not: ruby_marshal_bignum */
    RUBY_MARSHAL_WORD_LIST = 3,      /* where its list starts among the references, */
    RUBY_MARSHAL_WORD_COUNT = 4,     /* and its number of elements (array) or pairs (hash, object, variables) */
    RUBY_MARSHAL_WORD_NAME = 5,      /* object, user-defined: the node of its class's name */
    RUBY_MARSHAL_WORD_DEFAULT = 6,   /* hash: 0 for no default, else node + 1 */
    RUBY_MARSHAL_WORD_VARIABLES = 6, /* string, user-defined: 1 if it has a variable list, even an empty one */
    RUBY_MARSHAL_WORD_CLASS = 7      /* array, hash, string: 0 for no class of its own, else the node of its name + 1 */
};

/* Word 0. Words that a kind does not use are 0. A pair takes two references; variables are pairs of a symbol and a value. */
enum ruby_marshal_kind {
    RUBY_MARSHAL_NIL = 0,
    RUBY_MARSHAL_BOOL = 1,
    RUBY_MARSHAL_FIXNUM = 2,
    RUBY_MARSHAL_SYMBOL = 3,
    RUBY_MARSHAL_ARRAY = 4,
    RUBY_MARSHAL_HASH = 5,
    RUBY_MARSHAL_OBJECT = 6,
    RUBY_MARSHAL_STRING = 7,
    RUBY_MARSHAL_USER_DEFINED = 8,
    RUBY_MARSHAL_FLOAT = 9,
    RUBY_MARSHAL_BIGNUM = 10
};

/* ---- load and dump ---- */

/*
 * Reads input into the three tables; the two lists are work space. A value is at level 1 and its members one deeper; a
 * level above limit (0 to 128) is refused. Bytes after the root value are ignored.
 *
 * Each node but the first, each reference, byte and list entry takes at least one byte of input of its own. So an input of n
 * bytes that any tables accept is accepted by tables of n nodes, n references, n bytes, and n entries of each list.
 *
 * Answers: details, counts, bytes used, dump form.
 * Dump form is 1 exactly where ruby_marshal_dump of the arena, under the same limit and with enough output, writes the very
 * bytes that were used. It does not depend on the tables or the limit.
 * Accepted: the tables hold the arena, zeros past the counts; both lists are zero. Node 0 is nil.
 * Refused with 1 (slices 1 2 3 4 5 7 8): nothing is touched; counts 0, 0, 0, 0.
 * Refused with 3 to 12, 15, 16 or 19: tables and lists are zero; counts 1, 0, 0, 0, which with them are an arena that holds
 * nil.
 */
uint32_t ruby_marshal_load(
    const uint8_t *input, size_t input_length,
    uint32_t *nodes, size_t nodes_length,
    uint32_t *references, size_t references_length,
    uint8_t *bytes, size_t bytes_length,
    uint32_t *symbols, size_t symbols_length,
    uint32_t *objects, size_t objects_length,
    uint32_t limit,
    uint64_t *answer, size_t answer_length);

/*
 * ruby_marshal_load, with two counts of what it cost: takes what load takes, and leaves in tables and lists what load leaves.
 *
 * Answers: load's eight words, then bytes copied, bytes compared; both are 0 where it is refused.
 * Copied are the bytes of strings, user-defined values, floats and new names: where it is accepted, the byte count.
 * Compared: a name that is written out (`:`), as a value or as a name, is searched among the symbols so far, the lowest node
 * first. Each of the same length is compared with it up to and including the first byte that differs; the one of that name
 * ends the search, after all its bytes. A link to a name (`;`) compares nothing.
 */
uint32_t ruby_marshal_load_measured(
    const uint8_t *input, size_t input_length,
    uint32_t *nodes, size_t nodes_length,
    uint32_t *references, size_t references_length,
    uint8_t *bytes, size_t bytes_length,
    uint32_t *symbols, size_t symbols_length,
    uint32_t *objects, size_t objects_length,
    uint32_t limit,
    uint64_t *answer, size_t answer_length);

/*
 * ruby_marshal_load, with the search for names by a bucket table: takes what load takes, and leaves in tables and lists what
 * load leaves. load compares a name with all known ones of its length, this one with one or two, however many are known. With
 * few names load is faster by some hundredths.
 *
 * The bucket table has at least one word for each node that the node table can hold. With two a node searches stay short; with
 * one they grow where the nodes are names and little else. What it holds before the call does not matter.
 *
 * Answers: load's eight words, then the words of the bucket table looked at, 0 where it is refused.
 * Looked at: a name that is written out (`:`), as a value or as a name, is searched for from the word numbered FNV-1a of its
 * bytes (32 bits) modulo the table's words, upwards and round, to the word that holds its node or to one that is 0, which is
 * looked at too. A link to a name (`;`) looks at nothing.
 * Refused with 1 (slices 1 2 3 4 5 7 8 11): nothing is touched. After every other answer the bucket table is zero.
 */
uint32_t ruby_marshal_load_hashed(
    const uint8_t *input, size_t input_length,
    uint32_t *nodes, size_t nodes_length,
    uint32_t *references, size_t references_length,
    uint8_t *bytes, size_t bytes_length,
    uint32_t *symbols, size_t symbols_length,
    uint32_t *objects, size_t objects_length,
    uint32_t *buckets, size_t buckets_length,
    uint32_t limit,
    uint64_t *answer, size_t answer_length);

/*
 * Writes the arena's root, and all that it holds, into output, in the one form that equal graphs share. Levels are those
 * that load would count in what is written.
 *
 * Answers: details, bytes written.
 * Accepted: output has the bytes written, then zeros; scratch is zero.
 * Refused with 1 (slices 1 2 3 6 7 10) or 2: nothing is touched. Refused with 11 or 12: output and scratch are zero.
 */
uint32_t ruby_marshal_dump(
    const uint32_t *nodes, size_t nodes_length,
    const uint32_t *references, size_t references_length,
    const uint8_t *bytes, size_t bytes_length,
    size_t node_count, size_t reference_count, size_t byte_count, uint32_t root,
    uint32_t *scratch, size_t scratch_length,
    uint8_t *output, size_t output_length,
    uint32_t limit,
    uint64_t *answer, size_t answer_length);

/* ---- getters ----
 *
 * Each tests the tables (1, slices 1 2 3) and the whole arena (2) first, then its handle (13). They write the answer alone.
 * Where load or a builder has just been accepted, the arena is well formed and the node table may be read instead.
 */

/* Answers: details, the root's node. An accepted call is the check that an arena is well formed. */
uint32_t ruby_marshal_root(
    const uint32_t *nodes, size_t nodes_length,
    const uint32_t *references, size_t references_length,
    const uint8_t *bytes, size_t bytes_length,
    size_t node_count, size_t reference_count, size_t byte_count, uint32_t root,
    uint64_t *answer, size_t answer_length);

/* Answers: details, the node's kind. */
uint32_t ruby_marshal_kind(
    const uint32_t *nodes, size_t nodes_length,
    const uint32_t *references, size_t references_length,
    const uint8_t *bytes, size_t bytes_length,
    size_t node_count, size_t reference_count, size_t byte_count, uint32_t root,
    uint32_t handle,
    uint64_t *answer, size_t answer_length);

/* Answers: details, the node's eight words. */
uint32_t ruby_marshal_get(
    const uint32_t *nodes, size_t nodes_length,
    const uint32_t *references, size_t references_length,
    const uint8_t *bytes, size_t bytes_length,
    size_t node_count, size_t reference_count, size_t byte_count, uint32_t root,
    uint32_t handle,
    uint64_t *answer, size_t answer_length);

/* Answers: details, where the symbol's bytes start and how many they are. 14 if the node is no symbol. */
uint32_t ruby_marshal_get_symbol(
    const uint32_t *nodes, size_t nodes_length,
    const uint32_t *references, size_t references_length,
    const uint8_t *bytes, size_t bytes_length,
    size_t node_count, size_t reference_count, size_t byte_count, uint32_t root,
    uint32_t handle,
    uint64_t *answer, size_t answer_length);

/* ---- numbers and weighings ----
 *
 * A fixnum reads as a whole number. A float reads as a double where its text is an optional minus, then 1 to 15 digits, with
 * at most one point among them and a digit on each side of it: the double nearest to that decimal; "-0" is negative zero.
 * Nothing else reads as a number: not a bignum, however small, nor a text with an exponent. Ruby writes 100.0 as 1e2 and
 * 1200.0 as 1.2e3, so a round weight that Ruby saved as a float is no weight here; saved as a fixnum it is one.
 */

/*
 * Reads a node as a number. Tests the tables (1, slices 1 2 3), the whole arena (2), then its handle (13). That a node is no
 * number is an answer and no refusal.
 *
 * Answers: details, what the node reads as (enum ruby_marshal_reading), the whole number; and the double.
 * The whole number is 0, and the double positive zero, unless the node reads as one.
 */
uint32_t ruby_marshal_reading(
    const uint32_t *nodes, size_t nodes_length,
    const uint32_t *references, size_t references_length,
    const uint8_t *bytes, size_t bytes_length,
    size_t node_count, size_t reference_count, size_t byte_count, uint32_t root,
    uint32_t handle,
    double *number, size_t number_length,
    uint64_t *answer, size_t answer_length);

/*
 * Wet weight from the nodes of a dry weight and a moisture: dry / (1 - moisture), rounded at each of the two operations.
 *
 * Answers: details; and the weighing's three doubles, dry, moisture and wet (enum ruby_marshal_weighing). Dry and moisture are
 * what the nodes read as, whole numbers converted exactly. Negative zero is not below 0: a dry weight of "-0" is accepted, and
 * dry and wet are negative zero then.
 * Tests the tables (1, slices 1 2 3), the whole arena (2), both handles, dry before moisture (13); then the dry node, its kind,
 * text and sign, and after it the moisture node's kind and text (17, with the node); then the moisture (18).
 * Refused: the three doubles are positive zeros, unless too few words or doubles are lent.
 */
uint32_t ruby_marshal_wet_weight(
    const uint32_t *nodes, size_t nodes_length,
    const uint32_t *references, size_t references_length,
    const uint8_t *bytes, size_t bytes_length,
    size_t node_count, size_t reference_count, size_t byte_count, uint32_t root,
    uint32_t dry, uint32_t moisture,
    double *weighing, size_t weighing_length,
    uint64_t *answer, size_t answer_length);

/* ---- costs ---- */

/* The most pairs that a recipe may have. */
#define RUBY_MARSHAL_RECIPE_PAIRS 512u

/*
 * What a recipe costs at given prices. The recipe is a hash of kilograms, the prices are a hash of cents per tonne: fixnums
 * from 0 up under symbols. Keys match by the bytes of their names, and in either hash a pair supersedes those before it of its
 * name. Hash defaults play no part. Both handles may be one node.
 *
 * Answers: details, the sum in cents: of each pair of the recipe that is not superseded kilograms * cents / 1000, rounded to a
 * cent, an exact half going up. The sum is below 2^62, and 0 where the call is refused.
 * Tests the tables (1, slices 1 2 3), the whole arena (2), both handles, recipe before prices (13); then the recipe whole, and
 * after it the prices whole (20): the kind, and of the recipe alone the number of pairs as written, at most 512, with the
 * handle; each pair in order, superseded ones too, first its key, then its value, with the node; then, in the recipe's order,
 * that each pair that is not superseded has a price, be it 0 (21, with the key's node).
 * At worst each key of the recipe is compared with every key of both hashes.
 */
uint32_t ruby_marshal_batch_cost(
    const uint32_t *nodes, size_t nodes_length,
    const uint32_t *references, size_t references_length,
    const uint8_t *bytes, size_t bytes_length,
    size_t node_count, size_t reference_count, size_t byte_count, uint32_t root,
    uint32_t recipe, uint32_t prices,
    uint64_t *answer, size_t answer_length);

/* ---- builder ---- */

/*
 * An arena that holds nil. Answers: details, counts.
 * Accepted: the tables are zero; counts 1, 0, 0, 0. Refused with 1 (slices 1 2 3): nothing is touched; counts 0, 0, 0, 0.
 */
uint32_t ruby_marshal_new(
    uint32_t *nodes, size_t nodes_length,
    uint32_t *references, size_t references_length,
    uint8_t *bytes, size_t bytes_length,
    uint64_t *answer, size_t answer_length);

/*
 * The functions from here on answer: details, counts, a handle.
 * Each tests the tables (1, slices 1 2 3, and 8 or 9 where it takes one), the whole arena (2), handles in order (13), names
 * (14), a magnitude (16), then space for bytes, references and a node (12).
 * Accepted: a node is appended, with its bytes and its list, and its handle answered; root and all else stay. The counts
 * answered are those to pass next; the arena is well formed again.
 * Refused: nothing is changed; the counts are those given, the handle is 0.
 */

/* The root replaced by handle; the old root is answered. Only the counts change: no table is written. */
uint32_t ruby_marshal_replace_root(
    const uint32_t *nodes, size_t nodes_length,
    const uint32_t *references, size_t references_length,
    const uint8_t *bytes, size_t bytes_length,
    size_t node_count, size_t reference_count, size_t byte_count, uint32_t root,
    uint32_t handle,
    uint64_t *answer, size_t answer_length);

/*
 * The class of an array, a hash or a string replaced; class_word is 0 for none, else its name's node + 1. The old word is
 * answered. Only that word changes: counts stay. 13 names the handle, then class_word less 1; 14 the handle where it is of
 * another kind, also for no class, then class_word less 1 where that is no symbol.
 */
uint32_t ruby_marshal_replace_class(
    uint32_t *nodes, size_t nodes_length,
    const uint32_t *references, size_t references_length,
    const uint8_t *bytes, size_t bytes_length,
    size_t node_count, size_t reference_count, size_t byte_count, uint32_t root,
    uint32_t handle, uint32_t class_word,
    uint64_t *answer, size_t answer_length);

uint32_t ruby_marshal_create_nil(
    uint32_t *nodes, size_t nodes_length,
    const uint32_t *references, size_t references_length,
    const uint8_t *bytes, size_t bytes_length,
    size_t node_count, size_t reference_count, size_t byte_count, uint32_t root,
    uint64_t *answer, size_t answer_length);

uint32_t ruby_marshal_create_bool(
    uint32_t *nodes, size_t nodes_length,
    const uint32_t *references, size_t references_length,
    const uint8_t *bytes, size_t bytes_length,
    size_t node_count, size_t reference_count, size_t byte_count, uint32_t root,
    bool value,
    uint64_t *answer, size_t answer_length);

uint32_t ruby_marshal_create_fixnum(
    uint32_t *nodes, size_t nodes_length,
    const uint32_t *references, size_t references_length,
    const uint8_t *bytes, size_t bytes_length,
    size_t node_count, size_t reference_count, size_t byte_count, uint32_t root,
    int32_t value,
    uint64_t *answer, size_t answer_length);

/* The lowest symbol with that name, for which nothing is added; or a new one. */
uint32_t ruby_marshal_create_symbol(
    uint32_t *nodes, size_t nodes_length,
    const uint32_t *references, size_t references_length,
    uint8_t *bytes, size_t bytes_length,
    size_t node_count, size_t reference_count, size_t byte_count, uint32_t root,
    const uint8_t *name, size_t name_length,
    uint64_t *answer, size_t answer_length);

/* A new symbol, also where there is one with that name. */
uint32_t ruby_marshal_create_new_symbol(
    uint32_t *nodes, size_t nodes_length,
    const uint32_t *references, size_t references_length,
    uint8_t *bytes, size_t bytes_length,
    size_t node_count, size_t reference_count, size_t byte_count, uint32_t root,
    const uint8_t *name, size_t name_length,
    uint64_t *answer, size_t answer_length);

/* Members are handles. */
uint32_t ruby_marshal_create_array(
    uint32_t *nodes, size_t nodes_length,
    uint32_t *references, size_t references_length,
    const uint8_t *bytes, size_t bytes_length,
    size_t node_count, size_t reference_count, size_t byte_count, uint32_t root,
    const uint32_t *members, size_t members_length,
    uint64_t *answer, size_t answer_length);

/* Pairs are handles, key and value in turn. default_word is 0 for no default, else its node + 1; 13 names that word less 1. */
uint32_t ruby_marshal_create_hash(
    uint32_t *nodes, size_t nodes_length,
    uint32_t *references, size_t references_length,
    const uint8_t *bytes, size_t bytes_length,
    size_t node_count, size_t reference_count, size_t byte_count, uint32_t root,
    const uint32_t *pairs, size_t pairs_length,
    uint32_t default_word,
    uint64_t *answer, size_t answer_length);

/* name is the class's symbol; pairs are a variable's symbol and its value in turn. */
uint32_t ruby_marshal_create_object(
    uint32_t *nodes, size_t nodes_length,
    uint32_t *references, size_t references_length,
    const uint8_t *bytes, size_t bytes_length,
    size_t node_count, size_t reference_count, size_t byte_count, uint32_t root,
    uint32_t name,
    const uint32_t *pairs, size_t pairs_length,
    uint64_t *answer, size_t answer_length);

/* A string without variables. */
uint32_t ruby_marshal_create_string(
    uint32_t *nodes, size_t nodes_length,
    const uint32_t *references, size_t references_length,
    uint8_t *bytes, size_t bytes_length,
    size_t node_count, size_t reference_count, size_t byte_count, uint32_t root,
    const uint8_t *value, size_t value_length,
    uint64_t *answer, size_t answer_length);

/* A user-defined value without variables; name is the class's symbol. */
uint32_t ruby_marshal_create_user_defined(
    uint32_t *nodes, size_t nodes_length,
    const uint32_t *references, size_t references_length,
    uint8_t *bytes, size_t bytes_length,
    size_t node_count, size_t reference_count, size_t byte_count, uint32_t root,
    uint32_t name,
    const uint8_t *value, size_t value_length,
    uint64_t *answer, size_t answer_length);

/* A float; value is its text, which is kept and not read: any bytes, also none. */
uint32_t ruby_marshal_create_float(
    uint32_t *nodes, size_t nodes_length,
    const uint32_t *references, size_t references_length,
    uint8_t *bytes, size_t bytes_length,
    size_t node_count, size_t reference_count, size_t byte_count, uint32_t root,
    const uint8_t *value, size_t value_length,
    uint64_t *answer, size_t answer_length);

/*
 * A bignum: its sign, and the low and high 32 bits of its magnitude, at most 2^63 - 1; a greater one is refused with 16, its
 * detail 4. Zero is plus, whatever minus says. However small, it stays a bignum.
 */
uint32_t ruby_marshal_create_bignum(
    uint32_t *nodes, size_t nodes_length,
    const uint32_t *references, size_t references_length,
    const uint8_t *bytes, size_t bytes_length,
    size_t node_count, size_t reference_count, size_t byte_count, uint32_t root,
    bool minus, uint32_t low, uint32_t high,
    uint64_t *answer, size_t answer_length);

/* ---- helps, which the library does not have ---- */

/* The four counts, as the functions take them. */
struct ruby_marshal_counts {
    size_t nodes;
    size_t references;
    size_t bytes;
    uint32_t root;
};

/* The counts of an answer that has them. */
static inline struct ruby_marshal_counts ruby_marshal_counts_of(const uint64_t *answer)
{
    struct ruby_marshal_counts c;
    c.nodes = (size_t)answer[RUBY_MARSHAL_NODES];
    c.references = (size_t)answer[RUBY_MARSHAL_REFERENCES];
    c.bytes = (size_t)answer[RUBY_MARSHAL_BYTES];
    c.root = (uint32_t)answer[RUBY_MARSHAL_ROOT];
    return c;
}

/* The first detail with its sign. */
static inline int64_t ruby_marshal_detail(const uint64_t *answer)
{
    uint64_t word = answer[RUBY_MARSHAL_FIRST];
    return word <= INT64_MAX ? (int64_t)word : -(int64_t)~word - 1;
}

/* The whole number that a node reads as. */
static inline int32_t ruby_marshal_whole(const uint64_t *answer)
{
    uint64_t word = answer[RUBY_MARSHAL_WHOLE];
    return word <= INT32_MAX ? (int32_t)word : -(int32_t)~word - 1;
}

/* A fixnum's word 1 as a number. */
static inline int32_t ruby_marshal_fixnum(uint32_t word)
{
    return word <= INT32_MAX ? (int32_t)word : -(int32_t)~word - 1;
}

/* A bignum's words 1, 2 and 4 as a number, in a well formed arena. */
static inline int64_t ruby_marshal_bignum(uint32_t low, uint32_t high, uint32_t sign)
{
    int64_t magnitude = (int64_t)high << 32 | low;
    return sign != 0 ? -magnitude : magnitude;
}

/* The name of what a function returns. */
static inline const char *ruby_marshal_name(uint32_t returned)
{
    switch (returned) {
    case RUBY_MARSHAL_ACCEPTED: return "ACCEPTED";
    case RUBY_MARSHAL_BAD_TABLES: return "BAD-TABLES";
    case RUBY_MARSHAL_BAD_ARENA: return "BAD-ARENA";
    case RUBY_MARSHAL_INVALID_VERSION: return "INVALID-VERSION";
    case RUBY_MARSHAL_SHORT_INPUT: return "SHORT-INPUT";
    case RUBY_MARSHAL_INVALID_KIND: return "INVALID-KIND";
    case RUBY_MARSHAL_NEGATIVE_COUNT: return "NEGATIVE-COUNT";
    case RUBY_MARSHAL_MISSING_SYMBOL: return "MISSING-SYMBOL";
    case RUBY_MARSHAL_MISSING_OBJECT: return "MISSING-OBJECT";
    case RUBY_MARSHAL_NOT_A_SYMBOL: return "NOT-A-SYMBOL";
    case RUBY_MARSHAL_NOT_AN_OBJECT: return "NOT-AN-OBJECT";
    case RUBY_MARSHAL_TOO_DEEP: return "TOO-DEEP";
    case RUBY_MARSHAL_NO_SPACE: return "NO-SPACE";
    case RUBY_MARSHAL_BAD_HANDLE: return "BAD-HANDLE";
    case RUBY_MARSHAL_WRONG_KIND: return "WRONG-KIND";
    case RUBY_MARSHAL_BAD_SIGN: return "BAD-SIGN";
    case RUBY_MARSHAL_TOO_BIG: return "TOO-BIG";
    case RUBY_MARSHAL_NOT_A_WEIGHT: return "NOT-A-WEIGHT";
    case RUBY_MARSHAL_BAD_MOISTURE: return "BAD-MOISTURE";
    case RUBY_MARSHAL_WRONG_SIGN: return "WRONG-SIGN";
    case RUBY_MARSHAL_NOT_A_RECIPE: return "NOT-A-RECIPE";
    case RUBY_MARSHAL_NO_PRICE: return "NO-PRICE";
    case RUBY_MARSHAL_NOT_WRAPPABLE: return "NOT-WRAPPABLE";
    default: return "?";
    }
}

#ifdef __cplusplus
}
#endif

#endif
