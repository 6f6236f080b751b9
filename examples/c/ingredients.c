/*
 * Prints the ingredients of a recipe file, or why it is refused: the refusal's number, name and details.
 *
 * An ingredient is a name with an amount: a pair of a symbol and an integer or float in a hash, or an array of the two, as a step
 * has. An integer is a fixnum or a bignum; a float is printed by its text.
 *
 * usage: ingredients FILE
 */
#include "ruby_marshal.h"

#include <inttypes.h>
#include <stdio.h>

#define LONGEST 16384
#define NODES 1000
#define REFERENCES 4000
#define LIMIT 64

static uint8_t input[LONGEST + 1];
static uint32_t nodes[NODES * RUBY_MARSHAL_NODE_WORDS];
static uint32_t references[REFERENCES];
static uint8_t bytes[LONGEST];
static uint32_t symbols[NODES];
static uint32_t objects[NODES];

/* A node's words. load has accepted the file, so every handle in the tables is below the node count. */
static const uint32_t *node(uint32_t handle)
{
    return nodes + (size_t)handle * RUBY_MARSHAL_NODE_WORDS;
}

/* The bytes of a node that has some. */
static void text(const uint32_t *n)
{
    fwrite(bytes + n[RUBY_MARSHAL_WORD_START], 1, n[RUBY_MARSHAL_WORD_LENGTH], stdout);
}

static void ingredient(uint32_t name, uint32_t amount)
{
    const uint32_t *n = node(name);
    const uint32_t *a = node(amount);
    uint32_t i;
    if (n[RUBY_MARSHAL_WORD_KIND] != RUBY_MARSHAL_SYMBOL)
        return;
    switch (a[RUBY_MARSHAL_WORD_KIND]) {
    case RUBY_MARSHAL_FIXNUM:
        printf("%11" PRId32, ruby_marshal_fixnum(a[RUBY_MARSHAL_WORD_VALUE]));
        break;
    case RUBY_MARSHAL_BIGNUM:
        printf("%11" PRId64,
            ruby_marshal_bignum(a[RUBY_MARSHAL_WORD_LOW], a[RUBY_MARSHAL_WORD_HIGH], a[RUBY_MARSHAL_WORD_SIGN]));
        break;
    case RUBY_MARSHAL_FLOAT:
        for (i = a[RUBY_MARSHAL_WORD_LENGTH]; i < 11; i++)
            putchar(' ');
        text(a);
        break;
    default:
        return;
    }
    putchar(' ');
    text(n);
    putchar('\n');
}

int main(int argc, char **argv)
{
    uint64_t answer[RUBY_MARSHAL_LOAD_WORDS];
    struct ruby_marshal_counts counts;
    uint32_t refused, handle, i;
    size_t length;
    FILE *file;

    if (argc != 2) {
        fprintf(stderr, "usage: ingredients FILE\n");
        return 2;
    }
    file = fopen(argv[1], "rb");
    if (file == NULL) {
        perror(argv[1]);
        return 2;
    }
    length = fread(input, 1, sizeof input, file);
    if (ferror(file)) {
        perror(argv[1]);
        fclose(file);
        return 2;
    }
    fclose(file);
    if (length > LONGEST) {
        printf("refused: %d %s %d 0\n", RUBY_MARSHAL_NO_SPACE, ruby_marshal_name(RUBY_MARSHAL_NO_SPACE), RUBY_MARSHAL_SLICE_INPUT);
        return 1;
    }

    refused = ruby_marshal_load(
        input, length,
        nodes, sizeof nodes / sizeof nodes[0],
        references, REFERENCES,
        bytes, sizeof bytes,
        symbols, NODES,
        objects, NODES,
        LIMIT,
        answer, RUBY_MARSHAL_LOAD_WORDS);
    if (refused != RUBY_MARSHAL_ACCEPTED) {
        printf("refused: %" PRIu32 " %s %" PRId64 " %" PRIu64 "\n",
            refused, ruby_marshal_name(refused), ruby_marshal_detail(answer), answer[RUBY_MARSHAL_SECOND]);
        return 1;
    }

    /* Nodes stand in the order of the file. One pass over them needs no recursion, and ends also where a recipe holds itself. */
    counts = ruby_marshal_counts_of(answer);
    for (handle = 0; handle < counts.nodes; handle++) {
        const uint32_t *n = node(handle);
        const uint32_t *list = references + n[RUBY_MARSHAL_WORD_LIST];
        switch (n[RUBY_MARSHAL_WORD_KIND]) {
        case RUBY_MARSHAL_HASH:
            for (i = 0; i < n[RUBY_MARSHAL_WORD_COUNT]; i++)
                ingredient(list[2 * i], list[2 * i + 1]);
            break;
        case RUBY_MARSHAL_ARRAY:
            if (n[RUBY_MARSHAL_WORD_COUNT] == 2)
                ingredient(list[0], list[1]);
            break;
        default:
            break;
        }
    }
    return 0;
}
