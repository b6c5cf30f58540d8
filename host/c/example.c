#include "example.h"

#include <stdio.h>
#include <stdlib.h>
#include <string.h>

/* The column of what words mean. */
#define MEANINGS 16

void put(struct image *image, const char *meaning, const uint32_t *words, size_t count) {
    image->lines[image->line_count++] = (struct line){image->length, count, meaning};
    memcpy(image->words + image->length, words, count * sizeof(*words));
    image->length += count;
}

void write_header(struct image *image) {
    PUT(image, "version", INFER_TYPES_VERSION);
    PUT(image, "options: setters", INFER_TYPES_OPTION_SETTERS);
    PUT(image, "no hook type", INFER_TYPES_NONE);
    PUT(image, "names: count, offset", 0, 0);
    PUT(image, "identifiers: count, offset", 0, 0);
    PUT(image, "slots: count, offset", 0, 0);
    PUT(image, "types: count, offset", 0, 0);
    PUT(image, "list words: count, offset", 0, 0);
    PUT(image, "shapes: count, offset", 0, 0);
    PUT(image, "properties: count, offset", 0, 0);
    PUT(image, "functions: count, offset", 0, 0);
    PUT(image, "image length", 0);
}

void start_table(struct image *image, size_t header_word, uint32_t rows) {
    image->words[header_word] = rows;
    image->words[header_word + 1] = (uint32_t)image->length;
}

void write_shapes(struct image *image) {
    static const char *const shapes[INFER_TYPES_SHAPES] = {
        "shape 0, PROPS: absent, no properties",
        "shape 1, USE_REF",
        "shape 2, SET_STATE",
        "shape 3, OBJECT",
        "shape 4, ARRAY",
        "shape 5, FUNCTION",
        "shape 6, JSX",
        "shape 7, REF_VALUE",
        "shape 8, MIXED_READONLY",
    };
    start_table(image, INFER_TYPES_WORD_SHAPES, INFER_TYPES_SHAPES);
    for (size_t shape = 0; shape < INFER_TYPES_SHAPES; shape++)
        PUT(image, shapes[shape], INFER_TYPES_ABSENT, 0, 0);
}

void start_function(struct image *image) {
    start_table(image, INFER_TYPES_WORD_FUNCTIONS, 1);
    PUT(image, "function 0: offset, words", (uint32_t)image->length + 2, 0);
}

void end_function(struct image *image) {
    uint32_t *const row = image->words + image->words[INFER_TYPES_WORD_FUNCTIONS + 1];
    row[1] = (uint32_t)image->length - row[0];
    image->words[INFER_TYPES_WORD_LENGTH] = (uint32_t)image->length;
}

/* Prints a word; the second text is that of NONE. */
static int print_word(uint32_t word, const char *none) {
    return word == INFER_TYPES_NONE ? printf(" %s", none) : printf(" %lu", (unsigned long)word);
}

void print_words(const uint32_t *words, size_t at, size_t count) {
    int width = printf("%3lu ", (unsigned long)at);
    for (size_t k = 0; k < count; k++)
        width += print_word(words[at + k], "NONE");
    printf("%*s", width < MEANINGS ? MEANINGS - width : 1, "");
}

void print_answer(const struct infer_types_answer *answer) {
    printf("answer");
    print_word(answer->number, "not run");
    printf(" steps %lu slots %lu bindings %lu table words %lu", (unsigned long)answer->steps, (unsigned long)answer->slots,
           (unsigned long)answer->bindings, (unsigned long)answer->table_words);
    printf(" exact %lu star %lu hook %lu nothing %lu\n", (unsigned long)answer->exact, (unsigned long)answer->star,
           (unsigned long)answer->hook, (unsigned long)answer->nothing);
}

/* The kinds of types: what is printed, and the words before the types that are parts of one. */
static const struct {
    const char *text;
    size_t words;
} kinds[] = {{"var", 2}, {"primitive", 1}, {"poly", 1}, {"method", 1}, {"object", 2}, {"function", 2}, {"constructor", 2}, {"phi", 2}};

/* How many parts the type has that starts there. */
static size_t parts(const uint32_t *type) {
    switch (type[0]) {
    case INFER_TYPES_TYPE_FUNCTION:
    case INFER_TYPES_TYPE_CONSTRUCTOR:
        return 1;
    case INFER_TYPES_TYPE_PHI:
        return type[1];
    default:
        return 0;
    }
}

/* Where the type ends that starts there. */
static size_t end_of_type(const uint32_t *words, size_t at) {
    for (size_t left = 1; left > 0; left--) {
        left += parts(words + at);
        at += kinds[words[at]].words;
    }
    return at;
}

static void print_type(const uint32_t *words, size_t at) {
    for (const size_t end = end_of_type(words, at); at < end; at += kinds[words[at]].words) {
        printf(" %s", kinds[words[at]].text);
        if (kinds[words[at]].words == 2)
            print_word(words[at + 1], "none");
    }
    printf("\n");
}

/* Prints a row of the tables, whose type stands at its end; gives where the next one starts. */
static size_t print_row(const uint32_t *tables, size_t at, size_t type, const char *what, uint32_t slot) {
    const size_t end = end_of_type(tables, type);
    print_words(tables, at, end - at);
    printf("%s %lu", what, (unsigned long)slot);
    print_type(tables, type);
    return end;
}

void print_tables(const uint32_t *tables, size_t at, const struct infer_types_answer *answer) {
    for (uint32_t slot = 0; slot < answer->slots; slot++)
        at = print_row(tables, at, at, "slot", slot);
    for (uint32_t k = 0; k < answer->bindings; k++)
        at = print_row(tables, at, at + 1, "bind", tables[at]);
}

void print_listing(const uint32_t *listing, size_t words) {
    for (size_t at = 0; at < words;) {
        if (listing[at + 1] != INFER_TYPES_NONE) {
            at = print_row(listing, at, at + 1, "list", listing[at]);
        } else {
            print_words(listing, at, 2);
            printf("list %lu none\n", (unsigned long)listing[at]);
            at += 2;
        }
    }
}

uint32_t *words_of(size_t count) {
    return longer(NULL, count);
}

uint32_t *longer(uint32_t *words, size_t count) {
    words = realloc(words, count * sizeof(*words));
    if (words == NULL)
        exit(EXIT_FAILURE);
    return words;
}
