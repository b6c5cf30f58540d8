/* What the examples share: an image is written word by word, and what a call leaves is printed. */
#ifndef EXAMPLE_H
#define EXAMPLE_H

#include "../infer_types.h"

/* Words that stand together, and what they are. */
struct line {
    size_t at, words;
    const char *meaning;
};

/* An image, as far as it is written. */
struct image {
    uint32_t words[128];
    size_t length;
    struct line lines[64];
    size_t line_count;
};

void put(struct image *image, const char *meaning, const uint32_t *words, size_t count);

#define PUT(image, meaning, ...) \
    put(image, meaning, (const uint32_t[]){__VA_ARGS__}, sizeof((const uint32_t[]){__VA_ARGS__}) / sizeof(uint32_t))

/* The header, with the option for setters. Counts and offsets are not known yet. */
void write_header(struct image *image);

/* A table of so many rows starts here. */
void start_table(struct image *image, size_t header_word, uint32_t rows);

/* The nine shapes that every image has, none of them registered. */
void write_shapes(struct image *image);

/* The table of the functions, of which there is one; its body follows, and with that the image ends. */
void start_function(struct image *image);
void end_function(struct image *image);

/* Prints a position and the words there, up to the column of what they are. */
void print_words(const uint32_t *words, size_t at, size_t count);

void print_answer(const struct infer_types_answer *answer);

/* Prints the tables that start there. */
void print_tables(const uint32_t *tables, size_t at, const struct infer_types_answer *answer);

/* Prints the rows of a listing of so many words. */
void print_listing(const uint32_t *listing, size_t words);

/* So many words to lend, and so many whose first are these. */
uint32_t *words_of(size_t count);
uint32_t *longer(uint32_t *words, size_t count);

#endif
