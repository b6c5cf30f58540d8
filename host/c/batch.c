/* Three screens in one list: a whole host in C. It prints the list, the number and the answers of each call, and all tables. */
#include "example.h"

#include <stdio.h>
#include <stdlib.h>
#include <string.h>

#define BUDGET 256
/* The table words of the first call: enough for one screen, and not for two. */
#define FIRST_TABLE_WORDS 30

#define COUNT(array) (sizeof(array) / sizeof((array)[0]))

/* The identifiers of every screen; each has the slot of its number, and the slot the type of its number. */
enum { VALUE, OUT, SETTER, LOADED, IDENTIFIERS };

/* Blocks: their phis, instructions and terminal. */
static const uint32_t calls_setter[] = {
    0, 2,
    INFER_TYPES_KIND_LOAD_LOCAL, LOADED, 0, 1, INFER_TYPES_TAG_PLACE, SETTER, 0,
    INFER_TYPES_KIND_CALL_EXPRESSION, VALUE, 0, 1, INFER_TYPES_TAG_PLACE, LOADED, 0,
    INFER_TYPES_TERMINAL_RETURN, VALUE};
static const uint32_t gives_number[] = {
    0, 1,
    INFER_TYPES_KIND_PRIMITIVE, VALUE, 0, 0,
    INFER_TYPES_TERMINAL_RETURN, VALUE};
static const uint32_t calls_itself[] = {
    0, 1,
    INFER_TYPES_KIND_CALL_EXPRESSION, VALUE, 0, 1, INFER_TYPES_TAG_PLACE, VALUE, 0,
    INFER_TYPES_TERMINAL_OTHER, 0};

/* The screens of the host, and the name of the setter in each. */
static const struct {
    const char *text, *setter;
    const uint32_t *block;
    size_t block_words;
} screens[] = {
    {"setCount()", "setCount", calls_setter, COUNT(calls_setter)},
    {"1", "", gives_number, COUNT(gives_number)},
    {"value = value()", "", calls_itself, COUNT(calls_itself)},
};
enum { SCREENS = COUNT(screens) };

/* What is lent for all of them. */
static struct infer_types_screen list[SCREENS];
static struct infer_types_answer answers[SCREENS];
static uint32_t images[SCREENS * 128];
static uint8_t names[SCREENS * 8];
static size_t image_words, name_bytes, work_words;

static void write_image(struct image *image, size_t screen) {
    write_header(image);
    start_table(image, INFER_TYPES_WORD_NAMES, 1);
    PUT(image, "name: start, bytes", 0, (uint32_t)strlen(screens[screen].setter));
    start_table(image, INFER_TYPES_WORD_IDENTIFIERS, IDENTIFIERS);
    for (uint32_t k = 0; k < IDENTIFIERS; k++)
        PUT(image, "identifier: slot, name", k, k == SETTER ? 0 : INFER_TYPES_NONE);
    start_table(image, INFER_TYPES_WORD_SLOTS, IDENTIFIERS);
    for (uint32_t k = 0; k < IDENTIFIERS; k++)
        PUT(image, "slot: type", k);
    start_table(image, INFER_TYPES_WORD_TYPES, IDENTIFIERS);
    for (uint32_t k = 0; k < IDENTIFIERS; k++)
        PUT(image, "type: variable of the slot", INFER_TYPES_TYPE_VAR, k, 0);
    start_table(image, INFER_TYPES_WORD_LISTS, 0);
    write_shapes(image);
    start_table(image, INFER_TYPES_WORD_PROPERTIES, 0);
    start_function(image);
    PUT(image, "kind, returns, parameters, context, blocks", INFER_TYPES_FN_OTHER, OUT, 0, 0, 1);
    put(image, "block", screens[screen].block, screens[screen].block_words);
    end_function(image);
}

/* Puts an image and its names after those of the screens before it. */
static void add(size_t screen) {
    struct image image = {0};
    write_image(&image, screen);
    const size_t bytes = strlen(screens[screen].setter), work = INFER_TYPES_WORK_WORDS(image.length, BUDGET);
    list[screen] = (struct infer_types_screen){
        .image_start = (uint32_t)image_words,
        .image_words = (uint32_t)image.length,
        .name_start = (uint32_t)name_bytes,
        .name_bytes = (uint32_t)bytes,
        .budget = BUDGET,
    };
    memcpy(images + image_words, image.words, image.length * sizeof(*images));
    memcpy(names + name_bytes, screens[screen].setter, bytes);
    image_words += image.length;
    name_bytes += bytes;
    if (work > work_words)
        work_words = work;
}

static void print_list(void) {
    for (size_t screen = 0; screen < SCREENS; screen++) {
        print_words((const uint32_t *)list, INFER_TYPES_LIST_ROW * screen, INFER_TYPES_LIST_ROW);
        printf("screen %lu, %s\n", (unsigned long)screen, screens[screen].text);
    }
}

/* One call over the screens from one on; prints its number, and the answers if it went through the list. */
static uint32_t call(size_t from, uint32_t *work, uint32_t *tables, size_t table_words) {
    const size_t rows = SCREENS - from;
    const uint32_t number = infer_batch((const uint32_t *)(list + from), INFER_TYPES_LIST_ROW * rows,
                                        images, image_words, names, name_bytes,
                                        work, work_words, tables, table_words,
                                        (uint32_t *)(answers + from), INFER_TYPES_ANSWER_ROW * rows);
    printf("call %lu from screen %lu on, %lu table words\n", (unsigned long)number, (unsigned long)from, (unsigned long)table_words);
    for (size_t screen = from; number == INFER_TYPES_DONE && screen < SCREENS; screen++) {
        printf("screen %lu ", (unsigned long)screen);
        print_answer(&answers[screen]);
    }
    return number;
}

/* Goes through the list. Where the table words come to an end, it goes on from that screen with more; tables that are there stay. */
static uint32_t run(uint32_t *work, uint32_t **tables) {
    size_t from = 0, written = 0, table_words = FIRST_TABLE_WORDS;
    for (;;) {
        *tables = longer(*tables, table_words);
        const uint32_t number = call(from, work, *tables + written, table_words - written);
        if (number != INFER_TYPES_DONE)
            return number;
        for (; from < SCREENS && answers[from].number != INFER_TYPES_REFUSED_TABLE_WORDS; from++)
            written += answers[from].table_words;
        if (from == SCREENS)
            return INFER_TYPES_DONE;
        table_words = written + answers[from].table_words + FIRST_TABLE_WORDS;
    }
}

/* Prints the tables of the screens that are done, which stand one after another. */
static void print_all_tables(const uint32_t *tables) {
    size_t at = 0;
    for (size_t screen = 0; screen < SCREENS; screen++) {
        if (answers[screen].number == INFER_TYPES_DONE) {
            printf("tables of screen %lu\n", (unsigned long)screen);
            print_tables(tables, at, &answers[screen]);
        }
        at += answers[screen].table_words;
    }
}

int main(void) {
    for (size_t screen = 0; screen < SCREENS; screen++)
        add(screen);
    print_list();
    uint32_t *work = words_of(work_words), *tables = NULL;
    const uint32_t number = run(work, &tables);
    if (number == INFER_TYPES_DONE)
        print_all_tables(tables);
    free(tables);
    free(work);
    return number == INFER_TYPES_DONE ? EXIT_SUCCESS : EXIT_FAILURE;
}
