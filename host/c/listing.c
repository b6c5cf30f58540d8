/* Why a value has its type: a host in C that asks for the listing of a slot. It prints each answer, and the listing row by row. */
#include "example.h"

#include <stdio.h>
#include <stdlib.h>

#define BUDGET 256

/* Identifiers; each has the slot of its number, and the slot the type of its number. */
enum { CHOICE, RESULT, LOADED, SETTER, OUT, IDENTIFIERS };

static const uint8_t names[] = {'s', 'e', 't', 'C', 'o', 'u', 'n', 't'};

static struct image image;

/* What is lent; the table words and listing words grow. */
static uint32_t *work, *tables, *listing;
static size_t work_words, table_words, listing_words;

static void write_tables(void) {
    start_table(&image, INFER_TYPES_WORD_NAMES, 1);
    PUT(&image, "name: start, bytes", 0, sizeof(names));
    start_table(&image, INFER_TYPES_WORD_IDENTIFIERS, IDENTIFIERS);
    for (uint32_t k = 0; k < IDENTIFIERS; k++)
        PUT(&image, "identifier: slot, name", k, k == SETTER ? 0 : INFER_TYPES_NONE);
    start_table(&image, INFER_TYPES_WORD_SLOTS, IDENTIFIERS);
    for (uint32_t k = 0; k < IDENTIFIERS; k++)
        PUT(&image, "slot: type", k);
    start_table(&image, INFER_TYPES_WORD_TYPES, IDENTIFIERS);
    for (uint32_t k = 0; k < IDENTIFIERS; k++)
        PUT(&image, "type: variable of the slot", INFER_TYPES_TYPE_VAR, k, 0);
    start_table(&image, INFER_TYPES_WORD_LISTS, 0);
    write_shapes(&image);
    start_table(&image, INFER_TYPES_WORD_PROPERTIES, 0);
}

/* setCount is loaded and called; the choice is one of what was loaded and what the call gave. */
static void write_function(void) {
    start_function(&image);
    PUT(&image, "kind, returns, parameters, context, blocks", INFER_TYPES_FN_OTHER, OUT, 0, 0, 2);
    PUT(&image, "phis, instructions", 0, 2);
    PUT(&image, "load", INFER_TYPES_KIND_LOAD_LOCAL, LOADED, 0, 1, INFER_TYPES_TAG_PLACE, SETTER, 0);
    PUT(&image, "call", INFER_TYPES_KIND_CALL_EXPRESSION, RESULT, 0, 1, INFER_TYPES_TAG_PLACE, LOADED, 0);
    PUT(&image, "no Return", INFER_TYPES_TERMINAL_OTHER, 0);
    PUT(&image, "phi: place, operands", 1, CHOICE, 2, LOADED, RESULT);
    PUT(&image, "instructions", 0);
    PUT(&image, "Return", INFER_TYPES_TERMINAL_RETURN, CHOICE);
    end_function(&image);
}

static struct infer_types_listing_answer call(uint32_t slot) {
    const struct infer_types_listing_answer answer =
        infer_listing(image.words, image.length, names, sizeof(names), BUDGET, work, work_words, tables, table_words,
                      slot, listing, listing_words);
    printf("slot %lu listing words %lu ", (unsigned long)slot, (unsigned long)answer.listing_words);
    print_answer(&answer.answer);
    return answer;
}

/* Lends more table words and listing words where they are too few. */
static uint32_t explain(uint32_t slot) {
    for (;;) {
        const struct infer_types_listing_answer answer = call(slot);
        switch (answer.answer.number) {
        case INFER_TYPES_REFUSED_TABLE_WORDS:
            table_words = answer.answer.table_words;
            tables = longer(tables, table_words);
            break;
        case INFER_TYPES_REFUSED_LISTING_WORDS:
            listing_words = answer.listing_words;
            listing = longer(listing, listing_words);
            break;
        case INFER_TYPES_DONE:
            print_listing(listing, answer.listing_words);
            return INFER_TYPES_DONE;
        default:
            return answer.answer.number;
        }
    }
}

int main(void) {
    write_header(&image);
    write_tables();
    write_function();
    work_words = INFER_TYPES_WORK_WORDS(image.length, BUDGET);
    work = words_of(work_words);
    /* the choice; the setter, with words enough; and a slot that isn't there */
    const uint32_t number = explain(CHOICE), setter = explain(SETTER), none = explain(IDENTIFIERS + 1);
    free(listing);
    free(tables);
    free(work);
    return number == INFER_TYPES_DONE && setter == INFER_TYPES_DONE && none == INFER_TYPES_REFUSED_SLOT ? EXIT_SUCCESS : EXIT_FAILURE;
}
