/* A component that calls a setter: a whole host in C. It prints its image and the tables, word by word, as docs/IMAGE.md has them. */
#include "example.h"

#include <stdio.h>
#include <stdlib.h>

#define BUDGET 1024

/* Identifiers; each has the slot of its number, and the slot the type of its number. */
enum { PROPS, LOADED, RESULT, OUT, SETTER, IDENTIFIERS };

static const uint8_t names[] = {'s', 'e', 't', 'C', 'o', 'u', 'n', 't'};

static struct image image;

static void write_tables(void) {
    start_table(&image, INFER_TYPES_WORD_NAMES, 1);
    PUT(&image, "name 0, setCount: start, bytes", 0, sizeof(names));
    start_table(&image, INFER_TYPES_WORD_IDENTIFIERS, IDENTIFIERS);
    PUT(&image, "identifier 0, the props: slot, no name", PROPS, INFER_TYPES_NONE);
    PUT(&image, "identifier 1, what is loaded", LOADED, INFER_TYPES_NONE);
    PUT(&image, "identifier 2, what the call gives", RESULT, INFER_TYPES_NONE);
    PUT(&image, "identifier 3, what the component returns", OUT, INFER_TYPES_NONE);
    PUT(&image, "identifier 4, the setter: slot, name", SETTER, 0);
    start_table(&image, INFER_TYPES_WORD_SLOTS, IDENTIFIERS);
    PUT(&image, "slots 0 to 4: type", PROPS, LOADED, RESULT, OUT, SETTER);
    start_table(&image, INFER_TYPES_WORD_TYPES, IDENTIFIERS);
    PUT(&image, "type 0: variable of slot 0", INFER_TYPES_TYPE_VAR, PROPS, 0);
    PUT(&image, "type 1: variable of slot 1", INFER_TYPES_TYPE_VAR, LOADED, 0);
    PUT(&image, "type 2: variable of slot 2", INFER_TYPES_TYPE_VAR, RESULT, 0);
    PUT(&image, "type 3: variable of slot 3", INFER_TYPES_TYPE_VAR, OUT, 0);
    PUT(&image, "type 4: variable of slot 4", INFER_TYPES_TYPE_VAR, SETTER, 0);
    start_table(&image, INFER_TYPES_WORD_LISTS, 0);
    write_shapes(&image);
    start_table(&image, INFER_TYPES_WORD_PROPERTIES, 0);
}

static void write_function(void) {
    start_function(&image);
    PUT(&image, "a component; returns identifier 3", INFER_TYPES_FN_COMPONENT, OUT);
    PUT(&image, "1 parameter: a place, identifier 0", 1, INFER_TYPES_PARAM_PLACE, PROPS);
    PUT(&image, "context identifiers", 0);
    PUT(&image, "blocks", 1);
    PUT(&image, "phis", 0);
    PUT(&image, "instructions", 2);
    PUT(&image, "LoadLocal into 1, aux, 1 item", INFER_TYPES_KIND_LOAD_LOCAL, LOADED, 0, 1);
    PUT(&image, "place, identifier 4, key", INFER_TYPES_TAG_PLACE, SETTER, 0);
    PUT(&image, "CallExpression into 2, aux, 1 item", INFER_TYPES_KIND_CALL_EXPRESSION, RESULT, 0, 1);
    PUT(&image, "place, identifier 1, key", INFER_TYPES_TAG_PLACE, LOADED, 0);
    PUT(&image, "Return of identifier 2", INFER_TYPES_TERMINAL_RETURN, RESULT);
    end_function(&image);
}

static void write_image(void) {
    write_header(&image);
    write_tables();
    write_function();
}

static void print_image(void) {
    for (size_t k = 0; k < image.line_count; k++) {
        print_words(image.words, image.lines[k].at, image.lines[k].words);
        printf("%s\n", image.lines[k].meaning);
    }
}

/* Lends no table words at first, and then as many as are wanted. */
static uint32_t run(void) {
    const size_t work_words = INFER_TYPES_WORK_WORDS(image.length, BUDGET);
    uint32_t *work = words_of(work_words);
    uint32_t *tables = NULL;
    size_t table_words = 0;
    struct infer_types_answer answer;
    for (;;) {
        answer = infer_types(image.words, image.length, names, sizeof(names), BUDGET, work, work_words, tables, table_words);
        print_answer(&answer);
        if (answer.number != INFER_TYPES_REFUSED_TABLE_WORDS)
            break;
        free(tables);
        table_words = answer.table_words;
        tables = words_of(table_words);
    }
    if (answer.number == INFER_TYPES_DONE)
        print_tables(tables, 0, &answer);
    free(tables);
    free(work);
    return answer.number;
}

int main(void) {
    write_image();
    print_image();
    const size_t work_words = INFER_TYPES_WORK_WORDS(image.length, BUDGET);
    const uint32_t check = image_check(image.words, image.length, names, sizeof(names), BUDGET, work_words);
    printf("check %lu\n", (unsigned long)check);
    return run() == INFER_TYPES_DONE ? EXIT_SUCCESS : EXIT_FAILURE;
}
