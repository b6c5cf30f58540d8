/*
 * Type inference for React screens: the functions of libinfer_types.a, which `host/archive` writes. docs/IMAGE.md says what
 * an image is, what the tables hold and what each number means; host/c/screen.c is a whole host, host/c/batch.c one with a list,
 * host/c/listing.c one that asks why a slot has its type.
 *
 * What a call is lent, and what it leaves:
 *
 * - Words stand at multiples of four bytes. A range of length 0 may be NULL.
 * - Work words, table words, answer words and listing words overlap nothing else that is lent. Images, names and list are only read,
 *   and may overlap each other.
 * - During a call nobody else changes what is lent, or reads work, table, answer and listing words. Nothing is kept after it.
 * - Table words change only if the answer is INFER_TYPES_DONE, and then only the first of them, as many as the answer's table_words.
 *   Work words are untouched after a refusal of 1 to 10 and all 0 after every other answer; what they hold before a call doesn't
 *   matter. What a list leaves is said at infer_batch, what a listing leaves at infer_listing.
 * - There is no state between calls: calls on different threads need no lock if each has words of its own to be written to.
 * - Nothing is allocated and no function of the host is called but memset. What is needed beside the lent words is stack: see
 *   INFER_TYPES_STACK_BYTES.
 */
#ifndef INFER_TYPES_H
#define INFER_TYPES_H

#include <stddef.h>
#include <stdint.h>

#ifdef __cplusplus
extern "C" {
#endif

/* No name, no shape, no type, a property that is a number, or in a listing no binding. */
#define INFER_TYPES_NONE UINT32_C(4294967295)

/* The most image words, name bytes and steps of a budget. */
#define INFER_TYPES_LIMIT 65536

/* The most words of a type of the image, written out. */
#define INFER_TYPES_LONGEST_TYPE 4096

/* The work words that a call needs. */
#define INFER_TYPES_WORK_WORDS(words, budget) (8 * ((size_t)(words) + (size_t)(budget)))

/*
 * The most bytes of stack that a call of infer_types takes, of at most INFER_TYPES_LIMIT words and steps, and that a call of
 * image_check takes. The first is below ten MiB for the largest call, below one MiB for 8,192 words and 4,096 steps. A call of
 * infer_batch takes the most that one of its screens would, a call of infer_listing what one of infer_types does. host/README.md says
 * where the figures come from.
 */
#define INFER_TYPES_STACK_BYTES(words, budget)                                              \
    (INFER_TYPES_RUN_BYTES(words, budget) > INFER_TYPES_CHECK_BYTES                         \
         ? INFER_TYPES_RUN_BYTES(words, budget)                                             \
         : (size_t)INFER_TYPES_CHECK_BYTES)
#define INFER_TYPES_RUN_BYTES(words, budget) (37 * (size_t)(words) + 112 * (size_t)(budget) + 233472)
#define INFER_TYPES_CHECK_BYTES 851968

/* The words of a row of a list and of its answers, and the most rows of a list. */
#define INFER_TYPES_LIST_ROW 5
#define INFER_TYPES_ANSWER_ROW 9
#define INFER_TYPES_MOST_IMAGES 256

/* The header's words. Those named after a table are its count; the table's offset follows. */
enum {
    INFER_TYPES_WORD_VERSION = 0,
    INFER_TYPES_WORD_OPTIONS = 1,
    INFER_TYPES_WORD_HOOK = 2,
    INFER_TYPES_WORD_NAMES = 3,
    INFER_TYPES_WORD_IDENTIFIERS = 5,
    INFER_TYPES_WORD_SLOTS = 7,
    INFER_TYPES_WORD_TYPES = 9,
    INFER_TYPES_WORD_LISTS = 11,
    INFER_TYPES_WORD_SHAPES = 13,
    INFER_TYPES_WORD_PROPERTIES = 15,
    INFER_TYPES_WORD_FUNCTIONS = 17,
    INFER_TYPES_WORD_LENGTH = 19,
    INFER_TYPES_HEADER_WORDS = 20
};

/* What the version word has to be. */
#define INFER_TYPES_VERSION 1

/* Bits of the options word. */
enum {
    INFER_TYPES_OPTION_REFS = 1,
    INFER_TYPES_OPTION_SETTERS = 2
};

/* The kinds of types, in the image and in the tables. */
enum {
    INFER_TYPES_TYPE_VAR = 0,
    INFER_TYPES_TYPE_PRIMITIVE = 1,
    INFER_TYPES_TYPE_POLY = 2,
    INFER_TYPES_TYPE_OBJECT_METHOD = 3,
    INFER_TYPES_TYPE_OBJECT = 4,
    INFER_TYPES_TYPE_FUNCTION = 5,
    INFER_TYPES_TYPE_CONSTRUCTOR = 6,
    INFER_TYPES_TYPE_PHI = 7
};

/* The shapes that every image has. */
enum {
    INFER_TYPES_SHAPE_PROPS = 0,
    INFER_TYPES_SHAPE_USE_REF = 1,
    INFER_TYPES_SHAPE_SET_STATE = 2,
    INFER_TYPES_SHAPE_OBJECT = 3,
    INFER_TYPES_SHAPE_ARRAY = 4,
    INFER_TYPES_SHAPE_FUNCTION = 5,
    INFER_TYPES_SHAPE_JSX = 6,
    INFER_TYPES_SHAPE_REF_VALUE = 7,
    INFER_TYPES_SHAPE_MIXED_READONLY = 8,
    INFER_TYPES_SHAPES = 9
};

/* The first word of a shape's row. */
enum {
    INFER_TYPES_ABSENT = 0,
    INFER_TYPES_PRESENT = 1
};

/* The kinds of functions, the first word of a body. */
enum {
    INFER_TYPES_FN_COMPONENT = 0,
    INFER_TYPES_FN_HOOK = 1,
    INFER_TYPES_FN_OTHER = 2
};

/* The first word of a parameter, and of a terminal. */
enum {
    INFER_TYPES_PARAM_PLACE = 0,
    INFER_TYPES_PARAM_SPREAD = 1,
    INFER_TYPES_TERMINAL_OTHER = 0,
    INFER_TYPES_TERMINAL_RETURN = 1
};

/* The kinds of instructions. */
enum {
    INFER_TYPES_KIND_LOAD_LOCAL = 0,
    INFER_TYPES_KIND_LOAD_CONTEXT = 1,
    INFER_TYPES_KIND_DECLARE_LOCAL = 2,
    INFER_TYPES_KIND_DECLARE_CONTEXT = 3,
    INFER_TYPES_KIND_STORE_LOCAL = 4,
    INFER_TYPES_KIND_STORE_CONTEXT = 5,
    INFER_TYPES_KIND_DESTRUCTURE = 6,
    INFER_TYPES_KIND_PRIMITIVE = 7,
    INFER_TYPES_KIND_JSX_TEXT = 8,
    INFER_TYPES_KIND_BINARY_EXPRESSION = 9,
    INFER_TYPES_KIND_NEW_EXPRESSION = 10,
    INFER_TYPES_KIND_CALL_EXPRESSION = 11,
    INFER_TYPES_KIND_METHOD_CALL = 12,
    INFER_TYPES_KIND_UNARY_EXPRESSION = 13,
    INFER_TYPES_KIND_TYPE_CAST_EXPRESSION = 14,
    INFER_TYPES_KIND_JSX_EXPRESSION = 15,
    INFER_TYPES_KIND_OBJECT_EXPRESSION = 16,
    INFER_TYPES_KIND_OBJECT_METHOD = 17,
    INFER_TYPES_KIND_ARRAY_EXPRESSION = 18,
    INFER_TYPES_KIND_JSX_FRAGMENT = 19,
    INFER_TYPES_KIND_REG_EXP_LITERAL = 20,
    INFER_TYPES_KIND_META_PROPERTY = 21,
    INFER_TYPES_KIND_PROPERTY_STORE = 22,
    INFER_TYPES_KIND_PROPERTY_LOAD = 23,
    INFER_TYPES_KIND_PROPERTY_DELETE = 24,
    INFER_TYPES_KIND_COMPUTED_STORE = 25,
    INFER_TYPES_KIND_COMPUTED_LOAD = 26,
    INFER_TYPES_KIND_COMPUTED_DELETE = 27,
    INFER_TYPES_KIND_LOAD_GLOBAL = 28,
    INFER_TYPES_KIND_STORE_GLOBAL = 29,
    INFER_TYPES_KIND_FUNCTION_EXPRESSION = 30,
    INFER_TYPES_KIND_TAGGED_TEMPLATE_EXPRESSION = 31,
    INFER_TYPES_KIND_TEMPLATE_LITERAL = 32,
    INFER_TYPES_KIND_AWAIT = 33,
    INFER_TYPES_KIND_GET_ITERATOR = 34,
    INFER_TYPES_KIND_ITERATOR_NEXT = 35,
    INFER_TYPES_KIND_NEXT_PROPERTY_OF = 36,
    INFER_TYPES_KIND_PREFIX_UPDATE = 37,
    INFER_TYPES_KIND_POSTFIX_UPDATE = 38,
    INFER_TYPES_KIND_DEBUGGER = 39,
    INFER_TYPES_KIND_START_MEMOIZE = 40,
    INFER_TYPES_KIND_FINISH_MEMOIZE = 41
};

/* The aux word: of a Destructure, of a StoreContext, and of a BinaryExpression whose operator takes and gives primitives. */
enum {
    INFER_TYPES_AUX_ARRAY = 0,
    INFER_TYPES_AUX_OBJECT = 1,
    INFER_TYPES_AUX_CONST = 1,
    INFER_TYPES_AUX_PRIMITIVE = 1
};

/* The tags of an instruction's items. */
enum {
    INFER_TYPES_TAG_PLACE = 0,
    INFER_TYPES_TAG_SPREAD = 1,
    INFER_TYPES_TAG_HOLE = 2,
    INFER_TYPES_TAG_NAMED_KEY = 3,
    INFER_TYPES_TAG_COMPUTED_KEY = 4,
    INFER_TYPES_TAG_OTHER_KEY = 5,
    INFER_TYPES_TAG_ATTRIBUTE = 6
};

/* The numbers of an answer: done, or the first refusal that is due. */
enum {
    INFER_TYPES_DONE = 0,
    /* the caller's */
    INFER_TYPES_REFUSED_IMAGE_WORDS = 1,
    INFER_TYPES_REFUSED_NAME_BYTES = 2,
    INFER_TYPES_REFUSED_BUDGET = 3,
    INFER_TYPES_REFUSED_WORK_WORDS = 4,
    /* the image writer's */
    INFER_TYPES_REFUSED_HEADER = 5,
    INFER_TYPES_REFUSED_REFERENCES = 6,
    INFER_TYPES_REFUSED_TYPES = 7,
    INFER_TYPES_REFUSED_SHAPES = 8,
    INFER_TYPES_REFUSED_BODIES = 9,
    INFER_TYPES_REFUSED_NESTING = 10,
    /* the screen author's */
    INFER_TYPES_REFUSED_EMPTY_PHI = 11,
    INFER_TYPES_REFUSED_CYCLE = 12,
    INFER_TYPES_REFUSED_OUT_OF_STEPS = 13,
    /* the caller's: table_words says how many are wanted */
    INFER_TYPES_REFUSED_TABLE_WORDS = 14,
    /* the caller's, of a whole list */
    INFER_TYPES_REFUSED_LIST = 15,
    INFER_TYPES_REFUSED_RANGES = 16,
    /* the caller's, of a listing: the slot; listing_words says how many are wanted */
    INFER_TYPES_REFUSED_SLOT = 17,
    INFER_TYPES_REFUSED_LISTING_WORDS = 18
};

/* The number of a screen that was not run, for one before it in the list was refused with INFER_TYPES_REFUSED_TABLE_WORDS. */
#define INFER_TYPES_NOT_RUN UINT32_C(4294967295)

/*
 * What a call answers: nine words. In a refusal the counts are 0, those of the lookups too; so are the table words, but for
 * INFER_TYPES_REFUSED_TABLE_WORDS.
 */
struct infer_types_answer {
    uint32_t number;
    uint32_t steps;
    uint32_t slots;
    uint32_t bindings;
    uint32_t table_words;
    uint32_t exact;   /* property lookups that found a type by the exact name */
    uint32_t star;    /* those that found one by the "*" entry */
    uint32_t hook;    /* those that found one by the hook rule */
    uint32_t nothing; /* those that found none */
};

/*
 * What a call for a listing answers: ten words. The listing words are those written, in INFER_TYPES_REFUSED_LISTING_WORDS those
 * wanted, and 0 in every other refusal.
 */
struct infer_types_listing_answer {
    struct infer_types_answer answer;
    uint32_t listing_words;
};

/* A row of a list: where the image and its names start in what is lent for all, their lengths, and the budget. */
struct infer_types_screen {
    uint32_t image_start;
    uint32_t image_words;
    uint32_t name_start;
    uint32_t name_bytes;
    uint32_t budget;
};

/* The types of an image's slots and the bindings of their variables, in at most so many steps. */
struct infer_types_answer infer_types(const uint32_t *image, size_t image_words,
                                      const uint8_t *names, size_t name_bytes, uint32_t budget,
                                      uint32_t *work, size_t work_words,
                                      uint32_t *tables, size_t table_words);

/* The check that every run begins with: INFER_TYPES_DONE, or a refusal of 1 to 10. Takes the length of the work words, and writes nothing. */
uint32_t image_check(const uint32_t *image, size_t image_words,
                     const uint8_t *names, size_t name_bytes, uint32_t budget, size_t work_words);

/*
 * The same as infer_types for each screen of a list. List and answers are rows of words, and nothing else stands in arrays of struct
 * infer_types_screen and struct infer_types_answer: such arrays may be handed over by a cast.
 *
 * Each screen has the answer that infer_types would give it with all the work words and with the table words that remain. So lend the
 * most INFER_TYPES_WORK_WORDS of a screen; of more, each takes only its own, and all are cleared once at the end. The first screen that is
 * refused with INFER_TYPES_REFUSED_TABLE_WORDS ends the list: the rows after it have the number INFER_TYPES_NOT_RUN and are 0 else.
 * Other refusals don't end it.
 *
 * - INFER_TYPES_DONE: the list was gone through. The answers stand from the first answer word on, a row for each screen, and the tables
 *   of the screens that are done from the first table word on, one after another; the words after them are untouched. Work words are
 *   all 0 if the number of a screen is 0 or 11 to 14, else untouched.
 * - INFER_TYPES_REFUSED_LIST: more than INFER_TYPES_MOST_IMAGES rows, words after the last whole row, or fewer answer words than
 *   INFER_TYPES_ANSWER_ROW for each. Nothing is written.
 * - INFER_TYPES_REFUSED_RANGES: else, a row whose image isn't within the image words or whose names aren't within the name bytes.
 *   Nothing is written.
 */
uint32_t infer_batch(const uint32_t *list, size_t list_words, const uint32_t *images, size_t image_words,
                     const uint8_t *names, size_t name_bytes, uint32_t *work, size_t work_words,
                     uint32_t *tables, size_t table_words, uint32_t *answers, size_t answer_words);

/*
 * The same as infer_types, and why a slot has its type: the variable of the slot and those that it leads to, a row for each. A row is the
 * slot and then what its variable is bound to, a type as in the tables, or INFER_TYPES_NONE if it is not bound. After a row come those of
 * the variables in its binding, from left to right, each followed by all that it leads to; a variable that has its row gets no other.
 * A listing has at most 4 words for each step of the budget (proved): a call that is lent 4 * budget listing words is never refused with
 * INFER_TYPES_REFUSED_LISTING_WORDS.
 *
 * - INFER_TYPES_DONE: the tables and the listing are written, each from the first word on; the words after them are untouched.
 * - A refusal that infer_types would give comes before those of the listing.
 * - INFER_TYPES_REFUSED_SLOT: else, a slot that isn't below the run's count of slots. Those that the run made may be asked for.
 * - INFER_TYPES_REFUSED_LISTING_WORDS: else, a listing longer than the listing words. Lend as many as are wanted and call again.
 *
 * In the last two the steps are those of the run; slots, bindings, table_words and the four counts are 0; listing_words is 0 in the first
 * and the words wanted in the second. A refusal leaves table words and listing words untouched; work words are as after infer_types, all 0
 * after these two.
 */
struct infer_types_listing_answer infer_listing(const uint32_t *image, size_t image_words,
                                                const uint8_t *names, size_t name_bytes, uint32_t budget,
                                                uint32_t *work, size_t work_words,
                                                uint32_t *tables, size_t table_words,
                                                uint32_t slot, uint32_t *listing, size_t listing_words);

#ifdef __cplusplus
}
#endif

#endif
