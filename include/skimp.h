/* SKIMP for the battery box: the functions that the box's supervisor calls.
 *
 * "Document 01" is 01-scope.md, the scope and its exact rules. Every promise below is proved for all inputs.
 *
 * No function keeps anything between calls, allocates, or reads or writes anything but the bytes that it is lent. Any
 * pointer with its length is taken; where the length is 0, the pointer is not used, but must not be null. The slices of a
 * call must not overlap. */
#ifndef SKIMP_H
#define SKIMP_H

#include <stddef.h>
#include <stdint.h>

#ifdef __cplusplus
extern "C" {
#endif

/* The limits. A source over one of them is refused, and so is an object over one of the first three, with 21. */
#define SKIMP_MOST_VARIABLES 128
#define SKIMP_MOST_TEMPORARIES 32
/* STOP included */
#define SKIMP_MOST_ORDERS 2048
/* labels that are set, and the greatest number that one may have */
#define SKIMP_MOST_LABELS 64
#define SKIMP_GREATEST_LABEL 9999
/* IFs in each other, of a sheet too */
#define SKIMP_MOST_LEVELS 16
/* comparisons of one IF, of a sheet too */
#define SKIMP_MOST_COMPARISONS 16
/* cells of a statement, its end mark included */
#define SKIMP_MOST_CELLS 256
/* bytes of a source */
#define SKIMP_SOURCE_MOST 16384

/* A result is number * 2^32 + value. */
#define SKIMP_NUMBER(result) ((uint32_t)((uint64_t)(result) >> 32))
#define SKIMP_VALUE(result) ((uint32_t)((uint64_t)(result) & 0xffffffffu))

/* Numbers that skimp_compile and skimp_read_back reply with, beside those from 21 to 25 below. */
enum skimp_text_number {
    SKIMP_ACCEPTED = 0,
    SKIMP_SOURCE_TOO_LONG = 1,
    SKIMP_BAD_BYTE = 2,
    SKIMP_OPEN_AT_END = 3,
    SKIMP_TOO_MANY_CELLS = 4,
    SKIMP_UNKNOWN_KEYWORD = 5,
    SKIMP_BAD_CONSTANT = 6,
    SKIMP_NO_SUCH_FORM = 7,
    SKIMP_BAD_NAME = 8,
    SKIMP_BAD_LABEL = 9,
    SKIMP_NO_END = 10,
    SKIMP_OVER_LIMIT = 11,
    SKIMP_OBJECT_TOO_SHORT = 12,
    SKIMP_BAD_GROUP = 13,
    SKIMP_NO_SHEET = 31,
    SKIMP_SHEET_TOO_SHORT = 32
};

/* Numbers that skimp_run replies with. */
enum skimp_run_number {
    SKIMP_OUT_OF_BUDGET = 0,
    SKIMP_FAULT_ZERO_DIVISOR = 1,
    SKIMP_FAULT_NEGATIVE_EXPONENT = 2,
    SKIMP_FAULT_SHIFT_COUNT = 3,
    SKIMP_FAULT_OUTPUT_FULL = 4,
    SKIMP_STOPPED = 20,
    SKIMP_BAD_HEADER = 21,
    SKIMP_BAD_LINE = 22,
    SKIMP_BAD_WORD = 23,
    SKIMP_BAD_ADDRESS = 24,
    SKIMP_BAD_STOP = 25,
    SKIMP_BAD_STATE = 26
};

/* The bytes of a state: four numbers, highest byte first, then the words of the frame.
 *
 *   bytes 0 to 3    accumulator
 *   bytes 4 to 7    next order
 *   bytes 8 to 15   count of numbers sent
 *   bytes 16 to 19  ending: 0 none, 1 to 4 that fault, 20 stopped
 *   bytes 20 on     words 0, 1, 2 .., four bytes each, highest first: V + T + 2 of them
 *
 * V and T stand in the object's header. A state of zero bytes only is the start of a run. */
#define SKIMP_STATE_HEADER 20
#define SKIMP_STATE_BYTES(variables, temporaries) (SKIMP_STATE_HEADER + 4 * ((size_t)(variables) + (temporaries) + 2))
/* the longest state of any object */
#define SKIMP_STATE_MOST SKIMP_STATE_BYTES(SKIMP_MOST_VARIABLES, SKIMP_MOST_TEMPORARIES)

/* The longest texts. A buffer of SKIMP_OBJECT_MOST bytes is never too short for an object, nor one of SKIMP_SHEET_MOST bytes
 * for a sheet: with them skimp_compile never replies 12 and skimp_read_back never 32. */
#define SKIMP_OBJECT_MOST (37 + 18 * SKIMP_MOST_ORDERS)
#define SKIMP_SHEET_MOST (32 * SKIMP_MOST_ORDERS)

/* The stack that a call needs: its own frame and all below it. These numbers are not proved but measured, on the inputs found
 * to need most and the archive built for x86-64, with a twentieth more at least and in whole KiB. Each is under 96 KiB.
 * Read-back needs most, some 91,900 bytes, and compile, some 82,900, for an expression of many temporaries inside conditions and
 * groups; a run needs some 17,800 bytes whatever the object. A task that makes a call must have a stack of as many bytes to spare. */
#define SKIMP_COMPILE_STACK_BYTES 87040
#define SKIMP_READ_BACK_STACK_BYTES 97280
#define SKIMP_RUN_STACK_BYTES 19456
/* enough for every call */
#define SKIMP_STACK_BYTES 97280

/* Compiles a source: writes the text of its object into the front of `object`.
 *
 * The number of the result is 0 exactly when the source is SKIMP within the limits and the buffer holds all of its object.
 * The value is then the length of the object's text; the bytes behind it stay.
 *
 * Otherwise no byte of the buffer has changed, and the value is the place.
 *    1  the source is longer than SKIMP_SOURCE_MOST bytes: place 0
 *    2  a byte is not 10 or 32 to 126: its offset
 *    3  the source ends in quotes, or in a continuation: the statement
 *    4  a statement holds more than SKIMP_MOST_CELLS cells: the statement
 *    5  unknown keyword: the statement
 *    6  invalid constant: the statement
 *    7  no such form, or out of order, or a group with no instruction: the statement
 *    8  a name is unknown, declared twice, or SEND is misused: the statement
 *    9  a label is 0 or over SKIMP_GREATEST_LABEL, set twice, or never set: the statement; for one that is never set, that of
 *       the first jump
 *   10  there is no %ENDOFPROGRAM: the number of statements read
 *   11  more variables, set labels, levels of IF, comparisons in one IF, temporaries, or orders with STOP than the limits
 *       above: the statement
 *   12  the buffer is too short for the object, and all else is well: place 0
 *   13  a %FINISH closes no group: the statement; or a group is open at %ENDOFPROGRAM: the statement of the first such %START
 * Statements count from 1; those of nothing are not counted. */
uint64_t skimp_compile(const uint8_t *source, size_t source_len, uint8_t *object, size_t object_len);

/* Reads an object back: writes the text of the one sheet that translates to it into the front of `sheet`.
 *
 * The number of the result is 0 exactly when there is such a sheet and the buffer holds all of its text. The value is then
 * the length of the text; the bytes behind it stay.
 *
 * Otherwise no byte of the buffer has changed, and the value is the place.
 *   21 to 25  the object is not good, as for skimp_run
 *   31  the object is good, but no sheet translates to it: place 0
 *   32  the buffer is too short for the sheet: place 0 */
uint64_t skimp_read_back(const uint8_t *object, size_t object_len, uint8_t *sheet, size_t sheet_len);

/* Runs an object from a state, for at most `budget` steps.
 *
 * The number of the result is
 *    0  the budget is used up and the program has not ended;
 *    1 to 4  it faulted: 1 zero divisor, 2 negative exponent, 3 shift count outside 0 to 31, 4 SEND with the output full;
 *   20  it stopped.
 * The value is then the steps of this call: one for each order carried out, STOP too; an order that faults is not counted.
 * `state` is now the last state, and the numbers sent stand in `output`: number c, from 0, in bytes 4c to 4c+3, highest
 * first. All other bytes of the output stay. The output has room for output_len / 4 numbers, rounded down.
 *
 * A fault is met even with no budget left. A state that has ended takes no step and reports its ending again. To go on,
 * call again with the same object, state and output: a steps and then b steps do what a + b steps do, where a + b fits
 * in 32 bits.
 *
 * Otherwise the call is refused: no byte of state or output has changed, and the value is the place.
 *   21  the header is not of the form or over a limit: place 0
 *   22  there are not exactly N good lines: the first bad or missing line, or N where text follows the last
 *   23  a word is not in 2 to V+T+1: the order
 *   24  an address is N or more: the order (the first order with 23 or 24 is the one reported)
 *   25  the last order is not STOP, or a STOP stands earlier: the first early STOP, else N-1
 *   26  the state does not fit the object: its length is not SKIMP_STATE_BYTES(V, T), its next order is N or more, it has
 *       sent more than the output has room for, or its ending is none of 0, 1 to 4 and 20: place 0 */
uint64_t skimp_run(const uint8_t *object, size_t object_len, uint8_t *state, size_t state_len, uint8_t *output,
                   size_t output_len, uint32_t budget);

#ifdef __cplusplus
}
#endif

#endif
