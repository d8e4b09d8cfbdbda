/* A supervisor of the box: it compiles a source, reads the object back, and runs it a slice at a time, asleep in between.
 *
 *   supervisor [-s STEPS] [FILE ..]
 *
 * A file that begins with BOX is an object, any other a source. Each program is run from the start to its end, at most STEPS
 * steps a wake. Without a file, the sources built in are taken.
 *
 * From one wake to the next only the bytes of the state and of the output are kept, in a file that stands for the box's
 * non-volatile memory: each wake reads them back into cleared buffers. All bytes that are lent to a call stand in a block of
 * just their length, so that a check of memory sees a byte too many. */
#include <inttypes.h>
#include <stdio.h>
#include <stdlib.h>
#include <string.h>

#include "skimp.h"

/* no source or object that is accepted has so many bytes */
#define FILE_MOST (SKIMP_SOURCE_MOST + SKIMP_OBJECT_MOST)
#define OUTPUT_BYTES 64
/* a program that does not end is left after so many wakes */
#define WAKES_MOST 1000

/* a number of the header as a text */
#define TEXT(number) TEXT_OF(number)
#define TEXT_OF(number) #number

/* Bytes in a block of their own. */
struct block {
    uint8_t *bytes;
    size_t length;
};

/* document 01's worked program */
static const char worked[] =
    "%BEGIN\n%INTEGER A, B\nA = 3 ; B = A - (2 - 5) / 2\n%IF B > 4 %THEN SEND(B) %ELSE ->1\n1: SEND(A)\n%ENDOFPROGRAM\n";

/* sends 1, -2, 4, -8 and so on, up to the last number that is not over 1000 */
static const char doubling[] =
    "%BEGIN\n%INTEGER N\nN = 1\n1: SEND(N)\nN = -N * 2\n%IF N <= 1000 %THEN ->1\n%ENDOFPROGRAM\n";

static void fail(const char *what, const char *name) {
    fprintf(stderr, "supervisor: %s: %s\n", what, name);
    exit(2);
}

static struct block new_block(size_t length) {
    struct block block;
    /* a pointer that is lent must not be null */
    block.bytes = malloc(length > 0 ? length : 1);
    block.length = length;
    if (block.bytes == NULL) fail("no memory", "a buffer");
    return block;
}

static struct block cleared(size_t length) {
    struct block block = new_block(length);
    memset(block.bytes, 0, length);
    return block;
}

static struct block copy(const void *bytes, size_t length) {
    struct block block = new_block(length);
    memcpy(block.bytes, bytes, length);
    return block;
}

/* What a refusal of skimp_compile or skimp_read_back means, and what its place is. */
static const char *refusal(uint32_t number) {
    switch (number) {
    case SKIMP_SOURCE_TOO_LONG: return "the source is too long, place";
    case SKIMP_BAD_BYTE: return "a byte is not allowed, offset";
    case SKIMP_OPEN_AT_END: return "the source ends in quotes or in a continuation, statement";
    case SKIMP_TOO_MANY_CELLS: return "more than " TEXT(SKIMP_MOST_CELLS) " cells, statement";
    case SKIMP_UNKNOWN_KEYWORD: return "unknown keyword, statement";
    case SKIMP_BAD_CONSTANT: return "invalid constant, statement";
    case SKIMP_NO_SUCH_FORM: return "no such form, or out of order, statement";
    case SKIMP_BAD_NAME: return "name unknown, declared twice, or SEND misused, statement";
    case SKIMP_BAD_LABEL: return "label out of range, set twice, or never set, statement";
    case SKIMP_NO_END: return "no %ENDOFPROGRAM, statements read";
    case SKIMP_OVER_LIMIT:
        return "over " TEXT(SKIMP_MOST_VARIABLES) " variables, " TEXT(SKIMP_MOST_LABELS) " labels, " TEXT(SKIMP_MOST_LEVELS)
               " levels, " TEXT(SKIMP_MOST_COMPARISONS) " comparisons, " TEXT(SKIMP_MOST_TEMPORARIES) " temporaries or "
               TEXT(SKIMP_MOST_ORDERS) " orders, statement";
    case SKIMP_OBJECT_TOO_SHORT: return "the buffer is too short for the object, place";
    case SKIMP_BAD_GROUP: return "a group is left open, or %FINISH closes none, statement";
    case SKIMP_BAD_HEADER: return "the header is not of the form or over a limit, place";
    case SKIMP_BAD_LINE: return "not exactly as many good lines as the header says, line";
    case SKIMP_BAD_WORD: return "a word outside the frame, order";
    case SKIMP_BAD_ADDRESS: return "an address behind the last order, order";
    case SKIMP_BAD_STOP: return "the last order is not STOP, or a STOP stands earlier, order";
    case SKIMP_BAD_STATE: return "the state does not fit the object, place";
    case SKIMP_NO_SHEET: return "no sheet translates to the object, place";
    case SKIMP_SHEET_TOO_SHORT: return "the buffer is too short for the sheet, place";
    default: return "a number without a meaning, value";
    }
}

static const char *ending(uint32_t number) {
    switch (number) {
    case SKIMP_OUT_OF_BUDGET: return "not ended";
    case SKIMP_FAULT_ZERO_DIVISOR: return "fault 1: zero divisor";
    case SKIMP_FAULT_NEGATIVE_EXPONENT: return "fault 2: negative exponent";
    case SKIMP_FAULT_SHIFT_COUNT: return "fault 3: shift count outside 0 to 31";
    case SKIMP_FAULT_OUTPUT_FULL: return "fault 4: SEND with the output full";
    case SKIMP_STOPPED: return "stopped";
    default: return "a number without a meaning";
    }
}

static void print_refusal(uint64_t result) {
    uint32_t number = SKIMP_NUMBER(result);
    printf("refused with %" PRIu32 ": %s %" PRIu32 "\n", number, refusal(number), SKIMP_VALUE(result));
}

/* skimp_compile or skimp_read_back */
typedef uint64_t text_call(const uint8_t *from, size_t from_length, uint8_t *to, size_t to_length);

/* Makes a call with a buffer that is never too short, and again with one of just the text's length, which is given. Gives a
 * null pointer where the call is refused, and says why. */
static struct block text_of(text_call *call, struct block from, size_t most) {
    struct block buffer = new_block(most), text = {NULL, 0};
    uint64_t result = call(from.bytes, from.length, buffer.bytes, buffer.length);
    if (SKIMP_NUMBER(result) != SKIMP_ACCEPTED) {
        print_refusal(result);
    } else {
        text = new_block(SKIMP_VALUE(result));
        if (call(from.bytes, from.length, text.bytes, text.length) != result) fail("a second call differs", "compile or read-back");
        if (memcmp(text.bytes, buffer.bytes, text.length) != 0) fail("a second text differs", "compile or read-back");
    }
    free(buffer.bytes);
    return text;
}

/* Reads digits and the tab after them. Gives a number over `most` where that fails. */
static unsigned field(const uint8_t **at, const uint8_t *end, unsigned most) {
    unsigned number = 0;
    const uint8_t *start = *at;
    while (*at < end && **at >= '0' && **at <= '9' && number <= most) {
        number = 10 * number + (unsigned)(**at - '0');
        ++*at;
    }
    if (*at == start || *at == end || **at != '\t') return most + 1;
    ++*at;
    return number;
}

static int is_object(struct block text) {
    return text.length >= 4 && memcmp(text.bytes, "BOX\t", 4) == 0;
}

/* The length of an object's states, from V and T of its header. 0 where they cannot be read: skimp_run then refuses the
 * object for its header. */
static size_t state_bytes(struct block object) {
    const uint8_t *at, *end = object.bytes + object.length;
    unsigned variables, temporaries;
    if (!is_object(object)) return 0;
    at = object.bytes + 4;
    variables = field(&at, end, SKIMP_MOST_VARIABLES);
    if (variables > SKIMP_MOST_VARIABLES) return 0;
    temporaries = field(&at, end, SKIMP_MOST_TEMPORARIES);
    if (temporaries > SKIMP_MOST_TEMPORARIES) return 0;
    return SKIMP_STATE_BYTES(variables, temporaries);
}

/* The number in some bytes, highest first. */
static uint64_t big_endian(const uint8_t *bytes, size_t count) {
    uint64_t number = 0;
    while (count-- > 0) number = number << 8 | *bytes++;
    return number;
}

static uint64_t count_sent(struct block state) {
    return big_endian(state.bytes + 8, 8);
}

static void print_sent(struct block state, struct block output) {
    uint64_t count = count_sent(state), c;
    printf("sent:");
    for (c = 0; c < count; c++) {
        int64_t word = (int64_t)big_endian(output.bytes + 4 * c, 4);
        printf(" %" PRId64, word > INT32_MAX ? word - ((int64_t)1 << 32) : word);
    }
    printf("%s\n", count == 0 ? " nothing" : "");
}

/* What is kept over a sleep. */
static void store(FILE *file, struct block state, struct block output) {
    rewind(file);
    if (fwrite(state.bytes, 1, state.length, file) != state.length ||
        fwrite(output.bytes, 1, output.length, file) != output.length || fflush(file) != 0)
        fail("cannot write", "the state file");
}

static void restore(FILE *file, struct block state, struct block output) {
    memset(state.bytes, 0, state.length);
    memset(output.bytes, 0, output.length);
    rewind(file);
    if (fread(state.bytes, 1, state.length, file) != state.length ||
        fread(output.bytes, 1, output.length, file) != output.length)
        fail("cannot read", "the state file");
}

/* Runs an object from the start to its end, wake by wake. Gives 1 if it is refused. */
static int wakes(struct block object, struct block state, struct block output, uint32_t slice, FILE *file) {
    uint32_t number = SKIMP_OUT_OF_BUDGET, wake;
    uint64_t steps = 0;
    store(file, state, output);
    for (wake = 1; wake <= WAKES_MOST && number == SKIMP_OUT_OF_BUDGET; wake++) {
        uint64_t result;
        restore(file, state, output);
        result = skimp_run(object.bytes, object.length, state.bytes, state.length, output.bytes, output.length, slice);
        number = SKIMP_NUMBER(result);
        if (number >= SKIMP_BAD_HEADER) {
            print_refusal(result);
            return 1;
        }
        steps += SKIMP_VALUE(result);
        printf("wake %" PRIu32 ": %" PRIu32 " steps, %" PRIu64 " sent\n", wake, SKIMP_VALUE(result), count_sent(state));
        store(file, state, output);
        /* here the box sleeps, and its memory may lose power */
    }
    print_sent(state, output);
    printf("%s after %" PRIu64 " steps\n", ending(number), steps);
    return 0;
}

static int run(struct block object, uint32_t slice) {
    struct block state = cleared(state_bytes(object)), output = cleared(OUTPUT_BYTES);
    FILE *file = tmpfile();
    int refused;
    if (file == NULL) fail("cannot make", "the state file");
    refused = wakes(object, state, output, slice, file);
    fclose(file);
    free(state.bytes);
    free(output.bytes);
    return refused;
}

/* Shows the sheet of an object, or that there is none, and runs it. Gives 1 if it is refused. */
static int supervise_object(struct block object, uint32_t slice) {
    struct block sheet = text_of(skimp_read_back, object, SKIMP_SHEET_MOST);
    if (sheet.bytes != NULL) {
        printf("sheet of %lu bytes:\n", (unsigned long)sheet.length);
        fwrite(sheet.bytes, 1, sheet.length, stdout);
        free(sheet.bytes);
    }
    return run(object, slice);
}

/* Takes a source or an object from its text to its end. Gives 1 if it is refused. */
static int supervise(const char *name, struct block text, uint32_t slice) {
    struct block object;
    int refused;
    printf("%s, %" PRIu32 " steps a wake\n", name, slice);
    if (is_object(text)) return supervise_object(text, slice);
    object = text_of(skimp_compile, text, SKIMP_OBJECT_MOST);
    if (object.bytes == NULL) return 1;
    printf("object of %lu bytes\n", (unsigned long)object.length);
    refused = supervise_object(object, slice);
    free(object.bytes);
    return refused;
}

static int supervise_copy(const char *name, const void *bytes, size_t length, uint32_t slice) {
    struct block text = copy(bytes, length);
    int refused = supervise(name, text, slice);
    free(text.bytes);
    return refused;
}

static int supervise_file(const char *name, uint32_t slice) {
    static uint8_t text[FILE_MOST];
    size_t length;
    FILE *file = fopen(name, "rb");
    if (file == NULL) fail("cannot open", name);
    length = fread(text, 1, sizeof text, file);
    if (ferror(file)) fail("cannot read", name);
    if (length == sizeof text) fail("no source or object is so long", name);
    fclose(file);
    return supervise_copy(name, text, length, slice);
}

int main(int count, char **arguments) {
    uint32_t slice = 20;
    int next = 1, refused = 0;
    if (count > 2 && strcmp(arguments[1], "-s") == 0) {
        unsigned long steps = strtoul(arguments[2], NULL, 10);
        if (steps == 0 || steps > UINT32_MAX) fail("not a number of steps", arguments[2]);
        slice = (uint32_t)steps;
        next = 3;
    }
    if (next == count) {
        refused |= supervise_copy("worked program", worked, strlen(worked), slice);
        refused |= supervise_copy("doubling", doubling, strlen(doubling), slice);
    }
    for (; next < count; next++) refused |= supervise_file(arguments[next], slice);
    return refused;
}
