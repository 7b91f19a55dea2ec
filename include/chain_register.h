/*
 * The chain register for C programs on x86-64 Linux: the calls of libchain_register.a.
 *
 * A store keeps one row for each different tree and numbers it from 0. A sheet is a file of rows to insert. A key names a tree
 * outside any store. A bundle is sheets one after another. A trace is recorded counts, to be run through a chain. Every call is
 * proved to meet its contract, for all that it may be lent; NULL, the stack and the linking are tested. A number is of one store:
 * between stores the key is the name.
 *
 * Layouts, numbers in bytes big-endian (docs/FORMAT.md has them at length, and a sheet byte by byte):
 *
 *   store   word 0: how many rows are in use. Row n is the six words from word 1 + 6n: label, input count, four inputs, each the number
 *           of a row of this store, unused ones 0. Words past the rows in use may hold anything. With word 0 = 0 a store is empty.
 *   sheet   4 bytes: how many bytes follow them. 1 byte: version, 1. 2 bytes: row count. Then each row: label (4 bytes), input count
 *           (1 byte, 0 to 4), each input (2 bytes), a row of this sheet, counted from 0. An input of 32,768 and up named a row of a store
 *           in old sheets; chain_convert makes such a sheet one without store numbers.
 *   label   the operation in the upper 16 bits, its setting in the lower 16.
 *   key     a sheet without wires, each tree in it once, row 0 the one it names, the others as a walk from it meets them.
 *   bundle  sheets, one after another, with nothing between.
 *
 * A wire is a row of operation 7 (the upper 16 bits of its label), whatever its setting. A sheet may have wires between any rows: a
 * wire has the tree of what it leads to, and its number, and the chain is the one without it. Stores and keys have no wires. A
 * store that has some, or spoiled rows, is made sound by chain_mend.
 *
 * What holds for every call:
 *
 * - Runs. A run passes as a pointer and a length in elements. Stores and lists are runs of words (uint32_t, aligned to 4
 *   bytes); traces and outputs are runs of signed words (int32_t, aligned to 4 bytes); sheets, keys and bundles are runs of bytes
 *   and may start anywhere. They may hold anything: the call checks them. The length may be 0, and then the pointer is not used
 *   and may be NULL.
 * - Overlap. Runs and values that the call writes (their pointers have no const) must not overlap anything else that is lent to the
 *   same call. Runs that are only read may overlap or be the same.
 * - The number. A call with refusals returns CHAIN_DONE, or the number of the refusal, as said below.
 * - Values. What a call gives besides the number is written through its last pointers, which must not be NULL: always. Where the
 *   number is a refusal it is 0, except the place of a sheet's fault. What stood there before does not matter.
 * - Places. A call that takes a sheet and refuses it (3 to 6) gives the byte of it at which the fault starts, counted from 0:
 *     3   0, the length field
 *     4   4, the version
 *     5   5 where the row count is over 1,024, even if a row is bad too; otherwise the first byte of the first row that cannot be
 *         read, which has over 4 inputs or ends past the sheet (the sheet's length, where no byte of the row is there); otherwise
 *         the first byte left over
 *     6   the first byte of the first input, row by row and from the left, that points nowhere
 *   With any other number, CHAIN_DONE too, the place is 0.
 * - Refusals. A refused call changes nothing but those values. A call that is done changes only what is said with it.
 * - State. The library keeps none, allocates nothing, and uses only memcpy and memset of the C library. Threads may call at the
 *   same time, as long as nothing that is lent to one call is written meanwhile by another thread.
 * - Stack. Every call takes less than CHAIN_STACK_BYTES of the stack. docs/MEMORY.md has a table: the stack that each call takes, and
 *   the memory that it is lent.
 */
#ifndef CHAIN_REGISTER_H
#define CHAIN_REGISTER_H

/*
 * The version of this header and of the library that is installed with it. Within one major version a program that compiled compiles
 * still, and what was right before is given as before: every call, number, layout and key. A minor version has more, as a new call; a
 * patch changes nothing that is said here.
 */
#define CHAIN_REGISTER_VERSION_MAJOR 2
#define CHAIN_REGISTER_VERSION_MINOR 0
#define CHAIN_REGISTER_VERSION_PATCH 0
#define CHAIN_REGISTER_VERSION "2.0.0"

#include <stdbool.h>
#include <stddef.h>
#include <stdint.h>

#ifdef __cplusplus
extern "C" {
#endif

/* Numbers given back. 11 is not used; only chain_insert_strict and chain_run give 12 and 13, only the two inserts and
 * chain_convert give 14 and 15, only chain_mend gives 16, only chain_run gives 17 and 18, only the two inserts give 19, only
 * chain_convert gives 20. */
enum {
    CHAIN_DONE = 0,             /* done */
    CHAIN_NO_WORDS = 1,         /* the store has no words */
    CHAIN_NOT_SOUND = 2,        /* the store is not sound: its count, a row's shape, a wire, or two rows of one tree */
    CHAIN_WRONG_LENGTH = 3,     /* the sheet has under 7 bytes, or its length field is not its bytes less 4 */
    CHAIN_WRONG_VERSION = 4,    /* the sheet's version is not 1 */
    CHAIN_WRONG_ROWS = 5,       /* row count over 1,024, a row with over 4 inputs, rows ending past the file or before its end */
    CHAIN_POINTS_NOWHERE = 6,   /* an input points to no row of sheet or store */
    CHAIN_FEW_ANSWERS = 7,      /* the answer list has fewer entries than the sheet has rows */
    CHAIN_NO_ROOM = 8,          /* used rows plus new distinct trees exceed the capacity */
    CHAIN_NOT_IN_USE = 9,       /* the number asked for is not in use */
    CHAIN_SHORT_BUFFER = 10,    /* the buffer is shorter than the key, or than the converted sheet */
    CHAIN_NOT_LISTED = 12,      /* a row's operation is not in the catalogue, or its input count is not the catalogue's */
    CHAIN_NOT_HELD = 13,        /* a loop passes no hold */
    CHAIN_SHORT_WIRE = 14,      /* a wire of the sheet has not exactly one input */
    CHAIN_WIRE_LOOP = 15,       /* wires of the sheet alone lead round in a loop */
    CHAIN_SHORT_LIST = 16,      /* the mender's list has fewer entries than rows are taken */
    CHAIN_NO_TRACE = 17,        /* channel count outside 1 to 8, values not whole ticks, or a channel reached that is not there */
    CHAIN_SHORT_OUTPUT = 18,    /* the output has fewer entries than there are ticks */
    CHAIN_NAMES_STORE = 19,     /* an input of the sheet is 32,768 or more: it names a row of a store */
    CHAIN_LONG_RESULT = 20      /* the converted sheet would have over 1,024 rows */
};

/* What a number means, in a few words for a line that a person reads. It is no call of the library. */
static inline const char *chain_message(uint32_t number)
{
    switch (number) {
    case CHAIN_DONE: return "done";
    case CHAIN_NO_WORDS: return "the store has no words";
    case CHAIN_NOT_SOUND: return "the store is not sound";
    case CHAIN_WRONG_LENGTH: return "the sheet's length is wrong";
    case CHAIN_WRONG_VERSION: return "the sheet's version is not 1";
    case CHAIN_WRONG_ROWS: return "the sheet's rows cannot be read";
    case CHAIN_POINTS_NOWHERE: return "an input points nowhere";
    case CHAIN_FEW_ANSWERS: return "the answer list is too short";
    case CHAIN_NO_ROOM: return "the store has no room";
    case CHAIN_NOT_IN_USE: return "the number asked for is not in use";
    case CHAIN_SHORT_BUFFER: return "the buffer is too short";
    case CHAIN_NOT_LISTED: return "an operation or its input count is not in the catalogue";
    case CHAIN_NOT_HELD: return "a loop passes no hold";
    case CHAIN_SHORT_WIRE: return "a wire has not exactly one input";
    case CHAIN_WIRE_LOOP: return "a loop of wires only";
    case CHAIN_SHORT_LIST: return "the mender's list is too short";
    case CHAIN_NO_TRACE: return "the values are no trace for the chain";
    case CHAIN_SHORT_OUTPUT: return "the output is too short";
    case CHAIN_NAMES_STORE: return "an input names a row of a store";
    case CHAIN_LONG_RESULT: return "the converted sheet has too many rows";
    default: return "not a number of the register";
    }
}

/* In the mender's list, for a row that was dropped. It is no number of a row. */
#define CHAIN_DROPPED UINT32_C(4294967295)

/* Sizes. */
enum {
    CHAIN_MOST_ROWS = 1024,         /* rows of a store, and rows of a sheet */
    CHAIN_MOST_WORDS = 6145,        /* a store of so many words has room for as many rows: the count, and six words for each row */
    CHAIN_MOST_KEY_BYTES = 13319,   /* bytes of the longest key */
    CHAIN_MOST_CHANNELS = 8,        /* channels of a trace */
    CHAIN_STACK_BYTES = 32768       /* more stack than any call takes */
};

/*
 * Whether a store is sound. A store whose first word is 0 has no rows and is sound; one with a wire in use is not.
 * Numbers: 1, 2.
 */
uint32_t chain_check(const uint32_t *store, size_t words);

/*
 * Whether a sheet can be read. Where its inputs point is not looked at, because that takes a store, nor are its wires. Value: the
 * place of the fault.
 * Numbers: 3, 4, 5, the lowest that applies.
 */
uint32_t chain_read_sheet(const uint8_t *sheet, size_t bytes, size_t *place);

/*
 * Inserts a sheet into a store. Values: the rows added, and the place of the sheet's fault.
 * Done: the store has the new rows and the new count; the first entries of the answer list, one for each row of the sheet, are
 * the numbers of the rows' trees. No other word of either changes. A wire has an answer as every row has: the number of what it
 * leads to, which is the next new number where the wire is the first row of that tree. No wire is stored.
 * Numbers: 1 to 5, 19, 6, 14, 15, 7, 8, tested in this order. 14 and 15 are tested for all wires of the sheet, whether another row leads
 * to them or not.
 */
uint32_t chain_insert(uint32_t *store, size_t words, const uint8_t *sheet, size_t bytes, uint32_t *answers, size_t entries,
    uint32_t *added, size_t *place);

/*
 * Inserts a sheet as chain_insert does, but only one of catalogue operations with their input counts in which every loop passes a
 * hold. The operation is the upper 16 bits of a row's label; the setting, below it, is not looked at. The catalogue,
 * each operation with its input count:
 *
 *      1  channel      0        5  scale            1        9  lesser of two   2
 *      2  constant     0        6  hold             1       10  choose          3
 *      3  difference   2        7  wire             1       11  mean of four    4
 *      4  sum          2        8  greater of two   2       12  negate          1
 *
 * Every other operation is free, and is refused with 12. A row that feeds itself is a loop. The sheet's rows are judged, whether
 * another row leads to them or not; no row of the store.
 * Rows are judged as they are drawn, wires too, which comes to the same as with wires skipped.
 * Values, and what is done: as with chain_insert.
 * Numbers: 1 to 5, 19, 6, 14, 15, 12, 13, 7, 8, tested in this order.
 */
uint32_t chain_insert_strict(uint32_t *store, size_t words, const uint8_t *sheet, size_t bytes, uint32_t *answers, size_t entries,
    uint32_t *added, size_t *place);

/*
 * Converts an old sheet, whose inputs of 32,768 and up name rows of the store that it was drawn against: 32,768 + n is row n. The
 * result is a sheet without store numbers, written to the front of a buffer. Values: the bytes written, and the place of the sheet's
 * fault.
 * Done: the sheet's rows keep their places, labels, input counts and the inputs that are rows of the sheet, wires too. Behind them
 * stand the rows of the store that some path from a row of the sheet reaches, by rising store number, and each input that was a store
 * row is the place of that row among them. Each row of the sheet so keeps its tree. Nothing is merged: a row behind may have the tree
 * of a row of the sheet. A sheet without store numbers is converted to itself. The bytes past the result are as they were.
 * Numbers: 1 to 6, 14, 15, 20, 10, tested in this order; here an input that is 32,768 + n for a row n in use points to a row.
 * CHAIN_MOST_KEY_BYTES bytes are always enough.
 */
uint32_t chain_convert(const uint32_t *store, size_t words, const uint8_t *sheet, size_t bytes, uint8_t *out, size_t room,
    size_t *written, size_t *place);

/*
 * Mends a store that need not be sound: one with wires, with a tree more than once, or with rows spoiled by bad flash.
 * The rows taken are as many as the store's first word says, or as it has room for if they are more. Of these a row is spoiled if
 * it has over 4 inputs, an input that is not below the count taken, is a wire that has not exactly one input, or is in a loop of
 * wires only. It is dropped with every row from which some path leads to it. Each tree of the others, read with wires skipped, is
 * kept once. The trees are numbered from 0 in the order of the lowest old number that stood for them, also a wire's.
 * Done: the store is sound. Its first word is the number of rows kept; the rows are those of the trees, inputs as new numbers and
 * unused input words zero; rows from there up to the count taken are zero. Entry u of the list is the new number of old row u, also
 * of a wire and of a row whose tree was there already, or CHAIN_DROPPED. No other word of either changes. A sound store is left
 * as it is, and so is one that was mended.
 * Values:
 *   dropped  the rows dropped
 *   wires    the wires not dropped
 *   merged   the rows neither dropped nor wires that have the tree of a lower such row
 *   cleared  the unused input words, of all rows not dropped, that were not zero
 * The rows kept, merged, wires and dropped together are the rows taken.
 * Numbers: 1, 16, tested in this order. CHAIN_MOST_ROWS entries are always enough.
 */
uint32_t chain_mend(uint32_t *store, size_t words, uint32_t *list, size_t entries, uint32_t *dropped, uint32_t *wires,
    uint32_t *merged, uint32_t *cleared);

/*
 * Writes the key of a row of a store to the front of a buffer. Value: the bytes written.
 * Done: the bytes past the key are as they were.
 * Numbers: 1, 2, 9, 10, tested in this order.
 */
uint32_t chain_write_key(const uint32_t *store, size_t words, uint32_t row, uint8_t *key, size_t room, size_t *written);

/* Whether bytes are a key. Bytes with a wire are none. It has no refusals, and writes nothing. */
bool chain_is_key(const uint8_t *bytes, size_t length);

/*
 * Whether a row of one store and a row of another, or of the same, have the same tree. Value: 1 for yes, 0 for no.
 * Numbers: 1 and 2 for the first store, then 1 and 2 for the second, then 9 for either row.
 */
uint32_t chain_compare(const uint32_t *first, size_t first_words, uint32_t row, const uint32_t *second, size_t second_words,
    uint32_t other, uint32_t *yes);

/*
 * Whether one tree of a store is a part of another: some path, the empty one too, leads from the whole to the part.
 * Value: 1 for yes, 0 for no.
 * Numbers: 1, 2, then 9 for either row.
 */
uint32_t chain_part_of(const uint32_t *store, size_t words, uint32_t part, uint32_t whole, uint32_t *yes);

/*
 * Runs recorded counts through the chain of a row of a store: what that row gives at each tick of a trace. The values are the
 * trace, tick after tick, in each tick channel 0 first; there are count / channels ticks, and no values are no tick. What the
 * operations of the catalogue give at a tick, from the row's inputs and its setting (the lower 16 bits of its label):
 *
 *      1  channel          the count of channel number setting, from 0
 *      2  constant         the setting as a signed 16-bit number: 32,768 is -32,768
 *      3  difference       the first input less the second
 *      4  sum              the two inputs together
 *      5  scale            the input times the setting (0 to 65,535) over 256, toward zero
 *      6  hold             0 at tick 0, later its input one tick before
 *      8  greater of two   the greater input
 *      9  lesser of two    the lesser input
 *     10  choose           the second input if the first is above zero, else the third
 *     11  mean of four     the four inputs together over 4, toward zero
 *     12  negate           0 less the input
 *
 * Difference, sum and negate are exact and then clamped to 32 bits, -2,147,483,648 to 2,147,483,647; a scale is clamped so too,
 * and the others need no clamp. Rows of one tree give the same outputs on every trace, whatever stores they are in.
 * Done: the first entries of the output, one for each tick, are what the row gave; entries past the ticks are as they were.
 * Numbers: 1, 2, 9, 12, 13, 17, 18, tested in this order. 12 and 13 are judged, as by chain_insert_strict, over the rows that the
 * row leads to, through holds too, and the row itself; so is the setting of a channel, which has to be below the channel count.
 * Other rows of the store do not matter. As many entries as values are always enough.
 */
uint32_t chain_run(const uint32_t *store, size_t words, uint32_t row, uint32_t channels, const int32_t *values, size_t count,
    int32_t *output, size_t room);

/*
 * The length of the next sheet of a bundle, which starts where the bundle starts; 0 where the bundle does not hold all of it. What
 * follows the sheet is the rest of the bundle. Only the length field is looked at; chain_insert looks at the rest. It has no
 * refusals, and writes nothing.
 */
size_t chain_next_sheet(const uint8_t *bundle, size_t bytes);

#ifdef __cplusplus
}
#endif

#endif
