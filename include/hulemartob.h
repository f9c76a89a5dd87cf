/* Hulemartob: columns of 64-bit numbers in the format of tantivy-columnar 0.27.0 (u64_based). Statistics, writing, opening, reading, looking up, replaying
 * recorded lookups, checking against a list, and what each byte is.
 *
 * A whole program: it opens the column in the file that its argument names, and prints the rows.
 *
 *     #include <hulemartob.h>
 *     #include <inttypes.h>
 *     #include <stdio.h>
 *     #include <stdlib.h>
 *
 *     int main(int argc, char **argv) {
 *         FILE *file = argc == 2 ? fopen(argv[1], "rb") : NULL;
 *         if (!file || fseek(file, 0, SEEK_END)) return 2;
 *         size_t length = (size_t)ftell(file);
 *         uint8_t *bytes = malloc(length + 1);
 *         rewind(file);
 *         if (!bytes || fread(bytes, 1, length, file) != length) return 2;
 *
 *         // A Blockwise column asks for a table of its blocks: opened without one, it is refused with how many there are.
 *         hulemartob_column column;
 *         hulemartob_error error;
 *         hulemartob_block *table = NULL;
 *         size_t blocks = 0;
 *         hulemartob_open(bytes, length, table, blocks, &column, &error);
 *         if (error.number == HULEMARTOB_REFUSAL_TABLE_SHORT && (table = malloc(error.value * sizeof *table))) {
 *             blocks = error.value;
 *             hulemartob_open(bytes, length, table, blocks, &column, &error);
 *         }
 *         bool opened = error.number == 0;
 *         if (!opened) fprintf(stderr, "refused %" PRIu64 ": %s\n", error.number, hulemartob_error_text(error.number));
 *         for (uint32_t row = 0; opened && row < column.window_rows; row++) {
 *             uint64_t value = hulemartob_row(&column, table, blocks, bytes, length, row, &error);
 *             if (error.number)
 *                 printf("%" PRIu32 " refused %" PRIu64 "\n", row, error.number);
 *             else
 *                 printf("%" PRIu32 " %" PRIu64 "\n", row, value);
 *         }
 *         free(table);
 *         free(bytes);
 *         fclose(file);
 *         return opened ? 0 : 1;
 *     }
 *
 * It is built by `cc rows.c $(pkg-config --cflags --libs hulemartob)` once `tools/install PREFIX` has put header and archive in place. hulemartob_typed.h
 * has what is above these calls: a reader that keeps column, table and bytes together, and values of C's own types.
 *
 * The archive is x86-64-v2 code for Linux. It leaves memcpy and memset undefined, which every C library has, and needs nothing else.
 *
 * What every function does: it ends, and whatever its arguments hold it fails only by a refusal. `error` is then the refusal's number and value, and
 * nothing else that was lent is changed. Otherwise `error` is 0 and 0. All of that is proved, and so is every answer: crates/hulemartob states it as an
 * equation with the definitions of the format. The inline functions of the two headers are C, and not proved.
 *
 * What every caller owes, since no function can test it:
 *   - a pointer beside a length points to that many elements, aligned for their type; where the length is 0 it may be anything, NULL included;
 *   - a pointer to a struct without a length beside it points to one, and is not NULL;
 *   - what a function may write to (every parameter that is not const) overlaps no other argument, and nobody else reads or writes it during the call;
 *     nobody writes to the rest during the call.
 * Functions keep no state and no pointer, and may run in any number of threads.
 */
#ifndef HULEMARTOB_H
#define HULEMARTOB_H

#include <stdbool.h>
#include <stddef.h>
#include <stdint.h>

#define HULEMARTOB_VERSION "0.1.0"
#define HULEMARTOB_VERSION_MAJOR 0
#define HULEMARTOB_VERSION_MINOR 1
#define HULEMARTOB_VERSION_PATCH 0

#ifdef __cplusplus
extern "C" {
#define HULEMARTOB_NUMBERS(type, count) static_assert(sizeof(type) == 8 * (count), #type " is " #count " numbers of 64 bits")
#else
#define HULEMARTOB_NUMBERS(type, count) _Static_assert(sizeof(type) == 8 * (count), #type " is " #count " numbers of 64 bits")
#endif

/* ---- refusals */

/* Why a call refuses; crates/format has the same names. What stands behind a number is the error's value, which else is 0. */
enum hulemartob_refusal {
    HULEMARTOB_REFUSAL_NONE = 0,
    HULEMARTOB_REFUSAL_TOO_MANY_VALUES = 1,
    HULEMARTOB_REFUSAL_UNKNOWN_CODEC = 2, /* its first place in the list */
    HULEMARTOB_REFUSAL_NO_CODEC_APPLIES = 3,
    HULEMARTOB_REFUSAL_OUTPUT_SHORT = 4, /* the length needed */
    HULEMARTOB_REFUSAL_NOT_A_COLUMN = 5,
    HULEMARTOB_REFUSAL_BAD_FIELD = 6, /* the field's offset */
    HULEMARTOB_REFUSAL_GCD_ZERO = 7,
    HULEMARTOB_REFUSAL_OUT_OF_RANGE = 8,
    HULEMARTOB_REFUSAL_ILLEGAL_WIDTH = 9, /* its offset */
    HULEMARTOB_REFUSAL_AREA_SHORT = 10,
    HULEMARTOB_REFUSAL_TABLE_SHORT = 11, /* the blocks needed */
    HULEMARTOB_REFUSAL_NO_SUCH_ROW = 12,
    HULEMARTOB_REFUSAL_UNFIT = 13,
    HULEMARTOB_REFUSAL_OUT_OF_BOUNDS = 14, /* the row, counted from the window's start */
    HULEMARTOB_REFUSAL_LIST_SHORT = 15,    /* the rows found */
    HULEMARTOB_REFUSAL_OVER_LIMIT = 16,    /* programs alone; no call here refuses by it */
    HULEMARTOB_REFUSAL_OFFENDING = 17,     /* the first such byte's offset */
    HULEMARTOB_REFUSAL_UNKNOWN_SHEET = 18,
    HULEMARTOB_REFUSAL_BAD_RECORDING = 19,
    HULEMARTOB_REFUSAL_NOT_FOR_VIEW = 20 /* views alone, in Rattle; no call here refuses by it */
};

typedef struct hulemartob_error {
    uint64_t number; /* enum hulemartob_refusal: 0 where nothing is refused */
    uint64_t value;
} hulemartob_error;
HULEMARTOB_NUMBERS(hulemartob_error, 2);

/* What a refusal's number says, in a sentence. */
static inline const char *hulemartob_error_text(uint64_t number) {
    switch (number) {
    case HULEMARTOB_REFUSAL_NONE: return "nothing is refused";
    case HULEMARTOB_REFUSAL_TOO_MANY_VALUES: return "there are 2^32 values or more";
    case HULEMARTOB_REFUSAL_UNKNOWN_CODEC: return "a listed codec is none: its byte is above 2";
    case HULEMARTOB_REFUSAL_NO_CODEC_APPLIES: return "none of the listed codecs applies (Linear asks for 512 values)";
    case HULEMARTOB_REFUSAL_OUTPUT_SHORT: return "the output is shorter than the column";
    case HULEMARTOB_REFUSAL_NOT_A_COLUMN: return "there are no bytes, or the first is above 2 and so no codec's";
    case HULEMARTOB_REFUSAL_BAD_FIELD: return "a number is cut off, or is 2^64 or more";
    case HULEMARTOB_REFUSAL_GCD_ZERO: return "the gcd is 0";
    case HULEMARTOB_REFUSAL_OUT_OF_RANGE: return "the greatest value is 2^64 or more, or the rows are 2^32 or more";
    case HULEMARTOB_REFUSAL_ILLEGAL_WIDTH: return "a width is neither 0 to 56 nor 64";
    case HULEMARTOB_REFUSAL_AREA_SHORT: return "the packed area does not fit, or the footer's length is missing or too great";
    case HULEMARTOB_REFUSAL_TABLE_SHORT: return "the block table is too short";
    case HULEMARTOB_REFUSAL_NO_SUCH_ROW: return "the row is not below the window's rows";
    case HULEMARTOB_REFUSAL_UNFIT: return "column, window, table and bytes do not belong together, or a number is no kind";
    case HULEMARTOB_REFUSAL_OUT_OF_BOUNDS: return "a row's value lies outside the column's minimum and maximum";
    case HULEMARTOB_REFUSAL_LIST_SHORT: return "the list for found rows is too short";
    case HULEMARTOB_REFUSAL_OVER_LIMIT: return "there are more bytes or rows than a program takes";
    case HULEMARTOB_REFUSAL_OFFENDING: return "a byte is not as acceptance sheet 2 asks";
    case HULEMARTOB_REFUSAL_UNKNOWN_SHEET: return "the acceptance sheet is neither 1 nor 2";
    case HULEMARTOB_REFUSAL_BAD_RECORDING: return "the bytes are no recording of lookups";
    case HULEMARTOB_REFUSAL_NOT_FOR_VIEW: return "a Blockwise column has no view";
    default: return "this number is no refusal's";
    }
}

/* ---- columns */

/* How a column is packed: the first byte of its bytes. */
enum hulemartob_codec {
    HULEMARTOB_CODEC_BITPACKED = 0,
    HULEMARTOB_CODEC_LINEAR = 1,   /* above a line; written of 512 values or more */
    HULEMARTOB_CODEC_BLOCKWISE = 2 /* above a line for each 512 rows */
};

/* A column: opening writes it, reading takes it. Reading counts rows from the window's start.
 *
 * Any numbers may be handed to reading. Those that are no column (codec above 2, rows or a number of the window above 2^32 - 1, a Linear width above 255) are
 * refused 13 before anything else; a window that leaves the column is refused 13 when one of its rows is read, or when it is narrowed. */
typedef struct hulemartob_column {
    uint64_t codec; /* enum hulemartob_codec */
    uint64_t minimum;
    uint64_t gcd;
    uint64_t count; /* the greatest value is minimum + gcd * count */
    uint64_t rows;
    uint64_t start; /* of the packed area, an offset into the bytes */
    uint64_t size;  /* of the packed area, in bytes */
    uint64_t slope; /* of Linear's line, with 32 bits after the point; these three are 0 for the other codecs */
    uint64_t intercept;
    uint64_t width;        /* of Linear's packed numbers, in bits */
    uint64_t window_first; /* the window through which the column is seen: its first row */
    uint64_t window_rows;  /* and how many it has; opening shows the whole column */
} hulemartob_column;
HULEMARTOB_NUMBERS(hulemartob_column, 12);

/* A block of a Blockwise column, which has one for each 512 rows: the block table is a list of them. Any records may be handed to reading. The other
 * codecs do not look at the table. */
typedef struct hulemartob_block {
    uint64_t slope; /* of its line, with 32 bits after the point */
    uint64_t intercept;
    uint64_t width; /* of its packed numbers, in bits */
    uint64_t start; /* its first byte, counted from the start of the packed area */
} hulemartob_block;
HULEMARTOB_NUMBERS(hulemartob_block, 4);

/* ---- writing */

/* Statistics of a list. No values have minimum and maximum 0, and gcd 1. */
typedef struct hulemartob_stats {
    uint64_t minimum;
    uint64_t maximum;
    uint64_t gcd; /* of how far the values lie from the first; 1 where all are equal */
    uint64_t rows;
} hulemartob_stats;
HULEMARTOB_NUMBERS(hulemartob_stats, 4);

/* The statistics of a list. Refused 1. */
void hulemartob_column_stats(const uint64_t *values, size_t values_len, hulemartob_stats *stats, hulemartob_error *error);

/* Writes a list as a column, by that of the listed codecs (a byte each, of enum hulemartob_codec) whose size is least, the earliest of equals. The column's
 * bytes are now the first of `out`; the rest of it is unchanged. Returns the column's length, 0 on refusal. Refused 1 to 4, tested in this order. An output
 * of no bytes is refused 4 with the length needed. */
size_t hulemartob_serialize(const uint64_t *values, size_t values_len, const uint8_t *codecs, size_t codecs_len, uint8_t *out, size_t out_len,
                            hulemartob_error *error);

/* ---- opening */

/* Opens the column that `bytes` hold: it is now in `column`, and its blocks, if it is Blockwise, are the first records of `table`; the rest of the table is
 * unchanged. Bytes behind the column are accepted. Refused 5 to 11. A table of no records is enough for Bitpacked and Linear, and else is refused 11 with the
 * blocks needed.
 * Returns the offset of the first number, in the head, Linear's line or the blocks' fields, that is spelled in more bytes than it need be; UINT64_MAX where
 * all are spelled as short as can be, and on refusal. */
uint64_t hulemartob_open(const uint8_t *bytes, size_t bytes_len, hulemartob_block *table, size_t table_len, hulemartob_column *column,
                         hulemartob_error *error);

/* Opens the column that `bytes` hold under an acceptance sheet. Sheet 1 is hulemartob_open. Sheet 2 asks besides that every number is spelled as short as can
 * be, that every byte belongs to a part of the column, and that the bits which fill up the packed area's last byte are 0; what hulemartob_serialize writes
 * passes both. Refused 18 before everything, then 5 to 11, then 17 under sheet 2 with the lowest offset that offends, for a spelling its first byte: the table
 * is then as it was. Returns what hulemartob_open does. */
uint64_t hulemartob_open_under(uint32_t sheet, const uint8_t *bytes, size_t bytes_len, hulemartob_block *table, size_t table_len,
                               hulemartob_column *column, hulemartob_error *error);

/* Narrows a column's window to `count` rows from its row `first` on: window_first and window_rows are now the narrowed window's, counted from the column's first
 * row. Neither table nor bytes are needed. Numbers that mean nothing for the codec, slope, intercept and width of a column that is not Linear, are 0
 * afterwards, whatever was handed in; an opened column has them so already. Refused 13 if the numbers are no column, then 12 if first + count is above the
 * window's rows, then 13 if the window leaves the column, even for no rows; `column` is then as it was. */
void hulemartob_narrow(hulemartob_column *column, uint32_t first, uint32_t count, hulemartob_error *error);

/* ---- reading: each takes a column with the table and the bytes of its opening */

/* Reads a row of the window. Returns the value, 0 on refusal. Refused 12 to 14. */
uint64_t hulemartob_row(const hulemartob_column *column, const hulemartob_block *table, size_t table_len, const uint8_t *bytes, size_t bytes_len,
                        uint32_t row, hulemartob_error *error);

/* Decodes the rows from `first` on, as many as `out` has entries, into `out`. Returns how many they are, 0 on refusal, which leaves `out` as it was. Refused
 * 12 before all else if the run leaves the rows; then the first row of it that hulemartob_row refuses decides (13, 14). */
size_t hulemartob_run(const hulemartob_column *column, const hulemartob_block *table, size_t table_len, const uint8_t *bytes, size_t bytes_len,
                      uint32_t first, uint64_t *out, size_t out_len, hulemartob_error *error);

/* Looks up the rows from `first` to below `end`, which is cut to the window's rows, whose value lies from `low` to `high`. They are now the first entries of
 * `found`, ascending; the rest of it is unchanged. Returns how many they are, 0 on refusal. The first row of the run that hulemartob_row refuses decides
 * (13, 14), whatever the range is; then 15. */
size_t hulemartob_lookup(const hulemartob_column *column, const hulemartob_block *table, size_t table_len, const uint8_t *bytes, size_t bytes_len,
                         uint64_t low, uint64_t high, uint32_t first, uint32_t end, uint32_t *found, size_t found_len, hulemartob_error *error);

/* What a row answers: its value, or 0 and the refusal. */
typedef struct hulemartob_answer {
    hulemartob_error error;
    uint64_t value;
} hulemartob_answer;
HULEMARTOB_NUMBERS(hulemartob_answer, 3);

/* A row at which two columns differ, with what each answers; the row UINT64_MAX where none differs. */
typedef struct hulemartob_differing {
    uint64_t row;
    hulemartob_answer left;
    hulemartob_answer right;
} hulemartob_differing;
HULEMARTOB_NUMBERS(hulemartob_differing, 7);

/* Looks for the first row from `from` on whose answers differ between two opened columns, each with the table and the bytes of its opening. The columns may
 * differ in codec. Rows are those of the windows: one that only one window has is refused 12 by the other. Refused rows are equal if their numbers are. Where
 * no row differs, `differing` is UINT64_MAX and zeros. Refused 13 where numbers are no column; `differing` is then as it was. */
void hulemartob_difference(const hulemartob_column *left, const hulemartob_block *ltable, size_t ltable_len, const uint8_t *lbytes, size_t lbytes_len,
                           const hulemartob_column *right, const hulemartob_block *rtable, size_t rtable_len, const uint8_t *rbytes, size_t rbytes_len,
                           uint32_t from, hulemartob_differing *differing, hulemartob_error *error);

/* ---- recorded lookups
 *
 * A recording begins with four numbers of 32 bits, little end first, as all of it is: how many records, the offset of the first, how many row numbers, the
 * offset of the first. A record is low and high, of 64 bits, then first, end, the place of its first row number in the list, and how many row numbers it has,
 * of 32 bits: 32 bytes. A row number has 32 bits. Both regions may lie anywhere behind the header, need not be aligned, and may touch but not overlap. The
 * offset of a region without entries is not looked at. */

/* How a replay ended. */
typedef struct hulemartob_report {
    uint64_t differs; /* the index of the record that differs, UINT64_MAX where all agree */
    uint64_t ran;     /* how many were run, the differing one included */
} hulemartob_report;
HULEMARTOB_NUMBERS(hulemartob_report, 2);

/* Reruns the recorded lookups one after another, up to the first that does not find exactly its recorded rows; one that hulemartob_row would refuse a row of is
 * such a one. Refused 19, before any lookup, where a header or region leaves the recording, a region begins inside the header, a record's place plus how many is
 * above the list's length, or regions overlap. A refusal leaves `report` as it was. */
void hulemartob_replay(const hulemartob_column *column, const hulemartob_block *table, size_t table_len, const uint8_t *bytes, size_t bytes_len,
                       const uint8_t *recording, size_t recording_len, hulemartob_report *report, hulemartob_error *error);

/* ---- what each byte is */

/* The parts of a column, in the order of their bytes: those of the head, Linear's three, the area and what is behind it, Blockwise's footer. */
enum hulemartob_part_name {
    HULEMARTOB_PART_CODE = 0,
    HULEMARTOB_PART_MINIMUM = 1,
    HULEMARTOB_PART_GCD = 2,
    HULEMARTOB_PART_COUNT = 3,
    HULEMARTOB_PART_ROWS = 4,
    HULEMARTOB_PART_SLOPE = 5,
    HULEMARTOB_PART_INTERCEPT = 6,
    HULEMARTOB_PART_WIDTH = 7,
    HULEMARTOB_PART_AREA = 8,
    HULEMARTOB_PART_BEHIND = 9, /* bytes behind the area, before the footer */
    HULEMARTOB_PART_BLOCK_SLOPE = 10,
    HULEMARTOB_PART_BLOCK_INTERCEPT = 11,
    HULEMARTOB_PART_BLOCK_WIDTH = 12,
    HULEMARTOB_PART_SPARE = 13, /* bytes left over in the footer */
    HULEMARTOB_PART_FOOTER_LENGTH = 14
};

typedef struct hulemartob_part {
    uint64_t name;  /* enum hulemartob_part_name */
    uint64_t block; /* the number of its block, 0 where it is no block's */
    uint64_t offset;
    uint64_t length;
    uint64_t value; /* the number that its bytes spell, 0 where they spell none */
} hulemartob_part;
HULEMARTOB_NUMBERS(hulemartob_part, 5);

/* `part` is now the part that holds the byte at `offset`. Refused 13 where that lies past the bytes, or the numbers are no column of them. A refusal leaves
 * `part` as it was. */
void hulemartob_part_at(const hulemartob_column *column, const uint8_t *bytes, size_t bytes_len, size_t offset, hulemartob_part *part,
                        hulemartob_error *error);

/* A place between parts: how many come before it, and the offset behind them. 0 and 0 is the first. */
typedef struct hulemartob_cursor {
    uint64_t number;
    uint64_t offset;
} hulemartob_cursor;
HULEMARTOB_NUMBERS(hulemartob_cursor, 2);

/* Lists the parts from the place of `cursor` on, those without bytes too, as many as there is room for: each is five numbers of `numbers`, a hulemartob_part, and
 * the cursor's place is now behind the last. The rest of `numbers` is unchanged. Returns how many parts these are, 0 on refusal; where there was room for more,
 * there are no more. A column's parts are so listed in one walk, by one call or by several:
 *
 *     hulemartob_part parts[64];
 *     hulemartob_cursor cursor = {0, 0};
 *     while ((count = hulemartob_parts(&column, bytes, length, &cursor, &parts[0].name, 5 * 64, &error))) ..
 *
 * A cursor that no call left may be handed over: then the parts are those that would stand there. Refused 13 where the numbers are no column, or its area leaves
 * the bytes. A refusal leaves cursor and numbers as they were. */
size_t hulemartob_parts(const hulemartob_column *column, const uint8_t *bytes, size_t bytes_len, hulemartob_cursor *cursor, uint64_t *numbers,
                        size_t numbers_len, hulemartob_error *error);

/* Rows from `first` to below `end`. */
typedef struct hulemartob_rows {
    uint64_t first;
    uint64_t end;
} hulemartob_rows;
HULEMARTOB_NUMBERS(hulemartob_rows, 2);

/* `rows` are now those that own a bit of the byte at `offset`; 0 and 0 where none does. They are rows of the whole column, whatever its window. Refused 13 as
 * hulemartob_part_at. A refusal leaves `rows` as it was. */
void hulemartob_rows_at(const hulemartob_column *column, const hulemartob_block *table, size_t table_len, const uint8_t *bytes, size_t bytes_len,
                        size_t offset, hulemartob_rows *rows, hulemartob_error *error);

/* ---- where opening stops */

/* A refusal of opening, by its place: the part that was being read, and the offset where that begins. */
typedef struct hulemartob_place {
    uint64_t number; /* enum hulemartob_refusal, 5 to 10; 0 where the bytes open, and then all are 0 */
    uint64_t name;   /* enum hulemartob_part_name */
    uint64_t block;  /* the number of its block, 0 where it is no block's */
    uint64_t offset;
} hulemartob_place;
HULEMARTOB_NUMBERS(hulemartob_place, 4);

/* `place` is now where hulemartob_open stops in these bytes, given a table for all blocks: the number is its refusal's, and the offset the one that 6 and 9 return.
 * 5 is the code byte's, 7 the gcd's, 8 the count's or the rows', 10 the packed area's or, where it is missing or too great, the footer length's; one that is
 * missing would begin behind the head. Never refused. The byte of 17 is in the part that hulemartob_part_at tells, since the bytes then open under sheet 1. */
void hulemartob_stop(const uint8_t *bytes, size_t bytes_len, hulemartob_place *place);

/* ---- columns of signed numbers, dates, bools and floats
 *
 * The bytes are the same; a kind says how a stored number reads, and the bytes do not tell it.
 *
 *    a value of          is lent as                            stored as
 *    U64                 itself                                itself
 *    I64                 its two's complement bits             v + 2^63
 *    DATE                those of its signed nanoseconds       the same
 *    BOOL                0, or any other word for true         0 or 1; any stored number above 0 reads as true
 *    F64                 its bits, a NaN's too                 all bits inverted if the sign bit is set, else with the sign bit set
 *
 * These mappings keep order: stored numbers are ordered as the values are, -0.0 directly under +0.0, NaNs beyond the infinity of their sign. All bits return,
 * but of a bool only whether it is true.
 *
 * Any other number of a kind is refused 13 before anything else, as numbers that are no column are. */
enum hulemartob_kind {
    HULEMARTOB_KIND_U64 = 0,
    HULEMARTOB_KIND_I64 = 1,
    HULEMARTOB_KIND_DATE = 2,
    HULEMARTOB_KIND_BOOL = 3,
    HULEMARTOB_KIND_F64 = 4
};

/* hulemartob_column_stats of the numbers that values of a kind are stored as. Refused 13, 1. */
void hulemartob_column_stats_as(uint32_t kind, const uint64_t *values, size_t values_len, hulemartob_stats *stats, hulemartob_error *error);

/* What the choice of a codec compares: for each codec the bytes behind the code byte, UINT64_MAX where the codec does not apply, as Linear does not to
 * fewer than 512 values. Those of Bitpacked and of Linear are exact: their columns have one byte more. That of Blockwise is an estimate, which takes the
 * lines of the blocks from the values as they are stored, not from their multiples of the gcd, and takes off what the gcd is thought to save, down to 0;
 * its columns may be shorter or longer. */
typedef struct hulemartob_codec_sizes {
    uint64_t bitpacked;
    uint64_t linear;
    uint64_t blockwise;
} hulemartob_codec_sizes;
HULEMARTOB_NUMBERS(hulemartob_codec_sizes, 3);

/* The sizes by which hulemartob_serialize_as chooses for a list. Every codec is sized, which reads the values several times. Refused 13, 1. */
void hulemartob_sizes(uint32_t kind, const uint64_t *values, size_t values_len, hulemartob_codec_sizes *sizes, hulemartob_error *error);

/* hulemartob_serialize of the numbers that values of a kind are stored as. Refused 13, 1 to 4. */
size_t hulemartob_serialize_as(uint32_t kind, const uint64_t *values, size_t values_len, const uint8_t *codecs, size_t codecs_len, uint8_t *out,
                               size_t out_len, hulemartob_error *error);

/* What a stored number reads as: a signed number or a date's nanoseconds, a bool, the bits of a float. Never refused. */
int64_t hulemartob_i64_of(uint64_t stored);
bool hulemartob_bool_of(uint64_t stored);
uint64_t hulemartob_f64_bits_of(uint64_t stored);

/* The same of a list of stored numbers, such as a run's, in one call: each becomes the word of the value that it reads as, a bool's 0 or 1. Never refused: where
 * the number is no kind, the list is unchanged. */
void hulemartob_values_as(uint32_t kind, uint64_t *list, size_t list_len);

/* Stored numbers from `low` to `high`, both included. */
typedef struct hulemartob_range {
    uint64_t low;
    uint64_t high;
} hulemartob_range;
HULEMARTOB_NUMBERS(hulemartob_range, 2);

/* The first and the last stored number of the values from `low` to `high`, for hulemartob_lookup: of signed numbers or dates, of bools, of floats by their
 * bits. Where low is above high so are the stored numbers, and nothing lies between them. Never refused. */
void hulemartob_i64_range(int64_t low, int64_t high, hulemartob_range *range);
void hulemartob_bool_range(bool low, bool high, hulemartob_range *range);
void hulemartob_f64_range(uint64_t low, uint64_t high, hulemartob_range *range);

/* ---- columns from other writers */

/* Whether a column holds a list, or the first reason why not, tested in this order. What stands behind a reason is the verdict's `first` and `second`, which
 * else are 0. */
enum hulemartob_reason {
    HULEMARTOB_VERDICT_PASSED = 0,   /* it holds the list */
    HULEMARTOB_VERDICT_UNOPENED = 1, /* it does not open under the sheet: the refusal's number, its value */
    HULEMARTOB_VERDICT_COUNTS = 2,   /* it has another number of rows: the column's rows, the list's length */
    HULEMARTOB_VERDICT_UNEQUAL = 3,  /* a row does not read as its value, or is refused: the first such row, 0 */
    HULEMARTOB_VERDICT_MINIMUM = 4,  /* it states another minimum than the list's */
    HULEMARTOB_VERDICT_GCD = 5,      /* another gcd */
    HULEMARTOB_VERDICT_MAXIMUM = 6   /* another maximum: minimum + gcd * count */
};

typedef struct hulemartob_verdict {
    uint64_t reason; /* enum hulemartob_reason */
    uint64_t first;
    uint64_t second;
} hulemartob_verdict;
HULEMARTOB_NUMBERS(hulemartob_verdict, 3);

/* Opens the column that `bytes` hold under an acceptance sheet and checks it against a list of values of a kind, by the numbers that these are stored as.
 * A column that does not open is a verdict and no refusal: refused 13 alone, where the number is no kind. Once the column is opened, its blocks are the first
 * records of `table`, whatever the verdict; the rest of the table is unchanged. */
void hulemartob_check(uint32_t kind, uint32_t sheet, const uint8_t *bytes, size_t bytes_len, const uint64_t *values, size_t values_len,
                      hulemartob_block *table, size_t table_len, hulemartob_verdict *verdict, hulemartob_error *error);

#undef HULEMARTOB_NUMBERS

#ifdef __cplusplus
}
#endif

#endif
