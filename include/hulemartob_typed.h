/* The calls of hulemartob.h with less to hand over: a reader keeps a column together with the table and the bytes of its opening, and values are of C's own types.
 * All of it is inline C: what it calls is proved, it is not. Results and refusals are those of the call that a function is named after; a value is 0, or false,
 * on refusal.
 *
 * A whole program: it writes three temperatures as a column, opens that, and prints each, and which of them are from -10 to 0.
 *
 *     #include <hulemartob_typed.h>
 *     #include <stdio.h>
 *
 *     int main(void) {
 *         const double temperatures[] = {-2.5, 21.25, -8.0};
 *         const uint8_t codecs[] = {HULEMARTOB_CODEC_BITPACKED, HULEMARTOB_CODEC_BLOCKWISE};
 *         uint8_t bytes[100];
 *         hulemartob_error error;
 *         size_t length = hulemartob_serialize_f64(temperatures, 3, codecs, 2, bytes, sizeof bytes, &error);
 *
 *         hulemartob_reader reader;
 *         if (error.number || !hulemartob_reader_open(&reader, 1, bytes, length, &error)) {
 *             fprintf(stderr, "%s\n", hulemartob_error_text(error.number));
 *             return 1;
 *         }
 *         for (uint32_t row = 0; row < reader.column.window_rows; row++)
 *             printf("%.2f\n", hulemartob_row_f64(&reader, row, &error));
 *         uint32_t found[3];
 *         size_t many = hulemartob_lookup_f64(&reader, -10.0, 0.0, 0, 3, found, 3, &error);
 *         for (size_t i = 0; i < many; i++)
 *             printf("row %d\n", (int)found[i]);
 *         hulemartob_reader_close(&reader);
 *         return 0;
 *     }
 *
 * A list of int64_t or double is lent as it lies in memory. The library is no C code, so C's rule that an object is accessed by its own type does not reach into
 * it; a double must have 64 bits, aligned as a uint64_t is, as on x86-64. A list of bools has to be made of words.
 */
#ifndef HULEMARTOB_TYPED_H
#define HULEMARTOB_TYPED_H

#include "hulemartob.h"
#include <stdlib.h>
#include <string.h>

#ifdef __cplusplus
extern "C" {
#endif

/* ---- a reader */

/* A column with the table and the bytes of its opening. It may be put together by hand, as of a table in memory of one's own. A window of it is a copy whose
 * column is narrowed (hulemartob_narrow); copies share table and bytes, and one of them is closed. */
typedef struct hulemartob_reader {
    hulemartob_column column;
    hulemartob_block *table;
    size_t table_len;
    const uint8_t *bytes; /* lent: they must stay as they are while the reader is used */
    size_t bytes_len;
} hulemartob_reader;

/* Opens the column that `bytes` hold under an acceptance sheet (1 accepts what hulemartob_open does), with a table that it allocates if the column asks for one.
 * Returns whether it opened. If not, the reader is one of no rows, which need not be closed; where there is no memory for the table it is refused 11. */
static inline bool hulemartob_reader_open(hulemartob_reader *reader, uint32_t sheet, const uint8_t *bytes, size_t bytes_len, hulemartob_error *error) {
    hulemartob_block *table = NULL;
    size_t table_len = 0;
    memset(reader, 0, sizeof *reader);
    hulemartob_open_under(sheet, bytes, bytes_len, table, table_len, &reader->column, error);
    if (error->number == HULEMARTOB_REFUSAL_TABLE_SHORT) {
        table_len = (size_t)error->value;
        table = (hulemartob_block *)malloc(table_len * sizeof *table);
        if (table) hulemartob_open_under(sheet, bytes, bytes_len, table, table_len, &reader->column, error);
    }
    if (error->number) {
        free(table);
        return false;
    }
    reader->table = table;
    reader->table_len = table_len;
    reader->bytes = bytes;
    reader->bytes_len = bytes_len;
    return true;
}

/* Frees the table. The reader is now one of no rows. */
static inline void hulemartob_reader_close(hulemartob_reader *reader) {
    free(reader->table);
    memset(reader, 0, sizeof *reader);
}

/* hulemartob_difference of two readers. Returns whether there is a row that differs. */
static inline bool hulemartob_reader_difference(const hulemartob_reader *left, const hulemartob_reader *right, uint32_t from, hulemartob_differing *differing,
                                                hulemartob_error *error) {
    hulemartob_difference(&left->column, left->table, left->table_len, left->bytes, left->bytes_len, &right->column, right->table, right->table_len,
                          right->bytes, right->bytes_len, from, differing, error);
    return error->number == 0 && differing->row != UINT64_MAX;
}

/* ---- plain numbers */

static inline uint64_t hulemartob_row_u64(const hulemartob_reader *reader, uint32_t row, hulemartob_error *error) {
    return hulemartob_row(&reader->column, reader->table, reader->table_len, reader->bytes, reader->bytes_len, row, error);
}

static inline size_t hulemartob_run_u64(const hulemartob_reader *reader, uint32_t first, uint64_t *out, size_t out_len, hulemartob_error *error) {
    return hulemartob_run(&reader->column, reader->table, reader->table_len, reader->bytes, reader->bytes_len, first, out, out_len, error);
}

static inline size_t hulemartob_lookup_u64(const hulemartob_reader *reader, uint64_t low, uint64_t high, uint32_t first, uint32_t end, uint32_t *found,
                                           size_t found_len, hulemartob_error *error) {
    return hulemartob_lookup(&reader->column, reader->table, reader->table_len, reader->bytes, reader->bytes_len, low, high, first, end, found,
                             found_len, error);
}

/* ---- signed numbers */

static inline size_t hulemartob_serialize_i64(const int64_t *values, size_t values_len, const uint8_t *codecs, size_t codecs_len, uint8_t *out,
                                              size_t out_len, hulemartob_error *error) {
    return hulemartob_serialize_as(HULEMARTOB_KIND_I64, (const uint64_t *)values, values_len, codecs, codecs_len, out, out_len, error);
}

static inline int64_t hulemartob_row_i64(const hulemartob_reader *reader, uint32_t row, hulemartob_error *error) {
    uint64_t stored = hulemartob_row_u64(reader, row, error);
    return error->number ? 0 : hulemartob_i64_of(stored);
}

static inline size_t hulemartob_run_i64(const hulemartob_reader *reader, uint32_t first, int64_t *out, size_t out_len, hulemartob_error *error) {
    size_t many = hulemartob_run_u64(reader, first, (uint64_t *)out, out_len, error);
    hulemartob_values_as(HULEMARTOB_KIND_I64, (uint64_t *)out, many);
    return many;
}

static inline size_t hulemartob_lookup_i64(const hulemartob_reader *reader, int64_t low, int64_t high, uint32_t first, uint32_t end, uint32_t *found,
                                           size_t found_len, hulemartob_error *error) {
    hulemartob_range range;
    hulemartob_i64_range(low, high, &range);
    return hulemartob_lookup_u64(reader, range.low, range.high, first, end, found, found_len, error);
}

/* ---- dates, by their nanoseconds */

static inline size_t hulemartob_serialize_date(const int64_t *nanoseconds, size_t values_len, const uint8_t *codecs, size_t codecs_len, uint8_t *out,
                                               size_t out_len, hulemartob_error *error) {
    return hulemartob_serialize_as(HULEMARTOB_KIND_DATE, (const uint64_t *)nanoseconds, values_len, codecs, codecs_len, out, out_len, error);
}

static inline int64_t hulemartob_row_date(const hulemartob_reader *reader, uint32_t row, hulemartob_error *error) {
    return hulemartob_row_i64(reader, row, error);
}

static inline size_t hulemartob_run_date(const hulemartob_reader *reader, uint32_t first, int64_t *out, size_t out_len, hulemartob_error *error) {
    return hulemartob_run_i64(reader, first, out, out_len, error);
}

static inline size_t hulemartob_lookup_date(const hulemartob_reader *reader, int64_t low, int64_t high, uint32_t first, uint32_t end, uint32_t *found,
                                            size_t found_len, hulemartob_error *error) {
    return hulemartob_lookup_i64(reader, low, high, first, end, found, found_len, error);
}

/* ---- bools; a run of them takes less room than its words: decode these, and read them by hulemartob_values_as */

static inline bool hulemartob_row_bool(const hulemartob_reader *reader, uint32_t row, hulemartob_error *error) {
    return hulemartob_bool_of(hulemartob_row_u64(reader, row, error));
}

static inline size_t hulemartob_lookup_bool(const hulemartob_reader *reader, bool low, bool high, uint32_t first, uint32_t end, uint32_t *found,
                                            size_t found_len, hulemartob_error *error) {
    hulemartob_range range;
    hulemartob_bool_range(low, high, &range);
    return hulemartob_lookup_u64(reader, range.low, range.high, first, end, found, found_len, error);
}

/* ---- floats */

static inline size_t hulemartob_serialize_f64(const double *values, size_t values_len, const uint8_t *codecs, size_t codecs_len, uint8_t *out,
                                              size_t out_len, hulemartob_error *error) {
    return hulemartob_serialize_as(HULEMARTOB_KIND_F64, (const uint64_t *)(const void *)values, values_len, codecs, codecs_len, out, out_len, error);
}

/* The float that a stored number reads as. */
static inline double hulemartob_f64_of(uint64_t stored) {
    uint64_t bits = hulemartob_f64_bits_of(stored);
    double value;
    memcpy(&value, &bits, sizeof value);
    return value;
}

static inline double hulemartob_row_f64(const hulemartob_reader *reader, uint32_t row, hulemartob_error *error) {
    uint64_t stored = hulemartob_row_u64(reader, row, error);
    return error->number ? 0.0 : hulemartob_f64_of(stored);
}

static inline size_t hulemartob_run_f64(const hulemartob_reader *reader, uint32_t first, double *out, size_t out_len, hulemartob_error *error) {
    size_t many = hulemartob_run_u64(reader, first, (uint64_t *)(void *)out, out_len, error);
    hulemartob_values_as(HULEMARTOB_KIND_F64, (uint64_t *)(void *)out, many);
    return many;
}

/* By the stored numbers: from +0.0 to +0.0 no -0.0 is found, and bounds may be NaNs. */
static inline size_t hulemartob_lookup_f64(const hulemartob_reader *reader, double low, double high, uint32_t first, uint32_t end, uint32_t *found,
                                           size_t found_len, hulemartob_error *error) {
    uint64_t bounds[2];
    hulemartob_range range;
    memcpy(&bounds[0], &low, sizeof low);
    memcpy(&bounds[1], &high, sizeof high);
    hulemartob_f64_range(bounds[0], bounds[1], &range);
    return hulemartob_lookup_u64(reader, range.low, range.high, first, end, found, found_len, error);
}

#ifdef __cplusplus
}
#endif

#endif
