/* The functions of hulemartob_typed.h: readers, and values of each kind. Writes as calls.c does. */
#include <hulemartob_typed.h>

#include "expect.h"

static const uint8_t codecs[] = {0, 1, 2};
static uint8_t bytes[20000];
static uint32_t found[3];

/* A reader of the column that the first `length` bytes hold. */
static hulemartob_reader reader_of(size_t length) {
    hulemartob_reader reader;
    EXPECT(hulemartob_reader_open(&reader, 2, bytes, length, &error) && refused(0, 0));
    return reader;
}

static void readers(void) {
    uint64_t values[1025], out[1025];
    for (uint64_t i = 0; i < 1025; i++)
        values[i] = 1000 * i + i * i % 97;
    for (uint8_t codec = 0; codec < 3; codec++) {
        size_t length = hulemartob_serialize(values, 1025, &codec, 1, bytes, sizeof bytes, &error);
        hulemartob_reader reader = reader_of(length);
        EXPECT(reader.column.codec == codec && reader.table_len == (codec == HULEMARTOB_CODEC_BLOCKWISE ? 3 : 0));
        EXPECT(reader.bytes == bytes && reader.bytes_len == length);
        EXPECT(hulemartob_row_u64(&reader, 1024, &error) == values[1024] && refused(0, 0));
        EXPECT(hulemartob_row_u64(&reader, 1025, &error) == 0 && refused(12, 0));
        EXPECT(hulemartob_run_u64(&reader, 0, out, 1025, &error) == 1025 && memcmp(out, values, sizeof out) == 0);
        EXPECT(hulemartob_lookup_u64(&reader, values[511], values[513], 0, 1025, found, 3, &error) == 3 && found[0] == 511 && found[2] == 513);
        /* A window is a copy with a narrowed column. */
        hulemartob_reader window = reader;
        hulemartob_narrow(&window.column, 510, 5, &error);
        EXPECT(hulemartob_row_u64(&window, 4, &error) == values[514] && refused(0, 0));
        EXPECT(hulemartob_row_u64(&window, 5, &error) == 0 && refused(12, 0));
        hulemartob_differing two;
        EXPECT(!hulemartob_reader_difference(&reader, &reader, 0, &two, &error) && refused(0, 0) && two.row == UINT64_MAX);
        EXPECT(hulemartob_reader_difference(&reader, &window, 7, &two, &error) && two.row == 7 && two.left.value == values[7]);
        EXPECT(two.right.error.number == 12 && two.right.value == 0);
        hulemartob_reader_close(&reader);
        EXPECT(reader.table == NULL && reader.column.rows == 0);
        EXPECT(hulemartob_row_u64(&reader, 0, &error) == 0 && refused(12, 0));
    }
    /* What does not open is a reader of no rows: no bytes, a sheet that there is not, and a Blockwise column whose area is short. */
    hulemartob_reader none;
    EXPECT(!hulemartob_reader_open(&none, 1, NULL, 0, &error) && refused(5, 0));
    EXPECT(hulemartob_run_u64(&none, 0, out, 0, &error) == 0 && refused(0, 0));
    EXPECT(!hulemartob_reader_open(&none, 3, bytes, 1, &error) && refused(18, 0));
    const uint8_t cut[] = {0x02, 0x87, 0x81, 0x80, 0x81, 0x80, 0x80, 0x01, 0x03, 0x00, 0x00, 0x00};
    EXPECT(!hulemartob_reader_open(&none, 1, cut, sizeof cut, &error) && refused(10, 0));
    EXPECT(none.table == NULL && none.table_len == 0 && hulemartob_row_u64(&none, 0, &error) == 0 && refused(12, 0));
    hulemartob_reader_close(&none);
}

static void signed_numbers(void) {
    const int64_t numbers[] = {-10, 10, 0};
    size_t length = hulemartob_serialize_i64(numbers, 3, codecs, 3, bytes, sizeof bytes, &error);
    hulemartob_reader reader = reader_of(length);
    EXPECT(hulemartob_row_i64(&reader, 0, &error) == -10);
    EXPECT(hulemartob_row_i64(&reader, 3, &error) == 0 && refused(12, 0));
    EXPECT(hulemartob_lookup_i64(&reader, -10, 0, 0, 3, found, 3, &error) == 2 && found[0] == 0 && found[1] == 2);
    EXPECT(hulemartob_lookup_i64(&reader, 0, -10, 0, 3, found, 3, &error) == 0 && refused(0, 0));
    int64_t out[3] = {7, 7, 7};
    EXPECT(hulemartob_run_i64(&reader, 1, out, 3, &error) == 0 && refused(12, 0) && out[0] == 7 && out[2] == 7);
    EXPECT(hulemartob_run_i64(&reader, 0, out, 3, &error) == 3 && memcmp(out, numbers, sizeof out) == 0);
    hulemartob_reader_close(&reader);
    EXPECT(hulemartob_i64_of(0) == INT64_MIN && hulemartob_i64_of(UINT64_MAX) == INT64_MAX && hulemartob_i64_of(UINT64_C(1) << 63) == 0);
    hulemartob_range range;
    hulemartob_i64_range(INT64_MIN, -1, &range);
    EXPECT(range.low == 0 && range.high == (UINT64_C(1) << 63) - 1);
}

static void dates(void) {
    const int64_t days[] = {INT64_C(1700000000000000000), INT64_C(-86400000000000), 0};
    size_t length = hulemartob_serialize_date(days, 3, codecs, 3, bytes, sizeof bytes, &error);
    hulemartob_reader reader = reader_of(length);
    for (uint32_t row = 0; row < 3; row++)
        EXPECT(hulemartob_row_date(&reader, row, &error) == days[row] && refused(0, 0));
    int64_t out[3];
    EXPECT(hulemartob_run_date(&reader, 0, out, 3, &error) == 3 && memcmp(out, days, sizeof out) == 0);
    EXPECT(hulemartob_lookup_date(&reader, days[1], 0, 0, 3, found, 3, &error) == 2 && found[0] == 1 && found[1] == 2);
    hulemartob_reader_close(&reader);
}

static void bools(void) {
    /* The stored numbers 1 and 3 both read as true. */
    const uint8_t true_twice[] = {0x00, 0x81, 0x82, 0x81, 0x82, 0x02};
    memcpy(bytes, true_twice, sizeof true_twice);
    hulemartob_reader reader = reader_of(sizeof true_twice);
    EXPECT(hulemartob_row_u64(&reader, 0, &error) == 1 && hulemartob_row_u64(&reader, 1, &error) == 3);
    EXPECT(hulemartob_row_bool(&reader, 0, &error) && hulemartob_row_bool(&reader, 1, &error) && refused(0, 0));
    EXPECT(!hulemartob_row_bool(&reader, 2, &error) && refused(12, 0));
    EXPECT(hulemartob_lookup_bool(&reader, true, true, 0, 2, found, 3, &error) == 2 && found[0] == 0 && found[1] == 1);
    EXPECT(hulemartob_lookup_bool(&reader, false, false, 0, 2, found, 3, &error) == 0 && refused(0, 0));
    EXPECT(hulemartob_lookup_bool(&reader, true, false, 0, 2, found, 3, &error) == 0 && refused(0, 0));
    hulemartob_reader_close(&reader);
    EXPECT(!hulemartob_bool_of(0) && hulemartob_bool_of(1) && hulemartob_bool_of(UINT64_MAX));
    hulemartob_range range;
    hulemartob_bool_range(false, true, &range);
    EXPECT(range.low == 0 && range.high == UINT64_MAX);
}

static uint64_t bits_of(double value) {
    uint64_t bits;
    memcpy(&bits, &value, sizeof bits);
    return bits;
}

static void floats(void) {
    const double numbers[] = {-0.0, 0.0, 1.5};
    size_t length = hulemartob_serialize_f64(numbers, 3, codecs, 3, bytes, sizeof bytes, &error);
    hulemartob_reader reader = reader_of(length);
    EXPECT(hulemartob_row_f64(&reader, 2, &error) == 1.5);
    EXPECT(bits_of(hulemartob_row_f64(&reader, 0, &error)) == UINT64_C(1) << 63 && refused(0, 0));
    EXPECT(hulemartob_row_f64(&reader, 3, &error) == 0.0 && refused(12, 0));
    EXPECT(hulemartob_lookup_f64(&reader, 0.0, 0.0, 0, 3, found, 3, &error) == 1 && found[0] == 1);
    double out[3];
    EXPECT(hulemartob_run_f64(&reader, 0, out, 3, &error) == 3 && memcmp(out, numbers, sizeof out) == 0);
    EXPECT(hulemartob_run_f64(&reader, 3, out, 1, &error) == 0 && refused(12, 0) && memcmp(out, numbers, sizeof out) == 0);
    hulemartob_reader_close(&reader);
    EXPECT(hulemartob_f64_bits_of(0) == UINT64_MAX && hulemartob_f64_bits_of(UINT64_C(1) << 63) == 0);
    EXPECT(bits_of(hulemartob_f64_of(UINT64_C(1) << 63)) == 0 && hulemartob_f64_of(bits_of(1.5) | UINT64_C(1) << 63) == 1.5);
    hulemartob_range range;
    hulemartob_f64_range(bits_of(-0.0), bits_of(0.0), &range);
    EXPECT(range.low == (UINT64_C(1) << 63) - 1 && range.high == UINT64_C(1) << 63);
}

int main(void) {
    readers();
    signed_numbers();
    dates();
    bools();
    floats();
    return ended();
}
