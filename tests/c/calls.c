/* The exported calls from C, through hulemartob.h: each of them, with tables as they come and as no opening makes them, and what a refusal leaves. Writes a line
 * for each expectation that is not met, and at the end how many were tried. */
#include "expect.h"

typedef hulemartob_block block;

/* The rows 10, 30, 20 as a Bitpacked column, and as a Blockwise one: one block, and an area of one byte. */
static const uint8_t packed[] = {0x00, 0x8A, 0x8A, 0x82, 0x83, 0x18};
static const uint8_t three[] = {0x02, 0x8A, 0x8A, 0x82, 0x83, 0x08, 0x00, 0x00, 0x00, 0x00, 0x88, 0x80, 0x02, 0x07, 0x00, 0x00, 0x00};
static const uint64_t three_values[] = {10, 30, 20};
static const block mark = {11, 12, 13, 14};

static int same(const block *a, const block *b, size_t n) { return memcmp(a, b, n * sizeof *a) == 0; }

static block block_of(uint64_t slope, uint64_t intercept, uint64_t width, uint64_t start) {
    block made;
    made.slope = slope;
    made.intercept = intercept;
    made.width = width;
    made.start = start;
    return made;
}

/* A column that none is: its codec is 3. */
static hulemartob_column no_column(void) {
    hulemartob_column column;
    memset(&column, 0, sizeof column);
    column.codec = 3;
    return column;
}

/* 1,025 values, so three blocks, written by a codec. */
static uint64_t values[1025];
static uint8_t bytes[20000];

static size_t write_by(uint8_t codec) {
    for (uint64_t i = 0; i < 1025; i++)
        values[i] = 1000 * i + i * i % 97;
    return hulemartob_serialize(values, 1025, &codec, 1, bytes, sizeof bytes, &error);
}

static void tables_of_any_length(void) {
    for (uint8_t codec = 0; codec < 3; codec++) {
        size_t length = write_by(codec);
        EXPECT(refused(0, 0));
        for (size_t room = 0; room <= 5; room++) {
            block table[5] = {mark, mark, mark, mark, mark}, marks[5] = {mark, mark, mark, mark, mark};
            hulemartob_column column;
            column.codec = 99;
            uint64_t longer = hulemartob_open(bytes, length, table, room, &column, &error);
            EXPECT(longer == UINT64_MAX);
            if (codec == HULEMARTOB_CODEC_BLOCKWISE && room < 3) {
                EXPECT(refused(HULEMARTOB_REFUSAL_TABLE_SHORT, 3));
                EXPECT(column.codec == 99);
                EXPECT(same(table, marks, 5));
                continue;
            }
            EXPECT(refused(0, 0));
            EXPECT(column.codec == codec);
            size_t blocks = codec == HULEMARTOB_CODEC_BLOCKWISE ? 3 : 0;
            EXPECT(same(table + blocks, marks, 5 - blocks));
            for (uint32_t row = 0; row < 1025; row++)
                EXPECT(hulemartob_row(&column, table, room, bytes, length, row, &error) == values[row] && refused(0, 0));
            if (codec == HULEMARTOB_CODEC_BLOCKWISE) {
                EXPECT(table[0].start == 0 && table[1].start == 64 * table[0].width && table[2].start == 64 * (table[0].width + table[1].width));
                EXPECT(hulemartob_row(&column, table, 2, bytes, length, 1023, &error) == values[1023]);
                EXPECT(hulemartob_row(&column, table, 2, bytes, length, 1024, &error) == 0 && refused(13, 0));
            }
        }
    }
}

static uint64_t row_with(block b) {
    hulemartob_column column;
    block table[1];
    hulemartob_open(three, sizeof three, table, 1, &column, &error);
    return hulemartob_row(&column, &b, 1, three, sizeof three, 0, &error);
}

static void any_record(void) {
    hulemartob_column column;
    block sound[1];
    hulemartob_open(three, sizeof three, sound, 1, &column, &error);
    EXPECT(sound->slope == UINT64_C(1) << 31 && sound->intercept == 0 && sound->width == 2 && sound->start == 0);
    EXPECT(row_with(*sound) == 10 && refused(0, 0));
    EXPECT(row_with(block_of(0, 0, 0, 0)) == 10 && refused(0, 0));
    EXPECT(row_with(block_of(UINT64_MAX, UINT64_MAX, UINT64_MAX, UINT64_MAX)) == 0 && refused(13, 0));
    EXPECT(row_with(block_of(UINT64_MAX, UINT64_MAX, 0, 0)) == 0 && refused(14, 0));
    const uint64_t widths[] = {9, 56, 57, 63, 64, 65, 256, UINT64_C(1) << 32, UINT64_C(1) << 63, UINT64_MAX};
    for (size_t i = 0; i < sizeof widths / sizeof *widths; i++)
        EXPECT(row_with(block_of(sound->slope, 0, widths[i], 0)) == 0 && refused(13, 0));
    /* Starts whose count of bits is 0, or next to it, modulo 2^64; a block without bits has none that could leave the area. */
    const uint64_t starts[] = {1, (UINT64_C(1) << 61) - 1, UINT64_C(1) << 61, (UINT64_C(1) << 61) + 1, UINT64_C(1) << 63, UINT64_MAX - 1, UINT64_MAX};
    for (size_t i = 0; i < sizeof starts / sizeof *starts; i++) {
        EXPECT(row_with(block_of(sound->slope, 0, 2, starts[i])) == 0 && refused(13, 0));
        EXPECT(row_with(block_of(sound->slope, 0, 0, starts[i])) == 10 && refused(0, 0));
    }
}

static void other_calls(void) {
    size_t length = write_by(HULEMARTOB_CODEC_BLOCKWISE);
    hulemartob_column column, none = no_column();
    block table[3];
    hulemartob_open_under(2, bytes, length, table, 3, &column, &error);
    EXPECT(refused(0, 0));
    uint32_t found[4] = {7, 7, 7, 7};
    EXPECT(hulemartob_lookup(&column, table, 3, bytes, length, values[511], values[513], 0, 1025, found, 4, &error) == 3 && refused(0, 0));
    EXPECT(found[0] == 511 && found[1] == 512 && found[2] == 513 && found[3] == 7);
    EXPECT(hulemartob_lookup(&column, table, 3, bytes, length, 0, UINT64_MAX, 0, 1025, found, 4, &error) == 0 && refused(15, 1025));
    EXPECT(hulemartob_lookup(&none, table, 3, bytes, length, 0, UINT64_MAX, 0, 9, found, 4, &error) == 0 && refused(13, 0));
    EXPECT(found[0] == 511 && found[3] == 7);
    uint64_t out[4] = {7, 7, 7, 7};
    EXPECT(hulemartob_run(&column, table, 3, bytes, length, 510, out, 4, &error) == 4 && refused(0, 0));
    EXPECT(out[0] == values[510] && out[3] == values[513]);
    EXPECT(hulemartob_run(&column, table, 3, bytes, length, 1022, out, 4, &error) == 0 && refused(12, 0));
    EXPECT(hulemartob_run(&none, table, 3, bytes, length, 0, out, 0, &error) == 0 && refused(13, 0));
    EXPECT(out[0] == values[510]);
    hulemartob_rows rows = {7, 7};
    hulemartob_rows_at(&column, table, 3, bytes, length, column.start + table[1].start, &rows, &error);
    EXPECT(refused(0, 0) && rows.first == 512 && rows.end >= 513);
    hulemartob_rows_at(&none, table, 3, bytes, length, 0, &rows, &error);
    EXPECT(refused(13, 0) && rows.first == 512);
    const uint8_t empty[16] = {0};
    hulemartob_report report = {7, 7};
    hulemartob_replay(&column, table, 3, bytes, length, empty, 16, &report, &error);
    EXPECT(refused(0, 0) && report.differs == UINT64_MAX && report.ran == 0);
    hulemartob_replay(&none, table, 3, bytes, length, empty, 15, &report, &error);
    EXPECT(refused(13, 0) && report.ran == 0);
    hulemartob_replay(&column, table, 3, bytes, length, empty, 15, &report, &error);
    EXPECT(refused(19, 0));
    hulemartob_verdict verdict = {7, 7, 7};
    block lent[4] = {mark, mark, mark, mark};
    hulemartob_check(HULEMARTOB_KIND_U64, 2, bytes, length, values, 1025, lent, 4, &verdict, &error);
    EXPECT(refused(0, 0) && verdict.reason == HULEMARTOB_VERDICT_PASSED && same(lent, table, 3) && same(lent + 3, &mark, 1));
    hulemartob_check(HULEMARTOB_KIND_U64, 2, bytes, length, values, 1024, lent, 4, &verdict, &error);
    EXPECT(refused(0, 0) && verdict.reason == HULEMARTOB_VERDICT_COUNTS && verdict.first == 1025 && verdict.second == 1024);
    lent[0] = mark;
    hulemartob_check(5, 2, bytes, length, values, 1025, lent, 4, &verdict, &error);
    EXPECT(refused(13, 0) && verdict.reason == HULEMARTOB_VERDICT_COUNTS && same(lent, &mark, 1));
    hulemartob_check(HULEMARTOB_KIND_U64, 2, bytes, length, values, 1025, lent, 2, &verdict, &error);
    EXPECT(refused(0, 0) && verdict.reason == HULEMARTOB_VERDICT_UNOPENED && verdict.first == 11 && verdict.second == 3 && same(lent, &mark, 1));
}

/* Each refusal's number has a sentence of its own; no other number has one. */
static void sentences(void) {
    const char *none = hulemartob_error_text(UINT64_MAX);
    EXPECT(strcmp(none, hulemartob_error_text(21)) == 0 && strcmp(none, hulemartob_error_text(UINT64_C(1) << 32)) == 0);
    for (uint64_t a = 0; a <= 20; a++) {
        EXPECT(strlen(hulemartob_error_text(a)) > 10 && strcmp(none, hulemartob_error_text(a)) != 0);
        for (uint64_t b = 0; b < a; b++)
            EXPECT(strcmp(hulemartob_error_text(a), hulemartob_error_text(b)) != 0);
    }
}

/* Every field of an opened column and of its block, by columns worked out by hand (docs/FORMAT.md). */
static void fields(void) {
    hulemartob_column column;
    block table[1];
    hulemartob_open(three, sizeof three, table, 1, &column, &error);
    EXPECT(column.codec == HULEMARTOB_CODEC_BLOCKWISE && column.minimum == 10 && column.gcd == 10 && column.count == 2 && column.rows == 3);
    EXPECT(column.start == 5 && column.size == 1 && column.slope == 0 && column.intercept == 0 && column.width == 0);
    EXPECT(column.window_first == 0 && column.window_rows == 3);
    const uint8_t linear[] = {0x01, 0x85, 0x82, 0x7F, 0x83, 0x00, 0x84, 0x00, 0x00, 0x00, 0x00, 0xA0, 0x85, 0x00};
    hulemartob_open(linear, sizeof linear, NULL, 0, &column, &error);
    EXPECT(column.codec == HULEMARTOB_CODEC_LINEAR && column.minimum == 5 && column.gcd == 2 && column.count == 511 && column.rows == 512);
    EXPECT(column.start == 14 && column.size == 0 && column.slope == UINT64_C(1) << 33 && column.intercept == 5 && column.width == 0);
    EXPECT(column.window_first == 0 && column.window_rows == 512);
    EXPECT(hulemartob_row(&column, NULL, 0, linear, sizeof linear, 511, &error) == 1027 && refused(0, 0));
    uint64_t list[512];
    for (uint64_t i = 0; i < 512; i++)
        list[i] = 5 + 2 * i;
    const uint8_t codec = HULEMARTOB_CODEC_LINEAR;
    uint8_t out[20];
    EXPECT(hulemartob_serialize(list, 512, &codec, 1, out, sizeof out, &error) == sizeof linear && memcmp(out, linear, sizeof linear) == 0);
}

static void statistics(void) {
    hulemartob_stats stats = {7, 7, 7, 7};
    hulemartob_column_stats(three_values, 3, &stats, &error);
    EXPECT(refused(0, 0) && stats.minimum == 10 && stats.maximum == 30 && stats.gcd == 10 && stats.rows == 3);
    hulemartob_column_stats(NULL, 0, &stats, &error);
    EXPECT(refused(0, 0) && stats.minimum == 0 && stats.maximum == 0 && stats.gcd == 1 && stats.rows == 0);
    const uint64_t signed_words[] = {(uint64_t)INT64_MIN, 0, UINT64_MAX};
    hulemartob_column_stats_as(HULEMARTOB_KIND_I64, signed_words, 3, &stats, &error);
    EXPECT(refused(0, 0) && stats.minimum == 0 && stats.maximum == UINT64_C(1) << 63 && stats.gcd == 1 && stats.rows == 3);
    hulemartob_column_stats_as(HULEMARTOB_KIND_BOOL, signed_words, 3, &stats, &error);
    EXPECT(refused(0, 0) && stats.minimum == 0 && stats.maximum == 1 && stats.gcd == 1 && stats.rows == 3);
    hulemartob_column_stats_as(5, three_values, 3, &stats, &error);
    EXPECT(refused(13, 0) && stats.maximum == 1 && stats.rows == 3);
}

static void sizes(void) {
    const uint8_t bitpacked[] = {0}, linear[] = {1};
    uint64_t rising[600];
    for (size_t i = 0; i < 600; i++) {
        rising[i] = 1000 + 7 * i;
    }
    hulemartob_codec_sizes sizes = {7, 7, 7};
    hulemartob_sizes(HULEMARTOB_KIND_U64, rising, 600, &sizes, &error);
    EXPECT(refused(0, 0) && sizes.bitpacked == 757 && sizes.linear == 15);
    EXPECT(hulemartob_serialize(rising, 600, bitpacked, 1, NULL, 0, &error) == 0 && refused(4, sizes.bitpacked + 1));
    EXPECT(hulemartob_serialize(rising, 600, linear, 1, NULL, 0, &error) == 0 && refused(4, sizes.linear + 1));
    hulemartob_sizes(HULEMARTOB_KIND_I64, three_values, 3, &sizes, &error);
    EXPECT(refused(0, 0) && sizes.linear == UINT64_MAX && sizes.bitpacked < sizes.blockwise);
    hulemartob_sizes(HULEMARTOB_KIND_BOOL, NULL, 0, &sizes, &error);
    EXPECT(refused(0, 0) && sizes.bitpacked == 4 && sizes.linear == UINT64_MAX && sizes.blockwise == 8);
    hulemartob_sizes(5, three_values, 3, &sizes, &error);
    EXPECT(refused(13, 0) && sizes.bitpacked == 4 && sizes.linear == UINT64_MAX && sizes.blockwise == 8);
}

static void writing(void) {
    const uint8_t all[] = {0, 1, 2}, linear[] = {1}, unknown[] = {0, 3, 4};
    uint8_t out[8];
    memset(out, 0xEE, sizeof out);
    EXPECT(hulemartob_serialize(three_values, 3, unknown, 3, out, sizeof out, &error) == 0 && refused(2, 1));
    EXPECT(hulemartob_serialize(three_values, 3, linear, 1, out, sizeof out, &error) == 0 && refused(3, 0));
    EXPECT(hulemartob_serialize(three_values, 3, NULL, 0, out, sizeof out, &error) == 0 && refused(3, 0));
    EXPECT(hulemartob_serialize(three_values, 3, all, 3, out, 5, &error) == 0 && refused(4, 6));
    EXPECT(hulemartob_serialize(three_values, 3, all, 3, NULL, 0, &error) == 0 && refused(4, 6));
    EXPECT(out[0] == 0xEE && out[7] == 0xEE);
    EXPECT(hulemartob_serialize(three_values, 3, all, 3, out, sizeof out, &error) == 6 && refused(0, 0));
    EXPECT(memcmp(out, packed, 6) == 0 && out[6] == 0xEE && out[7] == 0xEE);
    EXPECT(hulemartob_serialize_as(HULEMARTOB_KIND_U64, three_values, 3, all + 2, 1, bytes, sizeof bytes, &error) == sizeof three);
    EXPECT(memcmp(bytes, three, sizeof three) == 0);
    const uint64_t flags[] = {0, 7, 0, UINT64_MAX};
    const uint8_t stored[] = {0x00, 0x80, 0x81, 0x81, 0x84, 0x0A};
    EXPECT(hulemartob_serialize_as(HULEMARTOB_KIND_BOOL, flags, 4, all, 3, bytes, sizeof bytes, &error) == 6 && memcmp(bytes, stored, 6) == 0);
    EXPECT(hulemartob_serialize_as(5, flags, 4, unknown, 3, out, 0, &error) == 0 && refused(13, 0));
}

/* What opening says of some bytes, under a sheet, with a table of one record. On refusal nothing is changed. */
static uint64_t opening(uint32_t sheet, const char *hex) {
    uint8_t read[40];
    size_t length = 0;
    unsigned byte;
    for (; sscanf(hex + 2 * length, "%2x", &byte) == 1; length++)
        read[length] = (uint8_t)byte;
    hulemartob_column column = no_column();
    block table[1] = {mark};
    uint64_t longer = hulemartob_open_under(sheet, read, length, table, 1, &column, &error);
    if (error.number) EXPECT(longer == UINT64_MAX && column.codec == 3 && column.rows == 0 && same(table, &mark, 1));
    return longer;
}

static void openings(void) {
    EXPECT(opening(1, "") == UINT64_MAX && refused(5, 0));
    EXPECT(opening(1, "03") == UINT64_MAX && refused(5, 0));
    EXPECT(opening(1, "008a8a0283") == UINT64_MAX && refused(6, 5));
    EXPECT(opening(1, "008a808283") == UINT64_MAX && refused(7, 0));
    EXPECT(opening(1, "008a8a82000000009018") == UINT64_MAX && refused(8, 0));
    EXPECT(opening(1, "018a8a828380803900") == UINT64_MAX && refused(9, 7));
    EXPECT(opening(1, "008a8a8283") == UINT64_MAX && refused(10, 0));
    EXPECT(opening(1, "028a8a82018400000000") == UINT64_MAX && refused(11, 2));
    EXPECT(opening(0, "") == UINT64_MAX && refused(18, 0));
    EXPECT(opening(257, "008a8a828318") == UINT64_MAX && refused(18, 0));
    /* The minimum in two bytes; a byte behind the area; a filling bit. */
    EXPECT(opening(1, "000a808a828318") == 1 && refused(0, 0));
    EXPECT(opening(2, "000a808a828318") == UINT64_MAX && refused(17, 1));
    EXPECT(opening(1, "008a8a82831800") == UINT64_MAX && refused(0, 0));
    EXPECT(opening(2, "008a8a82831800") == UINT64_MAX && refused(17, 6));
    EXPECT(opening(2, "008a8a828358") == UINT64_MAX && refused(17, 5));
    EXPECT(opening(2, "008a8a828318") == UINT64_MAX && refused(0, 0));
}

static void windows(void) {
    for (uint8_t codec = 0; codec < 3; codec++) {
        size_t length = write_by(codec);
        hulemartob_column column;
        block table[3];
        hulemartob_open(bytes, length, table, 3, &column, &error);
        hulemartob_column whole = column;
        hulemartob_narrow(&column, 500, 100, &error);
        EXPECT(refused(0, 0) && column.window_first == 500 && column.window_rows == 100);
        hulemartob_narrow(&column, 10, 20, &error);
        EXPECT(refused(0, 0) && column.window_first == 510 && column.window_rows == 20);
        for (uint32_t row = 0; row < 20; row++)
            EXPECT(hulemartob_row(&column, table, 3, bytes, length, row, &error) == values[510 + row] && refused(0, 0));
        EXPECT(hulemartob_row(&column, table, 3, bytes, length, 20, &error) == 0 && refused(12, 0));
        uint32_t found[2] = {7, 7};
        EXPECT(hulemartob_lookup(&column, table, 3, bytes, length, values[512], values[512], 0, 1025, found, 2, &error) == 1 && found[0] == 2);
        uint64_t out[20];
        EXPECT(hulemartob_run(&column, table, 3, bytes, length, 0, out, 20, &error) == 20 && memcmp(out, values + 510, sizeof out) == 0);
        hulemartob_column before = column;
        hulemartob_narrow(&column, 1, 20, &error);
        EXPECT(refused(12, 0) && memcmp(&column, &before, sizeof column) == 0);
        hulemartob_narrow(&column, UINT32_MAX, UINT32_MAX, &error);
        EXPECT(refused(12, 0) && memcmp(&column, &before, sizeof column) == 0);
        hulemartob_narrow(&column, 20, 0, &error);
        EXPECT(refused(0, 0) && column.window_first == 530 && column.window_rows == 0);
        /* A window that leaves the column. */
        column = whole;
        column.window_first = 1000;
        hulemartob_narrow(&column, 0, 0, &error);
        EXPECT(refused(13, 0) && column.window_first == 1000 && column.window_rows == 1025);
        EXPECT(hulemartob_row(&column, table, 3, bytes, length, 0, &error) == 0 && refused(13, 0));
    }
    /* Numbers that mean nothing for the codec are 0 afterwards; numbers that are no column stay. */
    hulemartob_column loose;
    memset(&loose, 0, sizeof loose);
    loose.slope = loose.intercept = loose.width = 1;
    hulemartob_narrow(&loose, 0, 0, &error);
    EXPECT(refused(0, 0) && loose.slope == 0 && loose.intercept == 0 && loose.width == 0);
    loose.codec = HULEMARTOB_CODEC_LINEAR;
    loose.slope = loose.intercept = loose.width = 1;
    hulemartob_narrow(&loose, 0, 0, &error);
    EXPECT(refused(0, 0) && loose.slope == 1 && loose.intercept == 1 && loose.width == 1);
    loose.width = 256;
    hulemartob_narrow(&loose, 9, 9, &error);
    EXPECT(refused(13, 0) && loose.width == 256 && loose.slope == 1);
    loose = no_column();
    loose.slope = 1;
    hulemartob_narrow(&loose, 0, 0, &error);
    EXPECT(refused(13, 0) && loose.codec == 3 && loose.slope == 1);
}

static void put(uint8_t *at, uint64_t number, int count) {
    for (int i = 0; i < count; i++)
        at[i] = (uint8_t)(number >> 8 * i);
}

/* Two records over a column: the rows whose value is 30, and those from 10 to 20. */
static void recorded(uint8_t recording[92], uint32_t thirty, uint32_t ten, uint32_t twenty) {
    const uint32_t rows[] = {thirty, ten, twenty};
    const uint64_t ranges[][2] = {{30, 30}, {10, 20}};
    put(recording, 2, 4);
    put(recording + 4, 16, 4);
    put(recording + 8, 3, 4);
    put(recording + 12, 80, 4);
    for (int k = 0; k < 2; k++) {
        uint8_t *record = recording + 16 + 32 * k;
        put(record, ranges[k][0], 8);
        put(record + 8, ranges[k][1], 8);
        put(record + 16, 0, 4);
        put(record + 20, UINT32_MAX, 4);
        put(record + 24, (uint64_t)k, 4);
        put(record + 28, (uint64_t)k + 1, 4);
    }
    for (int k = 0; k < 3; k++)
        put(recording + 80 + 4 * k, rows[k], 4);
}

/* The lookup 20 to 30 over rows 0 to 9, which found two rows from one on. */
static void recorded_pair(uint8_t recording[56], uint32_t first) {
    const uint32_t header[] = {1, 16, 2, 48};
    const uint32_t numbers[] = {0, 9, 0, 2, first, first + 1};
    for (int k = 0; k < 4; k++)
        put(recording + 4 * k, header[k], 4);
    put(recording + 16, 20, 8);
    put(recording + 24, 30, 8);
    for (int k = 0; k < 6; k++)
        put(recording + 32 + 4 * k, numbers[k], 4);
}

static void replays(void) {
    hulemartob_column column;
    block table[1];
    uint8_t recording[92];
    hulemartob_report report = {7, 7};
    hulemartob_open(three, sizeof three, table, 1, &column, &error);
    recorded(recording, 1, 0, 2);
    hulemartob_replay(&column, table, 1, three, sizeof three, recording, sizeof recording, &report, &error);
    EXPECT(refused(0, 0) && report.differs == UINT64_MAX && report.ran == 2);
    recorded(recording, 1, 0, 1);
    hulemartob_replay(&column, table, 1, three, sizeof three, recording, sizeof recording, &report, &error);
    EXPECT(refused(0, 0) && report.differs == 1 && report.ran == 2);
    recorded(recording, 0, 0, 2);
    hulemartob_replay(&column, table, 1, three, sizeof three, recording, sizeof recording, &report, &error);
    EXPECT(refused(0, 0) && report.differs == 0 && report.ran == 1);
    hulemartob_replay(&column, table, 1, three, sizeof three, recording, sizeof recording - 1, &report, &error);
    EXPECT(refused(19, 0) && report.differs == 0 && report.ran == 1);
    /* Through a window a recording's rows count from its start: 10, 30, 20 behind a row of another value. */
    const uint64_t four[] = {40, 10, 30, 20};
    const uint8_t codec = HULEMARTOB_CODEC_BLOCKWISE;
    size_t length = hulemartob_serialize(four, 4, &codec, 1, bytes, sizeof bytes, &error);
    hulemartob_open(bytes, length, table, 1, &column, &error);
    recorded(recording, 1, 0, 2);
    hulemartob_replay(&column, table, 1, bytes, length, recording, sizeof recording, &report, &error);
    EXPECT(refused(0, 0) && report.differs == 0 && report.ran == 1);
    hulemartob_narrow(&column, 1, 3, &error);
    hulemartob_replay(&column, table, 1, bytes, length, recording, sizeof recording, &report, &error);
    EXPECT(refused(0, 0) && report.differs == UINT64_MAX && report.ran == 2);
    /* Rows 1 and 2 of 10, 30, 20: the lookup 20 to 30, whose end lies behind all rows, finds both. Recorded by the column's rows it differs. */
    const uint8_t packed[] = {0x00, 0x8A, 0x8A, 0x82, 0x83, 0x18};
    uint8_t both[56];
    hulemartob_open(packed, sizeof packed, NULL, 0, &column, &error);
    hulemartob_narrow(&column, 1, 2, &error);
    for (uint32_t first = 0; first < 2; first++) {
        recorded_pair(both, first);
        hulemartob_replay(&column, NULL, 0, packed, sizeof packed, both, sizeof both, &report, &error);
        EXPECT(refused(0, 0) && report.differs == (first ? 0 : UINT64_MAX) && report.ran == 1);
    }
}

static void parts(void) {
    const hulemartob_part all[] = {
        {HULEMARTOB_PART_CODE, 0, 0, 1, 2},
        {HULEMARTOB_PART_MINIMUM, 0, 1, 1, 10},
        {HULEMARTOB_PART_GCD, 0, 2, 1, 10},
        {HULEMARTOB_PART_COUNT, 0, 3, 1, 2},
        {HULEMARTOB_PART_ROWS, 0, 4, 1, 3},
        {HULEMARTOB_PART_AREA, 0, 5, 1, 0},
        {HULEMARTOB_PART_BLOCK_SLOPE, 0, 6, 5, UINT64_C(1) << 31},
        {HULEMARTOB_PART_BLOCK_INTERCEPT, 0, 11, 1, 0},
        {HULEMARTOB_PART_BLOCK_WIDTH, 0, 12, 1, 2},
        {HULEMARTOB_PART_FOOTER_LENGTH, 0, 13, 4, 7},
    };
    hulemartob_column column, none = no_column();
    block table[1];
    hulemartob_open(three, sizeof three, table, 1, &column, &error);
    size_t k = 0;
    for (size_t offset = 0; offset < sizeof three; offset++) {
        hulemartob_part part;
        hulemartob_part_at(&column, three, sizeof three, offset, &part, &error);
        k += offset == all[k].offset + all[k].length;
        EXPECT(refused(0, 0) && memcmp(&part, &all[k], sizeof part) == 0);
        hulemartob_rows rows = {7, 7};
        hulemartob_rows_at(&column, table, 1, three, sizeof three, offset, &rows, &error);
        EXPECT(refused(0, 0) && rows.first == 0 && rows.end == (offset == 5 ? 3 : 0));
    }
    EXPECT(k == sizeof all / sizeof *all - 1);
    hulemartob_part part = all[1];
    hulemartob_part_at(&column, three, sizeof three, sizeof three, &part, &error);
    EXPECT(refused(13, 0) && memcmp(&part, &all[1], sizeof part) == 0);
    hulemartob_part_at(&none, three, sizeof three, 0, &part, &error);
    EXPECT(refused(13, 0) && memcmp(&part, &all[1], sizeof part) == 0);
    /* All of them in one walk, in stretches of any length, empty ones too: two of twelve. */
    for (size_t room = 1; room <= 13; room++) {
        hulemartob_part listed[13];
        hulemartob_cursor cursor = {0, 0};
        size_t seen = 0, kept = 0, count;
        while ((count = hulemartob_parts(&column, three, sizeof three, &cursor, &listed[0].name, 5 * room, &error)) != 0) {
            EXPECT(refused(0, 0) && count <= room);
            seen += count;
            for (size_t i = 0; i < count; i++)
                if (listed[i].length != 0) {
                    EXPECT(kept < sizeof all / sizeof *all && memcmp(&listed[i], &all[kept], sizeof part) == 0);
                    kept++;
                }
            EXPECT(cursor.number == seen && cursor.offset == listed[count - 1].offset + listed[count - 1].length);
        }
        EXPECT(refused(0, 0) && seen == 12 && kept == sizeof all / sizeof *all && cursor.offset == sizeof three);
    }
    uint64_t five[7] = {7, 7, 7, 7, 7, 7, 7};
    hulemartob_cursor behind = {1, 1};
    EXPECT(hulemartob_parts(&column, three, sizeof three, &behind, five, 7, &error) == 1 && refused(0, 0));
    EXPECT(five[0] == HULEMARTOB_PART_MINIMUM && five[4] == 10 && five[5] == 7 && five[6] == 7 && behind.number == 2 && behind.offset == 2);
    EXPECT(hulemartob_parts(&column, three, sizeof three, &behind, five, 4, &error) == 0 && refused(0, 0) && behind.number == 2);
    EXPECT(hulemartob_parts(&none, three, sizeof three, &behind, five, 7, &error) == 0 && refused(13, 0));
    EXPECT(hulemartob_parts(&column, three, 5, &behind, five, 7, &error) == 0 && refused(13, 0));
    EXPECT(five[0] == HULEMARTOB_PART_MINIMUM && five[4] == 10 && behind.number == 2 && behind.offset == 2);
    /* Linear's own parts, bytes behind the area, and bytes left over in a footer. */
    const uint8_t linear[] = {0x01, 0x85, 0x82, 0x81, 0x82, 0x80, 0x85, 0x00, 0xEE};
    hulemartob_open(linear, sizeof linear, NULL, 0, &column, &error);
    const uint64_t names[] = {HULEMARTOB_PART_SLOPE, HULEMARTOB_PART_INTERCEPT, HULEMARTOB_PART_WIDTH, HULEMARTOB_PART_BEHIND};
    for (size_t i = 0; i < 4; i++) {
        hulemartob_part_at(&column, linear, sizeof linear, 5 + i, &part, &error);
        EXPECT(refused(0, 0) && part.name == names[i] && part.offset == 5 + i && part.length == 1);
    }
    const uint8_t spare[] = {0x02, 0x80, 0x81, 0x80, 0x80, 0xEE, 0x01, 0x00, 0x00, 0x00};
    hulemartob_open(spare, sizeof spare, NULL, 0, &column, &error);
    hulemartob_part_at(&column, spare, sizeof spare, 5, &part, &error);
    EXPECT(refused(0, 0) && part.name == HULEMARTOB_PART_SPARE && part.offset == 5 && part.length == 1);
}

/* Where opening stops: every way to cut, and to change a byte of, two columns; opening's own refusal and offset are met. */
static void stops(void) {
    const uint8_t linear[] = {0x01, 0x85, 0x82, 0x81, 0x82, 0x80, 0x85, 0x00};
    const uint8_t *columns[] = {three, linear, packed};
    const size_t lengths[] = {sizeof three, sizeof linear, sizeof packed};
    size_t met[11] = {0};
    for (size_t k = 0; k < 3; k++)
        for (size_t length = 0; length <= lengths[k]; length++)
            for (size_t at = 0; at <= length; at++)
                for (unsigned byte = 0; byte < (at == length ? 1u : 256u); byte++) {
                    uint8_t bytes[sizeof three];
                    memcpy(bytes, columns[k], length);
                    if (at < length) bytes[at] = (uint8_t)byte;
                    hulemartob_column column;
                    block table[256];
                    hulemartob_place place = {7, 7, 7, 7};
                    hulemartob_stop(bytes, length, &place);
                    hulemartob_open(bytes, length, table, 256, &column, &error);
                    if (error.number == HULEMARTOB_REFUSAL_TABLE_SHORT) continue;
                    EXPECT(place.number == error.number && place.number <= 10 && place.offset <= length);
                    if (error.number == HULEMARTOB_REFUSAL_BAD_FIELD || error.number == HULEMARTOB_REFUSAL_ILLEGAL_WIDTH) EXPECT(place.offset == error.value);
                    if (place.number <= 10) met[place.number]++;
                }
    for (size_t number = 5; number <= 10; number++) EXPECT(met[number] != 0);
    hulemartob_place place = {7, 7, 7, 7};
    hulemartob_stop(three, sizeof three, &place);
    EXPECT(place.number == 0 && place.name == 0 && place.block == 0 && place.offset == 0);
    hulemartob_stop(three, 12, &place);
    EXPECT(place.number == 10 && place.name == HULEMARTOB_PART_FOOTER_LENGTH && place.block == 0 && place.offset == 8);
    hulemartob_stop(NULL, 0, &place);
    EXPECT(place.number == 5 && place.name == HULEMARTOB_PART_CODE && place.offset == 0);
}

/* The verdict on 10, 30, 20. */
static hulemartob_verdict judged(const uint8_t *column, size_t length) {
    hulemartob_verdict verdict = {7, 7, 7};
    block table[1];
    hulemartob_check(HULEMARTOB_KIND_U64, 1, column, length, three_values, 3, table, 1, &verdict, &error);
    EXPECT(refused(0, 0));
    return verdict;
}

static int said(hulemartob_verdict verdict, uint64_t reason, uint64_t first, uint64_t second) {
    return verdict.reason == reason && verdict.first == first && verdict.second == second;
}

static void verdicts(void) {
    const uint8_t unequal[] = {0x00, 0x8A, 0x8A, 0x82, 0x83, 0x08};
    const uint8_t beyond[] = {0x00, 0x8A, 0x8A, 0x82, 0x83, 0x1C};
    const uint8_t minimum[] = {0x00, 0x80, 0x8A, 0x83, 0x83, 0x2D};
    const uint8_t gcd[] = {0x00, 0x8A, 0x85, 0x84, 0x83, 0xA0, 0x00};
    const uint8_t maximum[] = {0x00, 0x8A, 0x8A, 0x83, 0x83, 0x18};
    EXPECT(said(judged(packed, sizeof packed), HULEMARTOB_VERDICT_PASSED, 0, 0));
    EXPECT(said(judged(three, sizeof three), HULEMARTOB_VERDICT_PASSED, 0, 0));
    EXPECT(said(judged(packed, 3), HULEMARTOB_VERDICT_UNOPENED, HULEMARTOB_REFUSAL_BAD_FIELD, 3));
    EXPECT(said(judged(unequal, sizeof unequal), HULEMARTOB_VERDICT_UNEQUAL, 2, 0));
    EXPECT(said(judged(beyond, sizeof beyond), HULEMARTOB_VERDICT_UNEQUAL, 1, 0));
    EXPECT(said(judged(minimum, sizeof minimum), HULEMARTOB_VERDICT_MINIMUM, 0, 0));
    EXPECT(said(judged(gcd, sizeof gcd), HULEMARTOB_VERDICT_GCD, 0, 0));
    EXPECT(said(judged(maximum, sizeof maximum), HULEMARTOB_VERDICT_MAXIMUM, 0, 0));
}

/* Two columns, by two codecs, that differ in row 1,000, in the second half of its chunk. */
static void differences(void) {
    static uint8_t other[20000];
    const uint8_t plain = HULEMARTOB_CODEC_BITPACKED;
    const hulemartob_column none = no_column();
    hulemartob_column left, right;
    hulemartob_differing found, nothing;
    block table[3];
    memset(&nothing, 0, sizeof nothing);
    nothing.row = UINT64_MAX;
    size_t length = write_by(HULEMARTOB_CODEC_BLOCKWISE);
    hulemartob_open(bytes, length, table, 3, &left, &error);
    values[1000] += 1;
    size_t others = hulemartob_serialize(values, 1025, &plain, 1, other, sizeof other, &error);
    hulemartob_open(other, others, NULL, 0, &right, &error);
    hulemartob_difference(&left, table, 3, bytes, length, &right, NULL, 0, other, others, 0, &found, &error);
    EXPECT(refused(0, 0) && found.row == 1000 && found.left.error.number == 0 && found.left.value == values[1000] - 1);
    EXPECT(found.right.error.number == 0 && found.right.value == values[1000]);
    hulemartob_difference(&left, table, 3, bytes, length, &right, NULL, 0, other, others, 1001, &found, &error);
    EXPECT(refused(0, 0) && memcmp(&found, &nothing, sizeof found) == 0);
    /* Rows whose block is missing are refused 13: on one side, and on both. */
    hulemartob_difference(&left, table, 1, bytes, length, &right, NULL, 0, other, others, 0, &found, &error);
    EXPECT(found.row == 512 && found.left.error.number == 13 && found.left.value == 0 && found.right.value == values[512]);
    hulemartob_difference(&left, table, 1, bytes, length, &left, table, 1, bytes, length, 0, &found, &error);
    EXPECT(refused(0, 0) && memcmp(&found, &nothing, sizeof found) == 0);
    /* Rows count from the windows' starts, and one of the longer window only is refused 12 by the other. */
    hulemartob_narrow(&left, 100, 925, &error);
    hulemartob_narrow(&right, 100, 800, &error);
    hulemartob_difference(&left, table, 3, bytes, length, &right, NULL, 0, other, others, 0, &found, &error);
    EXPECT(found.row == 800 && found.left.value == values[900] && found.right.error.number == 12 && found.right.value == 0);
    hulemartob_difference(&none, table, 3, bytes, length, &right, NULL, 0, other, others, 0, &found, &error);
    EXPECT(refused(13, 0) && found.row == 800);
}

/* A list of stored numbers read by each kind; where the number is no kind it stays. */
static void lists_by_kind(void) {
    const uint64_t stored[3] = {0, (uint64_t)1 << 63, UINT64_MAX};
    const uint64_t read[5][3] = {{0, (uint64_t)1 << 63, UINT64_MAX},
                                 {(uint64_t)1 << 63, 0, INT64_MAX},
                                 {(uint64_t)1 << 63, 0, INT64_MAX},
                                 {0, 1, 1},
                                 {UINT64_MAX, 0, INT64_MAX}};
    for (uint32_t kind = 0; kind < 6; kind++) {
        uint64_t list[3];
        memcpy(list, stored, sizeof list);
        hulemartob_values_as(kind, list, 3);
        EXPECT(memcmp(list, kind < 5 ? read[kind] : stored, sizeof list) == 0);
    }
}

int main(void) {
    tables_of_any_length();
    any_record();
    other_calls();
    sentences();
    fields();
    statistics();
    sizes();
    writing();
    openings();
    windows();
    replays();
    parts();
    stops();
    verdicts();
    differences();
    lists_by_kind();
    return ended();
}
