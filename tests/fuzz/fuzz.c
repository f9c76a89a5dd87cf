/* A target for libFuzzer over opening, reading, looking up, replaying, checking, writing, and what each byte is (tests/fuzz/run builds it).
 *
 * An input is choices and a body. The body is a column's bytes, or a list that is written as one, of which some bytes may then be changed; the opened column may be
 * asked as it is, or with some of its numbers, or its table's, replaced. What is asked, what is lent and how much room it has are choices.
 *
 * What is asserted, besides that nothing crashes:
 *   - a refused call changes nothing that it was lent, and a call that is not refused nothing behind its answer;
 *   - opening says the same with just enough table and with more, and asks for the same with less; sheet 2 accepts only what sheet 1 does, as the same column;
 *   - a run is its rows, a lookup its rows filtered, a window's row the column's, and the first refused row decides;
 *   - the parts of a column are its bytes from the first to the last, and a changed byte of the area changes no row but those that it names; the first that it changes
 *     is where the two columns differ;
 *   - a recording of what lookups find agrees, and a replay of any other bytes says what its lookups do;
 *   - the verdict on a column is the one that rows and statistics give;
 *   - what a column reads as, written again, opens under both sheets and reads as the same, as values of any kind too, by which a lookup finds what lies between.
 *
 * Lent memory has exactly the length that the call is told, and ends right before a page that nobody may touch, or begins right behind one, by choice: the archive is
 * not compiled for a sanitizer, and so a byte that it reads or writes outside of what was lent is a fault all the same. Nor is it compiled for libFuzzer's counters:
 * the target counts by itself what was answered (`seen`). */
#define _DEFAULT_SOURCE /* mmap */
#include <hulemartob.h>
#include <stdio.h>
#include <stdlib.h>
#include <string.h>
#include <sys/mman.h>

#define MUST(held) \
    do { \
        if (!(held)) { \
            fprintf(stderr, "%s:%d: not so: %s\n", __FILE__, __LINE__, #held); \
            abort(); \
        } \
    } while (0)

/* Bytes of lent memory at most and of a page, of choices; values of a list, rows asked and blocks of a table at most. */
enum { ROOM = 1 << 17, PAGE = 1 << 12, CHOICES = 128, LIST = 1300, SAMPLE = 700, TABLE = 1000 };

/* ---- libFuzzer's counters: one for each thing that was seen */

__attribute__((section("__libfuzzer_extra_counters"))) static uint8_t counters[1 << 13];

static void seen(int place, uint64_t a, uint64_t b) {
    uint64_t mixed = ((uint64_t)place * 64 + (a < 32 ? a : 32)) * 64 + (b < 32 ? b : 33);
    counters[mixed * 0x9E3779B97F4A7C15u >> 51] = 1;
}

/* How many bits a number has: what is seen of a large one. */
static uint64_t size_of(uint64_t number) { return number ? 64 - (uint64_t)__builtin_clzll(number) : 0; }

/* ---- choices */

typedef struct {
    const uint8_t *at;
    size_t left;
} input;

static uint64_t take(input *in, size_t count) {
    uint64_t number = 0;
    for (size_t i = 0; i < count && in->left; i++, in->at++, in->left--)
        number |= (uint64_t)*in->at << 8 * i;
    return number;
}

/* A number that is likely to lie at an edge: small, next to a power of two, near another, or any. */
static uint64_t take_number(input *in, uint64_t near) {
    uint64_t how = take(in, 1), small = how >> 4;
    switch (how % 4) {
    case 0: return small;
    case 1: return (UINT64_C(1) << take(in, 1) % 64) + small - 8;
    case 2: return near + small - 8;
    default: return take(in, 8);
    }
}

/* ---- lent memory */

enum slot { BYTES, BLOCKS, MORE_BLOCKS, VALUES, OUT, FOUND, RECORDING, CHANGED, WRITTEN, WRITTEN_BLOCKS, SLOTS };
static uint8_t *slots[SLOTS], marks[ROOM];
static bool in_front;

static void *lend(enum slot slot, size_t size) {
    MUST(size <= ROOM);
    if (!slots[slot]) {
        uint8_t *map = mmap(NULL, ROOM + 2 * PAGE, PROT_NONE, MAP_PRIVATE | MAP_ANONYMOUS, -1, 0);
        MUST(map != MAP_FAILED && mprotect(map + PAGE, ROOM, PROT_READ | PROT_WRITE) == 0);
        slots[slot] = map + PAGE;
    }
    uint8_t *at = in_front ? slots[slot] : slots[slot] + ROOM - size;
    memset(at, 0xA5, size);
    return at;
}

static void *lend_copy(enum slot slot, const void *from, size_t size) {
    void *at = lend(slot, size);
    if (size) memcpy(at, from, size);
    return at;
}

/* Whether memory is as it was lent, from a place on. */
static bool marked(const void *at, size_t from, size_t size) { return memcmp((const uint8_t *)at + from, marks, size - from) == 0; }

static bool is(hulemartob_error error, uint64_t number, uint64_t value) { return error.number == number && error.value == value; }
static bool equal(hulemartob_error a, hulemartob_error b) { return is(a, b.number, b.value); }

/* ---- a column, with what it is asked with */

typedef struct {
    hulemartob_column column;
    const hulemartob_block *table;
    size_t blocks;
    const uint8_t *bytes;
    size_t length;
} subject;

#define OF(s) &(s)->column, (s)->table, (s)->blocks, (s)->bytes, (s)->length

static bool is_column(const hulemartob_column *c) {
    return c->codec <= 2 && c->rows <= UINT32_MAX && c->window_first <= UINT32_MAX && c->window_rows <= UINT32_MAX && (c->codec != 1 || c->width <= 255);
}

/* Some rows from a row of the window on, by their single answers. */
static uint32_t first;
static size_t count, readable; /* `readable`: how many are read before the first that is refused */
static uint64_t answers[SAMPLE];
static hulemartob_error errors[SAMPLE];

static void read_rows(const subject *s, int place) {
    readable = count;
    for (size_t i = 0; i < count; i++) {
        answers[i] = hulemartob_row(OF(s), first + (uint32_t)i, &errors[i]);
        MUST(!errors[i].number || answers[i] == 0);
        if (errors[i].number && readable == count) readable = i;
        seen(place, errors[i].number, s->column.codec);
    }
}

/* The refusal of a walk over the sampled rows, as far as the window goes. */
static hulemartob_error walk_error(size_t rows) {
    hulemartob_error none = {0, 0};
    return readable < rows ? errors[readable] : none;
}

static void run_is_rows(const subject *s) {
    hulemartob_error error, expected = walk_error(count);
    bool leaves = first + (uint64_t)count > s->column.window_rows;
    uint64_t *out = lend(OUT, 8 * count);
    size_t many = hulemartob_run(OF(s), first, out, count, &error);
    if (leaves)
        MUST(is(error, 12, 0));
    else
        MUST(equal(error, expected));
    if (error.number)
        MUST(many == 0 && marked(out, 0, 8 * count));
    else
        MUST(many == count && (!count || memcmp(out, answers, 8 * count) == 0));
    seen(1, error.number, s->column.codec);
}

/* How many of the sampled rows in the window lie in a range; they are put where `rows` says. */
static uint32_t matching[SAMPLE];
static size_t inside(const subject *s) {
    uint64_t rows = s->column.window_rows;
    return first >= rows ? 0 : rows - first < count ? (size_t)(rows - first) : count;
}
static size_t match(size_t rows, uint64_t low, uint64_t high) {
    size_t many = 0;
    for (size_t i = 0; i < rows; i++)
        if (low <= answers[i] && answers[i] <= high) matching[many++] = first + (uint32_t)i;
    return many;
}

static void lookup_is_rows_filtered(const subject *s, uint64_t low, uint64_t high) {
    size_t rows = inside(s);
    hulemartob_error error, expected = walk_error(rows);
    size_t many = expected.number ? 0 : match(rows, low, high);
    for (size_t room = many ? many - 1 : 0; room <= many + 1; room++) {
        uint32_t *found = lend(FOUND, 4 * room);
        size_t said = hulemartob_lookup(OF(s), low, high, first, first + (uint32_t)count, found, room, &error);
        if (expected.number)
            MUST(equal(error, expected));
        else if (room < many)
            MUST(is(error, 15, many));
        else
            MUST(is(error, 0, 0) && said == many && memcmp(found, matching, 4 * many) == 0 && marked(found, 4 * many, 4 * room));
        if (error.number) MUST(said == 0 && marked(found, 0, 4 * room));
        seen(2, error.number, size_of(many));
    }
}

static void window_is_rows(const subject *s, uint32_t from, uint32_t rows) {
    subject narrowed = *s;
    const hulemartob_column *c = &s->column;
    hulemartob_error error;
    hulemartob_narrow(&narrowed.column, from, rows, &error);
    seen(3, error.number, c->codec);
    if (from + (uint64_t)rows > c->window_rows)
        MUST(is(error, 12, 0));
    else if (c->window_first + c->window_rows > c->rows)
        MUST(is(error, 13, 0));
    else
        MUST(is(error, 0, 0));
    if (error.number) {
        MUST(memcmp(&narrowed.column, c, sizeof *c) == 0);
        return;
    }
    hulemartob_column expected = *c;
    if (c->codec != HULEMARTOB_CODEC_LINEAR) expected.slope = expected.intercept = expected.width = 0;
    expected.window_first += from;
    expected.window_rows = rows;
    MUST(memcmp(&narrowed.column, &expected, sizeof expected) == 0);
    for (uint32_t i = 0; i < 16; i++) {
        hulemartob_error here, there;
        uint64_t value = hulemartob_row(OF(&narrowed), i, &here);
        if (i >= rows) {
            MUST(is(here, 12, 0));
            break;
        }
        MUST(value == hulemartob_row(OF(s), from + i, &there) && here.number == there.number);
        MUST(here.value == (here.number == 14 ? i : there.value));
    }
}

/* ---- recordings */

static uint64_t number_at(const uint8_t *at, int bytes) {
    uint64_t number = 0;
    for (int i = 0; i < bytes; i++)
        number |= (uint64_t)at[i] << 8 * i;
    return number;
}

static void put(uint8_t *at, uint64_t number, int bytes) {
    for (int i = 0; i < bytes; i++)
        at[i] = (uint8_t)(number >> 8 * i);
}

static bool is_recording(const uint8_t *at, size_t length) {
    if (length < 16) return false;
    uint64_t records = number_at(at, 4), start = number_at(at + 4, 4), rows = number_at(at + 8, 4), rows_start = number_at(at + 12, 4);
    uint64_t end = start + 32 * records, rows_end = rows_start + 4 * rows;
    if (records && (start < 16 || end > length)) return false;
    if (rows && (rows_start < 16 || rows_end > length)) return false;
    if (records && rows && start < rows_end && rows_start < end) return false;
    for (uint64_t k = 0; k < records; k++)
        if (number_at(at + start + 32 * k + 24, 4) + number_at(at + start + 32 * k + 28, 4) > rows) return false;
    return true;
}

/* Whether a record's lookup finds its rows. */
static bool agrees(const subject *s, const uint8_t *at, uint64_t record) {
    const uint8_t *r = at + number_at(at + 4, 4) + 32 * record;
    const uint8_t *rows = at + number_at(at + 12, 4) + 4 * number_at(r + 24, 4);
    uint64_t many = number_at(r + 28, 4);
    static uint32_t found[4 * SAMPLE];
    hulemartob_error error;
    size_t said = hulemartob_lookup(OF(s), number_at(r, 8), number_at(r + 8, 8), (uint32_t)number_at(r + 16, 4), (uint32_t)number_at(r + 20, 4), found,
                                    4 * SAMPLE, &error);
    if (error.number || said != many) return false;
    for (uint64_t i = 0; i < many; i++)
        if (found[i] != number_at(rows + 4 * i, 4)) return false;
    return true;
}

static void replay_is_lookups(const subject *s, const uint8_t *recording, size_t length) {
    hulemartob_report report = {77, 78};
    hulemartob_error error;
    hulemartob_replay(OF(s), recording, length, &report, &error);
    if (!is_recording(recording, length)) {
        MUST(is(error, 19, 0) && report.differs == 77 && report.ran == 78);
        seen(4, 19, 0);
        return;
    }
    MUST(is(error, 0, 0));
    uint64_t records = number_at(recording, 4), k = 0;
    while (k < records && agrees(s, recording, k))
        k++;
    MUST(report.differs == (k < records ? k : UINT64_MAX) && report.ran == (k < records ? k + 1 : k));
    seen(4, k, records);
}

/* A recording of two lookups over the sampled rows: those in the range, and all. */
static void replays(const subject *s, input *in, uint64_t low, uint64_t high) {
    static uint8_t made[80 + 8 * SAMPLE];
    size_t rows = inside(s), total = 0;
    const uint64_t ranges[2][2] = {{low, high}, {0, UINT64_MAX}};
    if (s->column.window_rows > 4 * SAMPLE) return; /* else a changed end row could ask for 2^32 rows */
    put(made, 2, 4);
    put(made + 4, 16, 4);
    put(made + 12, 80, 4);
    for (int k = 0; k < 2; k++) {
        size_t many = readable < rows ? 0 : match(rows, ranges[k][0], ranges[k][1]);
        uint8_t *record = made + 16 + 32 * k;
        put(record, ranges[k][0], 8);
        put(record + 8, ranges[k][1], 8);
        put(record + 16, first, 4);
        put(record + 20, first + (uint32_t)count, 4);
        put(record + 24, total, 4);
        put(record + 28, many, 4);
        for (size_t i = 0; i < many; i++)
            put(made + 80 + 4 * (total + i), matching[i], 4);
        total += many;
    }
    put(made + 8, total, 4);
    size_t length = 80 + 4 * total;
    uint8_t *recording = lend_copy(RECORDING, made, length);
    hulemartob_report report;
    hulemartob_error error;
    hulemartob_replay(OF(s), recording, length, &report, &error);
    MUST(is(error, 0, 0) && (readable < rows ? report.differs == 0 && report.ran == 1 : report.differs == UINT64_MAX && report.ran == 2));
    for (uint64_t changes = take(in, 1) % 4; changes; changes--)
        made[take(in, 2) % (changes & 1 ? 80 : length)] ^= (uint8_t)take(in, 1);
    length -= take(in, 1) % 8 ? 0 : take(in, 1) % length;
    replay_is_lookups(s, lend_copy(RECORDING, made, length), length);
}

/* ---- any column, opened or made up */

static void ask(const subject *s, input *in) {
    const hulemartob_column *c = &s->column;
    hulemartob_error error;
    first = (uint32_t)(c->window_rows < UINT32_MAX ? take(in, 4) % (c->window_rows + 2) : take(in, 4));
    count = take(in, 2) % SAMPLE;
    if (count > UINT32_MAX - first) count = UINT32_MAX - first;
    uint64_t place = take(in, 2), low = take_number(in, 0), high = take_number(in, low), offset = take(in, 2);
    hulemartob_part part = {1, 2, 3, 4, 5}, part_before = part;
    hulemartob_rows rows = {1, 2};

    hulemartob_part_at(c, s->bytes, s->length, offset, &part, &error);
    if (error.number) MUST(is(error, 13, 0) && memcmp(&part, &part_before, sizeof part) == 0);
    hulemartob_rows_at(OF(s), offset, &rows, &error);
    if (error.number) MUST(is(error, 13, 0) && rows.first == 1 && rows.end == 2);
    if (!is_column(c)) {
        hulemartob_column narrowed = *c;
        hulemartob_report report = {1, 2};
        MUST(hulemartob_row(OF(s), first, &error) == 0 && is(error, 13, 0));
        uint64_t *out = lend(OUT, 8 * count);
        MUST(hulemartob_run(OF(s), first, out, count, &error) == 0 && is(error, 13, 0) && marked(out, 0, 8 * count));
        uint32_t *found = lend(FOUND, 4 * count);
        MUST(hulemartob_lookup(OF(s), low, high, first, UINT32_MAX, found, count, &error) == 0 && is(error, 13, 0) && marked(found, 0, 4 * count));
        hulemartob_narrow(&narrowed, 0, 0, &error);
        MUST(is(error, 13, 0) && memcmp(&narrowed, c, sizeof narrowed) == 0);
        hulemartob_replay(OF(s), s->bytes, s->length, &report, &error);
        MUST(is(error, 13, 0) && report.differs == 1 && report.ran == 2);
        seen(5, c->codec, 0);
        return;
    }
    read_rows(s, 6);
    if (readable && place & 1) low = answers[place / 2 % readable];
    if (readable && place & 2) high = answers[place / 4 % readable];
    run_is_rows(s);
    lookup_is_rows_filtered(s, low, high);
    window_is_rows(s, (uint32_t)(place % (c->window_rows + 1)), (uint32_t)take_number(in, c->window_rows));
    replays(s, in, low, high);
}

/* ---- a list, written and read back */

/* A value of a kind as a number that is ordered as the values are: of floats the order is IEEE 754's total one. */
static int64_t ordered(uint32_t kind, uint64_t word) {
    switch (kind) {
    case HULEMARTOB_KIND_BOOL: return word != 0;
    case HULEMARTOB_KIND_F64: return (int64_t)(word >> 63 ? word ^ INT64_MAX : word);
    default: return (int64_t)word;
    }
}

/* Words as values of a kind: they come back, and a lookup by values finds those that lie between. */
static void typed_back(const uint64_t *values, size_t length, uint32_t kind, uint64_t choice) {
    const uint8_t all[] = {0, 1, 2};
    hulemartob_error error;
    MUST(hulemartob_serialize_as(kind, values, length, all, 3, NULL, 0, &error) == 0 && error.number == 4);
    size_t needed = error.value;
    uint8_t *out = lend(WRITTEN, needed);
    MUST(hulemartob_serialize_as(kind, values, length, all, 3, out, needed, &error) == needed && is(error, 0, 0));
    subject s = {.bytes = out, .length = needed, .blocks = (length + 511) / 512};
    hulemartob_block *table = lend(WRITTEN_BLOCKS, 32 * s.blocks);
    hulemartob_verdict verdict;
    hulemartob_check(kind, 2, out, needed, values, length, table, s.blocks, &verdict, &error);
    MUST(is(error, 0, 0) && verdict.reason == HULEMARTOB_VERDICT_PASSED);
    hulemartob_open(out, needed, table, s.blocks, &s.column, &error);
    MUST(is(error, 0, 0));
    s.table = table;
    for (uint32_t i = 0; i < length; i += 1 + i / 8) {
        uint64_t stored = hulemartob_row(OF(&s), i, &error);
        MUST(is(error, 0, 0));
        switch (kind) {
        case HULEMARTOB_KIND_U64: MUST(stored == values[i]); break;
        case HULEMARTOB_KIND_BOOL: MUST(hulemartob_bool_of(stored) == (values[i] != 0)); break;
        case HULEMARTOB_KIND_F64: MUST(hulemartob_f64_bits_of(stored) == values[i]); break;
        default: MUST((uint64_t)hulemartob_i64_of(stored) == values[i]);
        }
    }
    uint64_t *words = lend(OUT, 8 * length);
    MUST(hulemartob_run(OF(&s), 0, words, length, &error) == length && is(error, 0, 0));
    hulemartob_values_as(kind, words, length);
    for (size_t i = 0; i < length; i++)
        MUST(words[i] == (kind == HULEMARTOB_KIND_BOOL ? values[i] != 0 : values[i]));
    if (!length || kind == HULEMARTOB_KIND_U64) return;
    uint64_t low = values[choice % length], high = values[choice * 7 % length];
    hulemartob_range range;
    switch (kind) {
    case HULEMARTOB_KIND_BOOL: hulemartob_bool_range(low != 0, high != 0, &range); break;
    case HULEMARTOB_KIND_F64: hulemartob_f64_range(low, high, &range); break;
    default: hulemartob_i64_range((int64_t)low, (int64_t)high, &range);
    }
    uint32_t *found = lend(FOUND, 4 * length);
    size_t many = hulemartob_lookup(OF(&s), range.low, range.high, 0, (uint32_t)length, found, length, &error), k = 0;
    MUST(is(error, 0, 0));
    for (uint32_t i = 0; i < length; i++)
        if (ordered(kind, low) <= ordered(kind, values[i]) && ordered(kind, values[i]) <= ordered(kind, high)) MUST(k < many && found[k++] == i);
    MUST(k == many);
    seen(17, kind, size_of(many));
}

static void write_back(const uint64_t *list, size_t length, uint64_t choice) {
    const uint8_t all[] = {0, 1, 2}, some[] = {choice >> 2 & 3, choice >> 4 & 3, choice >> 6 & 3};
    const uint8_t *codecs = choice & 1 ? some : all;
    bool applies = false;
    size_t unknown = 3;
    for (size_t i = 3; i--;) {
        if (codecs[i] == 3) unknown = i;
        if (codecs[i] != HULEMARTOB_CODEC_LINEAR || length >= 512) applies = true;
    }
    uint64_t *values = lend_copy(VALUES, list, 8 * length);
    hulemartob_stats stats;
    hulemartob_error error;
    hulemartob_column_stats(values, length, &stats, &error);
    MUST(is(error, 0, 0) && stats.rows == length && stats.gcd > 0);
    for (size_t i = 0; i < length; i++)
        MUST(stats.minimum <= list[i] && list[i] <= stats.maximum && (list[i] - stats.minimum) % stats.gcd == 0);

    MUST(hulemartob_serialize(values, length, codecs, 3, NULL, 0, &error) == 0);
    seen(7, error.number, size_of(length));
    if (unknown < 3) {
        MUST(is(error, 2, unknown));
        return;
    }
    if (!applies) {
        MUST(is(error, 3, 0));
        return;
    }
    MUST(error.number == 4 && error.value > 0);
    size_t needed = error.value, room = needed + choice % 3;
    uint8_t *out = lend(WRITTEN, needed - 1);
    MUST(hulemartob_serialize(values, length, codecs, 3, out, needed - 1, &error) == 0 && is(error, 4, needed) && marked(out, 0, needed - 1));
    out = lend(WRITTEN, room);
    MUST(hulemartob_serialize(values, length, codecs, 3, out, room, &error) == needed && is(error, 0, 0) && marked(out, needed, room));
    out = lend(WRITTEN, needed);
    MUST(hulemartob_serialize(values, length, codecs, 3, out, needed, &error) == needed && is(error, 0, 0));

    subject s = {.bytes = out, .length = needed, .blocks = out[0] == HULEMARTOB_CODEC_BLOCKWISE ? (length + 511) / 512 : 0};
    s.table = lend(WRITTEN_BLOCKS, 32 * s.blocks);
    MUST(hulemartob_open_under(2, out, needed, (hulemartob_block *)s.table, s.blocks, &s.column, &error) == UINT64_MAX && is(error, 0, 0));
    MUST(s.column.rows == length && s.column.minimum == stats.minimum && s.column.gcd == stats.gcd);
    MUST(s.column.minimum + s.column.gcd * s.column.count == stats.maximum);
    uint64_t *back = lend(OUT, 8 * length);
    MUST(hulemartob_run(OF(&s), 0, back, length, &error) == length && is(error, 0, 0) && memcmp(back, list, 8 * length) == 0);
    for (uint32_t sheet = 1; sheet <= 2; sheet++) {
        hulemartob_verdict verdict;
        hulemartob_check(HULEMARTOB_KIND_U64, sheet, out, needed, values, length, (hulemartob_block *)s.table, s.blocks, &verdict, &error);
        MUST(is(error, 0, 0) && verdict.reason == HULEMARTOB_VERDICT_PASSED && verdict.first == 0 && verdict.second == 0);
    }
    seen(8, out[0], size_of(needed));

    typed_back(values, length, (uint32_t)(choice % 5), choice);
}

/* ---- a column that opens */

/* The parts from a byte's own on, some of them: each begins where the one before it ends, and a part is the same by its first byte and by its last. */
static void parts_follow(const subject *s, size_t offset) {
    hulemartob_part part, last;
    hulemartob_error error;
    size_t next = 0;
    for (int k = 0; k < 24 && offset < s->length; k++, offset = next) {
        hulemartob_part_at(&s->column, s->bytes, s->length, offset, &part, &error);
        MUST(is(error, 0, 0) && part.offset <= offset && part.length > 0 && part.offset + part.length > offset);
        MUST(k == 0 || part.offset == next);
        next = part.offset + part.length;
        MUST(next <= s->length && part.name <= HULEMARTOB_PART_FOOTER_LENGTH);
        hulemartob_part_at(&s->column, s->bytes, s->length, next - 1, &last, &error);
        MUST(is(error, 0, 0) && memcmp(&part, &last, sizeof part) == 0);
        MUST((part.name == HULEMARTOB_PART_AREA) == (s->column.start <= part.offset && part.offset < s->column.start + s->column.size));
        seen(9, part.name, s->column.codec);
    }
    hulemartob_part_at(&s->column, s->bytes, s->length, s->length, &part, &error);
    MUST(is(error, 13, 0));
}

/* With a byte of the area changed no row answers otherwise but those that own a bit of it. The sampled rows are asked. */
static void changes_are_local(const subject *s, uint64_t choice, uint8_t change) {
    const hulemartob_column *c = &s->column;
    if (!c->size) return;
    size_t offset = c->start + choice % c->size;
    hulemartob_rows rows;
    hulemartob_error error;
    hulemartob_rows_at(OF(s), offset, &rows, &error);
    MUST(is(error, 0, 0) && rows.first <= rows.end && rows.end <= c->rows);
    subject changed = *s;
    uint8_t *copy = lend_copy(CHANGED, s->bytes, s->length);
    copy[offset] ^= change;
    changed.bytes = copy;
    size_t differs = count;
    for (uint32_t i = 0; i < count; i++) {
        uint64_t row = c->window_first + first + i, value = hulemartob_row(OF(&changed), first + i, &error);
        if (row < rows.first || rows.end <= row) MUST(value == answers[i] && equal(error, errors[i]));
        if (differs == count && (value != answers[i] || error.number != errors[i].number)) differs = i;
    }
    /* The first that differs, in the window of the sampled rows. */
    subject window = *s;
    size_t many = inside(s);
    hulemartob_narrow(&window.column, many ? first : 0, (uint32_t)many, &error);
    MUST(is(error, 0, 0));
    changed.column = window.column;
    hulemartob_differing two;
    hulemartob_difference(OF(&window), OF(&changed), 0, &two, &error);
    MUST(is(error, 0, 0) && two.row == (differs < count ? differs : UINT64_MAX));
    if (differs < count) MUST(two.left.value == answers[differs] && two.left.error.number == errors[differs].number);
    seen(10, rows.end - rows.first, c->codec);
    seen(18, size_of(differs), two.right.error.number);
}

static bool said(hulemartob_verdict verdict, uint64_t reason, uint64_t one, uint64_t two) {
    return verdict.reason == reason && verdict.first == one && verdict.second == two;
}

/* The verdict on a list, the rows of the column being read as `rows` up to the first that is refused. */
static void verdict_is_right(const subject *s, uint32_t sheet, hulemartob_error opening, const uint64_t *rows, size_t good, const uint64_t *list, size_t length) {
    const hulemartob_column *c = &s->column;
    uint64_t *values = lend_copy(VALUES, list, 8 * length);
    hulemartob_block *table = lend(MORE_BLOCKS, 32 * s->blocks);
    hulemartob_verdict verdict = {77, 78, 79};
    hulemartob_stats stats;
    hulemartob_error error;
    hulemartob_column_stats(values, length, &stats, &error);
    hulemartob_check(HULEMARTOB_KIND_F64 + 1, sheet, s->bytes, s->length, values, length, table, s->blocks, &verdict, &error);
    MUST(is(error, 13, 0) && said(verdict, 77, 78, 79) && marked(table, 0, 32 * s->blocks));
    hulemartob_check(HULEMARTOB_KIND_U64, sheet, s->bytes, s->length, values, length, table, s->blocks, &verdict, &error);
    MUST(is(error, 0, 0));
    seen(11, verdict.reason, c->codec);
    if (opening.number) {
        MUST(said(verdict, HULEMARTOB_VERDICT_UNOPENED, opening.number, opening.value) && marked(table, 0, 32 * s->blocks));
        return;
    }
    MUST(!s->blocks || memcmp(table, s->table, 32 * s->blocks) == 0);
    if (length != c->rows) {
        MUST(said(verdict, HULEMARTOB_VERDICT_COUNTS, c->rows, length));
        return;
    }
    size_t row = 0;
    while (row < good && rows[row] == list[row])
        row++;
    if (row < length)
        MUST(said(verdict, HULEMARTOB_VERDICT_UNEQUAL, row, 0));
    else if (c->minimum != stats.minimum)
        MUST(said(verdict, HULEMARTOB_VERDICT_MINIMUM, 0, 0));
    else if (c->gcd != stats.gcd)
        MUST(said(verdict, HULEMARTOB_VERDICT_GCD, 0, 0));
    else if (c->minimum + c->gcd * c->count != stats.maximum)
        MUST(said(verdict, HULEMARTOB_VERDICT_MAXIMUM, 0, 0));
    else
        MUST(said(verdict, HULEMARTOB_VERDICT_PASSED, 0, 0));
}

/* All rows of a column that has few: the verdicts on them, and what they are written as. */
static void whole(const subject *s, hulemartob_error under_2, input *in) {
    static uint64_t rows[LIST], list[LIST + 1];
    size_t length = s->column.rows, good = 0;
    hulemartob_error error = {0, 0};
    for (; good < length; good++) {
        rows[good] = hulemartob_row(OF(s), (uint32_t)good, &error);
        if (error.number) break;
    }
    memset(list, 0, sizeof list);
    memcpy(list, rows, 8 * good);
    hulemartob_error none = {0, 0};
    verdict_is_right(s, 1, none, rows, good, list, length);
    verdict_is_right(s, 2, under_2, rows, good, list, length);
    verdict_is_right(s, 1, none, rows, good, list, length + 1);
    if (length) {
        list[take(in, 2) % length] ^= take_number(in, 1);
        verdict_is_right(s, 1, none, rows, good, list, length);
    }
    if (good == length) write_back(rows, length, take(in, 1));
}

/* Some numbers of a column or its table replaced, and then asked. */
static void make_up(const subject *s, input *in) {
    subject made = *s;
    static hulemartob_block table[TABLE + 1];
    if (s->blocks) memcpy(table, s->table, 32 * s->blocks);
    for (uint64_t changes = 1 + take(in, 1) % 3; changes; changes--) {
        uint64_t which = take(in, 1);
        uint64_t *number = which % 2 && s->blocks ? (uint64_t *)table + which / 2 % (4 * s->blocks) : (uint64_t *)&made.column + which / 2 % 12;
        *number = take_number(in, *number);
    }
    made.blocks -= made.blocks && take(in, 1) % 4 == 0;
    made.table = lend_copy(BLOCKS, table, 32 * made.blocks);
    seen(12, is_column(&made.column), made.column.codec);
    ask(&made, in);
}

/* Opens some bytes in every way, and asks what has opened. */
static void open_and_ask(const uint8_t *column_bytes, size_t length, input *in) {
    uint8_t *bytes = lend_copy(BYTES, column_bytes, length);
    hulemartob_column marks_of, column, other;
    memset(&marks_of, 0xA5, sizeof marks_of);
    hulemartob_error error, again;
    uint64_t choice = take(in, 1), longer;

    column = marks_of;
    MUST(hulemartob_open_under(3 + (uint32_t)choice, bytes, length, NULL, 0, &column, &error) == UINT64_MAX && is(error, 18, 0));
    longer = hulemartob_open(bytes, length, NULL, 0, &column, &error);
    size_t blocks = 0;
    if (error.number == 11) {
        MUST(longer == UINT64_MAX && error.value > 0 && memcmp(&column, &marks_of, sizeof column) == 0);
        seen(13, 11, size_of(error.value));
        if (error.value > TABLE) return;
        blocks = error.value;
        hulemartob_block *short_one = lend(BLOCKS, 32 * (blocks - 1));
        hulemartob_open(bytes, length, short_one, blocks - 1, &column, &again);
        MUST(equal(error, again) && marked(short_one, 0, 32 * (blocks - 1)) && memcmp(&column, &marks_of, sizeof column) == 0);
    }
    size_t room = blocks + choice % 3;
    hulemartob_block *table = lend(MORE_BLOCKS, 32 * room);
    longer = hulemartob_open(bytes, length, table, room, &column, &error);
    seen(13, error.number, length ? bytes[0] : 3);
    if (error.number) {
        MUST(5 <= error.number && error.number <= 10 && longer == UINT64_MAX);
        MUST(marked(table, 0, 32 * room) && memcmp(&column, &marks_of, sizeof column) == 0);
        seen(14, error.number, error.value);
    } else {
        MUST(marked(table, 32 * blocks, 32 * room) && (longer == UINT64_MAX || longer < length));
    }
    hulemartob_block *exact = lend(BLOCKS, 32 * blocks);
    other = marks_of;
    MUST(hulemartob_open_under(1, bytes, length, exact, blocks, &other, &again) == longer);
    MUST(equal(error, again) && memcmp(&column, &other, sizeof column) == 0 && (!blocks || memcmp(exact, table, 32 * blocks) == 0));
    /* Under sheet 2. */
    hulemartob_block *stricter = lend(CHANGED, 32 * blocks);
    other = marks_of;
    uint64_t spelled = hulemartob_open_under(2, bytes, length, stricter, blocks, &other, &again);
    MUST(spelled == UINT64_MAX);
    if (error.number)
        MUST(equal(error, again));
    else if (again.number)
        MUST(again.number == 17 && again.value < length && (longer == UINT64_MAX || again.value <= longer));
    else
        MUST(longer == UINT64_MAX && memcmp(&column, &other, sizeof column) == 0 && (!blocks || memcmp(stricter, exact, 32 * blocks) == 0));
    if (again.number) MUST(marked(stricter, 0, 32 * blocks) && memcmp(&other, &marks_of, sizeof other) == 0);
    MUST(memcmp(bytes, column_bytes, length) == 0);
    if (error.number) return;
    seen(15, again.number, longer == UINT64_MAX);

    subject s = {column, exact, blocks, bytes, length};
    MUST(is_column(&column) && column.start + column.size <= length && column.gcd > 0 && column.window_first == 0 && column.window_rows == column.rows);
    seen(16, size_of(column.rows), column.codec == HULEMARTOB_CODEC_LINEAR ? column.width : blocks ? exact->width : column.size);
    parts_follow(&s, choice & 1 ? 0 : take(in, 2) % length);
    ask(&s, in);
    changes_are_local(&s, take(in, 2), (uint8_t)take(in, 1));
    if (column.rows <= LIST) whole(&s, again, in);
    MUST(memcmp(bytes, column_bytes, length) == 0);
    if (choice & 8) make_up(&s, in);
}

/* A list of up to 1,300 values, by its head and a body of what each has above a line. */
static size_t make_list(input *in, input *body, uint64_t *list) {
    size_t length = take(in, 2) % (LIST + 1), bytes = take(in, 1) % 9;
    uint64_t base = take_number(in, 0), gcd = take_number(in, 1), slope = take_number(in, 0);
    input from = *body;
    for (size_t i = 0; i < length; i++) {
        if (from.left < bytes) from = *body;
        list[i] = base + gcd * (slope * i + take(&from, bytes));
    }
    return length;
}

int LLVMFuzzerTestOneInput(const uint8_t *data, size_t size) {
    static uint8_t bytes[ROOM];
    if (!marks[0]) memset(marks, 0xA5, sizeof marks);
    input in = {data, size < CHOICES ? size : CHOICES}, body = {data + in.left, size - in.left};
    uint64_t how = take(&in, 1);
    in_front = how & 1;
    size_t length = body.left;
    if (how & 2) {
        static uint64_t list[LIST];
        size_t values = make_list(&in, &body, list);
        write_back(list, values, take(&in, 1));
        uint8_t codec = (uint8_t)(how >> 2 & 3);
        hulemartob_error error;
        if (codec == 3) codec = 0;
        length = hulemartob_serialize(list, values, &codec, 1, bytes, sizeof bytes, &error);
        if (error.number) return 0;
        for (uint64_t changes = take(&in, 1) % 4; changes; changes--) {
            uint64_t where = take(&in, 2);
            /* in the front, where the head is, at the end, where the footer is, or anywhere */
            size_t offset = where % 3 == 0 ? where / 3 % 24 : where % 3 == 1 ? length - 1 - where / 3 % 24 : where / 3;
            bytes[offset % length] ^= (uint8_t)take(&in, 1);
        }
    } else if (length) {
        memcpy(bytes, body.at, length);
    }
    open_and_ask(bytes, length, &in);
    return 0;
}
