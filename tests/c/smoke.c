/* The archive behind its header: constants, layout of the replies, words and builders, T1 accepted, rows compared,
 * marked and queried by both engines, refusals with and without place, NULL with length 0, and a costly table on a
 * thread with 1 MiB of stack. Expected answers are worked out by hand from SPECIFICATION, "When a row is better" and
 * "What a call refuses"; T1 and V are those of its "Worked cases". Sanitizers do not see into the archive, so what is
 * lent lies between pages that nobody may touch, flush at the end and flush at the start. */
#ifndef _GNU_SOURCE
#define _GNU_SOURCE
#endif
#include "finialbasil.h"

#include <pthread.h>
#include <stddef.h>
#include <stdio.h>
#include <stdlib.h>
#include <string.h>
#include <sys/mman.h>

#ifdef __cplusplus
#define HOLDS(test) static_assert(test, #test)
#else
#define HOLDS(test) _Static_assert(test, #test)
#endif

HOLDS(sizeof(fnb_check_reply) == 24);
HOLDS(offsetof(fnb_check_reply, refusal) == 0);
HOLDS(offsetof(fnb_check_reply, place) == 4);
HOLDS(offsetof(fnb_check_reply, records) == 8);
HOLDS(offsetof(fnb_check_reply, top) == 12);
HOLDS(offsetof(fnb_check_reply, columns) == 16);
HOLDS(offsetof(fnb_check_reply, column_count) == 20);
HOLDS(sizeof(fnb_reply) == 12);
HOLDS(offsetof(fnb_reply, refusal) == 0);
HOLDS(offsetof(fnb_reply, place) == 4);
HOLDS(offsetof(fnb_reply, value) == 8);

/* SPECIFICATION, "Limits", "The table", "What a call refuses", "The calls". */
HOLDS(FNB_RECORD_BYTES == 12 && FNB_MOST_RECORDS == 128 && FNB_MOST_TABLE_BYTES == 1536);
HOLDS(FNB_MOST_COLUMNS == 8 && FNB_MOST_VALUES == 16 && FNB_MOST_ROWS == 1024);
HOLDS(FNB_KIND_VALUE == 0 && FNB_KIND_LOWEST == 1 && FNB_KIND_HIGHEST == 2 && FNB_KIND_AROUND == 3);
HOLDS(FNB_KIND_BETWEEN == 4 && FNB_KIND_POS == 5 && FNB_KIND_NEG == 6 && FNB_KIND_POS_NEG == 7);
HOLDS(FNB_KIND_POS_POS == 8 && FNB_KIND_EXPLICIT == 9 && FNB_KIND_ANY == 10);
HOLDS(FNB_KIND_PARETO == 16 && FNB_KIND_PRIOR == 17 && FNB_KIND_BOTH == 18 && FNB_KIND_DUAL == 19);
HOLDS(FNB_ROLE_FAVOURITE == 1 && FNB_ROLE_DISLIKED == 2 && FNB_ROLE_SECOND_CHOICE == 3 && FNB_ROLE_EDGE == 4);
HOLDS(FNB_ACCEPTED == 0 && FNB_WIDTH == 1 && FNB_LENGTH == 2 && FNB_KIND == 3 && FNB_FILLER == 4);
HOLDS(FNB_COLUMN == 5 && FNB_PART == 6 && FNB_REUSED == 7 && FNB_STRAY == 8 && FNB_CROWD == 9 && FNB_CLASH == 10);
HOLDS(FNB_LOOP == 11 && FNB_BOUNDS == 12 && FNB_APART == 13 && FNB_LOOSE == 14);
HOLDS(FNB_ROWS == 15 && FNB_TERM == 16 && FNB_GROUP == 17 && FNB_SHORT == 18);
HOLDS(FNB_NO_PLACE == 4294967295u);
HOLDS(FNB_SAME == 0 && FNB_FIRST_BETTER == 1 && FNB_SECOND_BETTER == 2 && FNB_UNRANKED == 3);
HOLDS(FNB_NOT_PERFECT == 0 && FNB_PERFECT == 1);

static int checked, failed;

/* The reply's six fields, in order. */
static void expect(const char *name, fnb_check_reply got, uint32_t refusal, uint32_t place, uint32_t records,
                   uint32_t top, uint32_t columns, uint32_t column_count) {
    checked++;
    if (got.refusal == refusal && got.place == place && got.records == records && got.top == top &&
        got.columns == columns && got.column_count == column_count)
        return;
    failed++;
    printf("%s: refusal %u place %u records %u top %u columns %u column_count %u\n", name, (unsigned)got.refusal,
           (unsigned)got.place, (unsigned)got.records, (unsigned)got.top, (unsigned)got.columns,
           (unsigned)got.column_count);
}

static void refused(const char *name, fnb_check_reply got, uint32_t refusal, uint32_t place) {
    expect(name, got, refusal, place, 0, 0, 0, 0);
}

static void gives(const char *name, fnb_reply got, uint32_t refusal, uint32_t place, uint32_t value) {
    checked++;
    if (got.refusal == refusal && got.place == place && got.value == value)
        return;
    failed++;
    printf("%s: refusal %u place %u value %u\n", name, (unsigned)got.refusal, (unsigned)got.place,
           (unsigned)got.value);
}

/* Three rooms, each between two pages that nobody may touch: for a table, for one row or all, and for a second row or
 * the answers. Nothing lent is longer than its room: 1,025 rows of eight columns take 32,800 bytes. */
enum { PAGE = 4096, ROOM = 9 * PAGE, ROOMS = 3, UNTOUCHED = 0xa5 };
static uint8_t *rooms[ROOMS];

static void make_rooms(void) {
    int i;
    for (i = 0; i < ROOMS; i++) {
        uint8_t *all = (uint8_t *)mmap(NULL, ROOM + 2 * PAGE, PROT_NONE, MAP_PRIVATE | MAP_ANONYMOUS, -1, 0);
        if (all == MAP_FAILED)
            abort();
        rooms[i] = all + PAGE;
    }
}

/* The bytes, in room i, flush at its end or at its start, where they can be written too. */
static void *lent_to_write(int i, const void *bytes, size_t length, int at_end) {
    uint8_t *place = at_end ? rooms[i] + ROOM - length : rooms[i];
    if (mprotect(rooms[i], ROOM, PROT_READ | PROT_WRITE) != 0)
        abort();
    memset(rooms[i], UNTOUCHED, ROOM);
    memcpy(place, bytes, length);
    return place;
}

/* The bytes, where they can be read only. */
static const void *lent(int i, const void *bytes, size_t length, int at_end) {
    const void *place = lent_to_write(i, bytes, length, at_end);
    if (mprotect(rooms[i], ROOM, PROT_READ) != 0)
        abort();
    return place;
}

static void moved(void) {
    failed++;
    printf("the reply goes by where what is lent lies\n");
}

static fnb_check_reply check(const uint8_t *table, size_t length, size_t columns) {
    fnb_check_reply at_end = fnb_check((const uint8_t *)lent(0, table, length, 1), length, columns);
    fnb_check_reply at_start = fnb_check((const uint8_t *)lent(0, table, length, 0), length, columns);
    if (memcmp(&at_end, &at_start, sizeof at_end) != 0)
        moved();
    return at_end;
}

static fnb_reply compare_at(int at_end, const uint8_t *table, size_t length, size_t columns, size_t term,
                            const int32_t *first, size_t first_length, const int32_t *second, size_t second_length) {
    const uint8_t *t = (const uint8_t *)lent(0, table, length, at_end);
    const int32_t *x = (const int32_t *)lent(1, first, first_length * sizeof *first, at_end);
    const int32_t *y = (const int32_t *)lent(2, second, second_length * sizeof *second, at_end);
    return fnb_compare(t, length, columns, term, x, first_length, y, second_length);
}

static fnb_reply compare(const uint8_t *table, size_t length, size_t columns, size_t term, const int32_t *first,
                         size_t first_length, const int32_t *second, size_t second_length) {
    fnb_reply at_end = compare_at(1, table, length, columns, term, first, first_length, second, second_length);
    fnb_reply at_start = compare_at(0, table, length, columns, term, first, first_length, second, second_length);
    if (memcmp(&at_end, &at_start, sizeof at_end) != 0)
        moved();
    return at_end;
}

static fnb_reply perfect_at(int at_end, const uint8_t *table, size_t length, size_t columns, size_t term,
                            const int32_t *row, size_t row_length) {
    const uint8_t *t = (const uint8_t *)lent(0, table, length, at_end);
    const int32_t *x = (const int32_t *)lent(1, row, row_length * sizeof *row, at_end);
    return fnb_perfect(t, length, columns, term, x, row_length);
}

static fnb_reply perfect(const uint8_t *table, size_t length, size_t columns, size_t term, const int32_t *row,
                         size_t row_length) {
    fnb_reply at_end = perfect_at(1, table, length, columns, term, row, row_length);
    fnb_reply at_start = perfect_at(0, table, length, columns, term, row, row_length);
    if (memcmp(&at_end, &at_start, sizeof at_end) != 0)
        moved();
    return at_end;
}

/* What is beside the answers in their room stays untouched. */
static void expect_beside(int at_end, size_t length) {
    size_t i;
    for (i = 0; i < ROOM - length; i++)
        if (rooms[2][at_end ? i : length + i] != UNTOUCHED)
            break;
    if (i == ROOM - length)
        return;
    failed++;
    printf("written beside the answers\n");
}

typedef fnb_reply engine(const uint8_t *, size_t, size_t, const int32_t *, size_t, size_t, uint8_t, uint16_t *, size_t);

enum { MOST_ENTRIES = 1100 };

static fnb_reply query_at(engine *ask, int at_end, const uint8_t *table, size_t length, size_t columns,
                          const int32_t *rows, size_t rows_length, size_t term, uint8_t group, uint16_t *answers,
                          size_t entries) {
    const uint8_t *t = (const uint8_t *)lent(0, table, length, at_end);
    const int32_t *r = (const int32_t *)lent(1, rows, rows_length * sizeof *rows, at_end);
    uint16_t *a = (uint16_t *)lent_to_write(2, answers, entries * sizeof *answers, at_end);
    fnb_reply reply = ask(t, length, columns, r, rows_length, term, group, a, entries);
    memcpy(answers, a, entries * sizeof *answers);
    expect_beside(at_end, entries * sizeof *answers);
    return reply;
}

/* Both engines, each with what is lent at the end and at the start: one reply and the same entries. */
static fnb_reply query(const uint8_t *table, size_t length, size_t columns, const int32_t *rows, size_t rows_length,
                       size_t term, uint8_t group, uint16_t *answers, size_t entries) {
    static engine *const engines[] = {fnb_query_direct, fnb_query_by_parts, fnb_query_by_parts};
    static const int at_end[] = {0, 1, 0};
    uint16_t before[MOST_ENTRIES], again[MOST_ENTRIES];
    size_t bytes = entries * sizeof *answers;
    fnb_reply reply, other;
    int i;
    memcpy(before, answers, bytes);
    reply = query_at(fnb_query_direct, 1, table, length, columns, rows, rows_length, term, group, answers, entries);
    for (i = 0; i < 3; i++) {
        memcpy(again, before, bytes);
        other = query_at(engines[i], at_end[i], table, length, columns, rows, rows_length, term, group, again, entries);
        if (memcmp(&reply, &other, sizeof reply) != 0 || memcmp(answers, again, bytes) != 0) {
            failed++;
            printf("the answers go by the engine or by where what is lent lies\n");
        }
    }
    return reply;
}

#define CHECK(table, columns) check(table, sizeof(table), columns)
#define COMPARE(table, columns, term, first, second)                                                                   \
    compare(table, sizeof(table), columns, term, first, sizeof(first) / sizeof(*first), second,                        \
            sizeof(second) / sizeof(*second))
#define PERFECT(table, columns, term, row) perfect(table, sizeof(table), columns, term, row, sizeof(row) / sizeof(*row))

/* Records as bytes; u and v are given by their low byte. */
#define RECORD(kind, p, q, u, v) kind, p, q, 0, u, 0, 0, 0, v, 0, 0, 0

static void word_cases(void) {
    static const char *const words[] = {"ACCEPTED", "WIDTH", "LENGTH", "KIND",   "FILLER", "COLUMN", "PART",
                                        "REUSED",   "STRAY", "CROWD",  "CLASH",  "LOOP",   "BOUNDS", "APART",
                                        "LOOSE",    "ROWS",  "TERM",   "GROUP",  "SHORT",  "UNKNOWN"};
    uint32_t number;
    for (number = 0; number < sizeof words / sizeof *words; number++, checked++)
        if (strcmp(fnb_refusal_word(number), words[number]) != 0) {
            failed++;
            printf("the word of refusal %u is %s\n", (unsigned)number, fnb_refusal_word(number));
        }
    checked++;
    if (strcmp(fnb_refusal_word(UINT32_MAX), "UNKNOWN") != 0) {
        failed++;
        printf("the word of the largest number is %s\n", fnb_refusal_word(UINT32_MAX));
    }
}

/* A builder writes the expected record at its place, nothing beside it, and gives the place after it. */
static void built(const char *name, const uint8_t *room, const uint8_t *after, const uint8_t *expected) {
    int i;
    checked++;
    if (room[0] == UNTOUCHED && memcmp(room + 1, expected, 12) == 0 && room[13] == UNTOUCHED && after == room + 13)
        return;
    failed++;
    printf("%s:", name);
    for (i = 0; i < 14; i++)
        printf(" %u", (unsigned)room[i]);
    printf(", and the place after it is %d\n", (int)(after - room));
}

#define BUILT(call, ...)                                                                                               \
    do {                                                                                                               \
        static const uint8_t expected[12] = {__VA_ARGS__};                                                             \
        uint8_t room[14], *at = room + 1;                                                                              \
        memset(room, UNTOUCHED, sizeof room);                                                                          \
        built(#call, room, call, expected);                                                                            \
    } while (0)

static void builder_cases(void) {
    BUILT(fnb_put_lowest(at, 1), 1, 1, 0, 0, 0, 0, 0, 0, 0, 0, 0, 0);
    BUILT(fnb_put_highest(at, 7), 2, 7, 0, 0, 0, 0, 0, 0, 0, 0, 0, 0);
    BUILT(fnb_put_around(at, 2, 24), 3, 2, 0, 0, 24, 0, 0, 0, 0, 0, 0, 0);
    BUILT(fnb_put_around(at, 0, -2), 3, 0, 0, 0, 254, 255, 255, 255, 0, 0, 0, 0);
    BUILT(fnb_put_around(at, 0, 0x01020304), 3, 0, 0, 0, 4, 3, 2, 1, 0, 0, 0, 0);
    BUILT(fnb_put_around(at, 0, INT32_MIN), 3, 0, 0, 0, 0, 0, 0, 128, 0, 0, 0, 0);
    BUILT(fnb_put_around(at, 0, INT32_MAX), 3, 0, 0, 0, 255, 255, 255, 127, 0, 0, 0, 0);
    BUILT(fnb_put_between(at, 3, -256, 1000), 4, 3, 0, 0, 0, 255, 255, 255, 232, 3, 0, 0);
    BUILT(fnb_put_between(at, 0, INT32_MIN, INT32_MAX), 4, 0, 0, 0, 0, 0, 0, 128, 255, 255, 255, 127);
    BUILT(fnb_put_pos(at, 1), 5, 1, 0, 0, 0, 0, 0, 0, 0, 0, 0, 0);
    BUILT(fnb_put_neg(at, 2), 6, 2, 0, 0, 0, 0, 0, 0, 0, 0, 0, 0);
    BUILT(fnb_put_pos_neg(at, 3), 7, 3, 0, 0, 0, 0, 0, 0, 0, 0, 0, 0);
    BUILT(fnb_put_pos_pos(at, 4), 8, 4, 0, 0, 0, 0, 0, 0, 0, 0, 0, 0);
    BUILT(fnb_put_explicit(at, 5), 9, 5, 0, 0, 0, 0, 0, 0, 0, 0, 0, 0);
    BUILT(fnb_put_any(at, 6), 10, 6, 0, 0, 0, 0, 0, 0, 0, 0, 0, 0);
    BUILT(fnb_put_pareto(at, 1, 2), 16, 1, 2, 0, 0, 0, 0, 0, 0, 0, 0, 0);
    BUILT(fnb_put_prior(at, 0, 126), 17, 0, 126, 0, 0, 0, 0, 0, 0, 0, 0, 0);
    BUILT(fnb_put_both(at, 4, 3), 18, 4, 3, 0, 0, 0, 0, 0, 0, 0, 0, 0);
    BUILT(fnb_put_dual(at, 9), 19, 9, 0, 0, 0, 0, 0, 0, 0, 0, 0, 0);
    BUILT(fnb_put_favourite(at, 7), 0, 1, 0, 0, 7, 0, 0, 0, 0, 0, 0, 0);
    BUILT(fnb_put_disliked(at, -9), 0, 2, 0, 0, 247, 255, 255, 255, 0, 0, 0, 0);
    BUILT(fnb_put_second_choice(at, 65536), 0, 3, 0, 0, 0, 0, 1, 0, 0, 0, 0, 0);
    BUILT(fnb_put_edge(at, -1, 2), 0, 4, 0, 0, 255, 255, 255, 255, 2, 0, 0, 0);

    /* Columns and parts that no byte holds: the low byte of 256 and 264 alone would be a column. */
    BUILT(fnb_put_lowest(at, 254), 1, 254, 0, 0, 0, 0, 0, 0, 0, 0, 0, 0);
    BUILT(fnb_put_lowest(at, 255), 1, 255, 0, 0, 0, 0, 0, 0, 0, 0, 0, 0);
    BUILT(fnb_put_lowest(at, 256), 1, 255, 0, 0, 0, 0, 0, 0, 0, 0, 0, 0);
    BUILT(fnb_put_pos(at, 264), 5, 255, 0, 0, 0, 0, 0, 0, 0, 0, 0, 0);
    BUILT(fnb_put_around(at, SIZE_MAX, 1), 3, 255, 0, 0, 1, 0, 0, 0, 0, 0, 0, 0);
    BUILT(fnb_put_prior(at, 256, 1), 17, 255, 1, 0, 0, 0, 0, 0, 0, 0, 0, 0);
    BUILT(fnb_put_pareto(at, 0, 264), 16, 0, 255, 0, 0, 0, 0, 0, 0, 0, 0, 0);
    BUILT(fnb_put_both(at, SIZE_MAX, SIZE_MAX), 18, 255, 255, 0, 0, 0, 0, 0, 0, 0, 0, 0);
    BUILT(fnb_put_dual(at, (size_t)4294967296u), 19, 255, 0, 0, 0, 0, 0, 0, 0, 0, 0, 0);
}

/* Seven EXPLICIT of 16 edges joined by PARETO: 125 records. */
static uint8_t costly[125 * FNB_RECORD_BYTES];

static void put(size_t k, size_t kind, size_t p, size_t q, size_t u, size_t v) {
    const uint8_t record[FNB_RECORD_BYTES] = {
        RECORD((uint8_t)kind, (uint8_t)p, (uint8_t)q, (uint8_t)u, (uint8_t)v)};
    memcpy(costly + FNB_RECORD_BYTES * k, record, sizeof record);
}

static void make_costly(void) {
    size_t k = 0, i, e;
    for (i = 0; i < 7; i++) {
        put(k++, 9, i, 0, 0, 0);
        for (e = 1; e <= 16; e++)
            put(k++, 0, 4, 0, e, e + 1);
    }
    for (i = 1; i < 7; i++, k++)
        put(k, 16, i == 1 ? 0 : k - 1, 17 * i, 0, 0);
}

/* Every call on the costly table: in each of its columns 1 leads to 3 by two edges, and 17 is the end of the path. */
typedef struct {
    fnb_check_reply checked;
    fnb_reply compared, marked, direct, by_parts;
} costly_replies;

/* 1,024 rows: 1 to 17 in each of the seven columns, again and again, and the row's number in the last one. */
static int32_t costly_rows[FNB_MOST_ROWS * 8];
static uint16_t costly_direct[FNB_MOST_ROWS], costly_by_parts[FNB_MOST_ROWS];

static void make_costly_rows(void) {
    int i, c;
    for (i = 0; i < FNB_MOST_ROWS; i++)
        for (c = 0; c < 8; c++)
            costly_rows[8 * i + c] = c < 7 ? 1 + i % 17 : i;
}

static void *run_costly(void *replies) {
    static const int32_t low[8] = {1, 1, 1, 1, 1, 1, 1, 1}, high[8] = {3, 3, 3, 3, 3, 3, 3, 3},
                         best[8] = {17, 17, 17, 17, 17, 17, 17, 17};
    costly_replies *r = (costly_replies *)replies;
    r->checked = fnb_check(costly, sizeof costly, 8);
    r->compared = fnb_compare(costly, sizeof costly, 8, 124, low, 8, high, 8);
    r->marked = fnb_perfect(costly, sizeof costly, 8, 124, best, 8);
    r->direct = fnb_query_direct(costly, sizeof costly, 8, costly_rows, 8 * FNB_MOST_ROWS, 124, 0, costly_direct,
                                 FNB_MOST_ROWS);
    r->by_parts = fnb_query_by_parts(costly, sizeof costly, 8, costly_rows, 8 * FNB_MOST_ROWS, 124, 0,
                                     costly_by_parts, FNB_MOST_ROWS);
    return NULL;
}

static costly_replies on_small_stack(void) {
    costly_replies replies;
    pthread_attr_t attributes;
    pthread_t thread;
    if (pthread_attr_init(&attributes) != 0 || pthread_attr_setstacksize(&attributes, 1 << 20) != 0 ||
        pthread_create(&thread, &attributes, run_costly, &replies) != 0 || pthread_join(thread, NULL) != 0)
        abort();
    return replies;
}

static void check_cases(const uint8_t *t1, size_t t1_length) {
    static const uint8_t kind[] = {RECORD(1, 0, 0, 0, 0), RECORD(11, 0, 0, 0, 0)};
    static const uint8_t filler[] = {RECORD(3, 8, 0, 0, 1)};
    static const uint8_t part[] = {RECORD(1, 0, 0, 0, 0), RECORD(19, 1, 0, 0, 0)};
    static const uint8_t reused[] = {RECORD(1, 0, 0, 0, 0), RECORD(16, 0, 0, 0, 0)};
    static const uint8_t clash[] = {RECORD(7, 0, 0, 0, 0), RECORD(0, 1, 0, 5, 0), RECORD(0, 2, 0, 5, 0)};
    static const uint8_t loop[] = {RECORD(9, 0, 0, 0, 0), RECORD(0, 4, 0, 1, 2), RECORD(0, 4, 0, 2, 1)};
    static const uint8_t loose[] = {RECORD(1, 0, 0, 0, 0), RECORD(2, 0, 0, 0, 0)};
    static const uint8_t values_last[] = {RECORD(5, 7, 0, 0, 0), RECORD(0, 1, 0, 9, 0)};
    static const uint8_t zeros[FNB_MOST_TABLE_BYTES + 12] = {0};
    uint8_t built_table[2 * FNB_RECORD_BYTES];

    expect("costly table", CHECK(costly, 8), FNB_ACCEPTED, FNB_NO_PLACE, 125, 124, 127, 7);
    expect("T1", check(t1, t1_length, 3), FNB_ACCEPTED, FNB_NO_PLACE, 5, 4, 7, 3);
    expect("36 bytes of T1", check(t1, 36, 3), FNB_ACCEPTED, FNB_NO_PLACE, 3, 2, 3, 2);
    expect("values after the top", CHECK(values_last, 8), FNB_ACCEPTED, FNB_NO_PLACE, 2, 0, 128, 1);

    fnb_put_lowest(built_table, 264);
    refused("built with column 264", check(built_table, 12, 8), FNB_COLUMN, 0);
    fnb_put_dual(fnb_put_lowest(built_table, 0), 256);
    refused("built with part 256", CHECK(built_table, 8), FNB_PART, 1);

    refused("no columns", check(t1, t1_length, 0), FNB_WIDTH, FNB_NO_PLACE);
    refused("nine columns", check(t1, t1_length, 9), FNB_WIDTH, FNB_NO_PLACE);
    refused("264 columns", check(t1, t1_length, 264), FNB_WIDTH, FNB_NO_PLACE);
    refused("2^32 + 3 columns", check(t1, t1_length, (size_t)4294967299u), FNB_WIDTH, FNB_NO_PLACE);
    refused("NULL with length 0", fnb_check(NULL, 0, 3), FNB_LENGTH, FNB_NO_PLACE);
    refused("NULL with length 0, no columns", fnb_check(NULL, 0, 0), FNB_WIDTH, FNB_NO_PLACE);
    refused("one byte", check(t1, 1, 3), FNB_LENGTH, FNB_NO_PLACE);
    refused("59 bytes of T1", check(t1, 59, 3), FNB_LENGTH, FNB_NO_PLACE);
    refused("129 records", CHECK(zeros, 3), FNB_LENGTH, FNB_NO_PLACE);
    refused("128 zero records", check(zeros, FNB_MOST_TABLE_BYTES, 3), FNB_STRAY, 0);
    refused("kind 11", CHECK(kind, 8), FNB_KIND, 1);
    refused("column 8 and v = 1", CHECK(filler, 8), FNB_FILLER, 0);
    refused("T1 with two columns", check(t1, t1_length, 2), FNB_COLUMN, 3);
    refused("DUAL of itself", CHECK(part, 8), FNB_PART, 1);
    refused("PARETO 0 0", CHECK(reused, 8), FNB_REUSED, 1);
    refused("favourite and disliked 5", CHECK(clash, 8), FNB_CLASH, 2);
    refused("edges (1,2) (2,1)", CHECK(loop, 8), FNB_LOOP, 2);
    refused("two terms alone", CHECK(loose, 8), FNB_LOOSE, 0);
}

/* The rows 0, 1, 2 and 3 of V, and a row under the two ends of the range. */
static void compare_cases(const uint8_t *t1, size_t t1_length) {
    static const uint8_t around[] = {3, 0, 0, 0, 0xff, 0xff, 0xff, 0x7f, 0, 0, 0, 0};
    static const int32_t v0[] = {-5, 3, 4}, v1[] = {-5, 4, 4}, v2[] = {5, 1, 8}, v3[] = {5, 6, 6}, two[] = {5, 1};
    static const int32_t least[] = {INT32_MIN}, zero[] = {0};

    gives("V 0 and 1", compare(t1, t1_length, 3, 4, v0, 3, v1, 3), 0, FNB_NO_PLACE, FNB_FIRST_BETTER);
    gives("V 1 and 0", compare(t1, t1_length, 3, 4, v1, 3, v0, 3), 0, FNB_NO_PLACE, FNB_SECOND_BETTER);
    gives("V 0 and 0", compare(t1, t1_length, 3, 4, v0, 3, v0, 3), 0, FNB_NO_PLACE, FNB_SAME);
    gives("V 0 and 2", compare(t1, t1_length, 3, 4, v0, 3, v2, 3), 0, FNB_NO_PLACE, FNB_UNRANKED);
    gives("V 2 and 3", compare(t1, t1_length, 3, 4, v2, 3, v3, 3), 0, FNB_NO_PLACE, FNB_FIRST_BETTER);
    gives("V 0 and 2, LOWEST alone", compare(t1, t1_length, 3, 1, v0, 3, v2, 3), 0, FNB_NO_PLACE, FNB_SECOND_BETTER);
    gives("AROUND 2147483647", COMPARE(around, 1, 0, least, zero), 0, FNB_NO_PLACE, FNB_SECOND_BETTER);

    gives("second row short", compare(t1, t1_length, 3, 4, v0, 3, two, 2), FNB_ROWS, FNB_NO_PLACE, 0);
    gives("NULL rows", fnb_compare(t1, t1_length, 3, 4, NULL, 0, NULL, 0), FNB_ROWS, FNB_NO_PLACE, 0);
    gives("term 5", compare(t1, t1_length, 3, 5, v0, 3, v1, 3), FNB_TERM, FNB_NO_PLACE, 0);
    gives("term 256", compare(t1, t1_length, 3, 256, v0, 3, v1, 3), FNB_TERM, FNB_NO_PLACE, 0);
    gives("term 2^32 + 4", compare(t1, t1_length, 3, (size_t)4294967300u, v0, 3, v1, 3), FNB_TERM, FNB_NO_PLACE, 0);
    gives("rows and term", compare(t1, t1_length, 3, 5, v0, 3, two, 2), FNB_ROWS, FNB_NO_PLACE, 0);
    gives("T1, two columns", compare(t1, t1_length, 2, 4, two, 2, two, 2), FNB_COLUMN, 3, 0);
    gives("empty table", fnb_compare(NULL, 0, 3, 4, v0, 3, v1, 3), FNB_LENGTH, FNB_NO_PLACE, 0);
}

static void perfect_cases(const uint8_t *t1, size_t t1_length) {
    static const uint8_t pos[] = {RECORD(5, 0, 0, 0, 0)};
    static const uint8_t dual[] = {RECORD(3, 0, 0, 0, 0), RECORD(19, 0, 0, 0, 0)};
    static const int32_t best[] = {0, INT32_MIN, INT32_MAX}, near[] = {1, INT32_MIN, INT32_MAX};
    static const int32_t zero[] = {0}, least[] = {INT32_MIN}, most[] = {INT32_MAX};

    gives("T1, best", perfect(t1, t1_length, 3, 4, best, 3), 0, FNB_NO_PLACE, FNB_PERFECT);
    gives("T1, 1 from the wish", perfect(t1, t1_length, 3, 4, near, 3), 0, FNB_NO_PLACE, FNB_NOT_PERFECT);
    gives("T1, 1 from the wish, LOWEST alone", perfect(t1, t1_length, 3, 1, near, 3), 0, FNB_NO_PLACE, FNB_PERFECT);
    gives("POS, no favourites", PERFECT(pos, 1, 0, zero), 0, FNB_NO_PLACE, FNB_PERFECT);
    gives("DUAL of AROUND 0, least", PERFECT(dual, 1, 1, least), 0, FNB_NO_PLACE, FNB_PERFECT);
    gives("DUAL of AROUND 0, greatest", PERFECT(dual, 1, 1, most), 0, FNB_NO_PLACE, FNB_NOT_PERFECT);
    gives("its part", PERFECT(dual, 1, 0, zero), 0, FNB_NO_PLACE, FNB_PERFECT);
    gives("T1, two columns", perfect(t1, t1_length, 2, 4, best, 3), FNB_COLUMN, 3, 0);
    gives("row too long", perfect(t1, 36, 2, 2, best, 3), FNB_ROWS, FNB_NO_PLACE, 0);
    gives("row too short", perfect(t1, t1_length, 3, 4, best, 2), FNB_ROWS, FNB_NO_PLACE, 0);
    gives("NULL row", fnb_perfect(t1, t1_length, 3, 4, NULL, 0), FNB_ROWS, FNB_NO_PLACE, 0);
    gives("term 7", perfect(t1, t1_length, 3, 7, best, 3), FNB_TERM, FNB_NO_PLACE, 0);
}

/* Every entry holds this before a query. */
#define BEFORE ((uint16_t)7777)

/* A query on a fresh buffer: its reply, and its entries, those after the expected ones as they were. */
static void queried(const char *name, const uint8_t *table, size_t length, size_t columns, const int32_t *rows,
                    size_t rows_length, size_t term, uint8_t group, size_t entries, uint32_t refusal, uint32_t place,
                    uint32_t value, const uint16_t *expected, size_t expected_length) {
    uint16_t answers[MOST_ENTRIES];
    size_t i;
    for (i = 0; i < entries; i++)
        answers[i] = BEFORE;
    gives(name, query(table, length, columns, rows, rows_length, term, group, answers, entries), refusal, place, value);
    for (i = 0; i < entries; i++)
        if (answers[i] != (i < expected_length ? expected[i] : BEFORE)) {
            failed++;
            printf("%s: entry %u is %u\n", name, (unsigned)i, (unsigned)answers[i]);
        }
}

/* A refusal writes nothing. */
static void not_queried(const char *name, const uint8_t *table, size_t length, size_t columns, const int32_t *rows,
                        size_t rows_length, size_t term, uint8_t group, size_t entries, uint32_t refusal,
                        uint32_t place) {
    queried(name, table, length, columns, rows, rows_length, term, group, entries, refusal, place, 0, NULL, 0);
}

/* Rows V. */
static const int32_t rows_v[] = {-5, 3, 4, -5, 4, 4, 5, 1, 8, 5, 6, 6, -6, 0, 6, -6, 0, 4, 6, 2, 7};

static void query_cases(const uint8_t *t1, size_t t1_length) {
    static const uint8_t prior[] = {RECORD(3, 0, 0, 0, 0), RECORD(1, 1, 0, 0, 0), RECORD(17, 0, 1, 0, 0)};
    static const uint16_t top[] = {0, 0, 2, 2, 4, 4, 2}, grouped[] = {0, 0, 2, 2, 4, 5, 6};
    static const uint16_t placed[] = {0, 0, 2, 2, 0, 0, 0};

    queried("T1 over V", t1, t1_length, 3, rows_v, 21, 4, 0, 9, 0, FNB_NO_PLACE, 3, top, 7);
    queried("T1 over V, seven entries", t1, t1_length, 3, rows_v, 21, 4, 0, 7, 0, FNB_NO_PLACE, 3, top, 7);
    queried("T1 record 1, group byte 1", t1, t1_length, 3, rows_v, 21, 1, 1, 9, 0, FNB_NO_PLACE, 5, grouped, 7);
    queried("AROUND 0 PRIOR LOWEST", prior, sizeof prior, 3, rows_v, 21, 2, 0, 9, 0, FNB_NO_PLACE, 2, placed, 7);
    queried("no rows", t1, t1_length, 3, rows_v, 0, 4, 0, 3, 0, FNB_NO_PLACE, 0, NULL, 0);

    not_queried("20 numbers", t1, t1_length, 3, rows_v, 20, 4, 0, 9, FNB_ROWS, FNB_NO_PLACE);
    not_queried("term 5", t1, t1_length, 3, rows_v, 21, 5, 0, 9, FNB_TERM, FNB_NO_PLACE);
    not_queried("term 2^32 + 4", t1, t1_length, 3, rows_v, 21, (size_t)4294967300u, 0, 9, FNB_TERM, FNB_NO_PLACE);
    not_queried("group byte 8", t1, t1_length, 3, rows_v, 21, 4, 8, 9, FNB_GROUP, FNB_NO_PLACE);
    not_queried("group byte 128", t1, t1_length, 3, rows_v, 21, 4, 128, 9, FNB_GROUP, FNB_NO_PLACE);
    not_queried("six entries", t1, t1_length, 3, rows_v, 21, 4, 0, 6, FNB_SHORT, FNB_NO_PLACE);
    not_queried("no entries", t1, t1_length, 3, rows_v, 21, 4, 0, 0, FNB_SHORT, FNB_NO_PLACE);
    not_queried("rows and term", t1, t1_length, 3, rows_v, 20, 5, 0, 9, FNB_ROWS, FNB_NO_PLACE);
    not_queried("term and group", t1, t1_length, 3, rows_v, 21, 5, 8, 9, FNB_TERM, FNB_NO_PLACE);
    not_queried("group and six entries", t1, t1_length, 3, rows_v, 21, 4, 8, 6, FNB_GROUP, FNB_NO_PLACE);
}

/* What Check refuses, Query refuses too. */
static void query_table_cases(const uint8_t *t1, size_t t1_length) {
    static const uint8_t kind[] = {RECORD(1, 0, 0, 0, 0), RECORD(11, 0, 0, 0, 0)};
    static const uint8_t reused[] = {RECORD(1, 0, 0, 0, 0), RECORD(16, 0, 0, 0, 0)};
    static const uint8_t loop[] = {RECORD(9, 0, 0, 0, 0), RECORD(0, 4, 0, 1, 2), RECORD(0, 4, 0, 2, 1)};
    static const uint8_t loose[] = {RECORD(1, 0, 0, 0, 0), RECORD(2, 0, 0, 0, 0)};

    not_queried("no columns", t1, t1_length, 0, rows_v, 21, 4, 0, 9, FNB_WIDTH, FNB_NO_PLACE);
    not_queried("nine columns", t1, t1_length, 9, rows_v, 18, 4, 0, 9, FNB_WIDTH, FNB_NO_PLACE);
    not_queried("2^32 + 3 columns", t1, t1_length, (size_t)4294967299u, rows_v, 21, 4, 0, 9, FNB_WIDTH, FNB_NO_PLACE);
    not_queried("59 bytes of T1", t1, 59, 3, rows_v, 21, 4, 0, 9, FNB_LENGTH, FNB_NO_PLACE);
    not_queried("kind 11", kind, sizeof kind, 3, rows_v, 21, 0, 0, 9, FNB_KIND, 1);
    not_queried("T1 with two columns", t1, t1_length, 2, rows_v, 20, 4, 0, 20, FNB_COLUMN, 3);
    not_queried("PARETO 0 0", reused, sizeof reused, 3, rows_v, 21, 0, 0, 9, FNB_REUSED, 1);
    not_queried("edges (1,2) (2,1)", loop, sizeof loop, 3, rows_v, 21, 0, 0, 9, FNB_LOOP, 2);
    not_queried("two terms alone", loose, sizeof loose, 3, rows_v, 21, 0, 0, 9, FNB_LOOSE, 0);
}

/* NULL where a length is 0. */
static void query_null_cases(const uint8_t *t1, size_t t1_length) {
    static engine *const engines[] = {fnb_query_direct, fnb_query_by_parts};
    uint16_t answers[2] = {BEFORE, BEFORE};
    int e;
    for (e = 0; e < 2; e++) {
        gives("NULL table", engines[e](NULL, 0, 3, rows_v, 21, 4, 0, answers, 2), FNB_LENGTH, FNB_NO_PLACE, 0);
        gives("NULL rows", engines[e](t1, t1_length, 3, NULL, 0, 4, 0, answers, 2), 0, FNB_NO_PLACE, 0);
        gives("NULL rows and answers", engines[e](t1, t1_length, 3, NULL, 0, 4, 0, NULL, 0), 0, FNB_NO_PLACE, 0);
        gives("NULL answers", engines[e](t1, t1_length, 3, rows_v, 21, 4, 0, NULL, 0), FNB_SHORT, FNB_NO_PLACE, 0);
        gives("NULL thrice", engines[e](NULL, 0, 0, NULL, 0, 0, 0, NULL, 0), FNB_WIDTH, FNB_NO_PLACE, 0);
    }
    checked++;
    if (answers[0] != BEFORE || answers[1] != BEFORE) {
        failed++;
        printf("written though there are no rows\n");
    }
}

/* 1,024 rows of eight columns, in which column 0 rises, column 1 falls and the others are 0. */
static void query_most_rows(void) {
    static const uint8_t low[] = {RECORD(1, 0, 0, 0, 0)}, high[] = {RECORD(2, 0, 0, 0, 0)};
    static const uint8_t pareto[] = {RECORD(1, 0, 0, 0, 0), RECORD(1, 1, 0, 0, 0), RECORD(16, 0, 1, 0, 0)};
    static int32_t rows[8 * (FNB_MOST_ROWS + 1)];
    static uint16_t zeros[FNB_MOST_ROWS], last[FNB_MOST_ROWS], own[FNB_MOST_ROWS];
    const size_t length = 8 * FNB_MOST_ROWS;
    int i;
    for (i = 0; i <= FNB_MOST_ROWS; i++) {
        rows[8 * i] = i;
        rows[8 * i + 1] = -i;
    }
    for (i = 0; i < FNB_MOST_ROWS; i++) {
        last[i] = FNB_MOST_ROWS - 1;
        own[i] = (uint16_t)i;
    }
    queried("1,024 rows, LOWEST", low, sizeof low, 8, rows, length, 0, 0, 1026, 0, FNB_NO_PLACE, 1, zeros, 1024);
    queried("1,024 rows, HIGHEST", high, sizeof high, 8, rows, length, 0, 0, 1024, 0, FNB_NO_PLACE, 1, last, 1024);
    queried("1,024 rows, PARETO", pareto, sizeof pareto, 8, rows, length, 2, 0, 1026, 0, FNB_NO_PLACE, 1024, own, 1024);
    queried("1,024 groups", low, sizeof low, 8, rows, length, 0, 2, 1026, 0, FNB_NO_PLACE, 1024, own, 1024);
    not_queried("1,023 entries", low, sizeof low, 8, rows, length, 0, 0, 1023, FNB_SHORT, FNB_NO_PLACE);
    not_queried("1,025 rows", low, sizeof low, 8, rows, length + 8, 0, 0, 1026, FNB_ROWS, FNB_NO_PLACE);
    not_queried("a number more", low, sizeof low, 8, rows, length + 1, 0, 0, 1026, FNB_ROWS, FNB_NO_PLACE);
}

/* In every 17th row from row 16 on all columns of the costly table hold 17: 60 rows, which are equal. */
static void expect_costly(const uint16_t *answers) {
    int i;
    checked++;
    for (i = 0; i < FNB_MOST_ROWS; i++)
        if (answers[i] != (i % 17 == 16 ? i : 16))
            break;
    if (i == FNB_MOST_ROWS)
        return;
    failed++;
    printf("costly table queried, 1 MiB of stack: entry %d is %u\n", i, (unsigned)answers[i]);
}

int main(void) {
    static const uint8_t t1[] = {RECORD(3, 0, 0, 0, 0), RECORD(1, 1, 0, 0, 0), RECORD(16, 0, 1, 0, 0),
                                 RECORD(2, 2, 0, 0, 0), RECORD(16, 2, 3, 0, 0)};
    costly_replies replies;

    word_cases();
    builder_cases();
    make_rooms();
    make_costly();
    make_costly_rows();
    replies = on_small_stack();
    expect("costly table, 1 MiB of stack", replies.checked, FNB_ACCEPTED, FNB_NO_PLACE, 125, 124, 127, 7);
    gives("costly table compared, 1 MiB of stack", replies.compared, 0, FNB_NO_PLACE, FNB_SECOND_BETTER);
    gives("costly table marked, 1 MiB of stack", replies.marked, 0, FNB_NO_PLACE, FNB_PERFECT);
    gives("costly table queried directly, 1 MiB of stack", replies.direct, 0, FNB_NO_PLACE, 60);
    gives("costly table queried by parts, 1 MiB of stack", replies.by_parts, 0, FNB_NO_PLACE, 60);
    expect_costly(costly_direct);
    expect_costly(costly_by_parts);
    check_cases(t1, sizeof t1);
    compare_cases(t1, sizeof t1);
    perfect_cases(t1, sizeof t1);
    query_cases(t1, sizeof t1);
    query_table_cases(t1, sizeof t1);
    query_null_cases(t1, sizeof t1);
    query_most_rows();

    printf("C interface: %d checked, %d failed\n", checked, failed);
    return failed == 0 ? 0 : 1;
}
