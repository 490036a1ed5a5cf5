/* Finialbasil 0.2.0: preference selection over rows of whole numbers, for C11 and C++17 on x86-64 Linux.
 *
 * A table of wishes says when one row is better than another. A query keeps a row exactly when no row of its group is
 * better, and names for each dropped row the lowest-numbered kept row that is better. Link with libfinialbasil.a or
 * libfinialbasil.so; there is nothing to configure. The usual order of calls is fnb_check once for a table, then
 * fnb_query_by_parts for its top, or fnb_query_direct, which mostly takes less time for fewer than 128 rows.
 *
 * This header reads alone. The same rules with an example for each are in SPECIFICATION.md of the delivery, which is
 * cited by the titles of its sections: SPECIFICATION, "The table".
 *
 * Names and numbers that a version has delivered stay as they are. Later versions may add kinds, roles and refusals: a
 * caller that tells refusals apart needs a default for the numbers that it does not know.
 *
 * ---- The table
 *
 * A table is a run of 12-byte records with no header, 1 to 128 of them, numbered from 0. Byte 0 is the kind, bytes 1
 * to 3 are p, q and s, bytes 4 to 7 are u and bytes 8 to 11 are v, signed 32-bit, two's complement, low byte first. A
 * record is a value, a base term (kinds 1 to 10) or a compound term (kinds 16 to 19).
 *
 *   Kind            Term                                    Fields; every other field is zero
 *   0               value                                   p role, u value; v for role 4 only
 *   1, 2            LOWEST, HIGHEST                         p column
 *   3               AROUND                                  p column, u wish
 *   4               BETWEEN                                 p column, u low, v up
 *   5, 6, 7, 8, 9   POS, NEG, POS/NEG, POS/POS, EXPLICIT    p column
 *   10              ANY                                     p column
 *   16, 17, 18      PARETO, PRIOR, BOTH                     p left part, q right part
 *   19              DUAL                                    p part
 *
 * Values belong to the nearest term before them and follow it without a gap, at most 16 to a term; a term may have
 * none, and a value may come twice in one role. Roles: 1 favourite, 2 disliked, 3 second choice, 4 edge (u worse, v
 * better). POS takes role 1; NEG 2; POS/NEG 1 and 2; POS/POS 1 and 3; EXPLICIT 4; all others none.
 *
 * Parts are record numbers of terms before the compound. Each term but the last term of the table is a part exactly
 * once; that last one is the top. A base term reads one column. A compound term reads the columns of all its parts.
 *
 * The builders below (fnb_put_..) write one record each. Example: "around 24 volts (column 0), then price and weight
 * (columns 1 and 2) equally", asked of four motors.
 *
 *     uint8_t table[5 * FNB_RECORD_BYTES], *at = table;
 *     at = fnb_put_around(at, 0, 24);  // record 0: volts
 *     at = fnb_put_lowest(at, 1);      // record 1: price
 *     at = fnb_put_lowest(at, 2);      // record 2: weight
 *     at = fnb_put_pareto(at, 1, 2);   // record 3: price and weight equally
 *     at = fnb_put_prior(at, 0, 3);    // record 4: volts first; the top
 *     assert(at == table + sizeof table);
 *
 *     const int32_t motors[4][3] = {{24, 90, 12}, {24, 80, 15}, {24, 85, 16}, {12, 50, 5}};
 *     uint16_t answers[4];
 *     fnb_reply reply = fnb_query_by_parts(table, sizeof table, 3, motors[0], 4 * 3, 4, 0, answers, 4);
 *     assert(reply.refusal == FNB_ACCEPTED && reply.value == 2);  // 2 motors are kept
 *     assert(answers[0] == 0 && answers[1] == 1);                 // motors 0 and 1
 *     assert(answers[2] == 1);  // motor 2 is dropped: motor 1 costs less and weighs less
 *     assert(answers[3] == 0);  // motor 3 is dropped: motor 0 is nearer to 24 volts
 *
 * ---- When a row is better
 *
 * A column holds any signed 32-bit number. Of two rows, under a base term on a column:
 *
 *   LOWEST            the lower number is better.
 *   HIGHEST           the higher number is better.
 *   AROUND            the number at the smaller distance from the wish is better. Distances are exact differences, up
 *                     to 4,294,967,295. Different numbers at the same distance are not equal: see "Neither better
 *                     nor equal" below.
 *   BETWEEN           the number at the smaller distance is better. The distance is 0 for low, up and all numbers
 *                     between them, and for every other number its difference to the nearer bound. Different numbers
 *                     at the same distance, such as all that are at 0, are not equal: see below.
 *   POS               a favourite is better than every number that is not a favourite. Different favourites are not
 *                     equal, nor are different others: see below.
 *   NEG               a number that is not disliked is better than every disliked number.
 *   POS/NEG           favourites are best, then all others, then disliked numbers.
 *   POS/POS           favourites are best, then second choices, then all others.
 *   EXPLICIT          y is better than x if a path of one edge or more leads from x to y, each edge from worse to
 *                     better; or if y is in some edge and x is in no edge. With no edges nothing is better.
 *   ANY               nothing is better.
 *
 * Under a compound term:
 *
 *   PARETO            the parts rank equally: a row is better if it is better in one part and, in the other, better or
 *                     equal in all that part's columns. Parts may share columns.
 *   PRIOR             the left part comes first: a row is better if it is better in the left; or if it is equal in all
 *                     columns of the left and better in the right.
 *   BOTH              a row is better if it is better in both parts, which read the same columns.
 *   DUAL              the part turned round: a row is better where it is worse in the part.
 *
 * Every term orders rows strictly: no row is better than itself, and if x is better than y and y is better than z, then
 * x is better than z.
 *
 * ---- Neither better nor equal
 *
 * Equal means the same number. 23 and 25 under AROUND 24, 12 and 16 under BETWEEN 10 and 16, and two favourites under
 * POS are different numbers, and neither is better: they are unranked. A PRIOR with such a term as its left part does
 * not go on to its right part, and under a PARETO with such a term as a part neither row is better. So "10 to 16 bar,
 * then price" keeps an expensive valve for 12 bar beside a cheap valve for 16 bar.
 *
 * Where the same distance is to count as equal, work out the distance for the query, hand it over as a column of its
 * own and ask LOWEST of it: a column that holds 0 for 10 to 16 bar, and else the difference to the nearer bound. LOWEST
 * of that column, then price, keeps the cheap valve alone. For POS, NEG, POS/NEG and POS/POS do so with the class: 0
 * for the best numbers, 1 for the next, 2 for the last. SPECIFICATION, "Neither better nor equal"; example/valves
 * of the delivery.
 *
 * ---- What a call refuses
 *
 *   Number  Word     When                                                                                 Place
 *   1       WIDTH    column count not 1 to 8                                                              none
 *   2       LENGTH   table bytes 0, over 1,536, or not a multiple of 12                                   none
 *   3       KIND     kind not in the list                                                                 the record
 *   4       FILLER   a field not filled for this kind (for kind 0, this role) is not zero                 the record
 *   5       COLUMN   base term's column not below the count                                               the record
 *   6       PART     part not below the record's own number, or not a term                                the record
 *   7       REUSED   part already a part of an earlier term, or both parts the same                       the record
 *   8       STRAY    value with no term before it, or role not taken there                                the record
 *   9       CROWD    a term's 17th value                                                                  the record
 *   10      CLASH    POS/NEG or POS/POS value standing earlier in its term's run under the other role     the record
 *   11      LOOP     edge that closes a cycle with itself or earlier edges of its term                    the record
 *   12      BOUNDS   BETWEEN with low above up                                                            the record
 *   13      APART    BOTH of parts that read different columns                                            the record
 *   14      LOOSE    a term other than the last that is no part                                           the record
 *   15      ROWS     run not a multiple of the count, or over 1,024 rows; a single row not of the
 *                    count's length                                                                       none
 *   16      TERM     number given is not a term record                                                    none
 *   17      GROUP    group bit at or above the count                                                      none
 *   18      SHORT    answer buffer with fewer entries than there are rows                                 none
 *
 * Order: 1, 2, then records from 0 upward, each judged for 3 to 13 in number order from itself and the records before
 * it, then 14 (lowest such record), then 15 to 18. The reply is the first refusal in this order; a call skips
 * refusals about inputs it does not have. No refusal writes anything. Each call checks all its inputs, the table too,
 * and relies on no earlier call.
 *
 * FILLER of a value goes by its own role: v may be filled in role 4 alone, and an unknown role counts as not 4.
 *
 * ---- What every call asks of its caller
 *
 *   - A length counts elements, not bytes: that many can be read behind the pointer, and behind `answers` written.
 *   - `rows_len` counts numbers: it is rows times columns, and not the number of rows.
 *   - A pointer is aligned for its element. It may be NULL only where its length is 0.
 *   - `answers` overlaps nothing else that is handed to the call. What is only read may overlap.
 *   - While the call runs, nothing else writes to what was handed to it, and nothing else reads `answers`.
 *   - The stack has 1 MiB of room. That was enough for every call on the largest inputs: measured, not proved.
 *   - A builder (fnb_put_..) finds room for 12 bytes at `at`.
 *
 * That is all. For any bytes and numbers, and however large a column count or record number is, a call reads only what
 * was handed to it, writes only `answers`, ends, and gives the one reply that is stated here. Calls allocate nothing,
 * keep nothing between calls, and may run on several threads at once. In the five calls no function calls itself,
 * directly or through others: the code alone bounds the stack that a call takes, whatever its input.
 */
#ifndef FINIALBASIL_H
#define FINIALBASIL_H

#include <stddef.h>
#include <stdint.h>

#ifdef __cplusplus
extern "C" {
#endif

/* The version of this header, and of the library that is delivered with it. */
#define FNB_VERSION_MAJOR 0
#define FNB_VERSION_MINOR 2
#define FNB_VERSION_PATCH 0

/* The limits: of a record and a table, of a row, of a term, of a query. */
#define FNB_RECORD_BYTES 12
#define FNB_MOST_RECORDS 128
#define FNB_MOST_TABLE_BYTES 1536
#define FNB_MOST_COLUMNS 8 /* of one row */
#define FNB_MOST_VALUES 16 /* of one term */
#define FNB_MOST_ROWS 1024 /* of one query */

/* The kinds of records. */
#define FNB_KIND_VALUE 0
#define FNB_KIND_LOWEST 1
#define FNB_KIND_HIGHEST 2
#define FNB_KIND_AROUND 3
#define FNB_KIND_BETWEEN 4
#define FNB_KIND_POS 5
#define FNB_KIND_NEG 6
#define FNB_KIND_POS_NEG 7
#define FNB_KIND_POS_POS 8
#define FNB_KIND_EXPLICIT 9
#define FNB_KIND_ANY 10
#define FNB_KIND_PARETO 16
#define FNB_KIND_PRIOR 17
#define FNB_KIND_BOTH 18
#define FNB_KIND_DUAL 19

/* The roles of values. */
#define FNB_ROLE_FAVOURITE 1
#define FNB_ROLE_DISLIKED 2
#define FNB_ROLE_SECOND_CHOICE 3
#define FNB_ROLE_EDGE 4

/* What `place` holds where a reply has none. */
#define FNB_NO_PLACE 0xffffffffu

/* The numbers of the refusals, as in the table above; 0 is none. */
#define FNB_ACCEPTED 0u
#define FNB_WIDTH 1u
#define FNB_LENGTH 2u
#define FNB_KIND 3u
#define FNB_FILLER 4u
#define FNB_COLUMN 5u
#define FNB_PART 6u
#define FNB_REUSED 7u
#define FNB_STRAY 8u
#define FNB_CROWD 9u
#define FNB_CLASH 10u
#define FNB_LOOP 11u
#define FNB_BOUNDS 12u
#define FNB_APART 13u
#define FNB_LOOSE 14u
#define FNB_ROWS 15u
#define FNB_TERM 16u
#define FNB_GROUP 17u
#define FNB_SHORT 18u

/* The word of a refusal's number, "WIDTH" to "SHORT"; "ACCEPTED" for 0, and "UNKNOWN" for every other number. */
static inline const char *fnb_refusal_word(uint32_t number) {
    static const char *const words[] = {"ACCEPTED", "WIDTH",  "LENGTH", "KIND",  "FILLER", "COLUMN", "PART",
                                        "REUSED",   "STRAY",  "CROWD",  "CLASH", "LOOP",   "BOUNDS", "APART",
                                        "LOOSE",    "ROWS",   "TERM",   "GROUP", "SHORT"};
    return number < sizeof words / sizeof *words ? words[number] : "UNKNOWN";
}

/* How two rows compare. */
#define FNB_SAME 0u          /* equal in the term's columns */
#define FNB_FIRST_BETTER 1u  /* the first row is better */
#define FNB_SECOND_BETTER 2u /* the second row is better */
#define FNB_UNRANKED 3u      /* neither is better, and they are not the same */

/* Whether a row is perfect. */
#define FNB_NOT_PERFECT 0u
#define FNB_PERFECT 1u

/* Builders of records. Each writes the 12 bytes of one record at `at`, and gives the place after them. A builder
 * refuses nothing: the calls say what is wrong with a table. A column or part that no byte holds is written as 255,
 * which every call refuses (COLUMN, PART). SPECIFICATION, "The table". */

/* What the builders below share. */
static inline uint8_t *fnb_put_record(uint8_t *at, uint8_t kind, size_t p, size_t q, int32_t u, int32_t v) {
    int i;
    at[0] = kind;
    at[1] = (uint8_t)(p < 255 ? p : 255);
    at[2] = (uint8_t)(q < 255 ? q : 255);
    at[3] = 0;
    for (i = 0; i < 4; i++) {
        at[4 + i] = (uint8_t)((uint32_t)u >> (8 * i));
        at[8 + i] = (uint8_t)((uint32_t)v >> (8 * i));
    }
    return at + FNB_RECORD_BYTES;
}

/* Base terms on one column that need no values. */
static inline uint8_t *fnb_put_lowest(uint8_t *at, size_t column) {
    return fnb_put_record(at, FNB_KIND_LOWEST, column, 0, 0, 0);
}

static inline uint8_t *fnb_put_highest(uint8_t *at, size_t column) {
    return fnb_put_record(at, FNB_KIND_HIGHEST, column, 0, 0, 0);
}

/* Different numbers at the same distance from the wish are not equal, so that a PRIOR does not go on to its right part.
 * To have them equal, ask LOWEST of a column that holds the distance: see "Neither better nor equal" above. */
static inline uint8_t *fnb_put_around(uint8_t *at, size_t column, int32_t wish) {
    return fnb_put_record(at, FNB_KIND_AROUND, column, 0, wish, 0);
}

/* Different numbers from low to up are not equal either. To have them equal, ask LOWEST of a column that holds the
 * distance. */
static inline uint8_t *fnb_put_between(uint8_t *at, size_t column, int32_t low, int32_t up) {
    return fnb_put_record(at, FNB_KIND_BETWEEN, column, 0, low, up);
}

static inline uint8_t *fnb_put_any(uint8_t *at, size_t column) {
    return fnb_put_record(at, FNB_KIND_ANY, column, 0, 0, 0);
}

/* Base terms on one column, whose values are put right after them; each value is a record and has a number too.
 * Different numbers of one class, such as two favourites, are not equal either, so that a PARETO with such a part, or a
 * PRIOR with it on the left, ranks neither row. To have them equal, ask LOWEST of a column that holds the class (but
 * for EXPLICIT, which has no classes). */
static inline uint8_t *fnb_put_pos(uint8_t *at, size_t column) {
    return fnb_put_record(at, FNB_KIND_POS, column, 0, 0, 0);
}

static inline uint8_t *fnb_put_neg(uint8_t *at, size_t column) {
    return fnb_put_record(at, FNB_KIND_NEG, column, 0, 0, 0);
}

static inline uint8_t *fnb_put_pos_neg(uint8_t *at, size_t column) {
    return fnb_put_record(at, FNB_KIND_POS_NEG, column, 0, 0, 0);
}

static inline uint8_t *fnb_put_pos_pos(uint8_t *at, size_t column) {
    return fnb_put_record(at, FNB_KIND_POS_POS, column, 0, 0, 0);
}

static inline uint8_t *fnb_put_explicit(uint8_t *at, size_t column) {
    return fnb_put_record(at, FNB_KIND_EXPLICIT, column, 0, 0, 0);
}

/* Values of the nearest term before them. */
static inline uint8_t *fnb_put_favourite(uint8_t *at, int32_t value) {
    return fnb_put_record(at, FNB_KIND_VALUE, FNB_ROLE_FAVOURITE, 0, value, 0);
}

static inline uint8_t *fnb_put_disliked(uint8_t *at, int32_t value) {
    return fnb_put_record(at, FNB_KIND_VALUE, FNB_ROLE_DISLIKED, 0, value, 0);
}

static inline uint8_t *fnb_put_second_choice(uint8_t *at, int32_t value) {
    return fnb_put_record(at, FNB_KIND_VALUE, FNB_ROLE_SECOND_CHOICE, 0, value, 0);
}

static inline uint8_t *fnb_put_edge(uint8_t *at, int32_t worse, int32_t better) {
    return fnb_put_record(at, FNB_KIND_VALUE, FNB_ROLE_EDGE, 0, worse, better);
}

/* Compound terms of parts, which are the record numbers of earlier terms. For three wishes that rank equally, put a
 * PARETO of two, then a PARETO of that one and the third. */
static inline uint8_t *fnb_put_pareto(uint8_t *at, size_t left, size_t right) {
    return fnb_put_record(at, FNB_KIND_PARETO, left, right, 0, 0);
}

static inline uint8_t *fnb_put_prior(uint8_t *at, size_t left, size_t right) {
    return fnb_put_record(at, FNB_KIND_PRIOR, left, right, 0, 0);
}

static inline uint8_t *fnb_put_both(uint8_t *at, size_t left, size_t right) {
    return fnb_put_record(at, FNB_KIND_BOTH, left, right, 0, 0);
}

static inline uint8_t *fnb_put_dual(uint8_t *at, size_t part) {
    return fnb_put_record(at, FNB_KIND_DUAL, part, 0, 0, 0);
}

/* What the check gives. On a refusal the fields after `place` are 0. */
typedef struct {
    uint32_t refusal;      /* 0: accepted; else 1 to 14 */
    uint32_t place;        /* the record that is refused, or FNB_NO_PLACE */
    uint32_t records;      /* number of records */
    uint32_t top;          /* record number of the last term */
    uint32_t columns;      /* columns that the top reads, bit j for column j */
    uint32_t column_count; /* how many these are */
} fnb_check_reply;

/* Check.
 * Takes a table, and the column count of the rows that it is for.
 * Gives the number of records, the top, the columns that the top reads and how many these are.
 * Refuses 1 to 14. A table is accepted with a column count if this call refuses nothing. */
fnb_check_reply fnb_check(const uint8_t *table, size_t table_len, size_t columns);

/* What the other calls give. On a refusal `value` is 0. */
typedef struct {
    uint32_t refusal; /* 0: accepted; else 1 to 18 */
    uint32_t place;   /* the record that is refused, or FNB_NO_PLACE */
    uint32_t value;   /* what the call gives */
} fnb_reply;

/* Compare.
 * Takes a table, the column count, the record number of a term, the top or any other, and two rows with a number for
 * each column.
 * Gives in `value` how the first row compares with the second under the term: FNB_SAME, FNB_FIRST_BETTER,
 * FNB_SECOND_BETTER or FNB_UNRANKED. With the two rows exchanged, FNB_FIRST_BETTER and FNB_SECOND_BETTER are exchanged.
 * Refuses 1 to 16. */
fnb_reply fnb_compare(const uint8_t *table, size_t table_len, size_t columns, size_t term, const int32_t *first,
                      size_t first_len, const int32_t *second, size_t second_len);

/* Perfect.
 * Takes a table, the column count, the record number of a term and one row with a number for each column.
 * Gives in `value` FNB_PERFECT if this holds of every base term beneath the asked term (of itself if it is a base term):
 * no 32-bit number is better than the row's; or, beneath an odd number of DUALs, counted from the asked term down and
 * with it, none is worse. Else FNB_NOT_PERFECT. So under AROUND the wish alone is perfect, under LOWEST -2147483648
 * alone, under ANY every number.
 * Refuses 1 to 16. */
fnb_reply fnb_perfect(const uint8_t *table, size_t table_len, size_t columns, size_t term, const int32_t *row,
                      size_t row_len);

/* Query, direct: rows are compared pair by pair.
 * Takes a table, the column count, the rows, row after row in one run of `rows_len` numbers (rows times columns), the
 * record number of a term, a group byte and the answer buffer. Rows are numbered from 0. With bit j of the group byte
 * set (1 << j), only rows that are equal in column j are weighed against each other: rows equal in all columns of the
 * byte are a group, and with 0 all rows are one. (A number above 255 loses its higher bits before the call.)
 * Writes an entry for each row: i for row i if it is kept, that is, if no row of its group is better under the term;
 * else the number of the lowest kept row of its group that is better, and there always is one. Rows of a group that are
 * equal in the term's columns are all kept or all dropped. Entries after the last row keep their contents.
 * Gives in `value` how many rows were kept, in all groups together. Columns that neither the term nor the group byte
 * reads do not change the answers. With no rows 0 are kept, and nothing is written.
 * Dropped rows may be taken out, some or all. Asked again with the same table, column count, term and group byte, the
 * same rows are kept, and each dropped row that is left names the same better row; the rows that are left are numbered
 * from 0 again in their old order. So two catalogues can be queried separately and then their kept rows together, which
 * keeps what one query over both keeps, provided both together have at most 1,024 rows (SPECIFICATION, "Leaving out
 * rows").
 * Refuses 1 to 18, and then writes nothing. */
fnb_reply fnb_query_direct(const uint8_t *table, size_t table_len, size_t columns, const int32_t *rows, size_t rows_len,
                           size_t term, uint8_t group, uint16_t *answers, size_t answers_len);

/* Query, by parts: a term's answers are made from those of its parts, 64 rows at a time. Takes, writes, gives and
 * refuses the same as fnb_query_direct for every input, and is usually the faster of the two from 128 rows on. */
fnb_reply fnb_query_by_parts(const uint8_t *table, size_t table_len, size_t columns, const int32_t *rows,
                             size_t rows_len, size_t term, uint8_t group, uint16_t *answers, size_t answers_len);

#ifdef __cplusplus
}
#endif

#endif
