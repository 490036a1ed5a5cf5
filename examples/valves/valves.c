/* Of twelve valves, those "10 to 16 bar as nearly as possible, then price and weight equally, brand 7 favourite, brand
 * 9 disliked, by connection size". Asks the wish word for word, then by distance and class: README.md says why.
 * Compiles as C11 and as C++17. */
#include "finialbasil.h"

#include <stdio.h>

enum { BAR, CENTS, GRAMS, BRAND, SIZE, DISTANCE, CLASS, COLUMNS };
enum { VALVES = 12 };

/* DISTANCE and CLASS are filled in by main. */
static int32_t valves[VALVES][COLUMNS] = {
    {16, 4500, 300, 3, 15},   /* 0 */
    {12, 9000, 350, 3, 15},   /* 1 */
    {16, 4800, 320, 4, 15},   /* 2 */
    {16, 5200, 340, 3, 15},   /* 3 */
    {25, 2900, 250, 7, 15},   /* 4 */
    {10, 7800, 610, 7, 25},   /* 5 */
    {10, 7800, 610, 9, 25},   /* 6 */
    {10, 6900, 700, 9, 25},   /* 7 */
    {16, 8200, 640, 3, 25},   /* 8 */
    {6, 19000, 2100, 7, 50},  /* 9 */
    {8, 26000, 2600, 3, 50},  /* 10 */
    {18, 24000, 2400, 3, 50}, /* 11 */
};

/* Whether a call refused; if so, says why, and at which record. */
static int refused(uint32_t refusal, uint32_t place) {
    if (refusal == FNB_ACCEPTED)
        return 0;
    fprintf(stderr, "refused: %s", fnb_refusal_word(refusal));
    if (place != FNB_NO_PLACE)
        fprintf(stderr, ", record %u", (unsigned)place);
    fprintf(stderr, "\n");
    return 1;
}

/* Asks for the top of a table, by connection size, and prints the answers. Gives 0, or 1 if a call refused. */
static int ask(const char *wish, const uint8_t *table, size_t table_len) {
    fnb_check_reply check = fnb_check(table, table_len, COLUMNS);
    if (refused(check.refusal, check.place))
        return 1;

    uint16_t answers[VALVES];
    fnb_reply query = fnb_query_by_parts(table, table_len, COLUMNS, valves[0], VALVES * COLUMNS, check.top, 1 << SIZE,
                                         answers, VALVES);
    if (refused(query.refusal, query.place))
        return 1;

    printf("%s: %u of %d valves kept\n", wish, (unsigned)query.value, VALVES);
    for (int i = 0; i < VALVES; i++) {
        const int32_t *valve = valves[i];
        printf("%2d: %2d bar, %5d cents, %4d g, brand %d, DN %d: ", i, (int)valve[BAR], (int)valve[CENTS],
               (int)valve[GRAMS], (int)valve[BRAND], (int)valve[SIZE]);
        if (answers[i] == i)
            printf("kept\n");
        else
            printf("dropped, %d is better\n", answers[i]);
    }
    return 0;
}

int main(void) {
    uint8_t table[FNB_MOST_TABLE_BYTES], *at = table;
    at = fnb_put_between(at, BAR, 10, 16); /* 0 */
    at = fnb_put_lowest(at, CENTS);        /* 1 */
    at = fnb_put_lowest(at, GRAMS);        /* 2 */
    at = fnb_put_pareto(at, 1, 2);         /* 3: price and weight equally */
    at = fnb_put_pos_neg(at, BRAND);       /* 4 */
    at = fnb_put_favourite(at, 7);         /* 5: a value is a record too, of term 4 */
    at = fnb_put_disliked(at, 9);          /* 6 */
    at = fnb_put_pareto(at, 3, 4);         /* 7: the brand equally with them */
    at = fnb_put_prior(at, 0, 7);          /* 8: pressure first; the top */
    if (ask("The wish word for word", table, (size_t)(at - table)))
        return 1;

    /* 12 and 16 bar are equally good, and so are brands 3 and 4, but different numbers are not equal. Their distances
     * are equal, and so are their classes: hand these over as columns of their own, and ask LOWEST of them. */
    for (int i = 0; i < VALVES; i++) {
        int32_t bar = valves[i][BAR], brand = valves[i][BRAND];
        valves[i][DISTANCE] = bar < 10 ? 10 - bar : bar > 16 ? bar - 16 : 0;
        valves[i][CLASS] = brand == 7 ? 0 : brand == 9 ? 2 : 1;
    }
    at = table;
    at = fnb_put_lowest(at, DISTANCE); /* 0 */
    at = fnb_put_lowest(at, CENTS);    /* 1 */
    at = fnb_put_lowest(at, GRAMS);    /* 2 */
    at = fnb_put_pareto(at, 1, 2);     /* 3: price and weight equally */
    at = fnb_put_lowest(at, CLASS);    /* 4 */
    at = fnb_put_pareto(at, 3, 4);     /* 5: the brand equally with them */
    at = fnb_put_prior(at, 0, 5);      /* 6: pressure first; the top */
    return ask("The wish by distance and class", table, (size_t)(at - table));
}
