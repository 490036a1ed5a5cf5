/* A whole program: of eight motors, those "around 24 volts, then price and weight equally". Prints which are kept and,
 * for each dropped motor, one that is better. Compiles as C11 and as C++17. */
#include "finialbasil.h"

#include <stdio.h>

enum { VOLTS, CENTS, GRAMS, COLUMNS };
enum { RECORDS = 5, MOTORS = 8 };

static const int32_t motors[MOTORS * COLUMNS] = {
    23, 3900,  300, /* 0 */
    12, 4900,  480, /* 1 */
    24, 8900,  640, /* 2 */
    24, 9900,  520, /* 3 */
    24, 9900,  700, /* 4 */
    24, 8900,  640, /* 5 */
    24, 12900, 410, /* 6 */
    24, 10400, 520, /* 7 */
};

int main(void) {
    uint8_t table[RECORDS * FNB_RECORD_BYTES], *at = table;
    at = fnb_put_around(at, VOLTS, 24); /* 0 */
    at = fnb_put_lowest(at, CENTS);     /* 1 */
    at = fnb_put_lowest(at, GRAMS);     /* 2 */
    at = fnb_put_pareto(at, 1, 2);      /* 3: price and weight equally */
    at = fnb_put_prior(at, 0, 3);       /* 4: volts first; the top */

    fnb_check_reply wish = fnb_check(table, sizeof table, COLUMNS);
    if (wish.refusal != FNB_ACCEPTED) {
        printf("the table is refused: %s, record %u\n", fnb_refusal_word(wish.refusal), (unsigned)wish.place);
        return 1;
    }
    printf("%u records, top %u, %u columns\n", (unsigned)wish.records, (unsigned)wish.top, (unsigned)wish.column_count);

    uint16_t answers[MOTORS];
    fnb_reply query = fnb_query_by_parts(table, sizeof table, COLUMNS, motors, MOTORS * COLUMNS, wish.top, 0, answers,
                                         MOTORS);
    if (query.refusal != FNB_ACCEPTED) {
        printf("the query is refused: %s\n", fnb_refusal_word(query.refusal));
        return 1;
    }
    printf("%u of %d motors kept\n", (unsigned)query.value, MOTORS);
    for (int i = 0; i < MOTORS; i++) {
        const int32_t *motor = motors + i * COLUMNS;
        printf("%d: %2d V, %5d cents, %3d g: ", i, (int)motor[VOLTS], (int)motor[CENTS], (int)motor[GRAMS]);
        if (answers[i] == i)
            printf("kept\n");
        else
            printf("dropped, %d is better\n", answers[i]);
    }
    return 0;
}
