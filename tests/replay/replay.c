/* Runs the cases that the random tests wrote through the C header: each reply and each entry must be as it was seen
 * from Rust. Compiles as C11 and as C++17. The file is described in tests/agree/src/replay.rs. */
#include "finialbasil.h"

#include <stdio.h>
#include <stdlib.h>
#include <string.h>

#ifdef __cplusplus
#define HOLDS(claim) static_assert(claim, #claim)
#else
#define HOLDS(claim) _Static_assert(claim, #claim)
#endif

/* The same layout is asserted in tests/agree/src/library.rs. */
HOLDS(sizeof(fnb_check_reply) == 24);
HOLDS(offsetof(fnb_check_reply, refusal) == 0);
HOLDS(offsetof(fnb_check_reply, place) == 4);
HOLDS(offsetof(fnb_check_reply, records) == 8);
HOLDS(offsetof(fnb_check_reply, top) == 12);
HOLDS(offsetof(fnb_check_reply, columns) == 16);
HOLDS(offsetof(fnb_check_reply, column_count) == 20);
HOLDS(sizeof(fnb_reply) == 12);
HOLDS(offsetof(fnb_reply, refusal) == 0);
HOLDS(offsetof(fnb_reply, place) == 4);
HOLDS(offsetof(fnb_reply, value) == 8);
HOLDS(sizeof(size_t) == 8);

enum { CHECK, COMPARE, PERFECT, DIRECT, BY_PARTS, CALLS };
static const char *const names[CALLS] = {"check", "compare", "perfect", "query direct", "query by parts"};
static const unsigned refusals[CALLS] = {FNB_LOOSE, FNB_TERM, FNB_TERM, FNB_SHORT, FNB_SHORT};

/* Cases by call and refusal, and by call and value of an accepted one. */
static unsigned seen[CALLS][FNB_SHORT + 1];
static unsigned values[CALLS][4];

typedef struct {
    uint64_t call, columns, term, group, table_len, first_len, second_len, answers_len;
} numbers;

typedef struct {
    numbers n;
    uint8_t *table;
    int32_t *first, *second;
    uint16_t *answers, *after;
    uint32_t reply[6];
} replay_case;

static FILE *file;

static void stop(const char *words) {
    fprintf(stderr, "replay: %s\n", words);
    exit(1);
}

static void take(void *to, size_t bytes) {
    if (bytes > 0 && fread(to, 1, bytes, file) != bytes) stop("the file ends early");
}

/* Memory of exactly this size, or NULL for none. */
static void *taken(uint64_t count, size_t size) {
    if (count == 0) return NULL;
    if (count > 1000000) stop("a length that no case has");
    void *memory = malloc(count * size);
    if (memory == NULL) stop("no memory");
    take(memory, count * size);
    return memory;
}

static replay_case next_case(void) {
    replay_case c;
    take(&c.n, sizeof c.n);
    c.table = (uint8_t *)taken(c.n.table_len, 1);
    c.first = (int32_t *)taken(c.n.first_len, 4);
    c.second = (int32_t *)taken(c.n.second_len, 4);
    c.answers = (uint16_t *)taken(c.n.answers_len, 2);
    c.after = (uint16_t *)taken(c.n.answers_len, 2);
    take(c.reply, sizeof c.reply);
    return c;
}

static void release(replay_case *c) {
    free(c->table);
    free(c->first);
    free(c->second);
    free(c->answers);
    free(c->after);
}

/* Makes the call, and gives its reply as six numbers. */
static void call(const replay_case *c, uint32_t given[6]) {
    const numbers *n = &c->n;
    fnb_reply r = {0, 0, 0};
    memset(given, 0, 6 * sizeof given[0]);
    switch (n->call) {
    case CHECK: {
        fnb_check_reply k = fnb_check(c->table, n->table_len, n->columns);
        uint32_t all[6] = {k.refusal, k.place, k.records, k.top, k.columns, k.column_count};
        memcpy(given, all, sizeof all);
        return;
    }
    case COMPARE:
        r = fnb_compare(c->table, n->table_len, n->columns, n->term, c->first, n->first_len, c->second, n->second_len);
        break;
    case PERFECT:
        r = fnb_perfect(c->table, n->table_len, n->columns, n->term, c->first, n->first_len);
        break;
    case DIRECT:
        r = fnb_query_direct(c->table, n->table_len, n->columns, c->first, n->first_len, n->term, (uint8_t)n->group,
                             c->answers, n->answers_len);
        break;
    case BY_PARTS:
        r = fnb_query_by_parts(c->table, n->table_len, n->columns, c->first, n->first_len, n->term, (uint8_t)n->group,
                               c->answers, n->answers_len);
        break;
    default:
        stop("a call that is none");
    }
    given[0] = r.refusal;
    given[1] = r.place;
    given[2] = r.value;
}

/* 1 if the replies or the entries differ. */
static int differs(uint64_t number, const replay_case *c, const uint32_t given[6]) {
    int field = 0;
    while (field < 6 && given[field] == c->reply[field]) field++;
    uint64_t entry = 0;
    while (entry < c->n.answers_len && c->answers[entry] == c->after[entry]) entry++;
    if (field == 6 && entry == c->n.answers_len) return 0;
    fprintf(stderr, "replay: case %llu, %s: ", (unsigned long long)number, names[c->n.call]);
    if (field < 6) fprintf(stderr, "field %d is %u, not %u\n", field, given[field], c->reply[field]);
    else fprintf(stderr, "entry %llu is %u, not %u\n", (unsigned long long)entry, c->answers[entry], c->after[entry]);
    return 1;
}

/* 1 if the file holds no case of a refusal, an outcome or a mark. */
static int missing(void) {
    int any = 0;
    for (int k = 0; k < CALLS; k++) {
        for (unsigned number = 0; number <= refusals[k]; number++) {
            if (seen[k][number] > 0) continue;
            fprintf(stderr, "replay: no case of %s with refusal %u\n", names[k], number);
            any = 1;
        }
    }
    for (unsigned value = FNB_SAME; value <= FNB_UNRANKED; value++) {
        if (values[COMPARE][value] > 0) continue;
        fprintf(stderr, "replay: no case of compare with outcome %u\n", value);
        any = 1;
    }
    if (values[PERFECT][FNB_PERFECT] > 0 && values[PERFECT][FNB_NOT_PERFECT] > 0) return any;
    fprintf(stderr, "replay: no case of perfect with each mark\n");
    return 1;
}

int main(int count, char **words) {
    char head[8];
    uint64_t cases;
    int wrong = 0;
    if (count != 2 || (file = fopen(words[1], "rb")) == NULL) stop("name the file of cases");
    take(head, sizeof head);
    if (memcmp(head, "fnbrply1", sizeof head) != 0) stop("no file of cases");
    take(&cases, sizeof cases);
    for (uint64_t number = 0; number < cases; number++) {
        uint32_t given[6];
        replay_case c = next_case();
        call(&c, given);
        wrong |= differs(number, &c, given);
        if (given[0] <= FNB_SHORT) seen[c.n.call][given[0]]++;
        if (given[0] == FNB_ACCEPTED && given[2] <= FNB_UNRANKED) values[c.n.call][given[2]]++;
        release(&c);
    }
    if (fgetc(file) != EOF) stop("bytes after the last case");
    fclose(file);
    wrong |= missing();
    printf("replay: %llu cases, %s\n", (unsigned long long)cases, wrong ? "FAILED" : "all as seen from Rust");
    return wrong;
}
