/* The whole example of the scope paper, plan file in, answer file out, in hexadecimal; and every call with lists that are not there. */
#include <stdio.h>
#include <string.h>
#include "yeldaski.h"

/* One state and ten levels. */
#define WORDS YELDASKI_WORDS(1, 10)
/* The same for tables of up to two changes. */
#define TABLE_WORDS YELDASKI_TABLE_WORDS(1, 10, 2)

static const uint8_t plan[] = {0x01, 0, 4, 0, 0, 0, 9, 0x02, 0, 3, 1, 1, 1, 0x03, 0, 6, 0, 0, 0, 0, 0, 0,
                               0x03, 0, 6, 0, 0, 1, 0, 0, 4, 0x05, 0, 4, 0, 3, 0, 4};

static void show(const char *name, const yeldaski_outcome *o) {
    printf("%s: refusal %u, cost %llu, count %zu\n", name, o->refusal, (unsigned long long)o->cost, o->count);
}

static void print_bytes(const uint8_t *bytes, size_t count) {
    for (size_t i = 0; i < count; i++) printf("%02X", bytes[i]);
    printf("\n");
}

/* Windows of 0 to 3 readings over a record of 2; the list keeps what a call does not fill. */
static void moving_window(const int16_t *record, uint64_t *workspace) {
    for (size_t w = 0; w <= 3; w++) {
        uint64_t costs[3] = {7, 8, 9};
        yeldaski_outcome o = yeldaski_windows(plan, sizeof plan, record, 2, w, workspace, WORDS, costs, 3);
        show("windows", &o);
        for (size_t i = 0; i < 3; i++) printf("%llu%c", (unsigned long long)costs[i], i < 2 ? ' ' : '\n');
    }
}

/* Tables for up to 0 to 3 changes, of which the workspace is too short for the last, and for more than there may be. */
static void numbers_of_changes(const int16_t *readings, uint64_t *workspace) {
    for (size_t most = 0; most <= 4; most++) {
        uint64_t costs[4] = {7, 8, 9, 10};
        yeldaski_outcome o = yeldaski_table(plan, sizeof plan, readings, 2, most < 4 ? most : 33, workspace, TABLE_WORDS, costs, 4);
        show("table", &o);
        for (size_t i = 0; i < 4; i++) {
            if (costs[i] == UINT64_MAX) printf("none");
            else printf("%llu", (unsigned long long)costs[i]);
            printf(i < 3 ? " " : "\n");
        }
    }
}

/* NULL with a length of 0 for every list, and for each list of a plan's calls alone. */
static void no_lists(int16_t *readings, uint64_t *workspace, int32_t *runs) {
    uint8_t out[4];
    uint64_t costs[2];
    yeldaski_outcome nothing[] = {
        yeldaski_read_plan(NULL, 0, NULL, 0),
        yeldaski_write_plan(NULL, 0, NULL, 0, NULL, 0),
        yeldaski_search(NULL, 0, NULL, 0, NULL, 0, NULL, 0),
        yeldaski_point(NULL, 0, NULL, 0, 0, 0, NULL, 0),
        yeldaski_windows(NULL, 0, NULL, 0, 0, NULL, 0, NULL, 0),
        yeldaski_table(NULL, 0, NULL, 0, 0, NULL, 0, NULL, 0),
        yeldaski_write_answer(0, NULL, 0, NULL, 0),
        yeldaski_write_refusal(1, NULL, 0),
        yeldaski_segment(NULL, 0, NULL, 0, NULL, 0, NULL, 0, NULL, 0),
        yeldaski_read_plan(plan, sizeof plan, NULL, 0),
        yeldaski_write_plan(plan, sizeof plan, NULL, 0, out, sizeof out),
        yeldaski_write_plan(plan, sizeof plan, readings, 2, NULL, 0),
        yeldaski_search(plan, sizeof plan, NULL, 0, workspace, WORDS, runs, 10),
        yeldaski_search(plan, sizeof plan, readings, 2, NULL, 0, runs, 10),
        yeldaski_search(plan, sizeof plan, readings, 2, workspace, WORDS, NULL, 0),
        yeldaski_point(plan, sizeof plan, NULL, 0, 0, 5, workspace, WORDS),
        yeldaski_point(plan, sizeof plan, readings, 2, 0, 5, NULL, 0),
        yeldaski_windows(plan, sizeof plan, NULL, 0, 1, workspace, WORDS, costs, 2),
        yeldaski_windows(plan, sizeof plan, readings, 2, 1, NULL, 0, costs, 2),
        yeldaski_windows(plan, sizeof plan, readings, 2, 1, workspace, WORDS, NULL, 0),
        yeldaski_table(plan, sizeof plan, NULL, 0, 1, workspace, TABLE_WORDS, costs, 2),
        yeldaski_table(plan, sizeof plan, readings, 2, 1, NULL, 0, costs, 2),
        yeldaski_table(plan, sizeof plan, readings, 2, 1, workspace, TABLE_WORDS, NULL, 0),
        yeldaski_write_answer(0, runs, 5, NULL, 0),
    };
    printf("none:");
    for (size_t i = 0; i < sizeof nothing / sizeof nothing[0]; i++) printf(" %u", nothing[i].refusal);
    yeldaski_reply r = yeldaski_read_answer(NULL, 0, NULL, 0);
    printf("\nread: refusal %u, held %u, cost %llu, count %zu\n", r.refusal, r.held, (unsigned long long)r.cost, r.count);
    yeldaski_outcome o = yeldaski_segment(plan, sizeof plan, NULL, 0, NULL, 0, NULL, 0, out, sizeof out);
    show("segment", &o);
    print_bytes(out, o.count);
}

int main(void) {
    static uint64_t workspace[TABLE_WORDS];
    int16_t readings[2];
    int32_t runs[10], again[5];
    uint8_t out[64];
    printf("most words: %zu, of a table: %zu\n", YELDASKI_WORDS(8, 1024), YELDASKI_TABLE_WORDS(8, 1024, 32));
    yeldaski_outcome o = yeldaski_read_plan(plan, sizeof plan, readings, 2);
    show("readings", &o);
    o = yeldaski_write_plan(plan, sizeof plan, readings, 2, out, sizeof out);
    show("plan", &o);
    printf("same: %d\n", o.count == sizeof plan && memcmp(out, plan, sizeof plan) == 0);
    o = yeldaski_point(plan, sizeof plan, readings, 1, 0, 5, workspace, WORDS);
    show("point", &o);
    o = yeldaski_search(plan, sizeof plan, readings, 2, workspace, WORDS, runs, 10);
    show("search", &o);
    o = yeldaski_write_answer(o.cost, runs, 5 * o.count, out, sizeof out);
    show("answer", &o);
    print_bytes(out, o.count);
    yeldaski_reply r = yeldaski_read_answer(out, o.count, again, 5);
    printf("read: refusal %u, held %u, cost %llu, count %zu, level %d\n", r.refusal, r.held, (unsigned long long)r.cost, r.count, again[3]);
    o = yeldaski_write_refusal(16, out, sizeof out);
    show("refusal", &o);
    r = yeldaski_read_answer(out, o.count, again, 0);
    printf("read: refusal %u, held %u, cost %llu, count %zu\n", r.refusal, r.held, (unsigned long long)r.cost, r.count);
    o = yeldaski_segment(plan, sizeof plan, readings, 2, workspace, WORDS, runs, 10, out, sizeof out);
    show("segment", &o);
    print_bytes(out, o.count);
    moving_window(readings, workspace);
    numbers_of_changes(readings, workspace);
    no_lists(readings, workspace, runs);
    return 0;
}
