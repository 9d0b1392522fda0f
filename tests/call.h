/* A call of the library with lists full of old numbers, for the tests that look at every number. */
#ifndef CALL_H
#define CALL_H

#include "rulzhamm.h"

#include <stdio.h>
#include <string.h>

#define MOST_RECORDS 4096
#define OLD INT64_C(-7777777777)

/* What a call reads; currency and identifier end with a zero byte. */
struct lent {
    const uint32_t *table;
    size_t table_len;
    const void *text;
    size_t text_len;
    const char *currency, *identifier;
    uint32_t rules, mode;
};

/* A list: the numbers of its rows, how many numbers are lent, and behind these one more. */
struct list {
    const char *name;
    size_t width, room;
    int64_t numbers[RULZHAMM_ENTRY_ROOM(MOST_RECORDS + 1) + 1];
};
static struct list lists[3] = {
    {.name = "held", .width = RULZHAMM_HELD},
    {.name = "entry", .width = RULZHAMM_ENTRY},
    {.name = "unmapped", .width = RULZHAMM_UNMAPPED},
};
static int64_t answer[RULZHAMM_ANSWER];
static int failures;

static void expect(int holds, const char *what, long where) {
    if (!holds) {
        fprintf(stderr, "%s (%ld)\n", what, where);
        failures++;
    }
}

static void call(const struct lent *lent) {
    for (int k = 0; k < 3; k++)
        for (size_t i = 0; i <= lists[k].room; i++)
            lists[k].numbers[i] = OLD;
    memset(answer, 0x55, sizeof answer);
    rulzhamm_read(lent->table, lent->table_len, lent->text, lent->text_len,
                  (const uint8_t *)lent->currency, strlen(lent->currency),
                  (const uint8_t *)lent->identifier, strlen(lent->identifier), lent->rules, lent->mode,
                  lists[0].numbers, lists[0].room, lists[1].numbers, lists[1].room,
                  lists[2].numbers, lists[2].room, answer);
}

/* A call with the room that refusal 10 asks for, and no more. */
static void call_with_room(const struct lent *lent) {
    size_t records = lent->table_len / RULZHAMM_RECORD;
    lists[0].room = RULZHAMM_HELD_ROOM(records);
    lists[1].room = RULZHAMM_ENTRY_ROOM(records);
    lists[2].room = RULZHAMM_UNMAPPED_ROOM(records);
    call(lent);
}

/* Behind the rows that the answer counts, the lists are as they were. */
static void expect_old(long where) {
    for (int k = 0; k < 3; k++)
        for (size_t i = lists[k].width * (size_t)answer[2 + k]; i <= lists[k].room; i++)
            expect(lists[k].numbers[i] == OLD, "a number behind the rows changed", where);
}

/* An answer with blank terms: -1 where a text, a date or a code is absent, all else 0. */
static const int64_t blank[RULZHAMM_ANSWER] = {
    [RULZHAMM_BT_5] = -1,  [RULZHAMM_BT_6] = -1,  [RULZHAMM_BT_7] = -1,         [RULZHAMM_BT_8] = -1,
    [RULZHAMM_BT_9] = -1,  [RULZHAMM_BT_19] = -1, [RULZHAMM_BT_20] = -1,        [RULZHAMM_BT_59] = -1,
    [RULZHAMM_BT_60] = -1, [RULZHAMM_BT_61] = -1, [RULZHAMM_BT_60_SCHEME] = -1, [RULZHAMM_BT_61_SCHEME] = -1,
    [RULZHAMM_BT_73] = -1, [RULZHAMM_BT_74] = -1, [RULZHAMM_BT_81] = -1,        [RULZHAMM_BT_82] = -1,
    [RULZHAMM_BT_83] = -1, [RULZHAMM_BT_87] = -1, [RULZHAMM_BT_88] = -1,        [RULZHAMM_BT_89] = -1,
    [RULZHAMM_BT_90] = -1, [RULZHAMM_BT_91] = -1,
};

/* The last call's answer: its first five numbers, blank terms, and behind their rows the lists as they were. */
static void expect_blank(const int64_t first[5], long where) {
    for (int i = 0; i < RULZHAMM_ANSWER; i++) {
        int64_t wanted = i < 5 ? first[i] : blank[i];
        if (answer[i] != wanted) {
            fprintf(stderr, "answer[%d] is %lld, not %lld\n", i, (long long)answer[i], (long long)wanted);
            expect(0, "another answer", where);
        }
    }
    expect_old(where);
}

/* The last call's refusal: its number and record, no rows, blank terms, and the lists as they were. */
static void expect_refusal(int64_t refusal, int64_t record, long where) {
    expect_blank((const int64_t[5]){refusal, record}, where);
}

/* The last call again, with one number less in one list at a time: its refusal and record, else 10 and 0. */
static void expect_room(const struct lent *lent, long where) {
    int64_t refusal = answer[0] == 0 ? 10 : answer[0], record = answer[1];
    for (int k = 0; k < 3; k++)
        if (lists[k].room > 0) {
            lists[k].room--;
            call(lent);
            expect_refusal(refusal, record, where);
            lists[k].room++;
        }
}

#endif
