/* Tables at the limits of document 01 through the C interface: 257 and 4,096 records and one more, a text of
 * 1,048,576 bytes and one more, lists with the room that refusal 10 asks for and with one number less.
 * Prints nothing and exits with 0 where every number is as it must be. */
#include "call.h"

#define MOST_BYTES 1048576
#define ROOT "ApplicableHeaderTradeSettlement"
#define PRECEDING "InvoiceReferencedDocument"
#define DIGITS 4

static uint32_t table[RULZHAMM_RECORD * (MOST_RECORDS + 1)];
static char text[MOST_BYTES + 2];

/* Element i, below the settlement, of a name at a place and without a text. */
static void element(size_t i, size_t start, size_t length) {
    const uint32_t record[RULZHAMM_RECORD] = {1, 0, (uint32_t)start, (uint32_t)length, 0, 0};
    memcpy(table + RULZHAMM_RECORD * i, record, sizeof record);
}

/* A call on so many records and bytes of text, BR-55 being in force. */
static struct lent called(size_t records, size_t bytes) {
    struct lent lent = {
        .table = table, .table_len = RULZHAMM_RECORD * records, .text = text, .text_len = bytes,
        .currency = "", .identifier = "", .rules = 2048, .mode = 0,
    };
    call_with_room(&lent);
    return lent;
}

static void expect_row(int list, size_t i, const int64_t *wanted) {
    const struct list *l = &lists[list];
    expect(memcmp(l->numbers + l->width * i, wanted, l->width * sizeof *wanted) == 0, l->name, (long)i);
}

/* No refusal, so many rows, and no terms. */
static void expect_counts(size_t held, size_t entries, size_t unmapped, long records) {
    expect_blank((const int64_t[5]){0, 0, (int64_t)held, (int64_t)entries, (int64_t)unmapped}, records);
}

/* Preceding invoices without a reference: each is a row, and its reference is required. */
static void try_preceding(size_t records) {
    memcpy(text, ROOT PRECEDING, strlen(ROOT PRECEDING));
    element(0, 0, strlen(ROOT));
    for (size_t i = 1; i < records; i++)
        element(i, strlen(ROOT), strlen(PRECEDING));
    struct lent lent = called(records, strlen(ROOT PRECEDING));
    if (records > MOST_RECORDS) {
        expect_refusal(4, 0, (long)records);
        return;
    }
    expect_counts(records - 1, records - 1, 0, (long)records);
    for (size_t i = 0; i + 1 < records; i++) {
        expect_row(0, i, (const int64_t[RULZHAMM_HELD]){5, 0, 0, -1});
        expect_row(1, i, (const int64_t[RULZHAMM_ENTRY]){9, 43, 24, (int64_t)i, -1, 0});
    }
    expect_room(&lent, (long)records);
}

/* Elements of names that are not known, each of its own digits, falling, at the text's end. */
static void try_unmapped(size_t records, size_t bytes) {
    size_t from = bytes - DIGITS * (records - 1);
    memset(text, ' ', bytes);
    memcpy(text, ROOT, strlen(ROOT));
    element(0, 0, strlen(ROOT));
    for (size_t i = 1; i < records; i++) {
        snprintf(text + from + DIGITS * (i - 1), DIGITS + 1, "%0*zu", DIGITS, records - i);
        element(i, from + DIGITS * (i - 1), DIGITS);
    }
    struct lent lent = called(records, bytes);
    if (bytes > MOST_BYTES) {
        expect_refusal(4, 0, (long)bytes);
        return;
    }
    expect_counts(0, 0, records - 1, (long)records);
    for (size_t i = 0; i + 1 < records; i++)
        expect_row(2, i, (const int64_t[RULZHAMM_UNMAPPED]){1, (int64_t)(bytes - DIGITS * (i + 1)), DIGITS});
    expect_room(&lent, (long)records);
}

int main(void) {
    const size_t records[] = {1, 2, 256, 257, MOST_RECORDS, MOST_RECORDS + 1};
    for (size_t i = 0; i < sizeof records / sizeof *records; i++)
        try_preceding(records[i]);
    const size_t bytes[] = {65536, 65537, MOST_BYTES, MOST_BYTES + 1};
    for (size_t i = 0; i < sizeof bytes / sizeof *bytes; i++) {
        try_unmapped(2, bytes[i]);
        try_unmapped(257, bytes[i]);
        try_unmapped(MOST_RECORDS, bytes[i]);
    }
    return failures != 0;
}
