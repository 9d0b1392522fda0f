/* Two settlements through the C interface: document 01's example, and a VAT breakdown with a rate, without
 * one, and with an amount that cannot be read. docs/LAYOUT.md has the places. Prints nothing and exits with
 * 0 where every number is as it must be. */
#include "rulzhamm.h"

#include <stdio.h>
#include <string.h>

#define MOST_RECORDS 16

/* The table and its text, filled by `element`. */
static uint32_t table[RULZHAMM_RECORD * MOST_RECORDS];
static char text[1024];
static uint32_t records, bytes;

/* What comes back. */
static int64_t held[RULZHAMM_HELD_ROOM(MOST_RECORDS)];
static int64_t entries[RULZHAMM_ENTRY_ROOM(MOST_RECORDS)];
static int64_t unmapped[RULZHAMM_UNMAPPED_ROOM(MOST_RECORDS)];
static int64_t answer[RULZHAMM_ANSWER];

static int failures;

static void expect(const char *what, int64_t found, int64_t wanted) {
    if (found != wanted) {
        fprintf(stderr, "%s: %lld instead of %lld\n", what, (long long)found, (long long)wanted);
        failures++;
    }
}

static void expect_text(const char *what, const int64_t *place, const char *wanted) {
    if (place[0] < 0 || place[1] != (int64_t)strlen(wanted)
        || memcmp(text + place[0], wanted, strlen(wanted)) != 0) {
        fprintf(stderr, "%s: not %s\n", what, wanted);
        failures++;
    }
}

static void expect_absent(const char *what, const int64_t *place) {
    expect(what, place[0], -1);
    expect(what, place[1], 0);
}

/* Puts a name or a text behind the others: its start and length. */
static void put(uint32_t *place, const char *s) {
    place[0] = bytes;
    place[1] = (uint32_t)strlen(s);
    memcpy(text + bytes, s, strlen(s));
    bytes += place[1];
}

/* One more element: its parent's record, name and text. Answers its own record. */
static uint32_t element(uint32_t parent, const char *name, const char *content) {
    uint32_t *record = table + RULZHAMM_RECORD * records;
    record[0] = 1;
    record[1] = parent;
    put(record + 2, name);
    put(record + 4, content);
    return records++;
}

/* The table starts anew, with the settlement as record 0. */
static void settlement(void) {
    records = bytes = 0;
    element(0, "ApplicableHeaderTradeSettlement", "");
}

/* Reads the table in mode 0, with EUR as the invoice currency and no identifier. */
static void read_table(uint32_t rules) {
    rulzhamm_read(table, RULZHAMM_RECORD * records, (const uint8_t *)text, bytes,
                  (const uint8_t *)"EUR", 3, (const uint8_t *)"", 0, rules, 0,
                  held, RULZHAMM_HELD_ROOM(records), entries, RULZHAMM_ENTRY_ROOM(records),
                  unmapped, RULZHAMM_UNMAPPED_ROOM(records), answer);
}

static void expect_example(void) {
    settlement();
    element(0, "InvoiceCurrencyCode", "EUR");
    uint32_t means = element(0, "SpecifiedTradeSettlementPaymentMeans", "");
    element(element(means, "PayeePartyCreditorFinancialAccount", ""), "IBANID", "DE1");
    element(0, "Foo", "");
    memset(held, 0x55, sizeof held);
    read_table(0);
    expect("refusal", answer[RULZHAMM_REFUSAL], RULZHAMM_NOT_REFUSED);
    expect("held rows", answer[RULZHAMM_HELD_COUNT], 1);
    expect("entries", answer[RULZHAMM_ENTRY_COUNT], 0);
    expect("unmapped rows", answer[RULZHAMM_UNMAPPED_COUNT], 1);
    expect_text("BT-5", answer + RULZHAMM_BT_5, "EUR");
    expect_absent("BT-6", answer + RULZHAMM_BT_6);
    expect("BG-16", answer[RULZHAMM_BG_16], 1);
    expect("BG-18", answer[RULZHAMM_BG_18], 0);
    expect("BT-115", answer[RULZHAMM_BT_115], 0);
    expect("kind of the held row", held[0], RULZHAMM_TRANSFER);
    expect_text("account", held + 1, "DE1");
    expect_absent("account name", held + 3);
    expect("parent of the unmapped row", unmapped[0], 1);
    expect_text("unmapped name", unmapped + 1, "Foo");
    expect("behind the held row", held[RULZHAMM_HELD], 0x5555555555555555);

    /* A rules number above 4,095 is refusal 2, and the lists stay as they are. */
    held[0] = 77;
    read_table(RULZHAMM_ALL_RULES + 1);
    expect("refusal", answer[RULZHAMM_REFUSAL], RULZHAMM_REFUSED_RULES);
    expect("held rows of a refusal", answer[RULZHAMM_HELD_COUNT], 0);
    expect_absent("BT-5 of a refusal", answer + RULZHAMM_BT_5);
    expect("a list after a refusal", held[0], 77);
}

/* A VAT row: taxable amount, category, rate as unscaled number and scale, no exemption reason. */
static void expect_vat(const int64_t *row, int64_t taxable, const char *category, int64_t unscaled, int64_t scale) {
    expect("kind of a VAT row", row[0], RULZHAMM_VAT);
    expect("taxable amount", row[1], taxable);
    expect("tax", row[2], 0);
    expect_text("category", row + 3, category);
    expect("rate, unscaled", row[5], unscaled);
    expect("scale of the rate", row[6], scale);
    expect_absent("exemption reason", row + 7);
    expect_absent("code of the exemption reason", row + 9);
}

static void expect_entry(const int64_t *row, int64_t message, int64_t path, int64_t term, int64_t index) {
    expect("message", row[0], message);
    expect("path", row[1], path);
    expect("term", row[2], term);
    expect("group index", row[3], index);
}

static void expect_vat_breakdown(void) {
    settlement();
    uint32_t tax = element(0, "ApplicableTradeTax", "");
    element(tax, "CalculatedAmount", "0");
    element(tax, "BasisAmount", "10.00");
    element(tax, "CategoryCode", "S");
    element(tax, "RateApplicablePercent", "-19.50");
    tax = element(0, "ApplicableTradeTax", "");
    element(tax, "CalculatedAmount", " 1.000 ");
    element(tax, "CategoryCode", "E");
    /* Rule BR-12 alone: of what is absent only BT-106 makes an entry. */
    read_table(1);
    expect("refusal", answer[RULZHAMM_REFUSAL], RULZHAMM_NOT_REFUSED);
    expect("held rows", answer[RULZHAMM_HELD_COUNT], 2);
    expect("entries", answer[RULZHAMM_ENTRY_COUNT], 2);
    expect_vat(held, 1000, "S", -1950, 2);
    expect_vat(held + RULZHAMM_HELD, 0, "E", 0, -1);
    /* 1.000 has over two decimals: ApplicableTradeTax/CalculatedAmount, BG-23[1]/BT-117. */
    expect_entry(entries, 4, 11, 11, 1);
    expect_text("value", entries + 4, "1.000");
    /* BT-106 is absent: no group has an index, and there is no value. */
    expect_entry(entries + RULZHAMM_ENTRY, 9, 38, 1, -1);
    expect_absent("value of an absence", entries + RULZHAMM_ENTRY + 4);
}

int main(void) {
    expect("version", rulzhamm_version(), RULZHAMM_VERSION);
    expect_example();
    expect_vat_breakdown();
    return failures != 0;
}
