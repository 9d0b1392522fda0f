/* The settlement reader of Rulzhamm for C and C++: link target/staticlib/librulzhamm.a.
 *
 * A length counts elements, not bytes. No pointer may be null, also where the length is 0, and the
 * lists and the answer may not overlap with each other or with what is read. docs/LAYOUT.md says what
 * the numbers mean.
 *
 * A call takes about 30 KB of stack and no heap. There is no global state: threads may call at the same
 * time, each with lists and an answer of its own. An invoice takes less than a millisecond, but a table
 * whose names and texts overlap may take more than a minute, and the identifier is searched once, however
 * long it is: docs/PERFORMANCE.md has the worst ones. */
#ifndef RULZHAMM_H
#define RULZHAMM_H

#include <stddef.h>
#include <stdint.h>

#ifdef __cplusplus
extern "C" {
#endif

/* The version of this header, 0.2.0: major * 10000 + minor * 100 + patch. */
#define RULZHAMM_VERSION 200

/* The numbers of a table's record, of the answer, and of the rows of the three lists. */
#define RULZHAMM_RECORD 6
#define RULZHAMM_ANSWER 65
#define RULZHAMM_HELD 14
#define RULZHAMM_ENTRY 6
#define RULZHAMM_UNMAPPED 3

/* The most records of a table, and the most bytes of its text (refusal 4). */
#define RULZHAMM_RECORDS_MAX 4096
#define RULZHAMM_TEXT_MAX 1048576

/* The room that refusal 10 asks for, in numbers, for a table of n records. */
#define RULZHAMM_HELD_ROOM(n) (RULZHAMM_HELD * (n))
#define RULZHAMM_ENTRY_ROOM(n) (4 * RULZHAMM_ENTRY * (n))
#define RULZHAMM_UNMAPPED_ROOM(n) (RULZHAMM_UNMAPPED * (n))

/* The rules number with all twelve rules in force. */
#define RULZHAMM_ALL_RULES 4095

/* The refusals, answer[RULZHAMM_REFUSAL]. */
enum rulzhamm_refusal {
    RULZHAMM_NOT_REFUSED = 0,     /* the settlement was read */
    RULZHAMM_REFUSED_MODE = 1,    /* mode above 1 */
    RULZHAMM_REFUSED_RULES = 2,   /* rules number above 4,095 */
    RULZHAMM_REFUSED_TABLE = 3,   /* no records, or numbers not a multiple of 6 */
    RULZHAMM_REFUSED_SIZE = 4,    /* over 4,096 records, or over 1,048,576 bytes of text */
    RULZHAMM_REFUSED_ROOT = 5,    /* record 0 not an element with parent 0 */
    RULZHAMM_REFUSED_RECORD = 6,  /* kind not 1 or 2, or parent not an earlier element */
    RULZHAMM_REFUSED_SPAN = 7,    /* a name or text that ends beyond the text */
    RULZHAMM_REFUSED_UTF8 = 8,    /* a name or text that is not UTF-8 */
    RULZHAMM_REFUSED_NAME = 9,    /* record 0 not named ApplicableHeaderTradeSettlement */
    RULZHAMM_REFUSED_ROOM = 10    /* a list with too little room */
};

/* The kind of a held row, its first number. */
enum rulzhamm_kind {
    RULZHAMM_TRANSFER = 1,
    RULZHAMM_VAT = 2,
    RULZHAMM_ALLOWANCE = 3,
    RULZHAMM_CHARGE = 4,
    RULZHAMM_PRECEDING = 5
};

/* The places of the answer. A text has two: its start at the place that is named, its length behind it;
 * so has an amount that may be absent: 1 or 0, and the amount behind it. */
enum rulzhamm_place {
    RULZHAMM_REFUSAL = 0,
    RULZHAMM_REFUSAL_RECORD = 1,
    RULZHAMM_HELD_COUNT = 2,
    RULZHAMM_ENTRY_COUNT = 3,
    RULZHAMM_UNMAPPED_COUNT = 4,
    RULZHAMM_BT_5 = 5,            /* text: invoice currency */
    RULZHAMM_BT_6 = 7,            /* text: VAT accounting currency */
    RULZHAMM_BT_7 = 9,            /* date: VAT point */
    RULZHAMM_BT_8 = 10,           /* VAT point date code */
    RULZHAMM_BT_9 = 11,           /* date: payment due */
    RULZHAMM_BT_19 = 12,          /* text: buyer accounting reference */
    RULZHAMM_BT_20 = 14,          /* text: payment terms */
    RULZHAMM_BG_10 = 16,          /* 1 or 0: payee */
    RULZHAMM_BT_59 = 17,          /* text: payee name */
    RULZHAMM_BT_60 = 19,          /* text: payee identifier */
    RULZHAMM_BT_60_SCHEME = 21,   /* text */
    RULZHAMM_BT_61 = 23,          /* text: payee legal registration identifier */
    RULZHAMM_BT_61_SCHEME = 25,   /* text */
    RULZHAMM_BG_14 = 27,          /* 1 or 0: invoicing period */
    RULZHAMM_BT_73 = 28,          /* date: start of the period */
    RULZHAMM_BT_74 = 29,          /* date: end of the period */
    RULZHAMM_BG_16 = 30,          /* 1 or 0: payment instructions */
    RULZHAMM_BT_81 = 31,          /* text: payment means type code */
    RULZHAMM_BT_82 = 33,          /* text: payment means text */
    RULZHAMM_BT_83 = 35,          /* text: remittance information */
    RULZHAMM_BG_18 = 37,          /* 1 or 0: payment card */
    RULZHAMM_BT_87 = 38,          /* text: card number */
    RULZHAMM_BT_88 = 40,          /* text: card holder */
    RULZHAMM_BG_19 = 42,          /* 1 or 0: direct debit */
    RULZHAMM_BT_91 = 43,          /* text: debited account */
    RULZHAMM_BT_89 = 45,          /* text: mandate reference */
    RULZHAMM_BT_90 = 47,          /* text: creditor identifier */
    RULZHAMM_BT_106 = 49,         /* amount: sum of lines */
    RULZHAMM_BT_107 = 50,         /* 1 or 0, amount: sum of allowances */
    RULZHAMM_BT_108 = 52,         /* 1 or 0, amount: sum of charges */
    RULZHAMM_BT_109 = 54,         /* amount: total without VAT */
    RULZHAMM_BT_110 = 55,         /* 1 or 0, amount: VAT */
    RULZHAMM_BT_111 = 57,         /* 1 or 0, amount: VAT in the accounting currency */
    RULZHAMM_BT_112 = 59,         /* amount: total with VAT */
    RULZHAMM_BT_113 = 60,         /* 1 or 0, amount: paid */
    RULZHAMM_BT_114 = 62,         /* 1 or 0, amount: rounding */
    RULZHAMM_BT_115 = 64          /* amount: due for payment */
};

/* The version of the library that is linked, numbered as RULZHAMM_VERSION is. */
uint32_t rulzhamm_version(void);

/* Reads a settlement: record 0 of the table and all below it. The answer is written whole; rows go to
 * the front of the lists, and what the lists hold behind them stays. A refusal (answer[0] is not 0)
 * leaves all three lists as they were. */
void rulzhamm_read(const uint32_t *table, size_t table_len,
                   const uint8_t *text, size_t text_len,
                   const uint8_t *currency, size_t currency_len,
                   const uint8_t *identifier, size_t identifier_len,
                   uint32_t rules, uint32_t mode,
                   int64_t *held, size_t held_len,
                   int64_t *entries, size_t entries_len,
                   int64_t *unmapped, size_t unmapped_len,
                   int64_t answer[RULZHAMM_ANSWER]);

#ifdef __cplusplus
}
#endif

#endif
