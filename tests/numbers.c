/* Prints every number that the library leaves for the stored cases on standard input (oracle/README.md
 * has their form): for each case the answer, then each row of the three lists, a line each, and an empty
 * line. The lists have no more room than refusal 10 asks for.
 *
 * Exits with 1 where a number behind the rows changed, or where a call with one number less in a list does
 * not answer as its refusal must or changes a list. */
#define _POSIX_C_SOURCE 200809L
#include "call.h"

#include <stdlib.h>

/* A case's numbers. */
static uint32_t table[RULZHAMM_RECORD * MOST_RECORDS];

/* Puts the bytes of an escaped text in its own place, and answers how many there are. */
static size_t unescape(char *text) {
    char *to = text;
    for (const char *from = text; *from != 0; from++) {
        unsigned byte = (unsigned char)*from;
        if (*from == '\\') {
            sscanf(from + 1, "%2x", &byte);
            from += 2;
        }
        *to++ = (char)byte;
    }
    return (size_t)(to - text);
}

static const char *or_none(const char *field) {
    return strcmp(field, "-") == 0 ? "" : field;
}

static uint32_t number(const char *digits) {
    return (uint32_t)strtoul(digits, NULL, 10);
}

/* MODE RULES CURRENCY IDENTIFIER NUMBERS.. :TEXT */
static struct lent parsed(char *line) {
    struct lent lent = {.table = table};
    char *text = strstr(line, " :") + 2;
    text[-2] = 0;
    lent.text = text;
    lent.text_len = unescape(text);
    lent.mode = number(strtok(line, " "));
    lent.rules = number(strtok(NULL, " "));
    lent.currency = or_none(strtok(NULL, " "));
    lent.identifier = or_none(strtok(NULL, " "));
    for (char *digits; (digits = strtok(NULL, " ")) != NULL;)
        table[lent.table_len++] = number(digits);
    return lent;
}

static void print_row(const char *name, const int64_t *row, size_t width) {
    printf("%s", name);
    for (size_t i = 0; i < width; i++)
        printf(" %lld", (long long)row[i]);
    printf("\n");
}

static void print_numbers(void) {
    print_row("answer", answer, RULZHAMM_ANSWER);
    for (int k = 0; k < 3; k++)
        for (size_t i = 0; i < (size_t)answer[2 + k]; i++)
            print_row(lists[k].name, lists[k].numbers + lists[k].width * i, lists[k].width);
    printf("\n");
}

int main(void) {
    char *line = NULL;
    size_t size = 0;
    ssize_t length;
    for (long n = 1; (length = getline(&line, &size, stdin)) > 0; n++) {
        line[length - 1] = 0;
        struct lent lent = parsed(line);
        call_with_room(&lent);
        print_numbers();
        expect_old(n);
        expect_room(&lent, n);
    }
    free(line);
    return failures != 0;
}
