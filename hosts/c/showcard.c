/* showcard.c: a card from standard input, as a person reads it: the account, then a line a table. For any
 * other text 40, a space, the place and LF. The check is the proved one; what stands in a card's fields
 * is then only printed. Exit status: 0, shown; 1, no card; 2, the input or the output failed. */
#include "dirgemist_card.h"

#include <stdbool.h>
#include <stdio.h>
#include <string.h>

/* More than the longest card: a longer text leaves every card within so many bytes. */
#define KEPT 4096

#define FIELD_HEAD 3 /* tag, and two bytes of length */

static int fail(const char *what) {
    fprintf(stderr, "show-card: %s\n", what);
    return 2;
}

/* The one word is the edition; 0, which there is none of, for any other word. */
static uint8_t edition_of(int count, char **words) {
    bool one = count < 2 || strcmp(words[1], "1") == 0;
    return one ? 1 : count == 2 && strcmp(words[1], "2") == 0 ? 2 : 0;
}

int main(int count, char **words) {
    static uint8_t text[KEPT];
    size_t length = fread(text, 1, sizeof text, stdin);
    while (!feof(stdin) && !ferror(stdin)) {
        getc(stdin);
    }
    if (ferror(stdin)) {
        return fail("the input can't be read");
    }
    size_t place;
    uint8_t number = dirgemist_card_check(edition_of(count, words), text, length, &place);
    if (number != DIRGEMIST_CARD_DONE) {
        printf("%d %zu\n", number, place);
    } else {
        printf("account %.10s\n", (const char *)text + FIELD_HEAD);
        for (size_t at = DIRGEMIST_CARD_ACCOUNT_FIELD; at < length; at += DIRGEMIST_CARD_TABLE_FIELD) {
            const uint8_t *content = text + at + FIELD_HEAD;
            printf("table %02d %.24s\n", content[0], (const char *)content + 1);
        }
    }
    if (fflush(stdout) != 0) {
        return fail("the output can't be written");
    }
    return number == DIRGEMIST_CARD_DONE ? 0 : 1;
}
