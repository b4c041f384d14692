/*
 * Edits a register, from standard input to standard output: a card is added, replaced or withdrawn by its number.
 *
 *     (cd crates/rings_c && rt lib) && mkdir -p target
 *     gcc -std=c11 -Wall -Wextra -O2 c/edit.c crates/rings_c/out/librings_c.a -o target/edit
 *     target/edit add 1,2,2,0,7782-50-5,2500,0,0,0,14, <REGISTER >REGISTER
 *     target/edit replace 60 151 1,2,2,0,7782-50-5,2250,0,0,0,14, <REGISTER >REGISTER
 *     target/edit withdraw 14 <REGISTER >REGISTER
 *
 * A card is a comma line. Its first and its last day may stand before it; without them it is in force from 1 to 366. A
 * refusal is told on standard error as `refused N at K`, with status 1; what is no edit, and an error of reading or writing,
 * ends with a message and status 2. Either way nothing was written, but for what a failing output took of a whole register.
 */
#include "rings.h"

#include <ctype.h>
#include <errno.h>
#include <inttypes.h>
#include <stdio.h>
#include <stdlib.h>
#include <string.h>

enum { DONE = 0, REFUSED = 1, FAILED = 2 };

/*
 * What is done: a card is handed in where there is one, else the number is withdrawn.
 */
struct edit {
    uint64_t (*by_card)(uint8_t *buffer_ptr, size_t buffer_len, const uint8_t *card, uint64_t *at);
    uint8_t card[RINGS_SEASONAL_CARD_LEN];
    uint32_t number;
};

static int failed(const char *why) {
    fprintf(stderr, "edit: %s\n", why);
    return FAILED;
}

static int refused(uint64_t number, uint64_t place) {
    fprintf(stderr, "refused %" PRIu64 " at %" PRIu64 "\n", number, place);
    return REFUSED;
}

/*
 * Digits and nothing else, of a number that is not too large.
 */
static int read_number(const char *digits, uint32_t largest, uint32_t *number) {
    char *end;
    errno = 0;
    unsigned long long value = strtoull(digits, &end, 10);
    if (!isdigit((unsigned char)digits[0]) || errno != 0 || *end != '\0' || value > largest)
        return failed("a card number or a day is wanted");
    *number = (uint32_t)value;
    return DONE;
}

/*
 * A day of a season, as two bytes of a card can hold it; whether a year has it is for the edit to say.
 */
static int read_day(const char *digits, uint8_t *bytes) {
    uint32_t day;
    int status = read_number(digits, UINT16_MAX, &day);
    if (status != DONE) return status;
    bytes[0] = (uint8_t)(day >> 8);
    bytes[1] = (uint8_t)day;
    return DONE;
}

/*
 * The card of one comma line, with its first and its last day.
 */
static int read_card(const char *first, const char *last, const char *line, uint8_t *card) {
    uint8_t one_card[RINGS_HEADER_LEN + RINGS_CARD_LEN];
    uint64_t at;
    uint64_t refusal = rings_read_lines((const uint8_t *)line, strlen(line), one_card, sizeof one_card, &at);
    if (refusal != 0) return refused(refusal, at);
    if (at != sizeof one_card) return failed("a card is wanted");
    memcpy(card, one_card + RINGS_HEADER_LEN, RINGS_CARD_LEN);
    int status = read_day(first, card + RINGS_CARD_LEN);
    return status == DONE ? read_day(last, card + RINGS_CARD_LEN + 2) : status;
}

/*
 * The bytes that are lent: room for any register, but none beyond a file that its length field passes, since what is
 * missing of it would be made up there.
 */
static size_t lent(const uint8_t *bytes, size_t length) {
    if (length < 4) return length;
    uint32_t field = (uint32_t)bytes[0] << 24 | (uint32_t)bytes[1] << 16 | (uint32_t)bytes[2] << 8 | bytes[3];
    return field > length ? length : RINGS_MAX_LEN;
}

static int run(const struct edit *edit) {
    static uint8_t buffer[RINGS_MAX_LEN + 1];
    size_t length = fread(buffer, 1, sizeof buffer, stdin);
    if (ferror(stdin)) return failed("standard input cannot be read");
    if (length > RINGS_MAX_LEN) return failed("standard input is longer than any register");

    uint64_t at;
    uint64_t refusal = edit->by_card != NULL ? edit->by_card(buffer, lent(buffer, length), edit->card, &at)
                                             : rings_withdraw(buffer, lent(buffer, length), edit->number, &at);
    if (refusal != 0) return refused(refusal, at);
    if (fwrite(buffer, 1, at, stdout) != at || fflush(stdout) != 0) return failed("standard output cannot be written");
    return DONE;
}

int main(int argc, char **argv) {
    struct edit edit = {NULL, {0}, 0};
    const char *word = argc > 1 ? argv[1] : "";
    if (strcmp(word, "add") == 0) edit.by_card = rings_add;
    if (strcmp(word, "replace") == 0) edit.by_card = rings_replace;

    int status = FAILED;
    if (argc == 3 && strcmp(word, "withdraw") == 0) {
        status = read_number(argv[2], UINT32_MAX, &edit.number);
    } else if (argc == 3 && edit.by_card != NULL) {
        status = read_card("1", "366", argv[2], edit.card);
    } else if (argc == 5 && edit.by_card != NULL) {
        status = read_card(argv[2], argv[3], argv[4], edit.card);
    } else {
        failed("add [FIRST LAST] LINE, replace [FIRST LAST] LINE or withdraw NUMBER, <REGISTER >REGISTER");
    }
    return status == DONE ? run(&edit) : status;
}
