/*
 * The likely distance of a card, at a rate and a duration that are supplied. The card is a comma line on standard input:
 *
 *     (cd crates/rings_c && rt lib) && mkdir -p target
 *     gcc -std=c11 -Wall -Wextra -O2 c/likely.c crates/rings_c/out/librings_c.a -o target/likely
 *     target/likely THOUSANDTHS MINUTES <LINE
 *
 * Prints the table, how the distance was found, miles rounded up to a hundredth, and the bits of the float. A refusal is
 * told on standard error as `refused N at K`, with status 1; what is no query ends with a message and status 2.
 */
#include "rings.h"

#include <ctype.h>
#include <errno.h>
#include <inttypes.h>
#include <stdio.h>
#include <stdlib.h>
#include <string.h>

enum { DONE = 0, REFUSED = 1, FAILED = 2 };

static int failed(const char *why) {
    fprintf(stderr, "likely: %s\n", why);
    return FAILED;
}

static int refused(uint64_t number, uint64_t place) {
    fprintf(stderr, "refused %" PRIu64 " at %" PRIu64 "\n", number, place);
    return REFUSED;
}

/*
 * Digits and nothing else, up to a limit. Gives 0 on anything else.
 */
static int read_number(const char *digits, uint64_t limit, uint64_t *number) {
    char *end;
    if (!isdigit((unsigned char)digits[0])) return 0;
    errno = 0;
    *number = strtoull(digits, &end, 10);
    return errno == 0 && *end == '\0' && *number <= limit;
}

static int print_likely(uint64_t table, uint64_t found, double hundredths) {
    static const char *const words[] = {
        [RINGS_PRINTED] = "printed", [RINGS_INTERPOLATED] = "interpolated", [RINGS_LIMIT] = "limit"};
    uint64_t up = (uint64_t)hundredths, bits;
    if ((double)up < hundredths) up++;
    _Static_assert(sizeof bits == sizeof hundredths, "a double has 64 bits");
    memcpy(&bits, &hundredths, sizeof bits);
    printf("%" PRIu64 " %s %" PRIu64 ".%02" PRIu64 " %016" PRIx64 "\n", table, words[found], up / 100, up % 100, bits);
    return DONE;
}

static int find(const uint8_t *card, uint64_t rate, uint32_t minutes) {
    /* no answer has these words, so that a refusal that changed one would be seen */
    uint64_t table = 99, found = 99;
    double hundredths = -1;
    uint64_t refusal = rings_likely(card, rate, minutes, &table, &found, &hundredths);
    if (refusal == 0) return print_likely(table, found, hundredths);
    if (table != 99 || found != 99 || hundredths != -1) return failed("a refusal changed a word");
    return refused(refusal >> 32, refusal & 0xffffffff);
}

int main(int argc, char **argv) {
    uint64_t rate, minutes, at;
    if (argc != 3 || !read_number(argv[1], UINT64_MAX, &rate) || !read_number(argv[2], UINT32_MAX, &minutes))
        return failed("THOUSANDTHS MINUTES <LINE");

    /* one byte more than a line with its line feed, so that a longer one is seen to be too long */
    uint8_t line[RINGS_MAX_LINE + 2], one_card[RINGS_HEADER_LEN + RINGS_CARD_LEN];
    size_t length = fread(line, 1, sizeof line, stdin);
    if (ferror(stdin)) return failed("standard input cannot be read");
    uint64_t refusal = rings_read_lines(line, length, one_card, sizeof one_card, &at);
    if (refusal != 0) return refused(refusal, at);
    if (at != sizeof one_card) return failed("a card is wanted");
    return find(one_card + RINGS_HEADER_LEN, rate, (uint32_t)minutes);
}
