/*
 * Prints the answers of a register: of the file that is named, or of the three cards of document 01. A line a card, the
 * farthest toxic card, the farthest flammable one; then who led after no card, after the first, and so on to the last.
 *
 *     (cd crates/rings_c && rt lib) && mkdir -p target
 *     gcc -std=c11 -Wall -Wextra -O2 c/example.c crates/rings_c/out/librings_c.a -o target/example && target/example [FILE]
 */
#include "rings.h"

#include <inttypes.h>
#include <stdio.h>

static const uint8_t three_cards[] = {
    0, 0, 0, 79, 1, 0, 3, /* length, version, cards */

    /* 11: chlorine (7782505), liquefied under pressure, urban, open, 2,500 lb */
    1, 2, 2, 0, 0x00, 0x76, 0xc0, 0x69, 0, 0, 0x09, 0xc4, 0, 0, 0, 0, 0, 0, 0, 0, 0, 0, 0, 11,

    /* 12: bromine (7726956), liquid, urban, dike of 100 sq ft with a wall of 4.00 ft, 20,000 lb, 25.0 C */
    1, 4, 2, 1, 0x00, 0x75, 0xe7, 0x6c, 0, 0, 0x4e, 0x20, 0, 0, 0, 100, 0x01, 0x90, 0, 250, 0, 0, 0, 12,

    /* 13: propane (74986), flammable, 10,000 lb */
    2, 0, 0, 0, 0x00, 0x01, 0x24, 0xea, 0, 0, 0x27, 0x10, 0, 0, 0, 0, 0, 0, 0, 0, 0, 0, 0, 13,
};

static uint64_t big_endian(const uint8_t *bytes, int count) {
    uint64_t number = 0;
    for (int i = 0; i < count; i++) number = number << 8 | bytes[i];
    return number;
}

static void print_answer(const uint8_t *answer) {
    uint64_t card = big_endian(answer, 4), rate = big_endian(answer + 6, 8), miles = big_endian(answer + 14, 2);
    printf("%" PRIu64 " %d %d %" PRIu64 ".%03" PRIu64 " %" PRIu64 ".%02" PRIu64 "\n",
           card, answer[4], answer[5], rate / 1000, rate % 1000, miles / 100, miles % 100);
}

static void print_farthest(char class, uint64_t word, const char *end) {
    uint64_t card = word >> 16, miles = word & 0xffff;
    if (word == 0)
        printf("%c none%s", class, end);
    else
        printf("%c %" PRIu64 " %" PRIu64 ".%02" PRIu64 "%s", class, card, miles / 100, miles % 100, end);
}

/*
 * Who led after 0, 1, 2 .. cards of an accepted register, so that no call is refused.
 */
static void print_leaders(const uint8_t *bytes, size_t length, size_t cards) {
    for (size_t first = 0; first <= cards; first++) {
        uint64_t toxic, flammable;
        rings_leaders_after(bytes, length, first, &toxic, &flammable);
        printf("after %zu: ", first);
        print_farthest('T', toxic, ", ");
        print_farthest('F', flammable, "\n");
    }
}

int main(int argc, char **argv) {
    static uint8_t file_bytes[RINGS_MAX_LEN + 1], answers[RINGS_MAX_CARDS * RINGS_ANSWER_LEN];
    const uint8_t *bytes = three_cards;
    size_t length = sizeof three_cards;
    if (argc > 1) {
        FILE *file = fopen(argv[1], "rb");
        if (file == NULL) {
            perror(argv[1]);
            return 2;
        }
        bytes = file_bytes;
        length = fread(file_bytes, 1, sizeof file_bytes, file);
        fclose(file);
        if (length > RINGS_MAX_LEN) {
            puts("too long");
            return 1;
        }
    }

    uint64_t toxic, flammable;
    uint64_t refusal = rings_answer(bytes, length, answers, sizeof answers, &toxic, &flammable);
    if (refusal != 0) {
        printf("refused %" PRIu64 " at %" PRIu64 "\n", refusal >> 32, refusal & 0xffffffff);
        return 1;
    }
    size_t cards = big_endian(bytes + 5, 2);
    for (size_t i = 0; i < cards; i++) print_answer(answers + i * RINGS_ANSWER_LEN);
    print_farthest('T', toxic, "\n");
    print_farthest('F', flammable, "\n");
    print_leaders(bytes, length, cards);
    return 0;
}
