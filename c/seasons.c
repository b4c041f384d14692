/*
 * Prints the farthest cards of a register, from standard input: on days that are named, over the year, or through a calendar
 * of all its days.
 *
 *     (cd crates/rings_c && rt lib) && mkdir -p target
 *     gcc -std=c11 -Wall -Wextra -O2 c/seasons.c crates/rings_c/out/librings_c.a -o target/seasons
 *     target/seasons 75 220 year calendar <REGISTER
 *
 * A day is 1 to 366. What is asked for is printed in turn, a line each; a calendar has a line for each run of days with the
 * same farthest cards. A refusal is told on standard error as `refused N at K`, with status 1, and ends what is printed; what
 * is neither a day nor a word, and an error of reading or writing, ends with a message and status 2.
 */
#include "rings.h"

#include <ctype.h>
#include <errno.h>
#include <inttypes.h>
#include <stdio.h>
#include <stdlib.h>
#include <string.h>

enum { DONE = 0, REFUSED = 1, FAILED = 2 };

struct bytes {
    const uint8_t *first;
    size_t length;
};

/*
 * The farthest cards of a day, as the call tells them.
 */
struct rings {
    uint64_t toxic, flammable;
};

static int failed(const char *why) {
    fprintf(stderr, "seasons: %s\n", why);
    return FAILED;
}

static int refused(uint64_t refusal) {
    fprintf(stderr, "refused %" PRIu64 " at %" PRIu64 "\n", refusal >> 32, refusal & 0xffffffff);
    return REFUSED;
}

static void print_farthest(char class, uint64_t word) {
    if (word == 0)
        printf("%c none", class);
    else
        printf("%c %" PRIu64 " %" PRIu64 ".%02" PRIu64, class, word >> 16, (word & 0xffff) / 100, (word & 0xffff) % 100);
}

static void print_rings(struct rings rings) {
    print_farthest('T', rings.toxic);
    printf(", ");
    print_farthest('F', rings.flammable);
    printf("\n");
}

static int print_day(struct bytes bytes, uint32_t day) {
    struct rings rings;
    uint64_t refusal = rings_day(bytes.first, bytes.length, day, &rings.toxic, &rings.flammable);
    if (refusal != 0) return refused(refusal);
    printf("on %" PRIu32 ": ", day);
    print_rings(rings);
    return DONE;
}

/*
 * A class without cards has no day.
 */
static void print_with_day(char class, uint64_t word, uint64_t day) {
    print_farthest(class, word);
    if (word != 0) printf(" on %" PRIu64, day);
}

static int print_year(struct bytes bytes) {
    uint64_t toxic, flammable, toxic_day, flammable_day;
    uint64_t refusal = rings_year(bytes.first, bytes.length, &toxic, &flammable, &toxic_day, &flammable_day);
    if (refusal != 0) return refused(refusal);
    printf("over the year: ");
    print_with_day('T', toxic, toxic_day);
    printf(", ");
    print_with_day('F', flammable, flammable_day);
    printf("\n");
    return DONE;
}

static void print_run(uint32_t first, uint32_t last, struct rings rings) {
    printf("from %" PRIu32 " to %" PRIu32 ": ", first, last);
    print_rings(rings);
}

/*
 * All days in turn. A run ends before a day whose rings are others.
 */
static int print_calendar(struct bytes bytes) {
    struct rings run = {0, 0}, rings;
    uint32_t first = 1;
    for (uint32_t day = 1; day <= RINGS_LAST_DAY; day++) {
        uint64_t refusal = rings_day(bytes.first, bytes.length, day, &rings.toxic, &rings.flammable);
        if (refusal != 0) return refused(refusal);
        if (day > 1 && (rings.toxic != run.toxic || rings.flammable != run.flammable)) {
            print_run(first, day - 1, run);
            first = day;
        }
        run = rings;
    }
    print_run(first, RINGS_LAST_DAY, run);
    return DONE;
}

/*
 * A day as digits and nothing else; whether a year has it is for the call to say.
 */
static int read_day(const char *digits, uint32_t *day) {
    char *end;
    errno = 0;
    unsigned long long value = strtoull(digits, &end, 10);
    if (!isdigit((unsigned char)digits[0]) || errno != 0 || *end != '\0' || value > UINT32_MAX) return FAILED;
    *day = (uint32_t)value;
    return DONE;
}

static int print_asked(struct bytes bytes, const char *asked) {
    uint32_t day;
    if (strcmp(asked, "year") == 0) return print_year(bytes);
    if (strcmp(asked, "calendar") == 0) return print_calendar(bytes);
    return read_day(asked, &day) == DONE ? print_day(bytes, day) : FAILED;
}

/*
 * Whether all that is asked for can be, so that nothing is printed otherwise.
 */
static int are_known(int argc, char **argv) {
    uint32_t day;
    for (int i = 1; i < argc; i++)
        if (strcmp(argv[i], "year") != 0 && strcmp(argv[i], "calendar") != 0 && read_day(argv[i], &day) != DONE) return 0;
    return argc > 1;
}

int main(int argc, char **argv) {
    static uint8_t buffer[RINGS_MAX_LEN + 1];
    if (!are_known(argc, argv)) return failed("days, year or calendar, <REGISTER");

    struct bytes bytes = {buffer, fread(buffer, 1, sizeof buffer, stdin)};
    if (ferror(stdin)) return failed("standard input cannot be read");
    if (bytes.length > RINGS_MAX_LEN) return failed("standard input is longer than any register");

    int status = DONE;
    for (int i = 1; i < argc && status == DONE; i++) status = print_asked(bytes, argv[i]);
    if (fflush(stdout) != 0 || ferror(stdout)) return failed("standard output cannot be written");
    return status;
}
