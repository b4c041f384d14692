/*
 * Tells which stored answers are old. They come on standard input as rings_answer wrote them, 16 bytes each:
 *
 *     (cd crates/rings_c && rt lib) && mkdir -p target
 *     gcc -std=c11 -Wall -Wextra -O2 c/old.c crates/rings_c/out/librings_c.a -o target/old
 *     target/old <ANSWERS
 *
 * Prints a line for each, its card number and `old` or `current`. An error of reading or writing, or a last answer that is
 * cut short, ends with a message and status 2.
 */
#include "rings.h"

#include <inttypes.h>
#include <stdio.h>

enum { DONE = 0, FAILED = 2 };

static int failed(const char *why) {
    fprintf(stderr, "old: %s\n", why);
    return FAILED;
}

static uint32_t card_number(const uint8_t *answer) {
    return (uint32_t)answer[0] << 24 | (uint32_t)answer[1] << 16 | (uint32_t)answer[2] << 8 | answer[3];
}

int main(void) {
    uint8_t answer[RINGS_ANSWER_LEN];
    size_t length;
    while ((length = fread(answer, 1, sizeof answer, stdin)) == sizeof answer)
        printf("%" PRIu32 " %s\n", card_number(answer), rings_is_old(answer) == 1 ? "old" : "current");
    if (ferror(stdin)) return failed("standard input cannot be read");
    if (length != 0) return failed("an answer has 16 bytes");
    if (fflush(stdout) != 0 || ferror(stdout)) return failed("standard output cannot be written");
    return DONE;
}
