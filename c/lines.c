/*
 * Comma lines into a register, and a register into comma lines in strict form: standard input to standard output.
 *
 *     (cd crates/rings_c && rt lib) && mkdir -p target
 *     gcc -std=c11 -Wall -Wextra -O2 c/lines.c crates/rings_c/out/librings_c.a -o target/lines
 *     target/lines read <TEXT >REGISTER
 *     target/lines write <REGISTER >TEXT
 *
 * A refusal is told on standard error as `refused N at K`, with status 1; an error of reading or writing ends with a
 * message and status 2. Either way nothing was written, but for what a failing output took of a whole answer.
 */
#include "rings.h"

#include <inttypes.h>
#include <stdio.h>
#include <stdlib.h>
#include <string.h>

enum { DONE = 0, REFUSED = 1, FAILED = 2 };

typedef uint64_t convert(const uint8_t *from_ptr, size_t from_len, uint8_t *to_ptr, size_t to_len, uint64_t *at);

struct input {
    uint8_t *bytes;
    size_t length;
};

static int failed(const char *what) {
    fprintf(stderr, "lines: ");
    perror(what);
    return FAILED;
}

/*
 * All of standard input, however long: a bad line is named wherever it stands. Gives 0 on an error.
 */
static int read_all(struct input *input) {
    *input = (struct input){NULL, 0};
    for (size_t room = 1 << 16;; room *= 2) {
        uint8_t *longer = realloc(input->bytes, room);
        if (longer == NULL) return 0;
        input->bytes = longer;
        input->length += fread(input->bytes + input->length, 1, room - input->length, stdin);
        if (input->length < room) return !ferror(stdin);
    }
}

static int run(convert *call) {
    static uint8_t output[RINGS_MAX_STRICT_LEN];
    _Static_assert(sizeof output >= RINGS_MAX_LEN, "room for the lines of any register, and for any register");
    struct input input;
    if (!read_all(&input)) return failed("standard input");

    uint64_t at;
    uint64_t refusal = call(input.bytes, input.length, output, sizeof output, &at);
    free(input.bytes);
    if (refusal != 0) {
        fprintf(stderr, "refused %" PRIu64 " at %" PRIu64 "\n", refusal, at);
        return REFUSED;
    }
    if (fwrite(output, 1, at, stdout) != at || fflush(stdout) != 0) return failed("standard output");
    return DONE;
}

int main(int argc, char **argv) {
    if (argc == 2 && strcmp(argv[1], "read") == 0) return run(rings_read_lines);
    if (argc == 2 && strcmp(argv[1], "write") == 0) return run(rings_write_lines);
    fprintf(stderr, "usage: lines read <TEXT >REGISTER, or lines write <REGISTER >TEXT\n");
    return FAILED;
}
