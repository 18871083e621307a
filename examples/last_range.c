/* last_range FILE: checks the sheet in a file by the library, and prints the range of its last step, or why it is refused.
 * The exit status is 0 if it passes, 1 if it is refused, 2 if the file can't be read. */
#include <inttypes.h>
#include <stdio.h>

#include "tunisaypa.h"

static void print_end(int64_t n) {
    if (n == INT64_MAX) {
        fputs("inf", stdout);
    } else if (n == INT64_MIN) {
        fputs("-inf", stdout);
    } else {
        printf("%" PRId64, n);
    }
}

/* One byte more than a sheet has tells that there are too many. */
static uint8_t bytes[TUNISAYPA_SHEET_BYTES + 1];
static int64_t room[TUNISAYPA_CHECK_ROOM];

int main(int argc, char **argv) {
    FILE *file = argc == 2 ? fopen(argv[1], "rb") : NULL;
    size_t count = file ? fread(bytes, 1, sizeof bytes, file) : 0;
    if (!file || ferror(file)) {
        fputs("last_range: one file that can be read, please\n", stderr);
        return 2;
    }
    fclose(file);

    size_t place = 0;
    uint8_t status = tunisaypa_check(bytes, count, room, TUNISAYPA_CHECK_ROOM, &place);
    if (status != TUNISAYPA_OK) {
        const char *what = status >= TUNISAYPA_DIVISOR_ZERO ? "step" : "byte";
        printf("refused at %s %zu by %d\n", what, place, status);
        return 1;
    }
    if (place == 0) {
        puts("no steps");
        return 0;
    }
    const int64_t *last = room + TUNISAYPA_SHOWN * (place - 1);
    putchar('[');
    print_end(last[TUNISAYPA_LOW]);
    fputs(", ", stdout);
    print_end(last[TUNISAYPA_HIGH]);
    puts("]");
    return 0;
}
