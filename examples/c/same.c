/* Says whether two calendar texts have the same occurrences for all years, and which is the first that differs: same A.ics B.ics.
 *
 * At the top of the repository: cc -Iinclude -o same examples/c/same.c release/librr-x86_64-linux.a
 */
#include <rr.h>
#include <stdio.h>
#include <stdlib.h>

#define MOST 1048577 /* one byte more than a text may have, so that a longer one is refused */

static size_t read_file(const char *name, uint8_t *bytes)
{
    FILE *file = fopen(name, "rb");
    if (!file) {
        perror(name);
        exit(4);
    }
    size_t length = fread(bytes, 1, MOST, file);
    if (ferror(file)) {
        perror(name);
        exit(4);
    }
    fclose(file);
    return length;
}

int main(int count, char **names)
{
    static const char words[] = "equal\0rrule:a\0rrule:b";
    static uint8_t a[MOST], b[MOST];
    uint8_t out[256]; /* an answer of equal is one short line */
    uint64_t length;

    if (count != 3) {
        fputs("usage: same A.ics B.ics\n", stderr);
        return RR_USAGE;
    }
    size_t a_length = read_file(names[1], a), b_length = read_file(names[2], b);
    uint32_t status = rr_answer((const uint8_t *)words, sizeof words - 1, a, a_length, b, b_length, out, sizeof out, &length);
    if (status <= RR_REFUSED)
        fwrite(out, 1, length, stdout);
    else
        fprintf(stderr, "same: status %u\n", (unsigned)status);
    return (int)status;
}
