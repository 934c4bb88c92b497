/* Prints the canonical text of a series of standard input, which may be long: canon LANGUAGE. It asks once with a small room, and again where
 * that was too small.
 *
 * At the top of the repository: cc -Iinclude -o canon examples/c/canon.c release/librr-x86_64-linux.a
 */
#include <rr.h>
#include <stdio.h>
#include <stdlib.h>

#define MOST 1048577 /* one byte more than a text may have, so that a longer one is refused */

int main(int count, char **arguments)
{
    static uint8_t text[MOST];
    char words[64];
    uint64_t length = 64;
    uint8_t *out = NULL;
    uint32_t status;

    int words_length = count == 2 ? snprintf(words, sizeof words, "canon%c%s:a", '\0', arguments[1]) : 0;
    if (words_length <= 0 || (size_t)words_length >= sizeof words) {
        fputs("usage: canon LANGUAGE\n", stderr);
        return RR_USAGE;
    }
    size_t text_length = fread(text, 1, MOST, stdin);
    do {
        size_t room = length;
        uint8_t *larger = realloc(out, room);
        if (!larger) {
            free(out);
            return RR_NO_MEMORY;
        }
        out = larger;
        status = rr_answer((const uint8_t *)words, (size_t)words_length, text, text_length, text, 0, out, room, &length);
    } while (status == RR_TOO_SMALL);
    fwrite(out, 1, length, stdout);
    free(out);
    return (int)status;
}
