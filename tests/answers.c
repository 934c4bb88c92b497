/* Asks the library for another machine what tests/machine wants to know: from standard input it reads the words, the first and the second
 * operand, each as its length in eight bytes and then its bytes, and writes the status and the length of the answer in eight bytes each, and the
 * answer. It ends with the input. All numbers begin with their least byte.
 */
#include <rr.h>
#include <stdio.h>
#include <stdlib.h>
#ifdef _WIN32
#include <fcntl.h>
#include <io.h>
#endif

struct text {
    uint8_t *bytes;
    size_t length;
};

static void need(int is_so)
{
    if (!is_so)
        exit(9);
}

/* Whether there is a number to read. */
static int read_number(uint64_t *number)
{
    uint8_t bytes[8];
    if (fread(bytes, 1, 8, stdin) != 8)
        return 0;
    *number = 0;
    for (int i = 7; i >= 0; i--)
        *number = *number << 8 | bytes[i];
    return 1;
}

static void write_number(uint64_t number)
{
    for (int i = 0; i < 8; i++)
        putchar((int)(number >> (8 * i) & 255));
}

static int read_text(struct text *text)
{
    uint64_t length;
    if (!read_number(&length))
        return 0;
    text->length = (size_t)length;
    text->bytes = (uint8_t *)malloc(text->length + 1);
    need(text->bytes != NULL && fread(text->bytes, 1, text->length, stdin) == text->length);
    return 1;
}

int main(void)
{
    struct text words, a, b;
    size_t room = 1 << 16;
    uint8_t *out = (uint8_t *)malloc(room);
#ifdef _WIN32
    _setmode(0, _O_BINARY);
    _setmode(1, _O_BINARY);
#endif
    while (read_text(&words)) {
        uint64_t length = 0;
        uint32_t status;
        need(read_text(&a) && read_text(&b));
        while ((status = rr_answer(words.bytes, words.length, a.bytes, a.length, b.bytes, b.length, out, room, &length)) == RR_TOO_SMALL) {
            room = (size_t)length;
            out = (uint8_t *)realloc(out, room);
            need(out != NULL);
        }
        write_number(status);
        write_number(length);
        fwrite(out, 1, (size_t)length, stdout);
        fflush(stdout);
        free(words.bytes), free(a.bytes), free(b.bytes);
    }
    return 0;
}
