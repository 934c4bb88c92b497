/* What the kit's C helper does on x86_64 Linux, for the programs on another machine: the words of the command line, and errno. */
#include <errno.h>
#include <stdint.h>
#include <string.h>

static char **words;
static int count;

__attribute__((constructor)) static void keep(int argc, char **argv)
{
    count = argc;
    words = argv;
}

uintptr_t rattle_arg_count(void)
{
    return (uintptr_t)count;
}

/* The length of a word, whose bytes are then in `bytes`; -1 if there is none, -2 if it is longer than the room, which is then full. */
intptr_t rattle_arg(uintptr_t number, unsigned char *bytes, uintptr_t room)
{
    if (number >= (uintptr_t)count)
        return -1;
    size_t length = strlen(words[number]);
    memcpy(bytes, words[number], length > room ? room : length);
    return length > room ? -2 : (intptr_t)length;
}

int rattle_errno(void)
{
    return errno;
}

void rattle_set_errno(int number)
{
    errno = number;
}
