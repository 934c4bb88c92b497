/* Says of a room which of its bookings a candidate clashes with, and where each does first: booking SECONDS A.ics [SECONDS B.ics]...
 *
 * At the top of the repository: cc -Iinclude -o booking examples/c/booking.c release/librr-x86_64-linux.a
 */
#include <rr.h>
#include <stdio.h>
#include <stdlib.h>

#define MOST 1048577 /* one byte more than a text may have, so that a longer one is refused */

/* A text of the file, and how long each occurrence lasts. */
static struct rr_lasting read_lasting(const char *seconds, const char *name)
{
    struct rr_lasting it = { { "rrule", NULL, 0 }, (uint32_t)strtoul(seconds, NULL, 10) };
    FILE *file = fopen(name, "rb");
    char *bytes = (char *)malloc(MOST);
    if (!file || !bytes) {
        perror(name);
        exit(4);
    }
    it.series.length = fread(bytes, 1, MOST, file);
    it.series.text = bytes;
    fclose(file);
    return it;
}

static void tell(const char *name, const struct rr_clearance *said)
{
    const struct rr_moment *first = &said->moment;
    if (said->status == RR_YES)
        printf("%s: never at the same time\n", name);
    else if (said->status == RR_NO)
        printf("%s: first on %lld-%02d-%02d at %02d:%02d:%02d\n", name, (long long)first->year, first->month, first->day, first->hour, first->minute,
               first->second);
    else
        printf("%s: %s\n", name, said->line);
}

int main(int count, char **words)
{
    size_t many = count < 3 ? 0 : (size_t)(count - 3) / 2;
    struct rr_lasting candidate, *others = (struct rr_lasting *)malloc((many + 1) * sizeof *others);
    struct rr_clearance *said = (struct rr_clearance *)malloc((many + 1) * sizeof *said);
    uint32_t status;

    if (count < 3 || count % 2 == 0) {
        fputs("usage: booking SECONDS A.ics [SECONDS B.ics]...\n", stderr);
        return RR_USAGE;
    }
    if (!others || !said)
        return RR_NO_MEMORY;
    candidate = read_lasting(words[1], words[2]);
    for (size_t i = 0; i < many; i++)
        others[i] = read_lasting(words[2 * i + 3], words[2 * i + 4]);
    status = rr_clear(candidate, others, many, said);
    for (size_t i = 0; i < many && status <= RR_REFUSED; i++) {
        tell(words[2 * i + 4], &said[i]);
        free((void *)others[i].series.text);
    }
    free((void *)candidate.series.text);
    free(others);
    free(said);
    return (int)status;
}
