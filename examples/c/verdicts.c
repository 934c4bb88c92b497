/* Says of two series what the named functions of rr.h say, with the date of the first counterexample in words: verdicts LANGUAGE A LANGUAGE B.
 *
 * At the top of the repository: cc -Iinclude -o verdicts examples/c/verdicts.c release/librr-x86_64-linux.a
 */
#include <rr.h>
#include <stdio.h>
#include <stdlib.h>

#define MOST 1048577 /* one byte more than a text may have, so that a longer one is refused */

static struct rr_series read_series(const char *language, const char *name, char *bytes)
{
    struct rr_series series;
    FILE *file = fopen(name, "rb");
    if (!file) {
        perror(name);
        exit(4);
    }
    series.language = language;
    series.text = bytes;
    series.length = fread(bytes, 1, MOST, file);
    fclose(file);
    return series;
}

static void tell(const char *question, struct rr_verdict said)
{
    static const char *const months[] = { "January", "February", "March",     "April",   "May",      "June",
                                          "July",    "August",   "September", "October", "November", "December" };
    static const char *const sides[] = { "the first", "the second", "both" };
    if (said.status != RR_NO) {
        printf("%s: %s\n", question, said.status <= RR_REFUSED ? said.line : "no answer");
        return;
    }
    printf("%s: no, for %d %s %lld", question, said.moment.day, months[said.moment.month - 1], (long long)said.moment.year);
    if (!said.moment.is_date)
        printf(", %02d:%02d:%02d,", said.moment.hour, said.moment.minute, said.moment.second);
    printf(" is of %s\n", sides[said.side]);
}

int main(int count, char **words)
{
    static char a[MOST], b[MOST];
    if (count != 5) {
        fputs("usage: verdicts LANGUAGE A LANGUAGE B\n", stderr);
        return RR_USAGE;
    }
    struct rr_series first = read_series(words[1], words[2], a), second = read_series(words[3], words[4], b);
    struct rr_verdict equal = rr_equal(first, second);
    tell("equal", equal);
    tell("within", rr_within(first, second));
    tell("disjoint", rr_disjoint(first, second));
    return (int)equal.status;
}
