/* Says of each event of two calendars that is not equal in both what differs, by its title and in words: calendars OLD.ics NEW.ics.
 *
 * At the top of the repository: cc -Iinclude -o calendars examples/c/calendars.c release/librr-x86_64-linux.a
 */
#include <rr.h>
#include <stdio.h>
#include <stdlib.h>

#define MOST 67108865 /* one byte more than a calendar may have, so that a longer one is refused */

static size_t read_file(const char *name, uint8_t *bytes)
{
    FILE *file = fopen(name, "rb");
    if (!file) {
        perror(name);
        exit(4);
    }
    size_t length = fread(bytes, 1, MOST, file);
    fclose(file);
    return length;
}

static void tell(const struct rr_report_line *line)
{
    static const char *const calendars[] = { "the old calendar", "the new calendar" };
    const struct rr_moment *first = &line->moment;

    if (line->title_length > 0)
        printf("%.*s, ", (int)line->title_length, line->title);
    printf("%.*s", (int)line->key_length, line->key);
    if (line->partner)
        printf(", in the new calendar %.*s%s", (int)line->partner_length, line->partner, line->has_other_title ? " under another title" : "");
    printf(": ");
    switch (line->said) {
    case RR_SAID_EQUAL:
        printf("the same local times in both, in zones of other names\n");
        break;
    case RR_SAID_DIFFERS:
        if (line->is_floating) {
            printf("%s has no zone for it, and the other one has\n", calendars[line->side]);
            break;
        }
        printf("only %s has %lld-%02d-%02d", calendars[line->side], (long long)first->year, first->month, first->day);
        if (!first->is_date)
            printf(" at %02d:%02d:%02d", first->hour, first->minute, first->second);
        if (line->has_offset)
            printf(", %d minutes ahead of UTC", line->offset / 60);
        if (line->has_other_zone)
            printf("; the zone alone is another one");
        printf("\n");
        break;
    case RR_SAID_ONLY:
        printf("only in %s\n", calendars[line->side]);
        break;
    case RR_SAID_REFUSED:
        printf("can't be read in %s, for %.*s\n", calendars[line->side], (int)line->refusal_length, line->refusal);
        break;
    case RR_SAID_LENGTH:
        printf("the same occurrences in both, of which one lasts %llu days and %llu seconds in %s, and %llu and %llu in %s\n",
               (unsigned long long)line->length_a.days, (unsigned long long)line->length_a.seconds, calendars[RR_A],
               (unsigned long long)line->length_b.days, (unsigned long long)line->length_b.seconds, calendars[RR_B]);
        break;
    case RR_SAID_ALIKE:
        printf("in the same words in both, which can't be read, for %.*s\n", (int)line->refusal_length, line->refusal);
        break;
    }
}

int main(int count, char **names)
{
    static const char words[] = "old\0new\0--differences\0--titles";
    static uint8_t old[MOST], new[MOST];
    uint64_t length = 4096;
    char *out = NULL;
    uint32_t status;

    if (count != 3) {
        fputs("usage: calendars OLD.ics NEW.ics\n", stderr);
        return RR_USAGE;
    }
    size_t old_length = read_file(names[1], old), new_length = read_file(names[2], new);
    do {
        size_t room = length;
        char *larger = realloc(out, room);
        if (!larger) {
            free(out);
            return RR_NO_MEMORY;
        }
        out = larger;
        status = rr_calendars_answer((const uint8_t *)words, sizeof words - 1, old, old_length, new, new_length, (uint8_t *)out, room, &length);
    } while (status == RR_TOO_SMALL);
    const char *text = out;
    size_t left = length;
    struct rr_report_line line;
    while (rr_read_report_line(&text, &left, &line))
        tell(&line);
    fwrite(text, 1, left, stdout); /* the line that counts, or the refusal of a calendar */
    free(out);
    return (int)status;
}
