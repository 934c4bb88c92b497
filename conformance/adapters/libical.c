/* libical: icalrecur_iterator for each RRULE, with RDATE added and EXDATE taken out. */
#include <libical/ical.h>
#include <stdlib.h>
#include <string.h>
static struct icaltimetype found[4096];
static int earlier(const void *a, const void *b) { return icaltime_compare(*(struct icaltimetype *)a, *(struct icaltimetype *)b); }
static int is_excluded(icalcomponent *event, struct icaltimetype at) {
    icalproperty *it = icalcomponent_get_first_property(event, ICAL_EXDATE_PROPERTY);
    while (it && icaltime_compare(icalproperty_get_exdate(it), at)) it = icalcomponent_get_next_property(event, ICAL_EXDATE_PROPERTY);
    return it != NULL;
}
static void answer(const char *words, const char *text) {
    char after[32] = "";
    int wanted, count = 0;
    if (sscanf(words, "first %d", &wanted) != 1 && sscanf(words, "after %31s %d", after, &wanted) != 2) { puts("not asked"); return; }
    icalcomponent *event = icalcomponent_new_from_string(text);
    struct icaltimetype start = icalcomponent_get_dtstart(event), from = *after ? icaltime_from_string(after) : icaltime_null_time();
    icalproperty *it = icalcomponent_get_first_property(event, ICAL_RRULE_PROPERTY);
    if (icalcomponent_get_first_property(event, ICAL_XLICERROR_PROPERTY)) { puts("refused by the parser"); return; }
    for (found[count++] = start, count -= it != NULL; it; it = icalcomponent_get_next_property(event, ICAL_RRULE_PROPERTY)) {
        icalrecur_iterator *walk = icalrecur_iterator_new(icalproperty_get_rrule(it), start);
        if (!walk) { printf("refused %s\n", icalerror_strerror(icalerrno)); return; }
        if (*after && !icalproperty_get_rrule(it).count) icalrecur_iterator_set_start(walk, from);
        struct icaltimetype at = icalrecur_iterator_next(walk);
        for (int left = wanted + 50; !icaltime_is_null_time(at) && left > 0; at = icalrecur_iterator_next(walk))
            if (!*after || icaltime_compare(at, from) > 0) found[count++] = at, left--;
    }
    for (it = icalcomponent_get_first_property(event, ICAL_RDATE_PROPERTY); it; it = icalcomponent_get_next_property(event, ICAL_RDATE_PROPERTY))
        if (!*after || icaltime_compare(icalproperty_get_rdate(it).time, from) > 0) found[count++] = icalproperty_get_rdate(it).time;
    qsort(found, count, sizeof *found, earlier);
    for (int i = 0; i < count && wanted > 0; i++)
        if ((i == 0 || icaltime_compare(found[i - 1], found[i])) && !is_excluded(event, found[i])) puts(icaltime_as_ical_string(found[i])), wanted--;
}
int main(void) {
    static char line[8192], words[8192], text[65536];
    while (fgets(line, sizeof line, stdin))
        if (*line == '\n') { strcat(text, "END:VEVENT\n"); answer(words, text); puts(""); fflush(stdout); *words = 0; }
        else if (!*words) { strcpy(words, line); strcpy(text, "BEGIN:VEVENT\n"); }
        else strcat(text, line);
}
