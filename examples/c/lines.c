/* Tries what reads the line of a no and that of a clash in rr.h, and what reads a line of the report on two calendars, also of lines that are none. It prints each
 * that fails, and ends with their number. */
#include <rr.h>
#include <stdio.h>

struct row {
    const char *line;
    int is_no;
    struct rr_moment moment;
    enum rr_side side;
};

static const struct row rows[] = {
    { "no 2024-01-03 A\n", 1, { 2024, 1, 3, 1, 0, 0, 0 }, RR_A },
    { "no 2024-02-29 B", 1, { 2024, 2, 29, 1, 0, 0, 0 }, RR_B },
    { "no 10000-12-31T23:59:58 both\n", 1, { 10000, 12, 31, 0, 23, 59, 58 }, RR_BOTH },
    { "yes\n", 0, { 0, 0, 0, 0, 0, 0, 0 }, RR_A },
    { "", 0, { 0, 0, 0, 0, 0, 0, 0 }, RR_A },
    { "no ", 0, { 0, 0, 0, 0, 0, 0, 0 }, RR_A },
    { "no 2024-01-03", 0, { 0, 0, 0, 0, 0, 0, 0 }, RR_A },
    { "no 2024-01-03 C", 0, { 0, 0, 0, 0, 0, 0, 0 }, RR_A },
    { "no 2024-01-03 A A", 0, { 0, 0, 0, 0, 0, 0, 0 }, RR_A },
    { "no 2024-01-03T09 A", 0, { 0, 0, 0, 0, 0, 0, 0 }, RR_A },
    { "no 2024-1-03 A", 0, { 0, 0, 0, 0, 0, 0, 0 }, RR_A },
    { "no 224-01-03 A", 0, { 0, 0, 0, 0, 0, 0, 0 }, RR_A },
    { "no 99999999999999999999-01-03 A", 0, { 0, 0, 0, 0, 0, 0, 0 }, RR_A },
    { "refused A NoStart\n", 0, { 0, 0, 0, 0, 0, 0, 0 }, RR_A },
};

struct clash_row {
    const char *line;
    int is_clash;
    struct rr_moment moment, a, b;
};

static const struct clash_row clash_rows[] = {
    { "no 2024-02-05T10:00:00 2024-02-05T09:00:00 2024-02-05\n", 1, { 2024, 2, 5, 0, 10, 0, 0 }, { 2024, 2, 5, 0, 9, 0, 0 }, { 2024, 2, 5, 1, 0, 0, 0 } },
    { "no 10000-02-05T00:00:01 10000-02-05 10000-02-05T00:00:01", 1, { 10000, 2, 5, 0, 0, 0, 1 }, { 10000, 2, 5, 1, 0, 0, 0 }, { 10000, 2, 5, 0, 0, 0, 1 } },
    { "yes\n", 0, { 0, 0, 0, 0, 0, 0, 0 }, { 0, 0, 0, 0, 0, 0, 0 }, { 0, 0, 0, 0, 0, 0, 0 } },
    { "no 2024-02-05 A", 0, { 0, 0, 0, 0, 0, 0, 0 }, { 0, 0, 0, 0, 0, 0, 0 }, { 0, 0, 0, 0, 0, 0, 0 } },
    { "no 2024-02-05 2024-02-05", 0, { 0, 0, 0, 0, 0, 0, 0 }, { 0, 0, 0, 0, 0, 0, 0 }, { 0, 0, 0, 0, 0, 0, 0 } },
    { "no 2024-02-05 2024-02-05 2024-02-05 ", 0, { 0, 0, 0, 0, 0, 0, 0 }, { 0, 0, 0, 0, 0, 0, 0 }, { 0, 0, 0, 0, 0, 0, 0 } },
    { "", 0, { 0, 0, 0, 0, 0, 0, 0 }, { 0, 0, 0, 0, 0, 0, 0 }, { 0, 0, 0, 0, 0, 0, 0 } },
};

struct mark_row {
    const char *text;
    int is_line;
    enum rr_said said;
    struct rr_length a, b;
    int reads_until, reads_start, reads_day;
};

/* Lengths, and the words that say how events were read. */
static const struct mark_row mark_rows[] = {
    { "length u 3600 900\n", 1, RR_SAID_LENGTH, { 0, 3600 }, { 0, 900 }, 0, 0, 0 },
    { "length line 12 1d 86400 \"x\"", 1, RR_SAID_LENGTH, { 1, 0 }, { 0, 86400 }, 0, 0, 0 },
    { "length u 1d3600 0 until start day\n", 1, RR_SAID_LENGTH, { 1, 3600 }, { 0, 0 }, 1, 1, 1 },
    { "equal u zone start\n", 1, RR_SAID_EQUAL, { 0, 0 }, { 0, 0 }, 0, 1, 0 },
    { "equal u day \"a day\"\n", 1, RR_SAID_EQUAL, { 0, 0 }, { 0, 0 }, 0, 0, 1 },
    { "differs u no 2024-04-01 A until\n", 1, RR_SAID_DIFFERS, { 0, 0 }, { 0, 0 }, 1, 0, 0 },
    { "equal until\n", 1, RR_SAID_EQUAL, { 0, 0 }, { 0, 0 }, 0, 0, 0 },
    { "length u 3600\n", 0, RR_SAID_EQUAL, { 0, 0 }, { 0, 0 }, 0, 0, 0 },
    { "length u 3600 d\n", 0, RR_SAID_EQUAL, { 0, 0 }, { 0, 0 }, 0, 0, 0 },
    { "equal u start until\n", 0, RR_SAID_EQUAL, { 0, 0 }, { 0, 0 }, 0, 0, 0 },
    { "only A u until\n", 0, RR_SAID_EQUAL, { 0, 0 }, { 0, 0 }, 0, 0, 0 },
};

struct pair_row {
    const char *text;
    int is_line;
    enum rr_said said;
    const char *key, *partner;
    int has_other_title;
    const char *refusal, *title;
};

/* Events that were found again without their UID, and lines that look like theirs. */
static const struct pair_row pair_rows[] = {
    { "equal a@x = b@y\n", 1, RR_SAID_EQUAL, "a@x", "b@y", 0, "", NULL },
    { "equal a@x = b@y zone start title \"A b\"\n", 1, RR_SAID_EQUAL, "a@x", "b@y", 1, "", "A b" },
    { "equal line 12 = event 8 title\n", 1, RR_SAID_EQUAL, "line 12", "event 8", 1, "", NULL },
    { "equal = = =\n", 1, RR_SAID_EQUAL, "=", "=", 0, "", NULL },
    { "equal line = line", 1, RR_SAID_EQUAL, "line", "line", 0, "", NULL },
    { "equal title = title title", 1, RR_SAID_EQUAL, "title", "title", 1, "", NULL },
    { "differs a@x = b@y no 2024-04-01T09:00:00+02:00 A title\n", 1, RR_SAID_DIFFERS, "a@x", "b@y", 1, "", NULL },
    { "differs a = b floating B \"\"", 1, RR_SAID_DIFFERS, "a", "b", 0, "", "" },
    { "length a@x = b@y 3600 900 until\n", 1, RR_SAID_LENGTH, "a@x", "b@y", 0, "", NULL },
    { "refused a = b A BadMember recurrence 3\n", 1, RR_SAID_REFUSED, "a", "b", 0, "BadMember recurrence 3", NULL },
    { "refused a = b B CycleTooLong 3 title \"x title\"\n", 1, RR_SAID_REFUSED, "a", "b", 1, "CycleTooLong 3", "x title" },
    { "alike a = b A PeriodValue 132 \" title\"", 1, RR_SAID_ALIKE, "a", "b", 0, "PeriodValue 132", " title" },
    { "equal title\n", 1, RR_SAID_EQUAL, "title", NULL, 0, "", NULL },
    { "only A =\n", 1, RR_SAID_ONLY, "=", NULL, 0, "", NULL },
    { "equal a title\n", 0, RR_SAID_EQUAL, "", NULL, 0, "", NULL },
    { "equal a = \n", 0, RR_SAID_EQUAL, "", NULL, 0, "", NULL },
    { "equal a =\n", 0, RR_SAID_EQUAL, "", NULL, 0, "", NULL },
    { "equal a = b = c\n", 0, RR_SAID_EQUAL, "", NULL, 0, "", NULL },
    { "equal a = b title start\n", 0, RR_SAID_EQUAL, "", NULL, 0, "", NULL },
    { "only A a = b\n", 0, RR_SAID_EQUAL, "", NULL, 0, "", NULL },
};

struct report_row {
    const char *text;
    int is_line;
    enum rr_said said;
    const char *key;
    enum rr_side side;
    struct rr_moment moment;
    const char *refusal;
    int has_other_zone;
    int has_offset;
    int offset;
    int is_floating;
    const char *title;
};

static const struct report_row report_rows[] = {
    { "equal a@b\n", 1, RR_SAID_EQUAL, "a@b", RR_A, { 0, 0, 0, 0, 0, 0, 0 }, "", 0, 0, 0, 0, NULL },
    { "equal zone zone\n", 1, RR_SAID_EQUAL, "zone", RR_A, { 0, 0, 0, 0, 0, 0, 0 }, "", 1, 0, 0, 0, NULL },
    { "equal line 12 zone", 1, RR_SAID_EQUAL, "line 12", RR_A, { 0, 0, 0, 0, 0, 0, 0 }, "", 1, 0, 0, 0, NULL },
    { "equal line zone\n", 1, RR_SAID_EQUAL, "line", RR_A, { 0, 0, 0, 0, 0, 0, 0 }, "", 1, 0, 0, 0, NULL },
    { "differs u no 2024-06-28 A\nequal v\n", 1, RR_SAID_DIFFERS, "u", RR_A, { 2024, 6, 28, 1, 0, 0, 0 }, "", 0, 0, 0, 0, NULL },
    { "differs no no 2024-06-28T09:30:00 B zone\n", 1, RR_SAID_DIFFERS, "no", RR_B, { 2024, 6, 28, 0, 9, 30, 0 }, "", 1, 0, 0, 0, NULL },
    { "differs u no 2024-04-01T09:00:00+02:00 A\n", 1, RR_SAID_DIFFERS, "u", RR_A, { 2024, 4, 1, 0, 9, 0, 0 }, "", 0, 1, 7200, 0, NULL },
    { "differs u no 2024-04-01T09:00:00-03:30 B zone\n", 1, RR_SAID_DIFFERS, "u", RR_B, { 2024, 4, 1, 0, 9, 0, 0 }, "", 1, 1, -12600, 0, NULL },
    { "differs u no 2024-04-01T09:00:00Z A\n", 1, RR_SAID_DIFFERS, "u", RR_A, { 2024, 4, 1, 0, 9, 0, 0 }, "", 0, 1, 0, 0, NULL },
    { "differs u no 2024-04-01T09:00:00+00:53:28 A\n", 1, RR_SAID_DIFFERS, "u", RR_A, { 2024, 4, 1, 0, 9, 0, 0 }, "", 0, 1, 3208, 0, NULL },
    { "differs u floating B\n", 1, RR_SAID_DIFFERS, "u", RR_B, { 0, 0, 0, 0, 0, 0, 0 }, "", 0, 0, 0, 1, NULL },
    { "differs floating floating A\n", 1, RR_SAID_DIFFERS, "floating", RR_A, { 0, 0, 0, 0, 0, 0, 0 }, "", 0, 0, 0, 1, NULL },
    { "differs u no 2024-04-01T09:00:00+2 A\n", 0, RR_SAID_EQUAL, "", RR_A, { 0, 0, 0, 0, 0, 0, 0 }, "", 0, 0, 0, 0, NULL },
    { "differs u floating\n", 0, RR_SAID_EQUAL, "", RR_A, { 0, 0, 0, 0, 0, 0, 0 }, "", 0, 0, 0, 0, NULL },
    { "only A line 3\n", 1, RR_SAID_ONLY, "line 3", RR_A, { 0, 0, 0, 0, 0, 0, 0 }, "", 0, 0, 0, 0, NULL },
    { "only B event 8\n", 1, RR_SAID_ONLY, "event 8", RR_B, { 0, 0, 0, 0, 0, 0, 0 }, "", 0, 0, 0, 0, NULL },
    { "equal event zone\n", 1, RR_SAID_EQUAL, "event", RR_A, { 0, 0, 0, 0, 0, 0, 0 }, "", 1, 0, 0, 0, NULL },
    { "refused event 7 B NoMaster 7\n", 1, RR_SAID_REFUSED, "event 7", RR_B, { 0, 0, 0, 0, 0, 0, 0 }, "NoMaster 7", 0, 0, 0, 0, NULL },
    { "only B B\n", 1, RR_SAID_ONLY, "B", RR_B, { 0, 0, 0, 0, 0, 0, 0 }, "", 0, 0, 0, 0, NULL },
    { "refused A B UtcMoment 124\n", 1, RR_SAID_REFUSED, "A", RR_B, { 0, 0, 0, 0, 0, 0, 0 }, "UtcMoment 124", 0, 0, 0, 0, NULL },
    { "refused line 7 A NoStart 7\n", 1, RR_SAID_REFUSED, "line 7", RR_A, { 0, 0, 0, 0, 0, 0, 0 }, "NoStart 7", 0, 0, 0, 0, NULL },
    { "refused B BadLine 3\n", 0, RR_SAID_EQUAL, "", RR_A, { 0, 0, 0, 0, 0, 0, 0 }, "", 0, 0, 0, 0, NULL },
    { "refused A NoEvents\n", 0, RR_SAID_EQUAL, "", RR_A, { 0, 0, 0, 0, 0, 0, 0 }, "", 0, 0, 0, 0, NULL },
    { "events 0 equal 0 differs 0 only-A 0 only-B 0 refused 0\n", 0, RR_SAID_EQUAL, "", RR_A, { 0, 0, 0, 0, 0, 0, 0 }, "", 0, 0, 0, 0, NULL },
    { "equal \n", 0, RR_SAID_EQUAL, "", RR_A, { 0, 0, 0, 0, 0, 0, 0 }, "", 0, 0, 0, 0, NULL },
    { "equal a b\n", 0, RR_SAID_EQUAL, "", RR_A, { 0, 0, 0, 0, 0, 0, 0 }, "", 0, 0, 0, 0, NULL },
    { "only C a\n", 0, RR_SAID_EQUAL, "", RR_A, { 0, 0, 0, 0, 0, 0, 0 }, "", 0, 0, 0, 0, NULL },
    { "differs u no 2024-06-28 both\n", 0, RR_SAID_EQUAL, "", RR_A, { 0, 0, 0, 0, 0, 0, 0 }, "", 0, 0, 0, 0, NULL },
    { "alike u A NotSynchronised 1\n", 1, RR_SAID_ALIKE, "u", RR_A, { 0, 0, 0, 0, 0, 0, 0 }, "NotSynchronised 1", 0, 0, 0, 0, NULL },
    { "alike event 7 A BadMember recurrence 7 \"\"", 1, RR_SAID_ALIKE, "event 7", RR_A, { 0, 0, 0, 0, 0, 0, 0 }, "BadMember recurrence 7", 0, 0, 0, 0, "" },
    { "alike A A PeriodValue 132 \"A 'b' \\x22\"\nequal v\n", 1, RR_SAID_ALIKE, "A", RR_A, { 0, 0, 0, 0, 0, 0, 0 }, "PeriodValue 132", 0, 0, 0, 0, "A 'b' \\x22" },
    { "equal u \"Stand-up\"\n", 1, RR_SAID_EQUAL, "u", RR_A, { 0, 0, 0, 0, 0, 0, 0 }, "", 0, 0, 0, 0, "Stand-up" },
    { "equal u zone \"zone\"\n", 1, RR_SAID_EQUAL, "u", RR_A, { 0, 0, 0, 0, 0, 0, 0 }, "", 1, 0, 0, 0, "zone" },
    { "equal u \"a zone\"\n", 1, RR_SAID_EQUAL, "u", RR_A, { 0, 0, 0, 0, 0, 0, 0 }, "", 0, 0, 0, 0, "a zone" },
    { "equal \"u\"\n", 1, RR_SAID_EQUAL, "\"u\"", RR_A, { 0, 0, 0, 0, 0, 0, 0 }, "", 0, 0, 0, 0, NULL },
    { "equal \"u\" \"\"", 1, RR_SAID_EQUAL, "\"u\"", RR_A, { 0, 0, 0, 0, 0, 0, 0 }, "", 0, 0, 0, 0, "" },
    { "equal line 12 \"12\"\n", 1, RR_SAID_EQUAL, "line 12", RR_A, { 0, 0, 0, 0, 0, 0, 0 }, "", 0, 0, 0, 0, "12" },
    { "equal line \"12\"\n", 1, RR_SAID_EQUAL, "line", RR_A, { 0, 0, 0, 0, 0, 0, 0 }, "", 0, 0, 0, 0, "12" },
    { "differs u no 2026-03-04T14:00:00 A \"Stand-up\"\n", 1, RR_SAID_DIFFERS, "u", RR_A, { 2026, 3, 4, 0, 14, 0, 0 }, "", 0, 0, 0, 0, "Stand-up" },
    { "differs u no 2024-04-01T09:00:00-03:30 B zone \"Caf\303\251\"", 1, RR_SAID_DIFFERS, "u", RR_B, { 2024, 4, 1, 0, 9, 0, 0 }, "", 1, 1, -12600, 0, "Caf\303\251" },
    { "differs u floating B \"x\"\n", 1, RR_SAID_DIFFERS, "u", RR_B, { 0, 0, 0, 0, 0, 0, 0 }, "", 0, 0, 0, 1, "x" },
    { "only A line 3 \"A line 3\"\n", 1, RR_SAID_ONLY, "line 3", RR_A, { 0, 0, 0, 0, 0, 0, 0 }, "", 0, 0, 0, 0, "A line 3" },
    { "refused u B UtcMoment 124 \"refused u B UtcMoment 124\"\n", 1, RR_SAID_REFUSED, "u", RR_B, { 0, 0, 0, 0, 0, 0, 0 }, "UtcMoment 124", 0, 0, 0, 0, "refused u B UtcMoment 124" },
    { "alike u\n", 0, RR_SAID_EQUAL, "", RR_A, { 0, 0, 0, 0, 0, 0, 0 }, "", 0, 0, 0, 0, NULL },
    { "equal u \"x\n", 0, RR_SAID_EQUAL, "", RR_A, { 0, 0, 0, 0, 0, 0, 0 }, "", 0, 0, 0, 0, NULL },
    { "equal u \"\n", 0, RR_SAID_EQUAL, "", RR_A, { 0, 0, 0, 0, 0, 0, 0 }, "", 0, 0, 0, 0, NULL },
    { "equal u \"x\" zone\n", 0, RR_SAID_EQUAL, "", RR_A, { 0, 0, 0, 0, 0, 0, 0 }, "", 0, 0, 0, 0, NULL },
    { "refused u A NoStart 7 \"x\n", 0, RR_SAID_EQUAL, "", RR_A, { 0, 0, 0, 0, 0, 0, 0 }, "", 0, 0, 0, 0, NULL },
    { "events 12 equal 7 differs 2 only-A 1 only-B 1 refused 0 zone 0 alike 1 matched 0\n", 0, RR_SAID_EQUAL, "", RR_A, { 0, 0, 0, 0, 0, 0, 0 }, "", 0, 0, 0, 0, NULL },
    { "", 0, RR_SAID_EQUAL, "", RR_A, { 0, 0, 0, 0, 0, 0, 0 }, "", 0, 0, 0, 0, NULL },
};

static int is_same(const struct rr_moment *a, const struct rr_moment *b)
{
    return a->year == b->year && a->month == b->month && a->day == b->day && a->is_date == b->is_date && a->hour == b->hour &&
           a->minute == b->minute && a->second == b->second;
}

static int is_length(const struct rr_length *a, const struct rr_length *b)
{
    return a->days == b->days && a->seconds == b->seconds;
}

/* Whether the lengths and the last words of a line are read as its row says. */
static int is_marked(const struct mark_row *row)
{
    const char *text = row->text;
    size_t left = strlen(text);
    struct rr_report_line line;
    if (rr_read_report_line(&text, &left, &line) != row->is_line)
        return 0;
    return !row->is_line || (line.said == row->said && is_length(&line.length_a, &row->a) && is_length(&line.length_b, &row->b) &&
                             line.reads_until == row->reads_until && line.reads_start == row->reads_start && line.reads_day == row->reads_day);
}

static int is_text(const char *bytes, size_t length, const char *text)
{
    return length == strlen(text) && (length == 0 || memcmp(bytes, text, length) == 0);
}

/* Whether a line has this title, or none if there is none. */
static int is_title(const struct rr_report_line *line, const char *title)
{
    return title ? line->title && is_text(line->title, line->title_length, title) : !line->title && line->title_length == 0;
}

/* Whether a line that may be of a pair is read as its row says. */
static int is_pair(const struct pair_row *row)
{
    const char *text = row->text;
    size_t left = strlen(text);
    struct rr_report_line line;
    if (rr_read_report_line(&text, &left, &line) != row->is_line)
        return 0;
    if (!row->is_line)
        return 1;
    if (row->partner ? !line.partner || !is_text(line.partner, line.partner_length, row->partner) : line.partner || line.partner_length > 0)
        return 0;
    return line.said == row->said && is_text(line.key, line.key_length, row->key) && line.has_other_title == row->has_other_title &&
           is_text(line.refusal, line.refusal_length, row->refusal) && is_title(&line, row->title);
}

/* Whether a line is read as its row says, and what follows it is left. */
static int is_read(const struct report_row *row)
{
    const char *text = row->text, *next = strchr(row->text, '\n');
    size_t left = strlen(text), length = next ? (size_t)(next + 1 - text) : left;
    struct rr_report_line line;
    if (rr_read_report_line(&text, &left, &line) != row->is_line || text != row->text + (row->is_line ? length : 0) || left != strlen(text))
        return 0;
    return !row->is_line || (line.said == row->said && is_text(line.key, line.key_length, row->key) && line.side == row->side &&
                             is_same(&line.moment, &row->moment) && is_text(line.refusal, line.refusal_length, row->refusal) &&
                             line.has_other_zone == row->has_other_zone && line.has_offset == row->has_offset &&
                             line.offset == row->offset && line.is_floating == row->is_floating && is_title(&line, row->title));
}

int main(void)
{
    int failed = 0;
    for (size_t i = 0; i < sizeof report_rows / sizeof *report_rows; i++)
        if (!is_read(&report_rows[i])) {
            printf("report line %d: %s\n", (int)i, report_rows[i].text);
            failed++;
        }
    for (size_t i = 0; i < sizeof pair_rows / sizeof *pair_rows; i++)
        if (!is_pair(&pair_rows[i])) {
            printf("line of a pair %d: %s\n", (int)i, pair_rows[i].text);
            failed++;
        }
    for (size_t i = 0; i < sizeof mark_rows / sizeof *mark_rows; i++)
        if (!is_marked(&mark_rows[i])) {
            printf("marked line %d: %s\n", (int)i, mark_rows[i].text);
            failed++;
        }
    for (size_t i = 0; i < sizeof clash_rows / sizeof *clash_rows; i++) {
        const struct clash_row *row = &clash_rows[i];
        struct rr_moment moment, a, b;
        int is_clash = rr_read_clash(row->line, strlen(row->line), &moment, &a, &b);
        if (is_clash != row->is_clash || (is_clash && !(is_same(&moment, &row->moment) && is_same(&a, &row->a) && is_same(&b, &row->b)))) {
            printf("clash %d: %s\n", (int)i, row->line);
            failed++;
        }
    }
    for (size_t i = 0; i < sizeof rows / sizeof *rows; i++) {
        const struct row *row = &rows[i];
        struct rr_moment moment;
        enum rr_side side = RR_A;
        int is_no = rr_read_no(row->line, strlen(row->line), &moment, &side);
        if (is_no != row->is_no || (is_no && (!is_same(&moment, &row->moment) || side != row->side))) {
            printf("line %d: %s\n", (int)i, row->line);
            failed++;
        }
    }
    return failed;
}
