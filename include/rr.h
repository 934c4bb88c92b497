/* rr: whether a repeating series, or a whole calendar, survived a trip between calendars, for all years to come.
 *
 * The library has three functions, rr_answer, rr_calendars_answer and rr_clear_answer. They read no file, and write nothing but what `out` and
 * `length` point to. They keep nothing between calls, so several threads may call them at once. They take memory by malloc and realloc, and
 * have given all of it back when they return. Below them stand functions with names, rr_equal, rr_within, rr_disjoint and rr_clear, and readers
 * of what the three answer, rr_read_no, rr_read_moment, rr_read_clash and rr_read_report_line, which are compiled into the caller.
 *
 * Copyright the rr authors. SPDX-License-Identifier: MIT OR Apache-2.0
 */
#ifndef RR_H
#define RR_H

#include <stddef.h>
#include <stdint.h>
#include <stdlib.h>
#include <string.h>

#ifdef __cplusplus
extern "C" {
#endif

/* What all three return: the exit statuses of the programs rr and rr-calendars, and RR_TOO_SMALL. They return no other number; the programs'
 * statuses 4 and 5 are those of files. */
enum rr_status {
    RR_YES = 0,       /* the verdict is yes, or a command without a verdict is done; all events of two calendars are equal or alike; a
                       * candidate is clear of all others */
    RR_NO = 1,        /* the verdict is no, and `out` names the first counterexample; nth finds fewer occurrences, differences some, and
                       * between more than it prints; an event differs, in length too, or stands in one calendar alone; a candidate clashes with one of the
                       * others */
    RR_REFUSED = 2,   /* an operand is refused: `out` says which one and why; an event, a calendar or one of the others is, and nothing else is
                       * wrong */
    RR_USAGE = 3,     /* the words are no command: `out` has the usage line */
    RR_NO_MEMORY = 6, /* out of memory */
    RR_NO_TEXT = 7,   /* the words are no text in UTF-8 */
    RR_TOO_SMALL = 8  /* the answer has more bytes than `out`: `length` says how many */
};

/* Answers the words of a command over the bytes of its operands.
 *
 * words, words_length   the words of the program's command line, in UTF-8, with a zero byte between each two and none at the end:
 *                       "equal\0rrule:a\0rrule:b" has length 21. In an operand the name after the colon stands for no file; it
 *                       is not empty, and the two are not both "-". No words at all (length 0) are no command.
 * a, a_length           the bytes of the first operand; a series has at most 1,048,576, and more are refused as TooLong
 * b, b_length           the bytes of the second operand; not used by a command on one, and drill uses neither
 * out, out_length       where the answer goes: the bytes that the program prints, with no zero byte after them
 * length                how many bytes the answer has; 0 after RR_NO_MEMORY and RR_NO_TEXT
 *
 * No pointer is null, also where its length is 0, and each points to as many bytes as its length says. `out` and `length` overlap neither
 * each other nor the rest. Words, a and b may overlap. After RR_NO_MEMORY, RR_NO_TEXT and RR_TOO_SMALL `out` is as it was;
 * otherwise the bytes of `out` after the answer are as they were. An answer is computed anew in each call, so a caller that
 * expects a long one offers enough at once.
 */
uint32_t rr_answer(const uint8_t *words, size_t words_length, const uint8_t *a, size_t a_length, const uint8_t *b, size_t b_length,
                   uint8_t *out, size_t out_length, uint64_t *length);

/* Compares two whole calendars, as the program rr-calendars does: each event is found again by its UID, and one whose UID the other calendar lacks by
 * its title and its occurrences, unless the word --by-uid stands there. A calendar is iCalendar (RFC 5545), a list of events of Microsoft Graph or
 * vCalendar 1.0, as the word for its file states, "graph:a", or otherwise its content tells.
 *
 * words, words_length   the words of that program's command line, in the same form: "a\0b\0--differences" has length 17. The first two are for the
 *                       names of files, and stand for none: they are not empty, do not begin with "--", and are not both "-".
 *                       Words with --zones are other words, with RR_USAGE: zones are defined by the two texts alone
 * old_text, old_length  the bytes of the first calendar, A; one has at most 67,108,864, and more are refused as TooLong
 * new_text, new_length  the bytes of the second one, B
 *
 * The rest is as of rr_answer. The report has a line for each UID, so it may be long; rr_read_report_line reads one line of it. With the word --json
 * it is one JSON object instead, with --html a page; there the names of files are told as the words have them.
 */
uint32_t rr_calendars_answer(const uint8_t *words, size_t words_length, const uint8_t *old_text, size_t old_length, const uint8_t *new_text,
                             size_t new_length, uint8_t *out, size_t out_length, uint64_t *length);

/* Says whether one series, the candidate, ever runs at the same time as each of many others, as the command `clear` says it of two: a line for
 * each of the others, in their order, "yes", "no MOMENT A B" with the first second that is shared and the occurrences of the candidate and of the
 * other that run then, or why it is refused, as "refused B BadRule 2". If the candidate is refused, that is the one line: "refused A NoStart". The
 * candidate is read, checked and made ready once, and not for each of the others.
 *
 * words, words_length  words with a zero byte between each two: how many seconds each occurrence of the candidate lasts, and its operand; then of
 *                      each of the others its seconds, its operand, and how many bytes its text has. With one other
 *                      "5400\0rrule:a\0003600\0rrule:b\00043" has length 28. Seconds are 1 to 31,622,400, which are 366 days. There may be no others
 * candidate, candidate_length  the bytes of the candidate
 * others, others_length        the bytes of the others one behind the other, and nothing between them; the lengths in the words add up to theirs, or
 *                              the answer is the usage line, with RR_USAGE
 *
 * The rest is as of rr_answer. rr_clear, below, makes the words and reads the lines.
 */
uint32_t rr_clear_answer(const uint8_t *words, size_t words_length, const uint8_t *candidate, size_t candidate_length, const uint8_t *others,
                         size_t others_length, uint8_t *out, size_t out_length, uint64_t *length);

/* A text and its language: "rrule", "vcal", "graph", "list", "canon" or "rscale", with an offset behind it if it has moments in UTC
 * beside local time, as "rrule@+01:00", or of rrule and rscale with the word zone, as "rrule@zone". */
struct rr_series {
    const char *language;
    const void *text;
    size_t length;
};

/* A date, or a moment of the local clock. The year may be past 9999. */
struct rr_moment {
    int64_t year;
    int month, day;
    int is_date;              /* 1 for a date; then the hour, the minute and the second are 0 */
    int hour, minute, second;
};

/* Whose occurrence shows a no. */
enum rr_side { RR_A, RR_B, RR_BOTH };

/* What is said of two series. */
struct rr_verdict {
    uint32_t status;         /* of enum rr_status, but RR_TOO_SMALL; RR_USAGE if a language is none */
    struct rr_moment moment; /* after RR_NO: the first counterexample */
    enum rr_side side;       /* after RR_NO: whose occurrence it is */
    char line[112];          /* after RR_YES, RR_NO and RR_REFUSED: what the program prints, as "refused A BadRule 2", without its
                              * line end and with a zero byte behind it; otherwise it is empty */
};

/* Reads count digits at the front of *text, of which *left remain, and says whether they are there. */
static inline int rr_read_digits(const char **text, size_t *left, size_t count, int *number)
{
    *number = 0;
    for (size_t i = 0; i < count; i++) {
        if (i >= *left || (*text)[i] < '0' || (*text)[i] > '9')
            return 0;
        *number = *number * 10 + ((*text)[i] - '0');
    }
    *text += count;
    *left -= count;
    return 1;
}

/* Reads one byte, and says whether it is there. */
static inline int rr_read_byte(const char **text, size_t *left, char wanted)
{
    if (*left == 0 || **text != wanted)
        return 0;
    ++*text;
    --*left;
    return 1;
}

/* Reads a date or a moment as the program prints it, "2024-02-29" or "2024-02-29T09:30:00", at the front of *text. It returns whether one is
 * there, and leaves in *text and *left what follows it. It reads digits and does not ask a calendar. */
static inline int rr_read_moment(const char **text, size_t *left, struct rr_moment *moment)
{
    int digits = 0;
    memset(moment, 0, sizeof *moment);
    while (*left > 0 && **text >= '0' && **text <= '9' && digits < 18) {
        moment->year = moment->year * 10 + (**text - '0');
        ++*text, --*left, ++digits;
    }
    if (digits < 4 || !rr_read_byte(text, left, '-') || !rr_read_digits(text, left, 2, &moment->month) ||
        !rr_read_byte(text, left, '-') || !rr_read_digits(text, left, 2, &moment->day))
        return 0;
    moment->is_date = !rr_read_byte(text, left, 'T');
    return moment->is_date || (rr_read_digits(text, left, 2, &moment->hour) && rr_read_byte(text, left, ':') &&
                               rr_read_digits(text, left, 2, &moment->minute) && rr_read_byte(text, left, ':') &&
                               rr_read_digits(text, left, 2, &moment->second));
}

/* Reads the line of a no, as "no 2024-01-03 A", with or without its line end. It returns whether it is one. */
static inline int rr_read_no(const char *line, size_t length, struct rr_moment *moment, enum rr_side *side)
{
    if (length > 0 && line[length - 1] == '\n')
        length--;
    if (length < 3 || memcmp(line, "no ", 3) != 0)
        return 0;
    line += 3, length -= 3;
    if (!rr_read_moment(&line, &length, moment) || !rr_read_byte(&line, &length, ' '))
        return 0;
    *side = length == 4 ? RR_BOTH : length == 1 && *line == 'B' ? RR_B : RR_A;
    return length == 4 ? memcmp(line, "both", 4) == 0 : length == 1 && (*line == 'A' || *line == 'B');
}

/* Reads the line of a no of `clear`, as "no 2024-02-05T10:00:00 2024-02-05T09:00:00 2024-02-05T10:00:00", with or without its line end: the first
 * second that is shared, and the occurrences of the first and of the second series that run then. It returns whether it is one. */
static inline int rr_read_clash(const char *line, size_t length, struct rr_moment *moment, struct rr_moment *a, struct rr_moment *b)
{
    if (length > 0 && line[length - 1] == '\n')
        length--;
    if (length < 3 || memcmp(line, "no ", 3) != 0)
        return 0;
    line += 3, length -= 3;
    return rr_read_moment(&line, &length, moment) && rr_read_byte(&line, &length, ' ') && rr_read_moment(&line, &length, a) &&
           rr_read_byte(&line, &length, ' ') && rr_read_moment(&line, &length, b) && length == 0;
}

/* What the report on two calendars says of the events of one UID, or of a pair of two. */
enum rr_said {
    RR_SAID_EQUAL,   /* both calendars have the same occurrences of it, at the same moments, for ever */
    RR_SAID_DIFFERS, /* they do not */
    RR_SAID_ONLY,    /* one calendar alone has events of it, which are not found again without it either */
    RR_SAID_REFUSED, /* its events in one calendar can't be compared */
    RR_SAID_ALIKE,   /* its events can't be compared, and both calendars state them in the same words: the trip has changed nothing of them, so it
                      * is no fault */
    RR_SAID_LENGTH   /* both have the same occurrences of it, of which one is of another length in the one than in the other */
};

/* How long an occurrence is: so many days of the calendar, each of 23 to 25 hours, and so many exact seconds after them. */
struct rr_length {
    uint64_t days;
    uint64_t seconds;
};

/* A line of that report. Its texts are parts of the line, so no zero byte stands behind them. */
struct rr_report_line {
    enum rr_said said;
    const char *key;         /* the UID as it is printed, or "line 12" for an event without one, of Graph "event 12"; of a pair that in A */
    size_t key_length;
    const char *partner;     /* if its event was found again without its UID: its UID in B, likewise. NULL otherwise */
    size_t partner_length;
    int has_other_title;     /* it was found so, and has another title in B */
    enum rr_side side;       /* unless equal: whose occurrence it is, which calendar has it, or in which it is refused; after RR_SAID_ALIKE: RR_A */
    struct rr_moment moment; /* after RR_SAID_DIFFERS, unless is_floating: the first occurrence that only one of them has, in local time of that side */
    int has_offset;          /* moments of UTC were compared: it is known how far that local time is ahead of UTC */
    int offset;              /* if has_offset: how far, in seconds */
    int is_floating;         /* after RR_SAID_DIFFERS: the side states neither a zone nor UTC, and the other one does; there is no moment */
    const char *refusal;     /* after RR_SAID_REFUSED and RR_SAID_ALIKE: why, as "UtcMoment 124" */
    size_t refusal_length;
    int has_other_zone;      /* after RR_SAID_EQUAL: local times are equal, but the zones have other names, and not both are defined; after
                              * RR_SAID_DIFFERS: local times are equal for ever, and the zones alone differ */
    struct rr_length length_a, length_b; /* after RR_SAID_LENGTH: how long the first occurrence that has two lengths is in A, and in B */
    int reads_until;         /* its events were compared, and an UNTIL of the other kind than its start's was read as its day */
    int reads_start;         /* they were compared, and a start that its rule does not choose was read as an occurrence */
    int reads_day;           /* they were compared, and an EXDATE or RECURRENCE-ID that is a date was read as the occurrence of that day */
    const char *title;       /* after the word --titles: the title of its first event in A, otherwise in B, in UTF-8 as it is printed, each quote,
                              * backslash and byte that is not of a visible character as \xHH; of no bytes if the event has none. NULL
                              * without that word */
    size_t title_length;
};

/* Reads this text, and says whether it is there. */
static inline int rr_read_text(const char **text, size_t *left, const char *wanted)
{
    size_t count = strlen(wanted);
    if (*left < count || memcmp(*text, wanted, count) != 0)
        return 0;
    *text += count;
    *left -= count;
    return 1;
}

/* Whether a key without a UID begins so: with the word "line" or "event". */
static inline int rr_begins_number(const char *key, size_t length)
{
    return (length == 4 && memcmp(key, "line", 4) == 0) || (length == 5 && memcmp(key, "event", 5) == 0);
}

/* Reads a key: the bytes before the next blank, and behind the word "line" or "event" a blank and digits too, if they are there. */
static inline void rr_read_key(const char **text, size_t *left, const char **key, size_t *length)
{
    *key = *text;
    while (*left > 0 && **text != ' ')
        ++*text, --*left;
    if (rr_begins_number(*key, (size_t)(*text - *key)) && *left > 1 && (*text)[1] >= '0' && (*text)[1] <= '9')
        do
            ++*text, --*left;
        while (*left > 0 && **text != ' ');
    *length = (size_t)(*text - *key);
}

/* Reads the key in B behind " = ", if it is there, and says whether nothing is wrong with it. */
static inline int rr_read_partner(const char **text, size_t *left, struct rr_report_line *line)
{
    if (!rr_read_text(text, left, " = "))
        return 1;
    rr_read_key(text, left, &line->partner, &line->partner_length);
    return line->partner_length > 0;
}

/* Reads A or B. */
static inline int rr_read_side(const char **text, size_t *left, enum rr_side *side)
{
    *side = *left > 0 && **text == 'B' ? RR_B : RR_A;
    return rr_read_byte(text, left, *side == RR_B ? 'B' : 'A');
}

/* Reads how far the local time before it is ahead of UTC, as "Z" or "+01:00", if it is there, and says whether nothing is wrong with it. */
static inline int rr_read_offset(const char **text, size_t *left, struct rr_report_line *line)
{
    int hours = 0, minutes = 0, seconds = 0, is_behind = *left > 0 && **text == '-';
    if (rr_read_byte(text, left, 'Z'))
        return line->has_offset = 1;
    if (!is_behind && (*left == 0 || **text != '+'))
        return 1;
    rr_read_byte(text, left, is_behind ? '-' : '+');
    if (!(rr_read_digits(text, left, 2, &hours) && rr_read_byte(text, left, ':') && rr_read_digits(text, left, 2, &minutes)))
        return 0;
    if (rr_read_byte(text, left, ':') && !rr_read_digits(text, left, 2, &seconds))
        return 0;
    line->offset = (hours * 60 + minutes) * 60 + seconds;
    if (is_behind)
        line->offset = -line->offset;
    return line->has_offset = 1;
}

/* Reads what differs: the first moment, or that one side has no zone. */
static inline int rr_read_difference(const char **text, size_t *left, struct rr_report_line *line)
{
    line->is_floating = rr_read_text(text, left, " floating ");
    if (!line->is_floating && !(rr_read_text(text, left, " no ") && rr_read_moment(text, left, &line->moment) &&
                                rr_read_offset(text, left, line) && rr_read_byte(text, left, ' ')))
        return 0;
    return rr_read_side(text, left, &line->side);
}

/* Reads digits, one at least, as a number. */
static inline int rr_read_count(const char **text, size_t *left, uint64_t *value)
{
    const char *first = *text;
    for (*value = 0; *left > 0 && **text >= '0' && **text <= '9'; ++*text, --*left)
        *value = *value * 10 + (uint64_t)(**text - '0');
    return *text > first;
}

/* Reads a length behind a blank, as "3600", "1d" or "1d3600". */
static inline int rr_read_length(const char **text, size_t *left, struct rr_length *length)
{
    if (!rr_read_byte(text, left, ' ') || !rr_read_count(text, left, &length->seconds))
        return 0;
    if (rr_read_byte(text, left, 'd')) {
        length->days = length->seconds;
        if (!rr_read_count(text, left, &length->seconds))
            length->seconds = 0;
    }
    return 1;
}

/* Reads the last words of a line before its title: how its events were read, and that the title in B is another one. */
static inline void rr_read_marks(const char **text, size_t *left, struct rr_report_line *line)
{
    line->reads_until = rr_read_text(text, left, " until");
    line->reads_start = rr_read_text(text, left, " start");
    line->reads_day = rr_read_text(text, left, " day");
    line->has_other_title = line->partner && rr_read_text(text, left, " title");
}

/* Reads why events are refused: all that is left, or all before a title, and of a pair before the word title. No refusal has a quote or ends with that
 * word. */
static inline int rr_read_refusal(const char **text, size_t *left, struct rr_report_line *line)
{
    if (!rr_read_byte(text, left, ' ') || !rr_read_side(text, left, &line->side) || !rr_read_byte(text, left, ' '))
        return 0;
    line->refusal = *text;
    while (*left > 0 && !(*left > 1 && (*text)[0] == ' ' && (*text)[1] == '"'))
        ++*text, --*left;
    line->refusal_length = (size_t)(*text - line->refusal);
    if (line->partner && line->refusal_length > 6 && memcmp(*text - 6, " title", 6) == 0) {
        line->has_other_title = 1;
        line->refusal_length -= 6;
    }
    return 1;
}

/* Reads a title between quotes, behind a blank, if one is there, and says whether nothing is wrong with it. */
static inline int rr_read_title(const char **text, size_t *left, struct rr_report_line *line)
{
    if (!rr_read_text(text, left, " \""))
        return 1;
    line->title = *text;
    while (*left > 0 && **text != '"')
        ++*text, --*left;
    line->title_length = (size_t)(*text - line->title);
    return rr_read_byte(text, left, '"');
}

/* Reads what stands in a line behind its first word, before its title. */
static inline int rr_read_said(const char **text, size_t *left, struct rr_report_line *line)
{
    if (line->said == RR_SAID_ONLY && !(rr_read_side(text, left, &line->side) && rr_read_byte(text, left, ' ')))
        return 0;
    rr_read_key(text, left, &line->key, &line->key_length);
    if (line->said != RR_SAID_ONLY && !rr_read_partner(text, left, line))
        return 0;
    if (line->said == RR_SAID_REFUSED || line->said == RR_SAID_ALIKE)
        return rr_read_refusal(text, left, line);
    if (line->said == RR_SAID_ONLY)
        return 1;
    if (line->said == RR_SAID_DIFFERS && !rr_read_difference(text, left, line))
        return 0;
    if (line->said == RR_SAID_LENGTH && !(rr_read_length(text, left, &line->length_a) && rr_read_length(text, left, &line->length_b)))
        return 0;
    line->has_other_zone = line->said != RR_SAID_LENGTH && rr_read_text(text, left, " zone");
    rr_read_marks(text, left, line);
    return 1;
}

/* Reads a line of the report at the front of *text. It returns whether one is there that is of a UID or a pair, and then leaves in *text and *left what follows
 * it; otherwise it leaves both as they are: at the last line, which counts, at the refusal of a whole calendar, and at the end. */
static inline int rr_read_report_line(const char **text, size_t *left, struct rr_report_line *line)
{
    static const char *const words[] = { "equal ", "differs ", "only ", "refused ", "alike ", "length " };
    const char *at = *text, *end = *left ? (const char *)memchr(*text, '\n', *left) : NULL;
    size_t count = end ? (size_t)(end - *text) : *left, whole = end ? count + 1 : count;
    int word = 0;

    memset(line, 0, sizeof *line);
    while (word < 6 && !rr_read_text(&at, &count, words[word]))
        word++;
    if (word == 6)
        return 0;
    line->said = (enum rr_said)word;
    if (!rr_read_said(&at, &count, line) || !rr_read_title(&at, &count, line) || count > 0 || line->key_length == 0)
        return 0;
    *text += whole;
    *left -= whole;
    return 1;
}

/* Puts the word of an operand behind the first *length bytes of words, after a zero byte, unless the language is longer than 15 bytes. */
static inline int rr_put_operand(char *words, size_t *length, const char *language, char name)
{
    size_t count = strlen(language);
    if (count > 15)
        return 0;
    words[(*length)++] = 0;
    memcpy(words + *length, language, count);
    *length += count;
    words[(*length)++] = ':';
    words[(*length)++] = name;
    return 1;
}

/* Asks a question on two series: "equal", "within" or "disjoint". */
static inline struct rr_verdict rr_ask(const char *question, struct rr_series a, struct rr_series b)
{
    struct rr_verdict said;
    char words[64];
    const uint8_t *a_text = (const uint8_t *)(a.length ? a.text : words), *b_text = (const uint8_t *)(b.length ? b.text : words);
    size_t count = strlen(question);
    uint64_t length = 0;

    memset(&said, 0, sizeof said);
    said.status = RR_USAGE;
    if (count > 15)
        return said;
    memcpy(words, question, count);
    if (!rr_put_operand(words, &count, a.language, 'a') || !rr_put_operand(words, &count, b.language, 'b'))
        return said;
    said.status = rr_answer((const uint8_t *)words, count, a_text, a.length, b_text, b.length, (uint8_t *)said.line,
                            sizeof said.line - 1, &length);
    if (said.status == RR_TOO_SMALL) /* (no verdict and no refusal is so long) */
        said.status = RR_USAGE;
    if (said.status > RR_REFUSED)
        memset(said.line, 0, sizeof said.line);
    else if (length > 0)
        said.line[length - 1] = 0;
    if (said.status == RR_NO)
        rr_read_no(said.line, strlen(said.line), &said.moment, &said.side);
    return said;
}

/* Whether both have the same occurrences for all years: RR_YES, or RR_NO with the first that only one of them has. */
static inline struct rr_verdict rr_equal(struct rr_series a, struct rr_series b)
{
    return rr_ask("equal", a, b);
}

/* Whether each occurrence of a is one of b: RR_YES, or RR_NO with the first that is not. */
static inline struct rr_verdict rr_within(struct rr_series a, struct rr_series b)
{
    return rr_ask("within", a, b);
}

/* Whether they have no occurrence in common: RR_YES, or RR_NO with the first that both have. */
static inline struct rr_verdict rr_disjoint(struct rr_series a, struct rr_series b)
{
    return rr_ask("disjoint", a, b);
}

/* A series, and how many seconds each of its occurrences lasts: 1 to 31,622,400, which are 366 days. */
struct rr_lasting {
    struct rr_series series;
    uint32_t seconds;
};

/* What is said of a candidate and one of the others. */
struct rr_clearance {
    uint32_t status;                          /* RR_YES: they never run at the same time; RR_NO; RR_REFUSED */
    struct rr_moment moment, candidate, other; /* after RR_NO: the first second that is shared, and the occurrences of both that run then */
    char line[112];                           /* what the program prints for the two, as of struct rr_verdict */
};

/* Puts a zero byte and a number behind the first *length bytes of words. */
static inline void rr_put_number(char *words, size_t *length, uint64_t number)
{
    char digits[20];
    size_t count = 0;
    do
        digits[count++] = (char)('0' + number % 10);
    while ((number /= 10) > 0);
    words[(*length)++] = 0;
    while (count > 0)
        words[(*length)++] = digits[--count];
}

/* Puts the words of a booking, which begin with a zero byte, and the texts of the others, and says whether each language may be one. */
static inline int rr_put_booking(struct rr_lasting candidate, const struct rr_lasting *others, size_t count, char *words, size_t *length, char *texts)
{
    rr_put_number(words, length, candidate.seconds);
    if (!rr_put_operand(words, length, candidate.series.language, 'a'))
        return 0;
    for (size_t i = 0; i < count; i++) {
        const struct rr_series *series = &others[i].series;
        rr_put_number(words, length, others[i].seconds);
        if (!rr_put_operand(words, length, series->language, 'b'))
            return 0;
        rr_put_number(words, length, series->length);
        if (series->length > 0)
            memcpy(texts, series->text, series->length);
        texts += series->length;
    }
    return 1;
}

/* Reads the line of one of the others at the front of *text, and leaves in *text and *left what follows it. */
static inline void rr_read_clearance(const char **text, size_t *left, struct rr_clearance *said)
{
    const char *end = *left ? (const char *)memchr(*text, '\n', *left) : NULL;
    size_t count = end ? (size_t)(end - *text) : *left, whole = end ? count + 1 : count;

    memset(said, 0, sizeof *said);
    memcpy(said->line, *text, count < sizeof said->line ? count : sizeof said->line - 1);
    said->status = said->line[0] == 'y' ? RR_YES : said->line[0] == 'n' ? RR_NO : RR_REFUSED;
    if (said->status == RR_NO)
        rr_read_clash(said->line, count, &said->moment, &said->candidate, &said->other);
    *text += whole;
    *left -= whole;
}

/* Whether a candidate is clear of each of the others: never runs at the same time. It returns RR_YES if it is, RR_NO if it clashes with one,
 * RR_REFUSED if it clashes with none and one can't be asked, RR_USAGE if a language or a number of seconds is none, or RR_NO_MEMORY. After the first
 * three, said has for each of the others what is said of it, and of all the same refusal if the candidate is refused: `line` then begins with
 * "refused A ". Otherwise said is as it was. It takes memory by malloc, and gives it back. */
static inline uint32_t rr_clear(struct rr_lasting candidate, const struct rr_lasting *others, size_t count, struct rr_clearance *said)
{
    size_t sum = 1, words_length = 0, room = 112 * (count + 1);
    uint64_t length = 0;
    uint32_t status;

    for (size_t i = 0; i < count; i++)
        sum += others[i].series.length;
    char *words = (char *)malloc(64 * (count + 1)), *texts = (char *)malloc(sum), *out = (char *)malloc(room);
    if (!words || !texts || !out)
        status = RR_NO_MEMORY;
    else if (!rr_put_booking(candidate, others, count, words, &words_length, texts))
        status = RR_USAGE;
    else
        status = rr_clear_answer((const uint8_t *)words + 1, words_length - 1,
                                 (const uint8_t *)(candidate.series.length ? candidate.series.text : words), candidate.series.length,
                                 (const uint8_t *)texts, sum - 1, (uint8_t *)out, room, &length);
    if (status == RR_TOO_SMALL) /* (no line is so long) */
        status = RR_USAGE;
    if (status <= RR_REFUSED) {
        int is_refused = length > 10 && memcmp(out, "refused A ", 10) == 0;
        const char *text = out;
        size_t left = (size_t)length;
        for (size_t i = 0; i < count; i++) {
            if (is_refused)
                text = out, left = (size_t)length;
            rr_read_clearance(&text, &left, &said[i]);
        }
    }
    free(words);
    free(texts);
    free(out);
    return status;
}

#ifdef __cplusplus
}
#endif

#endif
