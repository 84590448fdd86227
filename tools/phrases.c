/* Holds the header's words to include/phrases.txt, which comes on standard input: each line of a refusal is what
 * leafanchor_phrase says, behind its bar what leafanchor_tell says for every place of an order and every field, and
 * behind a second bar what it says for every field without a place; each line of a field is what leafanchor_field_name
 * says. None is missing, and LEAFANCHOR_PHRASE_ROOM is enough for each text. Says which line differs. Compiles as C11
 * and as C++17. */
#include "leafanchor.h"

#include <stdio.h>
#include <stdlib.h>
#include <string.h>

static char line[256], wanted[512];
static uint32_t refusals, fields;
static int wrong;

/* Says what differs from the list. */
static void check(int holds, const char *got)
{
    if (!holds) {
        printf("differs: \"%s\", the list has \"%s\"\n", got, wanted);
        wrong = 1;
    }
}

/* What is wanted: the list's phrase with the place and the field put in. */
static void want(const char *phrase, size_t place, uint32_t field)
{
    size_t at = 0;
    while (*phrase != '\0') {
        if (strncmp(phrase, "{place}", 7) == 0) {
            at += (size_t)snprintf(wanted + at, sizeof wanted - at, "%zu", place);
            phrase += 7;
        } else if (strncmp(phrase, "{field}", 7) == 0) {
            at += (size_t)snprintf(wanted + at, sizeof wanted - at, "%s", leafanchor_field_name(field));
            phrase += 7;
        } else {
            wanted[at++] = *phrase++;
        }
    }
    wanted[at] = '\0';
}

/* A refusal is told by this phrase of the list, whole. */
static void told(const char *phrase, uint32_t refusal, size_t place, uint32_t field)
{
    char out[LEAFANCHOR_PHRASE_ROOM];
    want(phrase, place, field);
    check(strcmp(leafanchor_tell(refusal, place, field, out, sizeof out), wanted) == 0, out);
}

/* What stands behind the next bar of a line, which ends there; NULL where there is none. */
static char *behind_bar(char *phrase)
{
    char *bar = phrase == NULL ? NULL : strstr(phrase, " | ");
    if (bar == NULL) {
        return NULL;
    }
    *bar = '\0';
    return bar + strlen(" | ");
}

/* One refusal: its phrase; the one behind the bar where there is one, in every place; and the one behind a second bar. */
static void hold_refusal(uint32_t refusal, char *phrase)
{
    char *placed = behind_bar(phrase), *named = behind_bar(placed);
    const int of_field = named != NULL;
    const uint32_t first = of_field ? LEAFANCHOR_FIELD_NUMBER : LEAFANCHOR_NO_FIELD;
    const uint32_t last = of_field ? LEAFANCHOR_FIELD_DEADLINE : LEAFANCHOR_NO_FIELD;
    check(of_field == (refusal == LEAFANCHOR_JOB_OUT_OF_RANGE), phrase);
    want(phrase, 0, 0);
    check(strcmp(leafanchor_phrase(refusal), wanted) == 0, leafanchor_phrase(refusal));
    told(phrase, refusal, LEAFANCHOR_NO_PLACE, LEAFANCHOR_NO_FIELD);
    for (uint32_t field = first; field <= last; field++) {
        told(of_field ? named : phrase, refusal, LEAFANCHOR_NO_PLACE, field);
        for (size_t place = 0; place < LEAFANCHOR_MOST_JOBS; place++) {
            told(placed != NULL ? placed : phrase, refusal, place, field);
        }
    }
}

/* One line of the list: "6 a job's field is out of range | ..." or "field 6 length", each in its turn. */
static void hold_line(void)
{
    const int of_field = strncmp(line, "field ", 6) == 0;
    char *phrase;
    const uint32_t number = (uint32_t)strtoul(of_field ? line + 6 : line, &phrase, 10);
    phrase += *phrase == ' ';
    want(line, 0, 0);
    if (of_field) {
        check(number == ++fields && strcmp(leafanchor_field_name(number), phrase) == 0, leafanchor_field_name(number));
    } else {
        while (++refusals < number) { /* a number that the list leaves out is no refusal */
            check(strcmp(leafanchor_phrase(refusals), "no such refusal") == 0, leafanchor_phrase(refusals));
        }
        check(number == refusals, leafanchor_phrase(number));
        hold_refusal(number, phrase);
    }
}

int main(void)
{
    while (fgets(line, sizeof line, stdin) != NULL) {
        line[strcspn(line, "\n")] = '\0';
        if (line[0] != '#') {
            hold_line();
        }
    }
    want("nothing more", 0, 0);
    check(refusals == LEAFANCHOR_EVERY_PACK_ZERO, leafanchor_phrase(refusals + 1));
    check(strcmp(leafanchor_phrase(refusals + 1), "no such refusal") == 0, leafanchor_phrase(refusals + 1));
    check(fields == LEAFANCHOR_FIELD_DEADLINE, leafanchor_field_name(fields + 1));
    puts(wrong ? "phrases: differ from the list" : "phrases: those of the list");
    return wrong;
}
