/* A day of one tank, through the door: open, mark, ask, save, go on from what was saved, and take a piece of a box's log. */
#include <stdio.h>
#include <string.h>

#include "mavelino.h"

static const char settings[] =
    "version=1\n"
    "share0=64\nlimit0=200\nshare1=64\nlimit1=200\nshare2=64\nlimit2=200\nshare3=64\nlimit3=200\n"
    "share4=64\nlimit4=200\nshare5=64\nlimit5=200\nshare6=64\nlimit6=200\nshare7=64\nlimit7=200\n";

static const char marking[] =
    "op=annotate\ntank=0\nstart=1000\nend=1600\nkey=7\nlamport=5\npeer=1\ncnt=31\nflags=132\nkind=whole\nvalue=38\n";

static const char asking[] =
    "op=value\ntank=0\nat=1599\nkey=7\n"
    "op=has_key\ntank=0\nstart=0\nend=1000\nkey=7\n"
    "op=length\ntank=8\n";

/* Two groups, of which the second has not come to its end yet. */
static const char arrived[] = "op=delete\ntank=0\nstart=0\nend=1000\nop=insert\ntank=0\nat=";

/* The state is the text in `now`; each call writes the next one beside it. */
static uint8_t now[MAVELINO_TEXT_MOST], next[MAVELINO_TEXT_MOST];
static uint8_t answers[MAVELINO_ANSWERS_MOST];
static uint64_t size, report[MAVELINO_REPORT];

static int failed(const char *what, uint64_t number) {
    printf("%s: %llu at line %llu\n", what, (unsigned long long)number, (unsigned long long)report[MAVELINO_LINE]);
    return 1;
}

static void keep(void) {
    size = report[MAVELINO_TEXT_BYTES];
    memcpy(now, next, size);
}

static uint64_t run(const char *script) {
    uint64_t number = mavelino_run(now, size, (const uint8_t *)script, strlen(script), next, sizeof next, answers,
                                   sizeof answers, report);
    if (number == MAVELINO_DONE) {
        keep();
        fwrite(answers, 1, report[MAVELINO_ANSWER_BYTES], stdout);
    }
    return number;
}

int main(void) {
    uint64_t number = mavelino_begin((const uint8_t *)settings, strlen(settings), next, sizeof next, report);
    if (number) return failed("begin", number);
    keep();
    printf("begun: a text of %llu bytes\n", (unsigned long long)size);

    if ((number = run(marking))) return failed("mark", number);
    if ((number = run(asking))) return failed("ask", number);

    number = mavelino_feed(now, size, (const uint8_t *)arrived, strlen(arrived), next, sizeof next, report);
    if (number) return failed("feed", number);
    keep();
    printf("fed: %llu edit, %llu of %zu bytes\n", (unsigned long long)report[MAVELINO_APPLIED],
           (unsigned long long)report[MAVELINO_TAKEN], strlen(arrived));
    if ((number = run(asking))) return failed("ask", number);

    printf("saved: %llu bytes, the first line %.9s\n", (unsigned long long)size, (const char *)now);
    now[0] = 'V'; /* a text that something wrote over is found out */
    if ((number = run(asking)) != MAVELINO_TEXT) return failed("ask of a broken text", number);
    printf("broken: %llu at line %llu\n", (unsigned long long)number, (unsigned long long)report[MAVELINO_LINE]);
    return 0;
}
