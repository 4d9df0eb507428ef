/* The tank map for C: three functions over the caller's own bytes.
 *
 * The eight tanks are a saved text (docs/CONSOLE.md, "The saved text"): begin makes one, run and feed read one and write the next. Nothing is kept
 * between two calls, and each text is checked anew, so memory that something else wrote over is found out, by its line, and not
 * believed. Calls on different memory may be made from several threads at once: no function has a state of its own.
 *
 * A function answers 0, or the number of what is wrong. With any number but 0 it has written no byte but the report. It never
 * writes more of what is lent than it says in the report, and nothing to standard output.
 *
 * Each array is a pointer and a count of elements. A pointer is never NULL, also where the count is 0; the memory of two
 * parameters does not overlap, and that of `next`, `answers` and `report` is the function's alone while it runs. These are the
 * only demands on a caller: any bytes, and any sizes, are answered as said here.
 *
 * A call wants MAVELINO_STACK bytes of stack: a thread with less is to be given more.
 *
 * Link with libdoor.a, which `tools/archive door` writes, for x86-64. Of the C library it uses memcpy, memmove, memset, and write, which no call of these
 * functions reaches.
 */
#ifndef MAVELINO_H
#define MAVELINO_H

#include <stddef.h>
#include <stdint.h>

#ifdef __cplusplus
extern "C" {
#endif

/* No saved text is longer: with so much room for it, 11 can't come from a text. */
#define MAVELINO_TEXT_MOST 117930u

/* No more bytes of answers come from one run: a script that says more is refused with 11, whatever room there is. */
#define MAVELINO_ANSWERS_MOST 262144u

/* A stack with so much room is enough for a call: a run was measured to take 973,544 bytes of it, a feed 350,616. */
#define MAVELINO_STACK 1310720u

/* Numbers. Those below 20 are the refusals of docs/CONSOLE.md; the last is this interface's own. */
#define MAVELINO_DONE 0u
#define MAVELINO_SHARES 2u       /* begin: shares and limits that break the rule */
#define MAVELINO_ROOM 11u        /* the text or the answers do not fit */
#define MAVELINO_SETTINGS 12u    /* begin: a line of the settings text is wrong */
#define MAVELINO_TEXT 13u        /* run, feed: a line of the saved text is wrong */
#define MAVELINO_SCRIPT 64u      /* run: a line of the script is wrong, or it ends inside a line, a group or a body */

/* What a report says, by place. A place that a function does not name is 0, and so are all but the line beside a refusal. */
#define MAVELINO_REPORT 7u       /* how many numbers it has */
#define MAVELINO_LINE 0          /* the first wrong line, from 1, beside 12, 13 and 64 */
#define MAVELINO_TEXT_BYTES 1    /* how many bytes of text were written */
#define MAVELINO_ANSWER_BYTES 2  /* run: how many bytes of answers were written */
#define MAVELINO_TAKEN 3         /* feed: how many bytes of the log were taken */
#define MAVELINO_APPLIED 4       /* feed: how many edits were applied */
#define MAVELINO_STOP 5          /* feed: by which number the log stopped, 0 where it goes on */
#define MAVELINO_STOP_LINE 6     /* feed: at which line, counted from 1 in the bytes handed over */

/* The saved text of eight fresh tanks with the settings of a text (docs/CONSOLE.md, "A script").
 *
 * 12 with the first wrong line of the settings text; 2 where no tanks open with these settings; 11 where the saved text is longer
 * than `text`. */
uint64_t mavelino_begin(const uint8_t *settings, size_t settings_count,
                        uint8_t *text, size_t text_count,
                        uint64_t report[MAVELINO_REPORT]);

/* The tanks of a saved text, after the calls of a script (docs/CONSOLE.md): their text into `next`, and the answers, as the console
 * writes them, into `answers`. A script starts as at the console: calls are made as the plant, and no settings, log, plan or legend
 * are kept from a run before. A call that is refused is answered (`refused=N`) and the run goes on, as at the console.
 *
 * 13 with the first wrong line of `text`; 64 with the script's first wrong line, or the line at which it breaks off, where the
 * console writes `malformed=LINE`: nothing of the script has been done then; 11 where the answers are longer than `answers` or
 * MAVELINO_ANSWERS_MOST, or the text is longer than `next`. */
uint64_t mavelino_run(const uint8_t *text, size_t text_count,
                      const uint8_t *script, size_t script_count,
                      uint8_t *next, size_t next_count,
                      uint8_t *answers, size_t answers_count,
                      uint64_t report[MAVELINO_REPORT]);

/* The tanks of a saved text, after the edits of a piece of the boxes' log (docs/CONSOLE.md), group by group: their text into `next`. The
 * piece begins where a group begins, so at first with the log's first byte. Groups are taken to the last whole one that is accepted;
 * what stands behind it is not taken, and is handed over again in front of the bytes that arrive later: the caller keeps those bytes
 * and no other state of the log.
 *
 * A line or an edit that is refused stops the log: the groups before it are taken, STOP and STOP_LINE say by what and where, and the
 * next call with these bytes stops there again. This is no refusal of the feed, which answers 0 then.
 *
 * 13 with the first wrong line of `text`; 11 where the text is longer than `next`. */
uint64_t mavelino_feed(const uint8_t *text, size_t text_count,
                       const uint8_t *log, size_t log_count,
                       uint8_t *next, size_t next_count,
                       uint64_t report[MAVELINO_REPORT]);

/* MAVELINO_TEXT_MOST, MAVELINO_ANSWERS_MOST and MAVELINO_REPORT, as the library has them. */
uint64_t mavelino_text_most(void);
uint64_t mavelino_answers_most(void);
uint64_t mavelino_report_size(void);

#ifdef __cplusplus
}
#endif

#endif
