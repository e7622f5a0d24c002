/* Fekhtovi: checks the guide of a cue, and keeps cues in a memory of 512 blocks. docs/library.md says more.
 *
 * Everything that is handed in is lent for the time of the call. Nothing is kept, nothing is allocated, and nothing is read or written
 * outside what was handed in. Any bytes at all may be handed in.
 *
 * The caller guarantees that each pointer is valid for its length, also for writing where it is not const, and that what is written does
 * not overlap anything else that is handed in. A pointer whose length is 0 is never followed, but must not be null.
 */
#ifndef FEKHTOVI_H
#define FEKHTOVI_H

#include <stddef.h>
#include <stdint.h>

/* Memory for one open node. What it holds before and after a call means nothing to the caller. */
typedef struct {
    uint16_t rule;
    uint8_t next;
} FekhtoviFrame;

/* An answer. A field that the answer does not have is 0. */
typedef struct {
    uint32_t refusal; /* the number of the refusal (docs/refusals.md; 255: the form is not known), 0 for none */
    uint32_t rules;   /* accepted: the rule nodes of the tree */
    uint32_t steps;   /* accepted: the answers that were taken from the guide */
    uint32_t events;  /* refused by 5 to 13: the events that were accepted before */
    uint32_t fault;   /* refused by 5: the number of the guide's own fault */
    uint32_t rule;    /* refused by 53 to 55: the rule of the packed table */
    uint32_t cleared; /* of a clear: the cue number */
    uint32_t free;    /* of a free: the free blocks */
    size_t bytes;     /* accepted: the text's bytes; refused by 5 to 13: the text bytes used; of a fetch: the text's length */
    size_t place;     /* refused by 5: the offset of the fault in the guide */
} FekhtoviAnswer;

/* The written forms of a guide. */
#define FEKHTOVI_LISTING 1
#define FEKHTOVI_LINK_TABLE 2

/* Checks a guide against a grammar and a text.
 *
 * table   a packed table; of no bytes, the house grammar
 * blanks  unless 0, blanks may stand between the parts of loose rules
 * bars    rule numbers that are taken out, each below 1,024
 * text    the text of the cue
 * form    how the guide is written: 1 or 2
 * guide   the guide
 * frames  memory for open nodes; it is written. At most 1,024 of them count
 *
 * Asked in this order: the form (255), the table (51 to 55), the bars (56), the guide (5 to 13). */
FekhtoviAnswer fekhtovi_check(
    const uint8_t *table, size_t table_length,
    uint8_t blanks,
    const uint16_t *bars, size_t bars_length,
    const uint8_t *text, size_t text_length,
    uint8_t form,
    const uint8_t *guide, size_t guide_length,
    FekhtoviFrame *frames, size_t frames_length);

/* The bytes of a record of fekhtovi_replay: ten numbers of eight bytes, the highest byte first, in the order of FekhtoviAnswer. */
#define FEKHTOVI_RECORD 80

/* Replays a script of loads, clears, fetches and frees on one memory, which holds nothing at first.
 *
 * script   calls, one behind the other
 * answers  is written from its front: a record for each call, and behind the record of a fetch its buffer
 *
 * It stops at the end of the script, at a call that is not whole, and where the answers have no place for the next call's. The answer is
 * how many bytes were written; the bytes behind them stay as they were. About 45,000 bytes of stack are used. */
size_t fekhtovi_replay(
    const uint8_t *script, size_t script_length,
    uint8_t *answers, size_t answers_length);

#endif
