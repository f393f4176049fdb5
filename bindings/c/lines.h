/* What wulameron.c, lines.c and transport.c share: growing texts, lines and their replies, and the program that answers
 * them over a log. No caller includes it. */
#ifndef WULAMERON_LINES_H
#define WULAMERON_LINES_H

#include <stdarg.h>
#include <stddef.h>
#include <stdint.h>
#include <sys/types.h>

/* Kept out of the names of the shared object. */
#define WITHIN __attribute__((visibility("hidden")))

/* A text that grows. All zero is the empty one; its owner frees its bytes. */
typedef struct {
    char *bytes;
    size_t length, size;
} wulameron_text;

/* A part of a text that another one owns. */
typedef struct {
    const char *at;
    size_t length;
} wulameron_part;

/* ---- lines.c: texts */

/* The least room of a text, in bytes: replies to lines that change something have less. */
enum { LEAST = 512 };

/* Whether a text has room for so many bytes more, or could get it. */
WITHIN int wulameron_has_room(wulameron_text *text, size_t more);
/* Writes a form behind a text, in which a `#` stands for a number, uint64_t, a `$` for a const char * with a 0 at its
 * end, a `*` for a wulameron_part, and a `~` for one as a leaf. Nothing where it gives WULAMERON_OUT_OF_MEMORY. */
WITHIN uint32_t wulameron_put(wulameron_text *text, const char *form, ...);
WITHIN int wulameron_is_utf8(wulameron_part text);
/* The front of a text up to a mark. What is behind the mark is left. */
WITHIN wulameron_part wulameron_cut(wulameron_part *rest, char mark);
WITHIN int wulameron_is(wulameron_part part, const char *text);

/* ---- lines.c: replies, by their forms
 *
 * A form is a text with these in place of what varies. Each reaches up to the form's next character, or to the end.
 *   #  a number: uint64_t *             _  anything
 *   +  a number: uint32_t *             *  anything: wulameron_part *
 *   !  a number or a flag: uint64_t *   ~  a leaf: its text's place, as void *, size_t, size_t *
 *   @  this number: uint64_t            &  digits: the bytes' place, in the same way
 *   ^  a word: a list of words with a null at its end, and a place for its index: const char *const *, uint32_t * */

/* Looks for places that are null and must not be: WULAMERON_NULL. Or looks whether a text has the form, and then writes
 * what varies. WULAMERON_TOO_SMALL where a leaf or digits have more bytes than their place: then the lengths of all are
 * written. WULAMERON_ENDED where it hasn't the form. */
enum { PLACES, LOOKS, WRITES };
WITHIN uint32_t wulameron_read(wulameron_part text, const char *form, va_list places, int pass);
/* Whether a text has the form. The front of what varies is written also where it hasn't. */
WITHIN int wulameron_matches(wulameron_part text, const char *form, ...);

/* ---- transport.c */

/* The program that holds a session over a log, and the stream that leads to it. */
typedef struct {
    int stream;
    pid_t process, owner;
    uint64_t node;
    uint32_t over;  /* why no line is answered any more, or WULAMERON_OK */
    char is_silent; /* it was waited for in vain */
} wulameron_program;

/* Starts the program, and reads which node it claimed. Else it has ended, and what is wrong is left as a text. */
WITHIN uint32_t wulameron_program_start(wulameron_program *program, const char *name, const char *path, uint64_t node,
    wulameron_text *why);
/* WULAMERON_OK, or why no line is answered any more: WULAMERON_ENDED, WULAMERON_LOST, or WULAMERON_LOG once that was
 * told. */
WITHIN uint32_t wulameron_program_state(wulameron_program *program);
/* Sends a line with its end, and reads the line that answers it, without its end. WULAMERON_OUT_OF_MEMORY before it is
 * sent, and then the reply is empty, or after: then the reply has its first 512 bytes. */
WITHIN uint32_t wulameron_program_ask(wulameron_program *program, const wulameron_text *line, wulameron_text *reply);
/* Ends the program and waits for it. The code is the one given, or what its status tells. */
WITHIN uint32_t wulameron_program_end(wulameron_program *program, uint32_t code);

#endif
