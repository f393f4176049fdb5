/* Each call of wulameron.h: a line is written, and its reply read. Over a table the archive answers it, over a log the
 * program. No proof covers this file. */
#include "lines.h"
#include "words.h"
#include "wulameron.h"
#include "wulameron_c.h"

#include <stdlib.h>
#include <string.h>

typedef wulameron_part part;

/* The number of the exports in wulameron_c.h, which the archive gives too, and the limits of a request. */
enum { EXPORTS = 2, LONGEST_NAME = 255, LONGEST_TYPE = 256, LONGEST_KEY = 64, LONGEST_VALUE = 256, MOST = 64 };
/* The texts of a session: the line, the reply to it, what wulameron_get_reply gives, the request's name and settings,
 * its pairs, its keys and its time, and the replies with both lists. */
enum { LINE, ANSWER, KEPT, REQUEST, PAIRS, KEYS, CLOCK, LISTS, TEXTS = LISTS + 2 };

struct wulameron_session {
    wulameron_c_handle handle; /* of its table, or else the program over a log */
    wulameron_program program;
    char is_over_log, busy;
    wulameron_text texts[TEXTS];
    /* The names of the services in the slots, as leaves. */
    wulameron_text held[WULAMERON_SLOTS];
    /* The reply to the last line, and the slot before that which it shows, or 0. */
    part reply;
    uint64_t shown;
    /* Whether there was memory for all of the reply, and for what is kept: WULAMERON_OK or WULAMERON_OUT_OF_MEMORY. */
    uint32_t got, kept;
    /* The request: none where the pattern is 0. */
    uint32_t pattern, how;
    uint64_t node;
};

/* A call of wulameron.h that is one expression of its parameters, and one that begins and leaves, too. */
#define CALL(name, parameters, ...) uint32_t wulameron_##name parameters { return __VA_ARGS__; }
#define HELD(name, parameters, what, is_there, ...) \
    uint32_t wulameron_##name parameters \
    { \
        uint32_t code = begins(session, what, is_there); \
        return code == WULAMERON_OK ? leaves(session, __VA_ARGS__) : code; \
    }
#define SESSION wulameron_session *session
#define SLOT SESSION, uint32_t slot
#define TEXT(name) const char *name, size_t name##_length
#define GIVEN(name) (part){name, name##_length}
#define IS_GIVEN(name) (name != NULL || name##_length == 0)
#define PLACE(kind) kind *output, size_t size, size_t *length
#define WRITTEN output, size, length
#define THIS (uint64_t)slot
#define ALL(which) (part){session->texts[which].bytes, session->texts[which].length}
/* What is given of a slot, of a setting of it, and of an item of a list. */
#define OF_SLOT(what, ...) gives(session, what, slot, 0, 0, 0, __VA_ARGS__)
#define OF_SETTING(takes, number, ...) gives(session, SHOW, slot, takes, number, 0, __VA_ARGS__)
#define OF_ITEM(what, ...) gives(session, what, index, 0, 0, 0, __VA_ARGS__)

/* The setting of this number, of a pattern, that takes one of these; null where there is none. */
static const setting *setting_of(uint32_t pattern, uint32_t number, uint32_t takes)
{
    const setting *at = settings, *end = settings + sizeof settings / sizeof *settings;
    for (; at < end; at++)
        if (at->number == number && (at->pattern == pattern || at->pattern == 0) && (at->takes & takes) != 0) return at;
    return NULL;
}

/* ---- calls */

/* Keeps which services the slots held, as one text. */
static void keeps_held(wulameron_session *session)
{
    wulameron_text *names = &session->texts[LINE];
    uint32_t k, code = WULAMERON_OK;
    for (k = names->length = 0; k < WULAMERON_SLOTS && code == WULAMERON_OK; k++) {
        part name = {session->held[k].bytes, session->held[k].length};
        if (name.length > 0) code = wulameron_put(names, names->length > 0 ? " *" : "*", name);
    }
    session->texts[KEPT].length = 0;
    if (code == WULAMERON_OK) code = wulameron_put(&session->texts[KEPT], "~", ALL(LINE));
    session->kept = code;
    names->length = 0;
}

/* Leaves with a code. A reply that hasn't the form of one is of no program for sessions, which is asked no more. */
static uint32_t leaves(wulameron_session *session, uint32_t code)
{
    if (code == WULAMERON_ENDED) session->program.over = code;
    if (code == WULAMERON_LOST) keeps_held(session);
    __atomic_clear(&session->busy, __ATOMIC_RELEASE);
    return code;
}

/* Enters where no other call runs on this session, all that is given is there, and the session is of use for what is
 * asked. The reply to a line, and the session's own node, are there also afterwards. */
static uint32_t begins(wulameron_session *session, int what, int is_there)
{
    uint32_t code = WULAMERON_OK;
    if (session == NULL || !is_there) return WULAMERON_NULL;
    if (__atomic_test_and_set(&session->busy, __ATOMIC_ACQUIRE)) return WULAMERON_BUSY;
    if (!session->is_over_log && what >= NODES) code = WULAMERON_ONLY_OVER_LOG;
    if (session->is_over_log && what != REPLY && what != OWN) code = wulameron_program_state(&session->program);
    return code == WULAMERON_OK ? code : leaves(session, code);
}

/* Keeps a leaf for wulameron_get_reply, unless there is no memory for it. WULAMERON_ENDED where it is none. */
static uint32_t keeps(wulameron_session *session, part leaf, uint32_t code)
{
    size_t length;
    session->texts[KEPT].length = 0;
    session->kept = session->got;
    if (session->got == WULAMERON_OK && !wulameron_matches(leaf, "~", NULL, SIZE_MAX, &length)) return WULAMERON_ENDED;
    if (session->got == WULAMERON_OK) session->kept = wulameron_put(&session->texts[KEPT], "*", leaf);
    return code;
}

/* Has a table answer a line, which it is given without its end; no line asks for the last reply again. */
static uint32_t asks_table(wulameron_session *session, part line, wulameron_text *answer)
{
    size_t length = LEAST;
    uint32_t code = WULAMERON_TOO_SMALL;
    for (line.length--; code == WULAMERON_TOO_SMALL; line.length = 0) {
        if (!wulameron_has_room(answer, length)) return WULAMERON_OUT_OF_MEMORY;
        code = wulameron_c_line(&session->handle, (const uint8_t *)line.at, line.length, (uint8_t *)answer->bytes,
            answer->size, &length);
    }
    if (code == WULAMERON_OK && length > 0) answer->length = length - 1;
    return code;
}

/* Has the session's line answered that was put with this code. Gives that of a reply that any line may have;
 * WULAMERON_OK where the reply is another one, which its caller reads; WULAMERON_OUT_OF_MEMORY also where only the
 * reply's front could be kept. */
static uint32_t asks(wulameron_session *session, uint32_t code)
{
    wulameron_text *line = &session->texts[LINE], *answer = &session->texts[ANSWER];
    size_t k;
    part why;
    session->shown = 0;
    answer->length = 0;
    if (code == WULAMERON_OK && session->is_over_log) code = wulameron_program_ask(&session->program, line, answer);
    else if (code == WULAMERON_OK) code = asks_table(session, ALL(LINE), answer);
    if (code == WULAMERON_ENDED) answer->length = 0;
    line->length = 0;
    session->got = code;
    session->reply = ALL(ANSWER);
    for (k = 0; answer->length > 0 && k < sizeof known / sizeof *known; k++)
        if (*known[k].form == *answer->bytes && wulameron_matches(session->reply, known[k].form)) return known[k].code;
    if (wulameron_matches(session->reply, "refused by the log *", &why)) return keeps(session, why, WULAMERON_LOG);
    if (!session->is_over_log || !wulameron_matches(session->reply, "log *", &why)) return code;
    return session->program.over = keeps(session, why, WULAMERON_LOG);
}

/* Has it answered what a word asks of a number; what a slot holds isn't asked again where it was shown last. */
static uint32_t asks_of(wulameron_session *session, int what, uint64_t of)
{
    const char *form = of == WULAMERON_ANY_NODE ? "$\n" : "$ #\n";
    uint32_t code = WULAMERON_OK;
    if (words[what] == NULL) return WULAMERON_BAD_VALUE;
    if (what <= ABANDON && of >= WULAMERON_SLOTS) return WULAMERON_NO_SUCH_SLOT;
    if (what != SHOW || session->shown != of + 1)
        code = asks(session, wulameron_put(&session->texts[LINE], form, words[what], of));
    if (what == SHOW && code == WULAMERON_OK) session->shown = of + 1;
    return code;
}

/* What the reply shows of a setting that takes one of these: the one of this index where there are several. */
static uint32_t finds(wulameron_session *session, uint32_t takes, uint32_t number, uint64_t index, part *found)
{
    part rest = session->reply, word;
    const setting *wanted;
    uint32_t pattern;
    if (!wulameron_matches(rest, "agreed _ _ _ _ _ _ ^ create _", patterns, &pattern)) return WULAMERON_ENDED;
    wanted = setting_of(pattern, number, takes);
    if (wanted == NULL) return WULAMERON_UNKNOWN_SETTING;
    while (rest.length > 0) {
        int is_term = wulameron_matches(wulameron_cut(&rest, ' '), "*=*", &word, found);
        if (is_term && wulameron_is(word, wanted->word) && index-- == 0)
            return wulameron_is(*found, "none") ? WULAMERON_NONE : WULAMERON_OK;
    }
    return takes == PAIR ? WULAMERON_NO_SUCH_ITEM : WULAMERON_ENDED;
}

/* The item of this index in a list. */
static uint32_t item_of(wulameron_session *session, int what, uint64_t index, part *item)
{
    part rest = ALL(LISTS + what - ENTRIES);
    uint64_t count;
    if (!wulameron_matches(rest, "_ # *", &count, &rest) || index >= count) return WULAMERON_NO_SUCH_ITEM;
    do *item = wulameron_cut(&rest, ' ');
    while (index-- > 0);
    return WULAMERON_OK;
}

/* A call that reads into places by a form: the reply to a word and a number, or of a slot a setting that takes one of
 * these; an item of a list; or the leaf that is kept. */
static uint32_t gives(SESSION, int what, uint64_t at, uint32_t takes, uint32_t number, uint64_t index, const char *form,
    ...)
{
    part text = {NULL, 0};
    uint32_t code;
    va_list places;
    va_start(places, form);
    code = begins(session, what, wulameron_read(text, form, places, PLACES) == WULAMERON_OK);
    if (code == WULAMERON_OK) {
        if (what == REPLY) code = session->kept;
        else if (what == ENTRIES || what == NODES) code = item_of(session, what, at, &text);
        else code = asks_of(session, what, at);
        if (what == REPLY) text = ALL(KEPT);
        else if (what != ENTRIES && what != NODES) text = session->reply;
        if (code == WULAMERON_OK && takes != 0) code = finds(session, takes, number, index, &text);
        if (code == WULAMERON_OK) code = wulameron_read(text, form, places, LOOKS);
        if (code == WULAMERON_OK && (what == CLOSE || what == ABANDON)) session->held[at].length = 0;
        (void)leaves(session, code);
    }
    va_end(places);
    return code;
}

/* Takes a list. Where that isn't done the last one stays. */
static uint32_t lists(wulameron_session *session, int what, uint64_t *count)
{
    wulameron_text *list = &session->texts[LISTS + what - ENTRIES], last = *list;
    uint64_t told = 0, found = 0;
    part items = {NULL, 0};
    uint32_t code = asks_of(session, what, WULAMERON_ANY_NODE);
    if (code != WULAMERON_OK) return code;
    if (!wulameron_matches(session->reply, "_ #", &told) && !wulameron_matches(session->reply, "_ # *", &told, &items))
        return WULAMERON_ENDED;
    for (; items.length > 0; found++) (void)wulameron_cut(&items, ' ');
    if (found != told) return WULAMERON_ENDED;
    *list = session->texts[ANSWER];
    session->texts[ANSWER] = last;
    *count = told;
    return WULAMERON_OK;
}

/* ---- sessions */

/* Opens a session over a log where there is a text for what is wrong, else over a table. */
static uint32_t opens(uint32_t version, wulameron_session **out, const char *program, const char *path, uint64_t node,
    wulameron_text *why)
{
    wulameron_session *session;
    uint32_t code;
    if (out == NULL) return WULAMERON_NULL;
    *out = NULL;
    if (version != WULAMERON_VERSION || wulameron_c_version() != EXPORTS) return WULAMERON_VERSION_DIFFERS;
    session = (wulameron_session *)calloc(1, sizeof *session);
    if (session == NULL) return WULAMERON_OUT_OF_MEMORY;
    session->is_over_log = why != NULL;
    if (why == NULL) code = wulameron_c_open_table(&session->handle);
    else code = wulameron_program_start(&session->program, program, path, node, why);
    if (code == WULAMERON_OK) *out = session;
    else free(session);
    return code;
}

CALL(open_table, (uint32_t version, wulameron_session **out), opens(version, out, NULL, NULL, 0, NULL))

uint32_t wulameron_open_log(uint32_t version, const char *program, const char *path, uint64_t node,
    wulameron_session **out, char *message, size_t size, size_t *length)
{
    wulameron_text why = {NULL, 0, 0};
    uint32_t code = WULAMERON_NULL;
    size_t room;
    if (message != NULL || size == 0) code = opens(version, out, program, path, node, &why);
    else if (out != NULL) *out = NULL;
    /* As much of it as there is room for, whole characters. */
    for (room = why.length < size ? why.length : size; room > 0 && room < why.length; room--)
        if (((unsigned char)why.bytes[room] & 0xc0) != 0x80) break;
    if (room > 0) memcpy(message, why.bytes, room);
    if (length != NULL) *length = why.length;
    free(why.bytes);
    return code;
}

/* Each slot over a log is closed before. One that there is no memory to ask for is closed by the program's end. */
uint32_t wulameron_close_session(wulameron_session *session)
{
    uint32_t k, found, code = WULAMERON_OK;
    if (session == NULL) return WULAMERON_OK;
    if (begins(session, REPLY, 1) != WULAMERON_OK || leaves(session, code) != code) return WULAMERON_BUSY;
    for (k = 0; session->is_over_log && k < WULAMERON_SLOTS; k++) {
        found = wulameron_close(session, k);
        if (found == WULAMERON_NOT_CLOSED || found == WULAMERON_LOG) code = found;
        if (found == WULAMERON_ENDED || found == WULAMERON_LOST) code = found;
    }
    if (session->is_over_log) code = wulameron_program_end(&session->program, code);
    else code = wulameron_c_close_session(&session->handle);
    for (k = 0; k < TEXTS; k++) free(session->texts[k].bytes);
    for (k = 0; k < WULAMERON_SLOTS; k++) free(session->held[k].bytes);
    free(session);
    return code;
}

/* ---- the request */

#define IS_ALIGNMENT(value) ((value) != 0 && ((value) & ((value) - 1)) == 0)

/* The code of a text that has a byte at least and this many at most, or else another code. */
static uint32_t judges(part text, size_t most, uint32_t other)
{
    if (!wulameron_is_utf8(text)) return WULAMERON_NOT_UTF8;
    return text.length < 1 || text.length > most ? other : WULAMERON_OK;
}

/* Begins a request, in place of the last one. */
static uint32_t requests(SESSION, uint32_t pattern, uint32_t how, uint64_t node, part name)
{
    uint32_t k, code = judges(name, LONGEST_NAME, WULAMERON_BAD_NAME);
    if (session->is_over_log && node != session->program.node) return WULAMERON_OTHER_NODE;
    if (pattern < 1 || pattern > 3) return WULAMERON_UNKNOWN_PATTERN;
    if (how < 1 || how > 3) return WULAMERON_UNKNOWN_CALL;
    if (code != WULAMERON_OK) return code;
    /* More than the name takes, so that the last request stays where there is no memory. */
    if (!wulameron_has_room(&session->texts[REQUEST], 4 * LONGEST_NAME)) return WULAMERON_OUT_OF_MEMORY;
    for (k = REQUEST; k <= CLOCK; k++) session->texts[k].length = 0;
    session->pattern = pattern;
    session->how = how;
    session->node = node;
    return wulameron_put(&session->texts[REQUEST], " ~", name);
}

HELD(begin, (SESSION, uint32_t pattern, uint32_t how, uint64_t node, TEXT(name)), SHOW, IS_GIVEN(name),
    requests(session, pattern, how, node, GIVEN(name)))

/* Sets a setting that takes one of these by a form, which has a name before two numbers. A value that can't be has no
 * form, and a type alone a name. */
static uint32_t sets(SESSION, uint32_t number, uint32_t takes, const char *form, part name, uint64_t first,
    uint64_t second)
{
    const setting *found = setting_of(session->pattern, number, takes);
    uint32_t code = takes == TYPE ? judges(name, LONGEST_TYPE, WULAMERON_BAD_TYPE) : WULAMERON_OK;
    if (form == NULL || (takes != TYPE && second >= 1000000000)) return WULAMERON_BAD_VALUE;
    if (code == WULAMERON_OK && takes == TYPE && !IS_ALIGNMENT(second)) code = WULAMERON_BAD_TYPE;
    if (code != WULAMERON_OK) return code;
    if (session->pattern == 0) return WULAMERON_NO_REQUEST;
    if (found == NULL) return WULAMERON_UNKNOWN_SETTING;
    if (found->takes == FLAG) form = first == 0 ? " $=false" : first == 1 ? " $=true" : NULL;
    if (form == NULL || (found->takes == ALIGNMENT && !IS_ALIGNMENT(first))) return WULAMERON_BAD_VALUE;
    return wulameron_put(&session->texts[takes == TIME ? CLOCK : REQUEST], form, found->word, name, first, second);
}

/* A call that sets, without a name. */
#define SETS(name, parameters, ...) HELD(name, parameters, SHOW, 1, sets(session, __VA_ARGS__))
static const part no_name = {NULL, 0};

SETS(set_number, (SESSION, uint32_t setting, uint64_t value), setting, NUMBER | EVENT | FLAG | ALIGNMENT, " $=*#",
    no_name, value, 0)
SETS(set_none, (SESSION, uint32_t setting), setting, EVENT | LENGTH, " $=none", no_name, 0, 0)
SETS(set_duration, (SESSION, uint32_t setting, uint64_t seconds, uint32_t nanoseconds), setting, LENGTH, " $=*#,#",
    no_name, seconds, nanoseconds)
SETS(set_time, (SESSION, uint64_t seconds, uint32_t nanoseconds), 0, TIME, " $=*#,#", no_name, seconds, nanoseconds)
SETS(set_clock_fault, (SESSION), 0, TIME, " $=fault", no_name, 0, 0)
HELD(set_type, (SESSION, uint32_t number, uint32_t variant, TEXT(name), uint64_t size, uint64_t alignment), SHOW,
    IS_GIVEN(name), sets(session, number, TYPE,
    variant == 1 ? " $=fixed,~,#,#" : variant == 2 ? " $=dynamic,~,#,#" : NULL, GIVEN(name), size, alignment))

/* Puts a pair or a key to the others, of which there are at most so many different ones. */
static uint32_t adds(SESSION, int which, const char *form, part key, part value)
{
    wulameron_text *text = &session->texts[which];
    size_t at, size, before = text->length, count = 0;
    int is_there = 0;
    uint32_t code = session->pattern == 0 ? WULAMERON_NO_REQUEST : judges(key, LONGEST_KEY, WULAMERON_BAD_ATTRIBUTE);
    if (!wulameron_is_utf8(key) || !wulameron_is_utf8(value)) return WULAMERON_NOT_UTF8;
    if (code == WULAMERON_OK && value.length > LONGEST_VALUE) code = WULAMERON_BAD_ATTRIBUTE;
    if (code == WULAMERON_OK) code = wulameron_put(text, form, key, value);
    if (code != WULAMERON_OK) return code;
    /* A blank stands before each of them alone. */
    size = text->length - before;
    for (at = 0; at < before && !is_there; at++) {
        is_there = memcmp(text->bytes + at, text->bytes + before, size) == 0 && text->bytes[at + size] == ' ';
        count += text->bytes[at] == ' ';
    }
    if (is_there || count == MOST) text->length = before;
    return is_there || count < MOST ? WULAMERON_OK : WULAMERON_TOO_MANY;
}

HELD(add_attribute, (SESSION, TEXT(key), TEXT(value)), SHOW, IS_GIVEN(key) && IS_GIVEN(value),
    adds(session, PAIRS, " attribute=~:~", GIVEN(key), GIVEN(value)))
HELD(require_key, (SESSION, TEXT(key)), SHOW, IS_GIVEN(key), adds(session, KEYS, " require_key=~", GIVEN(key), no_name))

/* Keeps over a log which service a slot holds, by its name in a form, or looks whether there is room for that. */
static int holds(SESSION, uint32_t slot, part name, const char *form)
{
    wulameron_text *held = &session->held[slot];
    if (!session->is_over_log || form != NULL) held->length = 0;
    if (!session->is_over_log) return 1;
    if (form == NULL) return wulameron_has_room(held, 3 * name.length + LEAST);
    return wulameron_put(held, form, name) == WULAMERON_OK;
}

/* Sends the request, or tells what the slot has where there is none. */
static uint32_t sends(SESSION, uint32_t slot, uint64_t *number, uint32_t *refusal)
{
    part name = ALL(REQUEST);
    uint32_t code;
    if (slot >= WULAMERON_SLOTS) return WULAMERON_NO_SUCH_SLOT;
    if (session->pattern == 0) {
        code = asks_of(session, SHOW, slot);
        if (code == WULAMERON_OK) return WULAMERON_SLOT_IN_USE;
        return code == WULAMERON_SLOT_EMPTY ? WULAMERON_NO_REQUEST : code;
    }
    /* A create requires no keys, and events alone have need of a clock, unless they are opened. */
    if (session->how == WULAMERON_CREATE) session->texts[KEYS].length = 0;
    if (session->how == WULAMERON_OPEN || session->pattern != WULAMERON_EVENT) session->texts[CLOCK].length = 0;
    /* A blank stands before the name, and before each setting. */
    (void)wulameron_cut(&name, ' ');
    name = wulameron_cut(&name, ' ');
    if (!holds(session, slot, name, NULL)) return WULAMERON_OUT_OF_MEMORY;
    code = asks(session, wulameron_put(&session->texts[LINE], "$ $ # #****\n", patterns[session->pattern],
        hows[session->how], session->node, THIS, ALL(REQUEST), ALL(PAIRS), ALL(KEYS), ALL(CLOCK)));
    if (code != WULAMERON_OK) return code;
    if (wulameron_matches(session->reply, "refused + _", refusal)) code = WULAMERON_REFUSED;
    else if (!wulameron_matches(session->reply, "ok @ number=#", THIS, number)) return WULAMERON_ENDED;
    if (code == WULAMERON_OK) (void)holds(session, slot, name, "*");
    session->pattern = 0;
    return code;
}

HELD(send, (SLOT, uint64_t *number, uint32_t *refusal), SHOW, number != NULL && refusal != NULL,
    sends(session, slot, number, refusal))
CALL(close, (SLOT), OF_SLOT(CLOSE, "closed @", THIS))
CALL(abandon, (SLOT), OF_SLOT(ABANDON, "abandoned @", THIS))

/* ---- what was agreed on */

CALL(get_service, (SLOT, uint32_t *pattern, uint64_t *number, uint64_t *node),
    OF_SLOT(SHOW, "agreed @ number=# node=# _ _ _ ^ create _", THIS, number, node, patterns, pattern))
CALL(get_number, (SLOT, uint32_t setting, uint64_t *value), OF_SETTING(NUMBER | EVENT | FLAG, setting, "!", value))
CALL(get_duration, (SLOT, uint32_t setting, uint64_t *seconds, uint32_t *nanoseconds),
    OF_SETTING(LENGTH | CREATION, setting, "#,+", seconds, nanoseconds))
CALL(get_type, (SLOT, uint32_t part, uint32_t *variant, uint64_t *size, uint64_t *alignment),
    OF_SETTING(TYPE, part, "^,_,#,#", variants, variant, size, alignment))
CALL(get_type_name, (SLOT, uint32_t part, PLACE(char)), OF_SETTING(TYPE, part, "_,~,_", WRITTEN))
CALL(get_name, (SLOT, PLACE(char)), OF_SLOT(SHOW, "agreed @ _ _ _ _ _ _ create _ _ ~ _", THIS, WRITTEN))
CALL(get_hash, (SLOT, PLACE(uint8_t)), OF_SETTING(HASH, 0, "&", WRITTEN))

uint32_t wulameron_get_attribute_count(wulameron_session *session, uint32_t slot, uint64_t *count)
{
    uint64_t found = 0;
    uint32_t code = count != NULL ? WULAMERON_OK : WULAMERON_NULL;
    while (code == WULAMERON_OK) code = gives(session, SHOW, slot, PAIR, 0, found++, "_:_");
    if (code != WULAMERON_NO_SUCH_ITEM) return code;
    *count = found - 1;
    return WULAMERON_OK;
}

CALL(get_attribute, (SLOT, uint64_t index, char *key, size_t key_size, size_t *key_length, char *value,
    size_t value_size, size_t *value_length),
    gives(session, SHOW, slot, PAIR, 0, index, "~:~", key, key_size, key_length, value, value_size, value_length))
CALL(get_bytes, (SLOT, PLACE(uint8_t)), OF_SLOT(BYTES, "bytes @ &", THIS, WRITTEN))

/* ---- services and nodes */

HELD(list, (SESSION, uint64_t *count), ENTRIES, count != NULL, lists(session, ENTRIES, count))
CALL(get_entry, (SESSION, uint64_t index, uint32_t *state, uint32_t *pattern, uint64_t *number, uint64_t *nodes,
    uint64_t *max_nodes),
    OF_ITEM(ENTRIES, "^,^,#,#,#,_,_", states, state, patterns, pattern, number, nodes, max_nodes))
CALL(get_entry_name, (SESSION, uint64_t index, PLACE(char)), OF_ITEM(ENTRIES, "_,_,_,_,_,_,~", WRITTEN))
CALL(get_entry_hash, (SESSION, uint64_t index, PLACE(uint8_t)), OF_ITEM(ENTRIES, "_,_,_,_,_,&,_", WRITTEN))
HELD(nodes, (SESSION, uint64_t *count), NODES, count != NULL, lists(session, NODES, count))
CALL(get_node, (SESSION, uint64_t index, uint64_t *node, uint32_t *state), OF_ITEM(NODES, "#,^", node, lives, state))
HELD(node, (SESSION, uint64_t *node), OWN, node != NULL, (*node = session->program.node, WULAMERON_OK))
CALL(clean, (SESSION, uint64_t node, uint32_t dry_run, uint64_t *nodes, uint64_t *releases, uint64_t *removals),
    gives(session, dry_run == 0 ? CLEAN : dry_run == 1 ? REHEARSE : WRONG, node, 0, 0, 0,
    "cleaned nodes=# releases=# removals=#", nodes, releases, removals))

/* ---- lines and texts */

/* The next word of a plain line. */
static part word_of(part *line)
{
    part word = wulameron_cut(line, ' ');
    while (word.length == 0 && line->length > 0) word = wulameron_cut(line, ' ');
    return word;
}

/* The slot that a plain line names, or WULAMERON_SLOTS, and the name that it gives, of a call alone. */
static uint32_t named_by(part line, part *name)
{
    int is_close = wulameron_is(word_of(&line), "close");
    uint64_t number;
    if (!is_close) (void)word_of(&line);
    if (!is_close) (void)word_of(&line);
    if (!wulameron_matches(word_of(&line), "#", &number) || number >= WULAMERON_SLOTS) return WULAMERON_SLOTS;
    *name = is_close ? no_name : word_of(&line);
    return (uint32_t)number;
}

static int begins_with(part text, const char *front)
{
    return text.length >= strlen(front) && memcmp(text.at, front, strlen(front)) == 0;
}

/* Has a line answered that is given. */
static uint32_t carries_out(SESSION, part line)
{
    part leaf, name = no_name;
    uint32_t code, slot = named_by(line, &name);
    if (slot < WULAMERON_SLOTS && !holds(session, slot, name, NULL)) return WULAMERON_OUT_OF_MEMORY;
    code = asks(session, wulameron_put(&session->texts[LINE], "plain ~\n", line));
    if (slot < WULAMERON_SLOTS && begins_with(session->reply, name.length > 0 ? "plain ok%20" : "plain closed%20"))
        (void)holds(session, slot, name, name.length > 0 ? "~" : "*");
    if (wulameron_matches(session->reply, "plain *", &leaf)) return keeps(session, leaf, WULAMERON_OK);
    if (wulameron_matches(session->reply, "wrong *", &leaf)) return keeps(session, leaf, WULAMERON_BAD_LINE);
    return code == WULAMERON_OK ? WULAMERON_ENDED : code;
}

HELD(line, (SESSION, TEXT(line)), SHOW, IS_GIVEN(line), carries_out(session, GIVEN(line)))
CALL(get_reply, (SESSION, PLACE(char)), gives(session, REPLY, 0, 0, 0, 0, "~", WRITTEN))

/* Asks a table of its own for a text of a refusal, which is where the form has it. */
static uint32_t tells(uint32_t refusal, const char *form, char *output, size_t size, size_t *length)
{
    wulameron_session *session = NULL;
    uint32_t code = wulameron_open_table(WULAMERON_VERSION, &session);
    if (code != WULAMERON_OK) return code;
    code = gives(session, REFUSAL, refusal, 0, 0, 0, form, (uint64_t)refusal, output, size, length);
    (void)wulameron_close_session(session);
    return code;
}

CALL(refusal_name, (uint32_t refusal, PLACE(char)), tells(refusal, "refusal @ ~ _ _", WRITTEN))
CALL(refusal_text, (uint32_t refusal, PLACE(char)), tells(refusal, "refusal @ _ ~ _", WRITTEN))
CALL(refusal_advice, (uint32_t refusal, PLACE(char)), tells(refusal, "refusal @ _ _ ~", WRITTEN))

const char *wulameron_code_text(uint32_t code)
{
    return code < sizeof code_texts / sizeof *code_texts ? code_texts[code] : "no such code";
}
