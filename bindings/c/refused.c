/* Refuses each request for memory in turn, and then each from there on: over a table, or with a folder as its argument
 * over logs in it. Each call has to give WULAMERON_OUT_OF_MEMORY then, or a refusal that is named so, and whatever was
 * refused, the session goes on and nothing is lost. Linked with -Wl,--wrap=malloc,--wrap=realloc,--wrap=calloc. */
#include "wulameron.h"

#include <stdio.h>
#include <stdlib.h>

void *__real_malloc(size_t size);
void *__real_realloc(void *pointer, size_t size);
void *__real_calloc(size_t count, size_t size);
void *__wrap_malloc(size_t size);
void *__wrap_realloc(void *pointer, size_t size);
void *__wrap_calloc(size_t count, size_t size);

static unsigned requests, refused, first, last, logs;
static int counts;
static const char *folder; /* null over tables */

static int is_refused(void)
{
    if (!counts) return 0;
    requests++;
    if (requests < first || requests > last) return 0;
    refused++;
    return 1;
}

void *__wrap_malloc(size_t size)
{
    return is_refused() ? NULL : __real_malloc(size);
}

void *__wrap_realloc(void *pointer, size_t size)
{
    return is_refused() ? NULL : __real_realloc(pointer, size);
}

void *__wrap_calloc(size_t count, size_t size)
{
    return is_refused() ? NULL : __real_calloc(count, size);
}

/* The numbers of refusals named OutOfMemory: the last value of each enum. */
static int is_out_of_memory(uint32_t refusal)
{
    return refusal == WULAMERON_EVENT_OPEN_ERROR + 18 || refusal == WULAMERON_EVENT_CREATE_ERROR + 7;
}

static unsigned wrong;

/* Whether it was done. */
static int done(uint32_t code, uint32_t refusal, unsigned before)
{
    if (code == WULAMERON_OK) return 1;
    if (refused == before ||
        !(code == WULAMERON_OUT_OF_MEMORY || (code == WULAMERON_REFUSED && is_out_of_memory(refusal)))) {
        wrong++;
        printf("requests %u to %u refused: code %u, refusal %u\n", first, last, code, refusal);
    }
    return 0;
}

static void asks(wulameron_session *session, uint32_t how, uint64_t node, uint32_t slot)
{
    uint64_t number = 0;
    uint32_t code, refusal = 0;
    unsigned before = refused;
    if (!done(wulameron_begin(session, WULAMERON_EVENT, how, node, WULAMERON_TEXT("lamps")), 0, before)) return;
    before = refused;
    if (!done(wulameron_set_number(session, WULAMERON_MAX_LISTENERS, 4), 0, before)) return;
    before = refused;
    if (!done(wulameron_add_attribute(session, WULAMERON_TEXT("place"), WULAMERON_TEXT("attic")), 0, before)) return;
    before = refused;
    code = wulameron_send(session, slot, &number, &refusal);
    (void)done(code, refusal, before);
}

static uint32_t opens(wulameron_session **session)
{
    char path[512];
    if (folder == NULL) return wulameron_open_table(WULAMERON_VERSION, session);
    snprintf(path, sizeof path, "%s/refused-%u", folder, logs++);
    return wulameron_open_log(WULAMERON_VERSION, NULL, path, 1, session, NULL, 0, NULL);
}

/* A line, and its reply, which is lost where there is no memory for it. */
static void writes_line(wulameron_session *session)
{
    char reply[256];
    size_t length = 0;
    unsigned before = refused;
    uint32_t code = wulameron_line(session, WULAMERON_TEXT("list"));
    if (!done(code, 0, before)) return;
    code = wulameron_get_reply(session, reply, sizeof reply, &length);
    if (done(code, 0, before) && length == 0) {
        wrong++;
        printf("requests %u to %u refused: a reply has no text\n", first, last);
    }
}

static void runs(void)
{
    wulameron_session *session = NULL;
    uint8_t bytes[256];
    size_t length = 0;
    uint64_t count = 0;
    unsigned before = refused;
    if (!done(opens(&session), 0, before)) return;
    asks(session, WULAMERON_CREATE, 1, 0);
    before = refused;
    if (wulameron_get_number(session, 0, WULAMERON_MAX_NODES, &count) == WULAMERON_OK) {
        (void)done(wulameron_get_bytes(session, 0, bytes, sizeof bytes, &length), 0, before);
        asks(session, WULAMERON_OPEN, folder == NULL ? 2 : 1, 1);
    }
    writes_line(session);
    before = refused;
    (void)done(wulameron_list(session, &count), 0, before);
    /* Nothing is refused any more, and the session goes on. */
    counts = 0;
    (void)wulameron_close(session, 0);
    (void)wulameron_close(session, 1);
    if (wulameron_list(session, &count) != WULAMERON_OK || count != 0) {
        wrong++;
        printf("requests %u to %u refused: %u services are left\n", first, last, (unsigned)count);
    }
    (void)wulameron_close_session(session);
}

int main(int words, char **word)
{
    unsigned round, passed = 0;
    int alone;
    folder = words > 1 ? word[1] : NULL;
    for (alone = 0; alone < 2; alone++) {
        for (round = 1; round < 1000; round++) {
            unsigned before = wrong;
            requests = 0;
            refused = 0;
            first = round;
            last = alone ? round : 1000000;
            counts = 1;
            runs();
            counts = 0;
            if (wrong == before) passed++;
            if (refused == 0) break;
        }
    }
    printf("%u passed, %u failed\n", passed, wrong);
    return wrong == 0 ? 0 : 1;
}
