/* A process that meets others over a log: `meet FILE`, once in each of two terminals. It reads lines such as
 *
 *   create lamps 4      creates the service of events `lamps` with room for four listeners
 *   open lamps 3        opens it for at least three
 *
 * and answers each with what was agreed, or with why it is refused. At the end of its input it closes all. */
#include "wulameron.h"

#include <stdio.h>
#include <string.h>

enum { LINE = 512 };

/* The text that a call of wulameron.h writes for a refusal. */
typedef uint32_t call_of_text(uint32_t refusal, char *output, size_t size, size_t *length);

static void prints(call_of_text *call, uint32_t refusal, const char *end)
{
    char text[1024];
    size_t length = 0;
    if (call(refusal, text, sizeof text, &length) == WULAMERON_OK) printf("%.*s%s", (int)length, text, end);
}

/* Asks for a service, and answers. */
static uint32_t asks(wulameron_session *session, uint32_t slot, uint32_t how, const char *name, uint64_t listeners)
{
    uint64_t node = 0, number = 0;
    uint32_t refusal = 0, code = wulameron_node(session, &node);
    if (code == WULAMERON_OK) code = wulameron_begin(session, WULAMERON_EVENT, how, node, name, strlen(name));
    if (code == WULAMERON_OK) code = wulameron_set_number(session, WULAMERON_MAX_LISTENERS, listeners);
    if (code == WULAMERON_OK) code = wulameron_send(session, slot, &number, &refusal);
    if (code == WULAMERON_OK) code = wulameron_get_number(session, slot, WULAMERON_MAX_LISTENERS, &listeners);
    if (code == WULAMERON_REFUSED) {
        printf("refused: ");
        prints(wulameron_refusal_name, refusal, "; ");
        prints(wulameron_refusal_advice, refusal, "\n");
    } else if (code == WULAMERON_OK) {
        printf("node %llu: %s has room for %llu listeners\n", (unsigned long long)node, name,
            (unsigned long long)listeners);
    } else {
        printf("%s\n", wulameron_code_text(code));
    }
    fflush(stdout);
    return code;
}

/* Each line of the input, for a slot of its own. */
static void answers(wulameron_session *session)
{
    char line[LINE], how[LINE], name[LINE];
    unsigned long long listeners;
    uint32_t slot = 0;
    while (fgets(line, sizeof line, stdin) != NULL) {
        if (sscanf(line, "%511s %511s %llu", how, name, &listeners) != 3) {
            puts("a line is `create NAME LISTENERS` or `open NAME LISTENERS`");
            fflush(stdout);
        } else if (asks(session, slot, strcmp(how, "create") == 0 ? WULAMERON_CREATE : WULAMERON_OPEN, name, listeners)
            == WULAMERON_OK) {
            slot++;
        }
    }
}

int main(int count, char **words)
{
    wulameron_session *session = NULL;
    char message[512];
    size_t length = 0;
    uint32_t code;
    if (count != 2) {
        fputs("usage: meet FILE\n", stderr);
        return 2;
    }
    code = wulameron_open_log(WULAMERON_VERSION, NULL, words[1], WULAMERON_ANY_NODE, &session, message, sizeof message,
        &length);
    if (code != WULAMERON_OK) {
        if (length > sizeof message) length = sizeof message;
        fprintf(stderr, "meet: %s: %.*s\n", wulameron_code_text(code), (int)length, message);
        return 1;
    }
    answers(session);
    code = wulameron_close_session(session);
    if (code != WULAMERON_OK) fprintf(stderr, "meet: %s\n", wulameron_code_text(code));
    return code == WULAMERON_OK ? 0 : 1;
}
