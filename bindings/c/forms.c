/* What a session over a log gives where its program doesn't answer escaped lines as it should, or doesn't end. Takes
 * a folder, in which it writes such programs. Compiled with transport.c, -DPATIENCE=3 and -DLONGEST=65536. Ends with
 * the line `N passed, M failed`, and with status 1 where one failed. */
#define _POSIX_C_SOURCE 200809L
#include "checks.h"
#include "wulameron.h"

#include <stdio.h>
#include <string.h>
#include <sys/stat.h>
#include <time.h>

static unsigned programs;
static const char *folder;

/* A program in words of the shell: its path. */
static const char *program(const char *words)
{
    static char path[512];
    FILE *file;
    snprintf(path, sizeof path, "%s/program-%u", folder, ++programs);
    file = fopen(path, "w");
    CHECK(file != NULL);
    if (file == NULL) return path;
    fprintf(file, "#!/bin/sh\n%s\n", words);
    fclose(file);
    CHECK(chmod(path, 0700) == 0);
    return path;
}

static uint32_t opens(const char *words, wulameron_session **session, char *message, size_t size, size_t *length)
{
    return wulameron_open_log(WULAMERON_VERSION, program(words), "log", 1, session, message, size, length);
}

/* A session whose program greets, and then does so with each line, as `$line`. */
static wulameron_session *answered(const char *words)
{
    char text[1024];
    wulameron_session *session = NULL;
    snprintf(text, sizeof text, "echo 'ready 3 5'\nwhile read -r line; do %s\ndone", words);
    GIVES(WULAMERON_OK, opens(text, &session, NULL, 0, NULL));
    return session;
}

/* The first line is of another form, or cut short, or tells what is wrong. */
static void greetings(void)
{
    static const char *const others[] = {"echo 'ready 3'", "echo 'ready 3 5 6'", "echo 'ready 3 five'", "echo ok; cat",
        "echo", "printf 'ready 3 5'", "printf 'log abc'", "printf 'ready 3 5\\nlog x\\n'; cat", "echo 'log %4'",
        "echo 'log %4g'",
        "echo 'ready 3 99999999999999999999'", "exec sleep 1000", "exec yes", "exec tr '\\0' x < /dev/zero"};
    wulameron_session *session = NULL;
    char message[64] = "xxxxxxxx";
    size_t k, length = 0;
    GIVES(WULAMERON_VERSION_DIFFERS, opens("echo 'ready 2 5'; cat", &session, message, sizeof message, &length));
    CHECK(length > 0 && session == NULL);
    GIVES(WULAMERON_OUT_OF_MEMORY, opens("echo 'out of memory'", &session, NULL, 0, NULL));
    for (k = 0; k < sizeof others / sizeof *others; k++) {
        GIVES(WULAMERON_ENDED, opens(others[k], &session, message, sizeof message, &length));
        CHECK(session == NULL && length > 0);
    }
    /* Of a text as much as there is room for, whole characters: here the fourth is of two bytes. */
    memset(message, 'x', sizeof message);
    GIVES(WULAMERON_LOG, opens("echo 'log abc%C3%A4d'", &session, message, 4, &length));
    CHECK(length == 6 && memcmp(message, "abcx", 4) == 0);
    GIVES(WULAMERON_NODE_IN_USE, opens("echo 'in use abc%c3%a4%20'", &session, message, 5, &length));
    CHECK(length == 6 && memcmp(message, "abc\303\244x", 6) == 0);
    GIVES(WULAMERON_LOG, opens("echo 'log %'", &session, message, 5, &length));
    CHECK(length == 0);
}

/* Each call whose reply is another one ends the session. */
static void other_replies(void)
{
    static const char *const replies[] = {"echo", "echo ok", "echo 'closed 4'", "echo 'refused x y'",
        "echo entries 2 x", "echo 'agreed 3 number=0'", "echo 'error: no such command'", "printf 'closed 3'; exit",
        "printf 'closed 3\\n\\n'", "printf 'closed 3\\nclosed 3\\n'", "exit", "tr '\\0' x < /dev/zero"};
    size_t k;
    for (k = 0; k < sizeof replies / sizeof *replies; k++) {
        wulameron_session *session = answered(replies[k]);
        uint64_t node = 0, number = 7, count = 7;
        uint32_t refusal = 7;
        GIVES(WULAMERON_OK, wulameron_node(session, &node));
        CHECK(node == 5);
        GIVES(WULAMERON_OK, wulameron_begin(session, WULAMERON_EVENT, WULAMERON_OPEN, 5, WULAMERON_TEXT("lamps")));
        GIVES(WULAMERON_ENDED, k % 2 == 0 ? wulameron_close(session, 3)
                                          : wulameron_send(session, 3, &number, &refusal));
        GIVES(WULAMERON_ENDED, wulameron_list(session, &count));
        CHECK(number == 7 && refusal == 7 && count == 7);
        GIVES(WULAMERON_ENDED, wulameron_close_session(session));
    }
}

/* A reply of its own for each word, and texts that are none. */
static void leaves(void)
{
    wulameron_session *session = answered("case $line in plain*) echo 'plain a%4'; exit;; entries) echo 'entries 1 "
                                          "published,event,1,2,3,00zz,%';; *) echo \"slot ${line#* } empty\";; esac");
    uint64_t count = 0, number = 9, nodes = 9, max_nodes = 9;
    uint32_t state = 9, pattern = 9;
    uint8_t hash[20];
    char name[4];
    size_t length = 9;
    GIVES(WULAMERON_OK, wulameron_list(session, &count));
    GIVES(WULAMERON_OK, wulameron_get_entry(session, 0, &state, &pattern, &number, &nodes, &max_nodes));
    CHECK(state == WULAMERON_PUBLISHED && pattern == WULAMERON_EVENT && number == 1 && nodes == 2 && max_nodes == 3);
    GIVES(WULAMERON_OK, wulameron_get_entry_name(session, 0, name, sizeof name, &length));
    CHECK(length == 0);
    GIVES(WULAMERON_SLOT_EMPTY, wulameron_get_name(session, 4, name, sizeof name, &length));
    GIVES(WULAMERON_ENDED, wulameron_get_entry_hash(session, 0, hash, sizeof hash, &length));
    GIVES(WULAMERON_ENDED, wulameron_close_session(session));
    session = answered("echo 'plain a%4'");
    GIVES(WULAMERON_ENDED, wulameron_line(session, WULAMERON_TEXT("list")));
    GIVES(WULAMERON_ENDED, wulameron_close_session(session));
    /* The program writes what nobody asked for. */
    session = answered("echo 'closed 3'; sleep 0.1; echo 'closed 3'");
    GIVES(WULAMERON_OK, wulameron_close(session, 3));
    {
        struct timespec pause = {0, 600000000};
        nanosleep(&pause, NULL);
    }
    GIVES(WULAMERON_ENDED, wulameron_close(session, 3));
    GIVES(WULAMERON_ENDED, wulameron_close_session(session));
}

/* The states of nodes, and a word that is none. */
static void states(void)
{
    static const uint32_t wanted[] = {WULAMERON_ALIVE, WULAMERON_NODE_LOST, WULAMERON_DEAD, WULAMERON_NODE_ENDED};
    wulameron_session *session = answered("echo 'nodes 5 0,alive 3,lost 5,dead 8,ended 9,asleep'");
    uint64_t count = 0, node = 9, k;
    uint32_t state = 9;
    GIVES(WULAMERON_OK, wulameron_nodes(session, &count));
    CHECK(count == 5);
    for (k = 0; k < 4; k++) {
        GIVES(WULAMERON_OK, wulameron_get_node(session, k, &node, &state));
        CHECK(state == wanted[k]);
    }
    GIVES(WULAMERON_ENDED, wulameron_get_node(session, 4, &node, &state));
    CHECK(node == 8 && state == WULAMERON_NODE_ENDED);
    GIVES(WULAMERON_ENDED, wulameron_close_session(session));
}

/* Where the log refuses for good each call tells so, and where it refuses once the others go on. */
static void refusing(void)
{
    wulameron_session *session = answered("echo 'log the%20log%20is%20gone'; exit 3");
    uint64_t count = 7, releases = 7, removals = 7;
    char reply[64];
    size_t length = 0;
    GIVES(WULAMERON_LOG, wulameron_list(session, &count));
    GIVES(WULAMERON_LOG, wulameron_begin(session, WULAMERON_EVENT, WULAMERON_OPEN, 5, WULAMERON_TEXT("lamps")));
    GIVES(WULAMERON_LOG, wulameron_close(session, 3));
    GIVES(WULAMERON_OK, wulameron_get_reply(session, reply, sizeof reply, &length));
    CHECK(length == 15 && memcmp(reply, "the log is gone", 15) == 0 && count == 7);
    GIVES(WULAMERON_LOG, wulameron_close_session(session));
    session = answered("case $line in clean*) echo 'refused by the log a%3Ab';; "
                       "*) echo \"slot ${line#* } empty\";; esac");
    GIVES(WULAMERON_LOG, wulameron_clean(session, 5, 0, &count, &releases, &removals));
    GIVES(WULAMERON_OK, wulameron_get_reply(session, reply, sizeof reply, &length));
    CHECK(length == 3 && memcmp(reply, "a:b", 3) == 0 && releases == 7 && removals == 7);
    GIVES(WULAMERON_SLOT_EMPTY, wulameron_close(session, 3));
    GIVES(WULAMERON_OK, wulameron_close_session(session));
    session = answered("case $line in 'close 7') echo 'not closed 7';; *) echo \"slot ${line#* } empty\";; esac");
    GIVES(WULAMERON_NOT_CLOSED, wulameron_close(session, 7));
    GIVES(WULAMERON_NOT_CLOSED, wulameron_close_session(session));
}

/* A program that tells that the session was lost, by a reply or unasked: each later call tells so, and what was held. */
static void lost(void)
{
    wulameron_session *session = answered("case $line in event*) echo 'ok 3 number=0';; "
                                          "plain*5*) echo 'plain ok%205%20number%3D1';; plain*6*) echo 'plain ok%206';; "
                                          "'close 6') echo 'closed 6';; *) echo lost; exit 3;; esac");
    struct timespec pause = {0, 600000000};
    uint64_t number = 7, count = 7;
    uint32_t refusal = 7;
    char reply[64];
    size_t length = 0;
    GIVES(WULAMERON_OK, wulameron_begin(session, WULAMERON_EVENT, WULAMERON_OPEN, 5, WULAMERON_TEXT("two lamps")));
    GIVES(WULAMERON_OK, wulameron_send(session, 3, &number, &refusal));
    GIVES(WULAMERON_OK, wulameron_line(session, WULAMERON_TEXT("event  open 5 5 doors%")));
    GIVES(WULAMERON_OK, wulameron_line(session, WULAMERON_TEXT("event open 1 6 bells max_nodes=1")));
    GIVES(WULAMERON_OK, wulameron_close(session, 6));
    GIVES(WULAMERON_LOST, wulameron_list(session, &count));
    GIVES(WULAMERON_LOST, wulameron_begin(session, WULAMERON_EVENT, WULAMERON_OPEN, 5, WULAMERON_TEXT("lamps")));
    GIVES(WULAMERON_LOST, wulameron_close(session, 3));
    GIVES(WULAMERON_OK, wulameron_get_reply(session, reply, sizeof reply, &length));
    CHECK(length == 20 && memcmp(reply, "two%20lamps doors%25", 20) == 0 && count == 7);
    GIVES(WULAMERON_LOST, wulameron_close_session(session));
    session = answered("echo 'closed 3'; sleep 0.1; echo lost; exit 3");
    GIVES(WULAMERON_OK, wulameron_close(session, 3));
    nanosleep(&pause, NULL);
    GIVES(WULAMERON_LOST, wulameron_begin(session, WULAMERON_EVENT, WULAMERON_OPEN, 5, WULAMERON_TEXT("lamps")));
    GIVES(WULAMERON_OK, wulameron_get_reply(session, reply, sizeof reply, &length));
    CHECK(length == 0);
    GIVES(WULAMERON_LOST, wulameron_close_session(session));
    /* Another last line, and a front of this one. */
    session = answered("echo 'closed 3'; sleep 0.1; echo losts; exit 3");
    GIVES(WULAMERON_OK, wulameron_close(session, 3));
    nanosleep(&pause, NULL);
    GIVES(WULAMERON_ENDED, wulameron_close(session, 3));
    GIVES(WULAMERON_ENDED, wulameron_close_session(session));
    session = answered("printf lost; exit 3");
    GIVES(WULAMERON_ENDED, wulameron_close(session, 3));
    GIVES(WULAMERON_ENDED, wulameron_close_session(session));
}

/* A program that doesn't end is killed in time. */
static void endless(void)
{
    static const char *const thens[] = {"exec sleep 1000", "read -r line; exec yes",
        "read -r line; exec tr '\\0' x < /dev/zero",
        "trap '' TERM INT HUP; exec < /dev/null > /dev/null; exec sleep 1000"};
    size_t k;
    for (k = 0; k < sizeof thens / sizeof *thens; k++) {
        wulameron_session *session = NULL;
        time_t begin = time(NULL);
        uint64_t count = 0;
        char words[256];
        snprintf(words, sizeof words, "echo 'ready 3 5'; %s", thens[k]);
        GIVES(WULAMERON_OK, opens(words, &session, NULL, 0, NULL));
        GIVES(WULAMERON_ENDED, wulameron_list(session, &count));
        GIVES(WULAMERON_ENDED, wulameron_close_session(session));
        CHECK(time(NULL) - begin < 20);
    }
}

int main(int count, char **words)
{
    folder = count > 1 ? words[1] : ".";
    greetings();
    other_replies();
    leaves();
    states();
    refusing();
    lost();
    endless();
    return counted();
}
