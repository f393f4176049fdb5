/* What a session over a log gives where something goes wrong: its program is killed or stopped, this process is killed
 * or forks, the node is taken. Takes a folder for logs; WULAMERON names the program. Compiled with transport.c
 * and -DPATIENCE=3, so that a call that waits for a program that is stopped waits three seconds. Ends with the line
 * `N passed, M failed`. */
#define _POSIX_C_SOURCE 200809L
#include "checks.h"
#include "wulameron.h"

#include <fcntl.h>
#include <pthread.h>
#include <signal.h>
#include <stdio.h>
#include <stdlib.h>
#include <string.h>
#include <sys/wait.h>
#include <time.h>
#include <unistd.h>

static unsigned logs;
static const char *folder;

static uint32_t opens(uint64_t node, wulameron_session **session)
{
    char path[512];
    snprintf(path, sizeof path, "%s/fault-%u", folder, logs);
    return wulameron_open_log(WULAMERON_VERSION, NULL, path, node, session, NULL, 0, NULL);
}

static wulameron_session *opened(uint64_t node)
{
    wulameron_session *session = NULL;
    GIVES(WULAMERON_OK, opens(node, &session));
    return session;
}

/* The node creates the service `lamps`, which the slot 0 holds. */
static uint32_t creates(wulameron_session *session, uint64_t node)
{
    uint64_t number;
    uint32_t refusal;
    uint32_t code = wulameron_begin(session, WULAMERON_EVENT, WULAMERON_CREATE, node, WULAMERON_TEXT("lamps"));
    return code == WULAMERON_OK ? wulameron_send(session, 0, &number, &refusal) : code;
}

static uint64_t listed(wulameron_session *session)
{
    uint64_t count = 99;
    return wulameron_list(session, &count) == WULAMERON_OK ? count : 99;
}

static void pauses(long milliseconds)
{
    struct timespec pause = {milliseconds / 1000, milliseconds % 1000 * 1000000};
    nanosleep(&pause, NULL);
}

/* The program that was started last, by what the kernel tells of this process. */
static pid_t newest(void)
{
    char path[64];
    int found = 0, next;
    FILE *file;
    snprintf(path, sizeof path, "/proc/self/task/%d/children", (int)getpid());
    file = fopen(path, "r");
    while (file != NULL && fscanf(file, "%d", &next) == 1) found = next;
    if (file != NULL) fclose(file);
    CHECK(found > 1);
    return found > 1 ? found : getpid();
}

/* Kills the program that was started last, and waits until it has ended; who waits for its status still gets that. */
static void kills_newest(void)
{
    pid_t program = newest();
    siginfo_t ended;
    kill(program, SIGKILL);
    CHECK(waitid(P_PID, (id_t)program, &ended, WEXITED | WNOWAIT) == 0);
}

/* Each call whose program is gone gives one code, and so does the close, which frees the session. */
static void each_ends(wulameron_session *session)
{
    uint64_t number = 7, other = 7, third = 7;
    uint32_t small = 7, second = 7;
    uint8_t bytes[20];
    char name[8];
    size_t length = 7, other_length = 7;
    GIVES(WULAMERON_ENDED, wulameron_begin(session, WULAMERON_EVENT, WULAMERON_OPEN, 1, WULAMERON_TEXT("lamps")));
    GIVES(WULAMERON_ENDED, wulameron_set_number(session, WULAMERON_MAX_NODES, 1));
    GIVES(WULAMERON_ENDED, wulameron_set_none(session, WULAMERON_DEADLINE));
    GIVES(WULAMERON_ENDED, wulameron_set_duration(session, WULAMERON_DEADLINE, 1, 0));
    GIVES(WULAMERON_ENDED, wulameron_set_type(session, WULAMERON_PAYLOAD, 1, WULAMERON_TEXT("u8"), 1, 1));
    GIVES(WULAMERON_ENDED, wulameron_add_attribute(session, WULAMERON_TEXT("k"), WULAMERON_TEXT("v")));
    GIVES(WULAMERON_ENDED, wulameron_require_key(session, WULAMERON_TEXT("k")));
    GIVES(WULAMERON_ENDED, wulameron_set_time(session, 1, 0));
    GIVES(WULAMERON_ENDED, wulameron_set_clock_fault(session));
    GIVES(WULAMERON_ENDED, wulameron_send(session, 1, &number, &small));
    GIVES(WULAMERON_ENDED, wulameron_close(session, 0));
    GIVES(WULAMERON_ENDED, wulameron_abandon(session, 0));
    GIVES(WULAMERON_ENDED, wulameron_get_service(session, 0, &small, &number, &other));
    GIVES(WULAMERON_ENDED, wulameron_get_number(session, 0, WULAMERON_MAX_NODES, &number));
    GIVES(WULAMERON_ENDED, wulameron_get_duration(session, 0, WULAMERON_DEADLINE, &number, &small));
    GIVES(WULAMERON_ENDED, wulameron_get_type(session, 0, WULAMERON_PAYLOAD, &small, &number, &other));
    GIVES(WULAMERON_ENDED, wulameron_get_type_name(session, 0, WULAMERON_PAYLOAD, name, sizeof name, &length));
    GIVES(WULAMERON_ENDED, wulameron_get_name(session, 0, name, sizeof name, &length));
    GIVES(WULAMERON_ENDED, wulameron_get_hash(session, 0, bytes, sizeof bytes, &length));
    GIVES(WULAMERON_ENDED, wulameron_get_attribute_count(session, 0, &number));
    GIVES(WULAMERON_ENDED, wulameron_get_attribute(session, 0, 0, name, 4, &length, name + 4, 4, &other_length));
    GIVES(WULAMERON_ENDED, wulameron_get_bytes(session, 0, bytes, sizeof bytes, &length));
    GIVES(WULAMERON_ENDED, wulameron_list(session, &number));
    GIVES(WULAMERON_ENDED, wulameron_get_entry(session, 0, &small, &second, &number, &other, &third));
    GIVES(WULAMERON_ENDED, wulameron_get_entry_name(session, 0, name, sizeof name, &length));
    GIVES(WULAMERON_ENDED, wulameron_get_entry_hash(session, 0, bytes, sizeof bytes, &length));
    GIVES(WULAMERON_ENDED, wulameron_line(session, WULAMERON_TEXT("list")));
    GIVES(WULAMERON_ENDED, wulameron_nodes(session, &number));
    GIVES(WULAMERON_ENDED, wulameron_get_node(session, 0, &number, &small));
    GIVES(WULAMERON_ENDED, wulameron_clean(session, 2, 0, &number, &other, &third));
    CHECK(number == 7 && other == 7 && third == 7 && small == 7 && second == 7 && length == 7 && other_length == 7);
    GIVES(WULAMERON_ENDED, wulameron_close_session(session));
}

/* A program that is killed: its calls end, its node is dead, and another session gives back what that had. */
static void killed_program(void)
{
    wulameron_session *first = opened(1), *second = NULL;
    uint64_t node = 0, nodes = 9, releases = 9, removals = 9;
    uint32_t state = 0;
    GIVES(WULAMERON_OK, creates(first, 1));
    kills_newest();
    each_ends(first);
    second = opened(2);
    GIVES(WULAMERON_OK, wulameron_nodes(second, &nodes));
    GIVES(WULAMERON_OK, wulameron_get_node(second, 0, &node, &state));
    /* It began by giving back what dead nodes had. */
    CHECK(nodes == 2 && node == 1 && state == WULAMERON_NODE_ENDED && listed(second) == 0);
    /* One that dies beside it is given back when it is asked for: its place, its tag, the segment, the description. */
    first = opened(1);
    GIVES(WULAMERON_OK, creates(first, 1));
    kills_newest();
    GIVES(WULAMERON_ENDED, wulameron_close_session(first));
    CHECK(listed(second) == 1);
    GIVES(WULAMERON_OK, wulameron_nodes(second, &nodes));
    GIVES(WULAMERON_OK, wulameron_get_node(second, 0, &node, &state));
    CHECK(nodes == 2 && node == 1 && state == WULAMERON_DEAD);
    GIVES(WULAMERON_OK, wulameron_clean(second, 1, 1, &nodes, &releases, &removals));
    CHECK(nodes == 1 && releases == 1 && removals == 3 && listed(second) == 1);
    GIVES(WULAMERON_OK, wulameron_clean(second, WULAMERON_ANY_NODE, 0, &nodes, &releases, &removals));
    CHECK(nodes == 1 && releases == 1 && removals == 3 && listed(second) == 0);
    GIVES(WULAMERON_OK, wulameron_close_session(second));
}

/* A program that is stopped: a call waits its time, and the close kills it. */
static void stopped_program(void)
{
    wulameron_session *session = opened(1);
    uint64_t count = 9;
    pid_t program = newest();
    GIVES(WULAMERON_OK, creates(session, 1));
    kill(program, SIGSTOP);
    GIVES(WULAMERON_ENDED, wulameron_list(session, &count));
    CHECK(count == 9 && kill(program, 0) == 0);
    GIVES(WULAMERON_ENDED, wulameron_close_session(session));
    CHECK(kill(program, 0) != 0);
    session = opened(2);
    CHECK(listed(session) == 0);
    GIVES(WULAMERON_OK, wulameron_close_session(session));
}

/* This process is killed: the program closes what its slots hold. */
static void killed_caller(void)
{
    wulameron_session *session = opened(2);
    unsigned round = 0;
    pid_t caller;
    fflush(stdout);
    caller = fork();
    if (caller == 0) {
        wulameron_session *held = NULL;
        if (opens(1, &held) == WULAMERON_OK && creates(held, 1) == WULAMERON_OK) raise(SIGKILL);
        _exit(1);
    }
    CHECK(waitpid(caller, NULL, 0) == caller);
    while (listed(session) != 0 && round++ < 200) pauses(20);
    CHECK(listed(session) == 0);
    GIVES(WULAMERON_OK, creates(session, 2));
    CHECK(listed(session) == 1);
    GIVES(WULAMERON_OK, wulameron_close_session(session));
}

/* In the child of a fork the session is of no use, and in this process it goes on. */
static void forks(void)
{
    wulameron_session *session = opened(1);
    int status = 1;
    pid_t child;
    GIVES(WULAMERON_OK, creates(session, 1));
    fflush(stdout);
    child = fork();
    if (child == 0) {
        uint64_t count;
        int is_right = wulameron_list(session, &count) == WULAMERON_ENDED;
        _exit(is_right && wulameron_close_session(session) == WULAMERON_ENDED ? 0 : 1);
    }
    CHECK(waitpid(child, &status, 0) == child && status == 0);
    CHECK(listed(session) == 1);
    GIVES(WULAMERON_OK, wulameron_close_session(session));
}

/* What can't be opened is named. */
static void refused_opens(void)
{
    wulameron_session *first = opened(1), *second = first;
    char message[256];
    size_t length = 0;
    GIVES(WULAMERON_NODE_IN_USE, opens(1, &second));
    CHECK(second == NULL);
    GIVES(WULAMERON_NO_PROGRAM,
        wulameron_open_log(WULAMERON_VERSION, "/not/here", "log", 1, &second, message, sizeof message, &length));
    CHECK(length > 11 && memcmp(message, "/not/here: ", 11) == 0);
    message[3] = 'x';
    GIVES(WULAMERON_NO_PROGRAM,
        wulameron_open_log(WULAMERON_VERSION, "/not/here", "log", 1, &second, message, 3, &length));
    CHECK(length > 11 && memcmp(message, "/nox", 4) == 0);
    GIVES(WULAMERON_ENDED,
        wulameron_open_log(WULAMERON_VERSION, "true", "log", 1, &second, message, sizeof message, &length));
    CHECK(length == strlen("true: it isn't a program for sessions"));
    GIVES(WULAMERON_LOG,
        wulameron_open_log(WULAMERON_VERSION, NULL, "/not/here/log", 1, &second, message, sizeof message, &length));
    CHECK(length > 0 && length <= sizeof message);
    GIVES(WULAMERON_VERSION_DIFFERS, wulameron_open_log(WULAMERON_VERSION + 1, NULL, NULL, 1, &second, NULL, 0, NULL));
    GIVES(WULAMERON_NULL, wulameron_open_log(WULAMERON_VERSION, NULL, NULL, 1, NULL, NULL, 0, NULL));
    GIVES(WULAMERON_NULL, wulameron_open_log(WULAMERON_VERSION, NULL, NULL, 1, &second, NULL, 1, NULL));
    CHECK(second == NULL);
    GIVES(WULAMERON_OK, wulameron_close_session(first));
}

/* How many descriptors there are that a program would inherit. */
static int inherited(void)
{
    int descriptor, found = 0;
    for (descriptor = 0; descriptor < 256; descriptor++) {
        int flags = fcntl(descriptor, F_GETFD);
        if (flags >= 0 && (flags & FD_CLOEXEC) == 0) found++;
    }
    return found;
}

/* No other program inherits what leads to the session, and it isn't in the place of a standard stream. */
static void descriptors(void)
{
    int before = inherited(), input = dup(STDIN_FILENO);
    wulameron_session *session;
    close(STDIN_FILENO);
    session = opened(1);
    CHECK(fcntl(STDIN_FILENO, F_GETFD) < 0);
    CHECK(inherited() <= before);
    CHECK(listed(session) == 0);
    GIVES(WULAMERON_OK, wulameron_close_session(session));
    if (input >= 0) {
        dup2(input, STDIN_FILENO);
        close(input);
    }
    CHECK(inherited() == before);
}

/* Who lets nobody wait for children learns all the same whether all was closed. */
static void ignored_children(void)
{
    wulameron_session *session;
    signal(SIGCHLD, SIG_IGN);
    session = opened(1);
    GIVES(WULAMERON_OK, creates(session, 1));
    GIVES(WULAMERON_OK, wulameron_close_session(session));
    signal(SIGCHLD, SIG_DFL);
    session = opened(2);
    CHECK(listed(session) == 0);
    GIVES(WULAMERON_OK, wulameron_close_session(session));
}

/* Gives null where no service stands. */
static void *lists(void *session)
{
    return listed((wulameron_session *)session) == 0 ? NULL : session;
}

/* A call beside another. */
static void two_threads(void)
{
    wulameron_session *session = opened(1);
    uint64_t count = 0;
    pid_t program = newest();
    void *answer = session;
    pthread_t other;
    kill(program, SIGSTOP);
    if (pthread_create(&other, NULL, lists, session) == 0) {
        pauses(300);
        GIVES(WULAMERON_BUSY, wulameron_list(session, &count));
        GIVES(WULAMERON_BUSY, wulameron_close_session(session));
        kill(program, SIGCONT);
        pthread_join(other, &answer);
    }
    CHECK(answer == NULL);
    GIVES(WULAMERON_OK, wulameron_close_session(session));
}

int main(int count, char **words)
{
    void (*const parts[])(void) = {killed_program, stopped_program, killed_caller, forks, refused_opens, descriptors,
        ignored_children, two_threads};
    folder = count > 1 ? words[1] : ".";
    for (logs = 0; logs < sizeof parts / sizeof *parts; logs++) parts[logs]();
    return counted();
}
