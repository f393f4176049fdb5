/* The program that holds a session over a log, and the stream that leads to it. No proof covers this file. */
#define _POSIX_C_SOURCE 200809L
#include "lines.h"
#include "wulameron.h"

#include <errno.h>
#include <fcntl.h>
#include <poll.h>
#include <signal.h>
#include <spawn.h>
#include <stdio.h>
#include <stdlib.h>
#include <string.h>
#include <sys/socket.h>
#include <sys/wait.h>
#include <time.h>
#include <unistd.h>

#ifndef PATIENCE
#define PATIENCE WULAMERON_PATIENCE
#endif
/* The longest reply. */
#ifndef LONGEST
#define LONGEST 0x7fffffffu
#endif

/* The number of the form of lines, the longest first line, the status of a program that posix_spawnp couldn't start
 * where the system tells so late, what stands for the status of one that was killed, and a wait in milliseconds. */
enum { FORM = 3, GREETING = 65536, NOT_STARTED = 127, KILLED = 256, WAIT = 1000 * PATIENCE };

extern char **environ;

/* Milliseconds of a clock that nobody sets. */
static int64_t now(void)
{
    struct timespec time = {0, 0};
    clock_gettime(CLOCK_MONOTONIC, &time);
    return (int64_t)time.tv_sec * 1000 + time.tv_nsec / 1000000;
}

/* ---- the stream */

/* Sends or receives as soon as that can be: how many bytes, and 0 at an end, at a fault, or after a wait in vain. */
static size_t moves(wulameron_program *program, char *at, size_t length, short event)
{
    struct pollfd stream = {.fd = program->stream, .events = event};
    int64_t end = now() + WAIT, rest;
    ssize_t moved;
    do {
        rest = end - now();
        moved = poll(&stream, 1, rest > 0 ? (int)rest : 0);
        if (moved == 0) program->is_silent = 1;
        else if (moved > 0 && event == POLLOUT) moved = send(program->stream, at, length, MSG_NOSIGNAL | MSG_DONTWAIT);
        else if (moved > 0) moved = recv(program->stream, at, length, MSG_DONTWAIT);
    } while (moved < 0 && (errno == EINTR || errno == EAGAIN) && rest > 0);
    return moved > 0 ? (size_t)moved : 0;
}

/* Reads a line without its end, behind which there must be nothing. What there is no memory for is thrown away. */
static uint32_t reads_line(wulameron_program *program, wulameron_text *line, size_t longest)
{
    char dropped[4096], *end = NULL;
    size_t total = 0, moved;
    uint32_t code = WULAMERON_OK;
    for (line->length = 0; end == NULL; total += moved) {
        char *at = dropped;
        if (code == WULAMERON_OK && !wulameron_has_room(line, 1)) code = WULAMERON_OUT_OF_MEMORY;
        if (code == WULAMERON_OK) at = line->bytes + line->length;
        moved = moves(program, at, at != dropped ? line->size - line->length : sizeof dropped, POLLIN);
        end = (char *)memchr(at, '\n', moved);
        if (moved == 0 || total > longest || (end != NULL && end != at + moved - 1)) return WULAMERON_ENDED;
        if (at != dropped) line->length += moved - (end != NULL);
    }
    return code;
}

/* The last line of a program whose session with a database was lost while it waited for a line. */
static const char lost[] = "lost\n";

uint32_t wulameron_program_state(wulameron_program *program)
{
    char bytes[sizeof lost];
    ssize_t found = recv(program->stream, bytes, sizeof bytes, MSG_PEEK | MSG_DONTWAIT);
    int is_quiet = found < 0 && (errno == EAGAIN || errno == EINTR);
    int is_lost = found == sizeof lost - 1 && memcmp(bytes, lost, sizeof lost - 1) == 0;
    if (program->owner != getpid()) return WULAMERON_ENDED;
    if (program->over == WULAMERON_OK && !is_quiet) program->over = is_lost ? WULAMERON_LOST : WULAMERON_ENDED;
    return program->over;
}

uint32_t wulameron_program_ask(wulameron_program *program, const wulameron_text *line, wulameron_text *reply)
{
    size_t sent, moved = 1;
    uint32_t code = WULAMERON_ENDED;
    if (!wulameron_has_room(reply, LEAST)) return WULAMERON_OUT_OF_MEMORY;
    for (sent = 0; sent < line->length && moved > 0; sent += moved)
        moved = moves(program, line->bytes + sent, line->length - sent, POLLOUT);
    /* The program that takes no line any more may have told why before. */
    if (moved > 0) code = reads_line(program, reply, LONGEST);
    else code = wulameron_program_state(program);
    if (code == WULAMERON_OK && reply->length == sizeof lost - 2 && memcmp(reply->bytes, lost, reply->length) == 0)
        code = WULAMERON_LOST;
    if (code == WULAMERON_ENDED || code == WULAMERON_LOST) program->over = code;
    return code;
}

/* ---- the program */

/* The variable that names the program, and its name before version 3. */
static const char variable[] = "WULAMERON", old_variable[] = "WULAMERON_PROGRAM";

/* What a variable names; null where it isn't set, or is empty. */
static const char *named_by(const char *name)
{
    const char *value = getenv(name);
    return value != NULL && *value != 0 ? value : NULL;
}

/* The environment without the variable that named the program; null where there is no memory. The caller frees it. */
static char **without_variable(void)
{
    const size_t length = sizeof variable - 1;
    size_t count = 0, kept = 0, at;
    char **others;
    while (environ != NULL && environ[count] != NULL) count++;
    others = (char **)malloc((count + 1) * sizeof *others);
    if (others == NULL) return NULL;
    for (at = 0; at < count; at++)
        if (strncmp(environ[at], variable, length) != 0 || environ[at][length] != '=') others[kept++] = environ[at];
    others[kept] = NULL;
    return others;
}

/* Starts the program with an end of the stream as its standard input and output, in a process group of its own, as
 * attributes have it from the start, so that a terminal's signals for this program's group don't end it. */
static int spawns(char *const words[], char *const environment[], int end, pid_t *process)
{
    posix_spawn_file_actions_t actions;
    posix_spawnattr_t attributes;
    sigset_t none;
    int fault = posix_spawn_file_actions_init(&actions);
    if (fault != 0) return fault;
    fault = posix_spawnattr_init(&attributes);
    if (fault == 0) {
        sigemptyset(&none);
        fault = posix_spawn_file_actions_adddup2(&actions, end, STDIN_FILENO);
        if (fault == 0) fault = posix_spawn_file_actions_adddup2(&actions, end, STDOUT_FILENO);
        if (fault == 0) fault = posix_spawnattr_setsigmask(&attributes, &none);
        if (fault == 0) fault = posix_spawnattr_setflags(&attributes, POSIX_SPAWN_SETSIGMASK | POSIX_SPAWN_SETPGROUP);
        if (fault == 0) fault = posix_spawnp(process, words[0], &actions, &attributes, words, environment);
        posix_spawnattr_destroy(&attributes);
    }
    posix_spawn_file_actions_destroy(&actions);
    return fault;
}

/* Starts it at a new stream. No other program inherits the ends, and neither is in the place of a standard stream. */
static int starts(wulameron_program *program, char *const words[], char *const environment[])
{
    int made[2], end, fault = 0;
    if (environment == NULL) return ENOMEM;
    if (socketpair(AF_UNIX, SOCK_STREAM | SOCK_CLOEXEC, 0, made) != 0) return errno;
    program->owner = getpid();
    program->stream = fcntl(made[0], F_DUPFD_CLOEXEC, STDERR_FILENO + 1);
    end = fcntl(made[1], F_DUPFD_CLOEXEC, STDERR_FILENO + 1);
    if (program->stream < 0 || end < 0) fault = errno;
    if (fault == 0) fault = spawns(words, environment, end, &program->process);
    if (fault != 0 && program->stream >= 0) close(program->stream);
    if (end >= 0) close(end);
    close(made[0]);
    close(made[1]);
    return fault;
}

/* Tells the program that no line comes any more, waits until it has ended, and kills it where that takes too long: its
 * status, or -1 where none is known, as where all this program's children are waited for elsewhere. */
static int finishes(wulameron_program *program)
{
    const struct timespec pause = {0, 1000000};
    int64_t end = program->is_silent ? 0 : now() + WAIT;
    int status = 0, is_killed = 0;
    pid_t found;
    shutdown(program->stream, SHUT_RDWR);
    close(program->stream);
    while ((found = waitpid(program->process, &status, WNOHANG)) == 0) {
        nanosleep(&pause, NULL);
        if (now() <= end) continue;
        if (is_killed || kill(program->process, SIGKILL) != 0) return -1;
        is_killed = 1;
        end = now() + WAIT;
    }
    return found < 0 ? -1 : WIFEXITED(status) ? WEXITSTATUS(status) : KILLED;
}

uint32_t wulameron_program_end(wulameron_program *program, uint32_t code)
{
    int status = -1;
    if (program->owner == getpid()) status = finishes(program);
    else close(program->stream);
    if (code != WULAMERON_OK || status == -1 || status == 0) return code;
    return status == KILLED ? WULAMERON_ENDED : WULAMERON_LOG;
}

/* Reads the first line: the node that was claimed, or what is wrong, which is left as the text. */
static uint32_t greets(wulameron_program *program, wulameron_text *line)
{
    uint32_t code = reads_line(program, line, GREETING);
    wulameron_part first = {line->bytes, line->length};
    uint64_t form;
    line->length = 0;
    if (code != WULAMERON_OK) return code;
    if (wulameron_is(first, "out of memory")) return WULAMERON_OUT_OF_MEMORY;
    if (wulameron_matches(first, "ready # #", &form, &program->node))
        return form == FORM ? WULAMERON_OK : WULAMERON_VERSION_DIFFERS;
    /* A text is never longer than its leaf, in whose place it is written. */
    if (wulameron_matches(first, "log ~", line->bytes, line->size, &line->length)) return WULAMERON_LOG;
    if (wulameron_matches(first, "in use ~", line->bytes, line->size, &line->length)) return WULAMERON_NODE_IN_USE;
    return WULAMERON_ENDED;
}

uint32_t wulameron_program_start(wulameron_program *program, const char *name, const char *path, uint64_t node,
    wulameron_text *why)
{
    const char *named = name == NULL ? named_by(variable) : NULL;
    const char *old = name == NULL && named == NULL ? named_by(old_variable) : NULL;
    const char *taken = name != NULL ? name : named != NULL ? named : old != NULL ? old : "wulameron";
    char number[24], what[128] = "it can't be started";
    char *words[8] = {(char *)taken, "run", "--escaped"}, **next = words + 3, **others = NULL;
    int fault = ENOMEM;
    uint32_t code = WULAMERON_NO_PROGRAM;
    if (path != NULL) *next++ = "--at";
    if (path != NULL) *next++ = (char *)path;
    if (node != WULAMERON_ANY_NODE) *next++ = "--node";
    if (node != WULAMERON_ANY_NODE) *next = number;
    snprintf(number, sizeof number, "%llu", (unsigned long long)node);
    if (named != NULL) others = without_variable();
    if (wulameron_has_room(why, LEAST)) fault = starts(program, words, named != NULL ? others : environ);
    free(others);
    if (fault == ENOMEM) return WULAMERON_OUT_OF_MEMORY;
    if (fault != 0) (void)strerror_r(fault, what, sizeof what);
    else code = greets(program, why);
    if (fault == 0 && code != WULAMERON_OK && finishes(program) == NOT_STARTED && code == WULAMERON_ENDED)
        code = WULAMERON_NO_PROGRAM;
    if (code == WULAMERON_NO_PROGRAM)
        (void)wulameron_put(why, "$: $$", words[0], what, old == NULL ? "" : "; WULAMERON_PROGRAM is now WULAMERON");
    if (code == WULAMERON_VERSION_DIFFERS) (void)wulameron_put(why, "$: its sessions have another form", words[0]);
    if (code == WULAMERON_ENDED) (void)wulameron_put(why, "$: it isn't a program for sessions", words[0]);
    return code;
}
