/* A caller in C that holds a service over a log, and makes no call that asks the log, until it is told that this is lost.
 * Takes the program, the log, its node and the service's name. Prints `held`, and then the code, the clock's time and what was held.
 * The functions of the archive, which a session over a log doesn't call, stand here in its place. So the same file is a
 * library for the module for Python. */
#define _POSIX_C_SOURCE 200809L
#include "wulameron.c"

#include <stdio.h>
#include <time.h>

uint32_t wulameron_c_version(void)
{
    return EXPORTS;
}

uint32_t wulameron_c_open_table(wulameron_c_handle *handle)
{
    return handle == NULL ? WULAMERON_NULL : WULAMERON_OUT_OF_MEMORY;
}

uint32_t wulameron_c_line(wulameron_c_handle *handle, const uint8_t *line, size_t line_length, uint8_t *output,
    size_t size, size_t *written)
{
    *written = 0;
    return handle == NULL || line == NULL || output == NULL ? WULAMERON_NULL : (uint32_t)(0 * (line_length + size)) + 4;
}

uint32_t wulameron_c_close_session(wulameron_c_handle *handle)
{
    return handle == NULL ? WULAMERON_NULL : WULAMERON_OK;
}

int main(int count, char **words)
{
    const struct timespec pause = {0, 20000000};
    struct timespec time;
    wulameron_session *session;
    const char *name = count == 5 ? words[4] : "";
    uint64_t node = count == 5 ? strtoull(words[3], NULL, 10) : 0, number;
    uint32_t code, refusal;
    char held[1024];
    size_t length = 0, size = strlen(name);
    if (count != 5) return 2;
    code = wulameron_open_log(WULAMERON_VERSION, words[1], words[2], node, &session, NULL, 0, NULL);
    if (code != WULAMERON_OK) return 1;
    code = wulameron_begin(session, WULAMERON_EVENT, WULAMERON_CREATE, node, name, size);
    if (code == WULAMERON_OK) code = wulameron_send(session, 0, &number, &refusal);
    if (code == WULAMERON_OK) puts("held");
    fflush(stdout);
    while (code == WULAMERON_OK) {
        code = wulameron_begin(session, WULAMERON_EVENT, WULAMERON_OPEN, node, name, size);
        nanosleep(&pause, NULL);
    }
    clock_gettime(CLOCK_MONOTONIC, &time);
    if (wulameron_get_reply(session, held, sizeof held, &length) != WULAMERON_OK) length = 0;
    printf("%u %lld.%09ld %.*s\n", (unsigned)code, (long long)time.tv_sec, time.tv_nsec, (int)length, held);
    return wulameron_close_session(session) == code ? 0 : 1;
}
