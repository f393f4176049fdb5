/* The exports of libwulameron_c.a, one for one with crates/wulameron_c. A caller owes what stands here; wulameron.h has
 * calls with each of that tested. tools/check-bindings compares the names with those of the archive. */
#ifndef WULAMERON_C_H
#define WULAMERON_C_H

#include <stddef.h>
#include <stdint.h>

#ifdef __cplusplus
extern "C" {
#endif

/* All zero before it is opened and after it is closed. It may be moved while no call runs. Never copy an open one and
 * use both, never write its fields, and keep it on the thread that opened it. */
typedef struct wulameron_c_handle {
    uint64_t mark;
    void *held;
} wulameron_c_handle;

/* No pointer is null, also at a length of 0. Inputs, outputs and the handle don't overlap. The bytes of an output are
 * written, never read, and a place that isn't written stays as it was. */

/* The number of these exports: 2. */
uint32_t wulameron_c_version(void);
/* Opens a session over a new table. 0; 4 where there is no memory, and 24 where the handle is open already. */
uint32_t wulameron_c_open_table(wulameron_c_handle *handle);
/* Carries out an escaped line: its bytes without its end, and no line feed among them. The reply goes into `output`,
 * with the line feed at its end, and how many bytes it has into *written. A line of no bytes asks for the last reply
 * again. 0; 4 where there is no memory, and then there is no reply; 5 where the reply has more bytes than `size`: then
 * *written tells how many, the output is as it was, and the reply stands until the next line. 23 where the handle isn't
 * open. */
uint32_t wulameron_c_line(wulameron_c_handle *handle, const uint8_t *line, size_t line_length, uint8_t *output,
    size_t size, size_t *written);
/* Closes what is open, and frees it. 0, or 23 where the handle isn't open. */
uint32_t wulameron_c_close_session(wulameron_c_handle *handle);

#ifdef __cplusplus
}
#endif
#endif
