/* The words of escaped lines and of codes, for wulameron.c alone. No caller includes it. */
#ifndef WULAMERON_WORDS_H
#define WULAMERON_WORDS_H

#include "wulameron.h"

#include <stddef.h>
#include <stdint.h>

/* What is asked: of a slot, of a refusal, for a list, of a node or each, and with a word that is none. A session itself
 * has the reply to a line, and its own node. What stands from NODES on is over a log alone. */
enum { SHOW, BYTES, CLOSE, ABANDON, REFUSAL, REPLY, ENTRIES, NODES, CLEAN, REHEARSE, WRONG, OWN };
static const char *const words[] = {"show", "bytes", "close", "abandon", "refusal", NULL, "entries", "nodes", "clean",
    "rehearse", NULL};

/* Each in the order of its numbers. */
static const char *const patterns[] = {"none", "event", "pubsub", "rr", NULL};
static const char *const hows[] = {"", "create", "open", "open_or_create"};
static const char *const variants[] = {"", "fixed", "dynamic", NULL};
static const char *const states[] = {"", "being_created", "published", "marked", "segment_alone", NULL};
static const char *const lives[] = {"", "alive", "dead", "ended", "lost", NULL};

/* What a setting takes: a number, one or none, a length of time or none, a flag, an alignment, a type; the
 * clock's time. The others can be read alone. */
enum { NUMBER = 1, EVENT = 2, LENGTH = 4, FLAG = 8, ALIGNMENT = 16, TYPE = 32, CREATION = 64, HASH = 128, PAIR = 256,
    TIME = 512 };

typedef struct {
    uint32_t number, pattern, takes;
    const char *word;
} setting;

/* Each setting and part of a message by its number; one of the pattern 0 is of each. */
static const setting settings[] = {
    {1, 0, NUMBER, "max_nodes"},
    {0, 0, HASH, "hash"},
    {0, 0, PAIR, "attribute"},
    {0, 0, TIME, "now"},
    {101, 1, NUMBER, "max_notifiers"},
    {102, 1, NUMBER, "max_listeners"},
    {103, 1, NUMBER, "event_id_max_value"},
    {111, 1, EVENT, "notifier_created_event"},
    {112, 1, EVENT, "notifier_dropped_event"},
    {113, 1, EVENT, "notifier_dead_event"},
    {121, 1, LENGTH, "deadline"},
    {122, 1, CREATION, "created"},
    {201, 2, NUMBER, "max_publishers"},
    {202, 2, NUMBER, "max_subscribers"},
    {203, 2, NUMBER, "subscriber_max_buffer_size"},
    {204, 2, NUMBER, "history_size"},
    {205, 2, NUMBER, "subscriber_max_borrowed_samples"},
    {211, 2, FLAG, "enable_safe_overflow"},
    {221, 2, ALIGNMENT, "payload_alignment"},
    {1, 2, TYPE, "payload"},
    {2, 2, TYPE, "user_header"},
    {301, 3, NUMBER, "max_active_requests_per_client"},
    {302, 3, NUMBER, "max_loaned_requests"},
    {303, 3, NUMBER, "max_borrowed_responses_per_pending_response"},
    {304, 3, NUMBER, "max_response_buffer_size"},
    {305, 3, NUMBER, "max_servers"},
    {306, 3, NUMBER, "max_clients"},
    {311, 3, FLAG, "enable_safe_overflow_for_requests"},
    {312, 3, FLAG, "enable_safe_overflow_for_responses"},
    {313, 3, FLAG, "enable_fire_and_forget_requests"},
    {321, 3, ALIGNMENT, "request_payload_alignment"},
    {322, 3, ALIGNMENT, "response_payload_alignment"},
    {3, 3, TYPE, "request_payload"},
    {4, 3, TYPE, "request_header"},
    {5, 3, TYPE, "response_payload"},
    {6, 3, TYPE, "response_header"},
};

/* The replies that any line may have. */
static const struct {
    const char *form;
    uint32_t code;
} known[] = {
    {"out of memory", WULAMERON_OUT_OF_MEMORY},
    {"slot _ in use", WULAMERON_SLOT_IN_USE},
    {"slot _ empty", WULAMERON_SLOT_EMPTY},
    {"not closed _", WULAMERON_NOT_CLOSED},
    {"node _ is not this program's", WULAMERON_OTHER_NODE},
    {"node _ is alive", WULAMERON_NODE_ALIVE},
    {"node _ was never claimed", WULAMERON_NO_SUCH_ITEM},
    {"no refusal _", WULAMERON_NO_SUCH_ITEM},
    {"only over a log", WULAMERON_ONLY_OVER_LOG},
};

/* What the codes say, in their order. */
static const char *const code_texts[] = {
    "done",
    "a pointer is null",
    "another call runs on this session",
    "header and library are of different versions",
    "out of memory",
    "the text has more bytes than its place",
    "a text isn't UTF-8",
    "a service's name has 1 to 255 bytes",
    "a value that the setting can't have",
    "a type's name has 1 to 256 bytes, and its alignment is a power of two",
    "an attribute's key has 1 to 64 bytes, and its value at most 256",
    "there are as many attributes as there may be",
    "the pattern has no such setting",
    "there is no such pattern",
    "there is no such call",
    "no request is pending",
    "there are the slots 0 to 63",
    "the slot holds a factory",
    "the slot holds none",
    "an index past the end",
    "the call was refused",
    "the storage didn't release it",
    "the setting has no value",
    "the session isn't open",
    "the session is open already",
    "a request is in the name of the session's own node",
    "the log, its folder or a node's file refuses",
    "the program that holds the session has ended",
    "the program can't be started",
    "a process that is alive has the node, or no node is free",
    "only a session over a log has nodes",
    "the line is no command",
    "the node is alive",
    "the session was lost; open again",
};

#endif
