/* Wulameron for C: which settings the nodes of a named service agree on, for services of events, publish-subscribe and
 * request-response. The rules are those of iceoryx2; the project isn't iceoryx2's.
 *
 * A session is over a table of services within this process, or over a log in a file that processes share. It has 64
 * slots. A request creates or opens a service for a node, and the slot holds what they agreed on until it is closed.
 *
 *   wulameron_session *session;
 *   uint64_t number;
 *   uint32_t refusal;
 *   wulameron_open_table(WULAMERON_VERSION, &session);
 *   wulameron_begin(session, WULAMERON_EVENT, WULAMERON_CREATE, 1, WULAMERON_TEXT("lamps"));
 *   wulameron_set_number(session, WULAMERON_MAX_LISTENERS, 4);
 *   if (wulameron_send(session, 0, &number, &refusal) == WULAMERON_REFUSED) printf("refused: %u\n", refusal);
 *   wulameron_close_session(session);
 *
 * Who owns what: a session is its opener's, and wulameron_close_session alone frees it. No call keeps a pointer that it
 * was given, and none hands out memory: what is read goes into the caller's places.
 * Codes: each call gives a code. Other than WULAMERON_OK, places are as they were, but for *length and *refusal.
 * Texts: a pointer and a length in bytes, UTF-8, with no 0 at the end. A null text of length 0 is the empty text.
 * Places of a text: (output, size, &length). *length is how many bytes the text has, also with WULAMERON_TOO_SMALL,
 * after which nothing is written and nothing is lost: ask with (NULL, 0, &length) first, or again.
 * Threads: a session is for one thread at a time, the one that opened it. A call beside another gives WULAMERON_BUSY;
 * a close beside a call isn't caught. Sessions share nothing. No call from a signal handler.
 * Ends: no call panics, aborts or calls back. Without memory it gives WULAMERON_OUT_OF_MEMORY, or a refusal that is
 * named so. Over a table no call blocks; over a log it waits for the program that holds the session, and for at most
 * WULAMERON_PATIENCE seconds in which that sends nothing.
 * Versions: numbers stay what they are; WULAMERON_VERSION grows where a caller has to be compiled again. */
#ifndef WULAMERON_H
#define WULAMERON_H

#include <stddef.h>
#include <stdint.h>

#ifdef __cplusplus
extern "C" {
#endif

#define WULAMERON_VERSION 3u
#define WULAMERON_SLOTS 64u
#define WULAMERON_HASH_SIZE 20u
#define WULAMERON_PATIENCE 60u
/* In place of a node: any one that is free, or each one that is dead. */
#define WULAMERON_ANY_NODE UINT64_MAX
/* A literal as a text: its pointer and its length. */
#define WULAMERON_TEXT(literal) ("" literal), (sizeof(literal) - 1u)

typedef struct wulameron_session wulameron_session;

/* The codes. */
#define WULAMERON_OK 0u
#define WULAMERON_NULL 1u             /* a pointer is null that must not be */
#define WULAMERON_BUSY 2u             /* another call runs on this session */
#define WULAMERON_VERSION_DIFFERS 3u  /* header and library are of different versions */
#define WULAMERON_OUT_OF_MEMORY 4u    /* nothing changed */
#define WULAMERON_TOO_SMALL 5u        /* *length tells how much room the text needs */
#define WULAMERON_NOT_UTF8 6u
#define WULAMERON_BAD_NAME 7u         /* a service's name has 1 to 255 bytes */
#define WULAMERON_BAD_VALUE 8u        /* a flag is 0 or 1, an alignment a power of two, a second has 1000000000 ns */
#define WULAMERON_BAD_TYPE 9u         /* a type's name has 1 to 256 bytes, its alignment is a power of two */
#define WULAMERON_BAD_ATTRIBUTE 10u   /* a key has 1 to 64 bytes, a value at most 256 */
#define WULAMERON_TOO_MANY 11u        /* there are at most 64 attributes, and 64 keys */
#define WULAMERON_UNKNOWN_SETTING 12u /* the pattern has no such setting or part, or it takes no such value */
#define WULAMERON_UNKNOWN_PATTERN 13u
#define WULAMERON_UNKNOWN_CALL 14u
#define WULAMERON_NO_REQUEST 15u      /* no request was begun, or it was sent */
#define WULAMERON_NO_SUCH_SLOT 16u    /* there are the slots 0 to 63 */
#define WULAMERON_SLOT_IN_USE 17u     /* the request is pending still */
#define WULAMERON_SLOT_EMPTY 18u
#define WULAMERON_NO_SUCH_ITEM 19u    /* an index past the end */
#define WULAMERON_REFUSED 20u         /* the call was carried out and refused: *refusal tells why */
#define WULAMERON_NOT_CLOSED 21u      /* the storage didn't release it, and the slot holds it as before */
#define WULAMERON_NONE 22u            /* the setting has no value */
/* Over a log. */
#define WULAMERON_OTHER_NODE 25u      /* a request is in the name of the session's own node */
#define WULAMERON_LOG 26u             /* the log, its folder or a node's file refuses: wulameron_get_reply tells why */
#define WULAMERON_ENDED 27u           /* the program that holds the session has ended, or doesn't answer: close it */
#define WULAMERON_NO_PROGRAM 28u      /* the program can't be started */
#define WULAMERON_NODE_IN_USE 29u     /* a process that is alive has the node, or no node is free */
#define WULAMERON_ONLY_OVER_LOG 30u   /* a table has no nodes of its own, and nothing to clean up */
#define WULAMERON_BAD_LINE 31u        /* the line is no command: wulameron_get_reply tells what is wrong with it */
#define WULAMERON_NODE_ALIVE 32u      /* nothing is given back for it */
#define WULAMERON_LOST 33u            /* the session was lost; open again: wulameron_get_reply tells what was held */

/* Patterns, and how a service is wanted. */
#define WULAMERON_EVENT 1u
#define WULAMERON_PUBLISH_SUBSCRIBE 2u
#define WULAMERON_REQUEST_RESPONSE 3u
#define WULAMERON_CREATE 1u
#define WULAMERON_OPEN 2u
#define WULAMERON_OPEN_OR_CREATE 3u

/* The settings. Of each pattern: a number. */
#define WULAMERON_MAX_NODES 1u
/* Of events: numbers, numbers that may be none, and lengths of time that may be none. */
#define WULAMERON_MAX_NOTIFIERS 101u
#define WULAMERON_MAX_LISTENERS 102u
#define WULAMERON_EVENT_ID_MAX_VALUE 103u
#define WULAMERON_NOTIFIER_CREATED_EVENT 111u
#define WULAMERON_NOTIFIER_DROPPED_EVENT 112u
#define WULAMERON_NOTIFIER_DEAD_EVENT 113u
#define WULAMERON_DEADLINE 121u
#define WULAMERON_CREATION_TIME 122u /* can be read alone: since the time zero, where there is a deadline */
/* Of publish-subscribe: numbers, a flag, and an alignment, which is set alone. */
#define WULAMERON_MAX_PUBLISHERS 201u
#define WULAMERON_MAX_SUBSCRIBERS 202u
#define WULAMERON_SUBSCRIBER_MAX_BUFFER_SIZE 203u
#define WULAMERON_HISTORY_SIZE 204u
#define WULAMERON_SUBSCRIBER_MAX_BORROWED_SAMPLES 205u
#define WULAMERON_ENABLE_SAFE_OVERFLOW 211u
#define WULAMERON_PAYLOAD_ALIGNMENT 221u
/* Of request-response: numbers, flags, and alignments, which are set alone. */
#define WULAMERON_MAX_ACTIVE_REQUESTS_PER_CLIENT 301u
#define WULAMERON_MAX_LOANED_REQUESTS 302u
#define WULAMERON_MAX_BORROWED_RESPONSES_PER_PENDING_RESPONSE 303u
#define WULAMERON_MAX_RESPONSE_BUFFER_SIZE 304u
#define WULAMERON_MAX_SERVERS 305u
#define WULAMERON_MAX_CLIENTS 306u
#define WULAMERON_ENABLE_SAFE_OVERFLOW_FOR_REQUESTS 311u
#define WULAMERON_ENABLE_SAFE_OVERFLOW_FOR_RESPONSES 312u
#define WULAMERON_ENABLE_FIRE_AND_FORGET_REQUESTS 313u
#define WULAMERON_REQUEST_PAYLOAD_ALIGNMENT 321u
#define WULAMERON_RESPONSE_PAYLOAD_ALIGNMENT 322u

/* The parts of a message that have a type, and what a message holds of it. */
#define WULAMERON_PAYLOAD 1u
#define WULAMERON_USER_HEADER 2u
#define WULAMERON_REQUEST_PAYLOAD 3u
#define WULAMERON_REQUEST_HEADER 4u
#define WULAMERON_RESPONSE_PAYLOAD 5u
#define WULAMERON_RESPONSE_HEADER 6u
#define WULAMERON_FIXED_SIZE 1u /* one value */
#define WULAMERON_DYNAMIC 2u    /* a number of values */

/* What stands of a service, and of a node. */
#define WULAMERON_BEING_CREATED 1u
#define WULAMERON_PUBLISHED 2u
#define WULAMERON_MARKED 3u       /* its last node has left, and something of it is left */
#define WULAMERON_SEGMENT_ALONE 4u
/* Of a node: a process has it; that process is gone and left something, or left nothing; its session with a database has
 * ended, and for some seconds only its own process gets it. */
#define WULAMERON_ALIVE 1u
#define WULAMERON_DEAD 2u
#define WULAMERON_NODE_ENDED 3u
#define WULAMERON_NODE_LOST 4u

/* Why a call was refused: a thousand for the error's enum, and the place of the value in it, counted from 1. An open or
 * create has those of its open from 3001, 6001 and 9001 on, those of its create from 3501, 6501 and 9501 on, and 3999,
 * 6999 and 9999 for SystemInFlux. */
#define WULAMERON_EVENT_OPEN_ERROR 1000u
#define WULAMERON_EVENT_CREATE_ERROR 2000u
#define WULAMERON_EVENT_OPEN_OR_CREATE_ERROR 3000u
#define WULAMERON_PUBLISH_SUBSCRIBE_OPEN_ERROR 4000u
#define WULAMERON_PUBLISH_SUBSCRIBE_CREATE_ERROR 5000u
#define WULAMERON_PUBLISH_SUBSCRIBE_OPEN_OR_CREATE_ERROR 6000u
#define WULAMERON_REQUEST_RESPONSE_OPEN_ERROR 7000u
#define WULAMERON_REQUEST_RESPONSE_CREATE_ERROR 8000u
#define WULAMERON_REQUEST_RESPONSE_OPEN_OR_CREATE_ERROR 9000u

/* What a code says, in words: never null, static. */
const char *wulameron_code_text(uint32_t code);
/* A refusal's name, as EventOpenError::DoesNotExist, when it comes, and what can be done. WULAMERON_NO_SUCH_ITEM for a
 * number that is none. */
uint32_t wulameron_refusal_name(uint32_t refusal, char *output, size_t size, size_t *length);
uint32_t wulameron_refusal_text(uint32_t refusal, char *output, size_t size, size_t *length);
uint32_t wulameron_refusal_advice(uint32_t refusal, char *output, size_t size, size_t *length);

/* ---- sessions */

/* Opens a session over a new table. `version` is WULAMERON_VERSION. *out is null where the code isn't WULAMERON_OK. */
uint32_t wulameron_open_table(uint32_t version, wulameron_session **out);
/* Opens a session over the log in the file `path`, which is made where there is none, and claims `node` there, or with
 * WULAMERON_ANY_NODE the lowest that is free. A program holds it, `wulameron run --escaped`: `program` is its path, or
 * a name that is looked for on the PATH; null stands for what the variable WULAMERON names, or else for `wulameron`.
 * The program doesn't get that variable then, so it may be wulameron-postgres. Before version 3 the variable was
 * WULAMERON_PROGRAM, which counts if WULAMERON isn't set; if the program can't be started then, the message tells the
 * new name. A null `path` stands for that program's own default. Both end with a 0. What is wrong goes into `message`:
 * as much of it as there is room for. *length is how many bytes the whole has; `length` may be null. *out is null then.
 * The program has its own process group, and a socket as its standard input and output. Where this process ends in
 * whatever way, it closes what the slots hold, and ends. Where it is killed itself, its node is dead, and what that had
 * is given back by the next one that starts at the log. In the child of a fork the session gives WULAMERON_ENDED. */
uint32_t wulameron_open_log(uint32_t version, const char *program, const char *path, uint64_t node,
    wulameron_session **out, char *message, size_t size, size_t *length);
/* Closes what each slot holds, ends the program that holds the session, and frees the session. Null is done already.
 * WULAMERON_NOT_CLOSED where a slot's service couldn't be closed, WULAMERON_LOG where the log was at fault, and
 * WULAMERON_ENDED or WULAMERON_LOST where the program had ended before; the session is freed all the same. */
uint32_t wulameron_close_session(wulameron_session *session);

/* ---- the request. A session has at most one: begin drops the last one, send takes it, and a call that isn't done
 * leaves it as it was. A setting that is set twice has its last value. What a create isn't told has its default; what
 * an open isn't told isn't required. */

uint32_t wulameron_begin(wulameron_session *session, uint32_t pattern, uint32_t how, uint64_t node, const char *name,
    size_t name_length);
/* Numbers, alignments, and flags as 0 or 1. */
uint32_t wulameron_set_number(wulameron_session *session, uint32_t setting, uint64_t value);
/* That there is none, for a setting that may have none. */
uint32_t wulameron_set_none(wulameron_session *session, uint32_t setting);
uint32_t wulameron_set_duration(wulameron_session *session, uint32_t setting, uint64_t seconds, uint32_t nanoseconds);
/* The type of a part of a message. A part whose type isn't set has a marker's (CustomPayloadMarker, CustomHeaderMarker),
 * so an open has to set the service's. */
uint32_t wulameron_set_type(wulameron_session *session, uint32_t part, uint32_t variant, const char *name,
    size_t name_length, uint64_t size, uint64_t alignment);
/* A pair that a create defines and an open requires. */
uint32_t wulameron_add_attribute(wulameron_session *session, const char *key, size_t key_length, const char *value,
    size_t value_length);
/* A key that an open requires, with any value. */
uint32_t wulameron_require_key(wulameron_session *session, const char *key, size_t key_length);
/* What the clock says, for a create with a deadline; else the time is zero. */
uint32_t wulameron_set_time(wulameron_session *session, uint64_t seconds, uint32_t nanoseconds);
/* That the clock can't be read: a create with a deadline is refused then. */
uint32_t wulameron_set_clock_fault(wulameron_session *session);
/* Sends the request: the slot, which has to be free, holds what was agreed on then, and *number is the service's. The
 * slot is tested before anything else. With WULAMERON_REFUSED *refusal tells why, and the slot stays free. */
uint32_t wulameron_send(wulameron_session *session, uint32_t slot, uint64_t *number, uint32_t *refusal);
/* Closes what the slot holds: the node leaves the service, and the last one removes it. */
uint32_t wulameron_close(wulameron_session *session, uint32_t slot);
/* Lets go of what the slot holds without a close: the node keeps its place at the service. */
uint32_t wulameron_abandon(wulameron_session *session, uint32_t slot);

/* ---- what was agreed on in a slot */

uint32_t wulameron_get_service(wulameron_session *session, uint32_t slot, uint32_t *pattern, uint64_t *number,
    uint64_t *node);
/* A number, or a flag as 0 or 1. WULAMERON_NONE where the setting has no value. */
uint32_t wulameron_get_number(wulameron_session *session, uint32_t slot, uint32_t setting, uint64_t *value);
uint32_t wulameron_get_duration(wulameron_session *session, uint32_t slot, uint32_t setting, uint64_t *seconds,
    uint32_t *nanoseconds);
uint32_t wulameron_get_type(wulameron_session *session, uint32_t slot, uint32_t part, uint32_t *variant, uint64_t *size,
    uint64_t *alignment);
uint32_t wulameron_get_type_name(wulameron_session *session, uint32_t slot, uint32_t part, char *output, size_t size,
    size_t *length);
uint32_t wulameron_get_name(wulameron_session *session, uint32_t slot, char *output, size_t size, size_t *length);
/* The 20 bytes by which the service is found. */
uint32_t wulameron_get_hash(wulameron_session *session, uint32_t slot, uint8_t *output, size_t size, size_t *length);
uint32_t wulameron_get_attribute_count(wulameron_session *session, uint32_t slot, uint64_t *count);
/* The attribute of this index, ascending by key and then by value. With WULAMERON_TOO_SMALL both lengths are told. */
uint32_t wulameron_get_attribute(wulameron_session *session, uint32_t slot, uint64_t index, char *key, size_t key_size,
    size_t *key_length, char *value, size_t value_size, size_t *value_length);
/* The description as it is stored, byte for byte: docs/BYTE_FORM.md. */
uint32_t wulameron_get_bytes(wulameron_session *session, uint32_t slot, uint8_t *output, size_t size, size_t *length);

/* ---- all services. A listing stands until the next one is taken. */

/* Takes a listing of the table or the log, and tells how many entries it has. */
uint32_t wulameron_list(wulameron_session *session, uint64_t *count);
/* The entry of this index: what stands of it, and its number. What isn't known of a service that is being created is 0:
 * the pattern, how many nodes it has, and for how many it is. */
uint32_t wulameron_get_entry(wulameron_session *session, uint64_t index, uint32_t *state, uint32_t *pattern,
    uint64_t *number, uint64_t *nodes, uint64_t *max_nodes);
/* Its name, empty where it isn't known, and the 20 bytes by which it is found. */
uint32_t wulameron_get_entry_name(wulameron_session *session, uint64_t index, char *output, size_t size,
    size_t *length);
uint32_t wulameron_get_entry_hash(wulameron_session *session, uint64_t index, uint8_t *output, size_t size,
    size_t *length);

/* ---- lines: docs/PROGRAM.md */

/* Carries out a line, without its end: WULAMERON_OK where it is a command, also one that is refused. */
uint32_t wulameron_line(wulameron_session *session, const char *line, size_t length);
/* The reply to the last line; after WULAMERON_BAD_LINE what is wrong with it, after WULAMERON_LOG what is wrong with
 * the log, and after WULAMERON_LOST the names of the services that were held, as leaves with blanks between them
 * (docs/PROGRAM.md). It stands until the next of these. WULAMERON_OUT_OF_MEMORY where there was no memory for it. */
uint32_t wulameron_get_reply(wulameron_session *session, char *output, size_t size, size_t *length);

/* ---- nodes, over a log alone: over a table WULAMERON_ONLY_OVER_LOG */

/* The node that the session claimed. */
uint32_t wulameron_node(wulameron_session *session, uint64_t *node);
/* Looks which nodes were ever claimed at the log, and tells how many. */
uint32_t wulameron_nodes(wulameron_session *session, uint64_t *count);
/* The node of this index of the last look, by rising number, and its state: WULAMERON_ALIVE, WULAMERON_DEAD,
 * WULAMERON_NODE_ENDED or WULAMERON_NODE_LOST. */
uint32_t wulameron_get_node(wulameron_session *session, uint64_t index, uint64_t *node, uint32_t *state);
/* Gives back what a dead node has, or with WULAMERON_ANY_NODE what each has: tells how many nodes had something, how
 * many places at services they left, and how many things were removed, such as tags, segments and descriptions. With
 * `dry_run` 1 it only tells. WULAMERON_NODE_ALIVE where the node's process is alive, WULAMERON_NO_SUCH_ITEM where the
 * node was never claimed. */
uint32_t wulameron_clean(wulameron_session *session, uint64_t node, uint32_t dry_run, uint64_t *nodes,
    uint64_t *releases, uint64_t *removals);

#ifdef __cplusplus
}
#endif
#endif
