/* Calls each function of wulameron.h, and compares what it gives with what the pages tell: over tables, or with a
 * folder as its argument over logs in it, where each node has a session of its own. Ends with the line
 * `N passed, M failed`, and with status 1 where one failed. */
#include "checks.h"
#include "wulameron.h"

#include <stdio.h>
#include <string.h>

static const char *folder; /* null over tables */
static unsigned logs;

/* A session of a node over the last log. */
static wulameron_session *over_log(uint64_t node)
{
    wulameron_session *session = NULL;
    char path[512], message[256];
    size_t length = 99;
    uint64_t claimed = node + 1;
    snprintf(path, sizeof path, "%s/log-%u", folder, logs);
    GIVES(WULAMERON_OK,
        wulameron_open_log(WULAMERON_VERSION, NULL, path, node, &session, message, sizeof message, &length));
    CHECK(session != NULL && length == 0);
    GIVES(WULAMERON_OK, wulameron_node(session, &claimed));
    CHECK(claimed == node);
    return session;
}

/* A session over a new table, or one of a node over a new log. */
static wulameron_session *opened(uint64_t node)
{
    wulameron_session *session = NULL;
    logs++;
    if (folder != NULL) return over_log(node);
    GIVES(WULAMERON_OK, wulameron_open_table(WULAMERON_VERSION, &session));
    CHECK(session != NULL);
    return session;
}

/* The session of another node over the same table or log. */
static wulameron_session *beside(wulameron_session *session, uint64_t node)
{
    return folder != NULL ? over_log(node) : session;
}

static void closes(wulameron_session *session)
{
    GIVES(WULAMERON_OK, wulameron_close_session(session));
}

static uint32_t asked(wulameron_session *session, uint32_t pattern, uint32_t how, uint64_t node, const char *name)
{
    return wulameron_begin(session, pattern, how, node, name, strlen(name));
}

/* Big-endian, as docs/BYTE_FORM.md tells. */
static uint8_t *put(uint8_t *at, uint64_t number, int bytes)
{
    while (bytes-- > 0) *at++ = (uint8_t)(number >> (8 * bytes));
    return at;
}

/* The hash of the service of events `lamps`: SHA-1 of `e` and the name, as sha1sum tells it. */
static const uint8_t lamps_hash[WULAMERON_HASH_SIZE] = {0xf5, 0x10, 0xed, 0xf5, 0x36, 0xa9, 0x75, 0x62, 0x60, 0xad,
    0x33, 0x23, 0x6a, 0xec, 0x91, 0x12, 0xb9, 0x37, 0xb5, 0x44};

static void create_lamps(wulameron_session *session)
{
    uint64_t number = 99;
    uint32_t refusal = 0;
    GIVES(WULAMERON_OK, asked(session, WULAMERON_EVENT, WULAMERON_CREATE, 7, "lamps"));
    GIVES(WULAMERON_OK, wulameron_set_number(session, WULAMERON_MAX_NOTIFIERS, 2));
    GIVES(WULAMERON_OK, wulameron_set_number(session, WULAMERON_MAX_LISTENERS, 3));
    GIVES(WULAMERON_OK, wulameron_set_number(session, WULAMERON_MAX_LISTENERS, 4));
    GIVES(WULAMERON_OK, wulameron_set_number(session, WULAMERON_EVENT_ID_MAX_VALUE, 255));
    GIVES(WULAMERON_OK, wulameron_set_number(session, WULAMERON_MAX_NODES, 2));
    GIVES(WULAMERON_OK, wulameron_set_number(session, WULAMERON_NOTIFIER_CREATED_EVENT, 9));
    GIVES(WULAMERON_OK, wulameron_set_none(session, WULAMERON_NOTIFIER_DROPPED_EVENT));
    GIVES(WULAMERON_OK, wulameron_set_none(session, WULAMERON_NOTIFIER_DEAD_EVENT));
    GIVES(WULAMERON_OK, wulameron_set_duration(session, WULAMERON_DEADLINE, 1, 500));
    GIVES(WULAMERON_OK, wulameron_set_time(session, 1700000000, 5));
    GIVES(WULAMERON_OK, wulameron_add_attribute(session, WULAMERON_TEXT("place"), WULAMERON_TEXT("attic")));
    GIVES(WULAMERON_OK, wulameron_add_attribute(session, WULAMERON_TEXT("color"), NULL, 0));
    GIVES(WULAMERON_OK, wulameron_send(session, 0, &number, &refusal));
    CHECK(number == 0);
    GIVES(WULAMERON_NO_REQUEST, wulameron_send(session, 1, &number, &refusal));
}

static void events(void)
{
    wulameron_session *session = opened(7);
    uint64_t value = 0, seconds = 0, node = 0, count = 0;
    uint32_t nanoseconds = 0, pattern = 0;
    uint8_t hash[WULAMERON_HASH_SIZE], bytes[256], wanted[256], *at = wanted;
    char text[16], other[16];
    size_t length = 0, other_length = 0;
    create_lamps(session);
    GIVES(WULAMERON_OK, wulameron_get_service(session, 0, &pattern, &value, &node));
    CHECK(pattern == WULAMERON_EVENT && value == 0 && node == 7);
    GIVES(WULAMERON_OK, wulameron_get_number(session, 0, WULAMERON_MAX_LISTENERS, &value));
    CHECK(value == 4);
    GIVES(WULAMERON_OK, wulameron_get_number(session, 0, WULAMERON_NOTIFIER_CREATED_EVENT, &value));
    CHECK(value == 9);
    GIVES(WULAMERON_NONE, wulameron_get_number(session, 0, WULAMERON_NOTIFIER_DEAD_EVENT, &value));
    CHECK(value == 9);
    GIVES(WULAMERON_UNKNOWN_SETTING, wulameron_get_number(session, 0, WULAMERON_MAX_CLIENTS, &value));
    GIVES(WULAMERON_OK, wulameron_get_duration(session, 0, WULAMERON_DEADLINE, &seconds, &nanoseconds));
    CHECK(seconds == 1 && nanoseconds == 500);
    GIVES(WULAMERON_OK, wulameron_get_duration(session, 0, WULAMERON_CREATION_TIME, &seconds, &nanoseconds));
    CHECK(seconds == 1700000000 && nanoseconds == 5);
    GIVES(WULAMERON_OK, wulameron_get_hash(session, 0, hash, sizeof hash, &length));
    CHECK(length == sizeof hash && memcmp(hash, lamps_hash, sizeof hash) == 0);
    GIVES(WULAMERON_TOO_SMALL, wulameron_get_name(session, 0, NULL, 0, &length));
    CHECK(length == 5);
    memset(text, 'x', sizeof text);
    GIVES(WULAMERON_TOO_SMALL, wulameron_get_name(session, 0, text, 4, &length));
    CHECK(text[0] == 'x');
    GIVES(WULAMERON_OK, wulameron_get_name(session, 0, text, sizeof text, &length));
    CHECK(length == 5 && memcmp(text, "lampsx", 6) == 0);
    GIVES(WULAMERON_OK, wulameron_get_attribute_count(session, 0, &count));
    CHECK(count == 2);
    GIVES(WULAMERON_OK, wulameron_get_attribute(session, 0, 1, text, 16, &length, other, 16, &other_length));
    CHECK(length == 5 && memcmp(text, "place", 5) == 0 && other_length == 5 && memcmp(other, "attic", 5) == 0);
    GIVES(WULAMERON_OK, wulameron_get_attribute(session, 0, 0, text, 16, &length, NULL, 0, &other_length));
    CHECK(length == 5 && memcmp(text, "color", 5) == 0 && other_length == 0);
    GIVES(WULAMERON_NO_SUCH_ITEM, wulameron_get_attribute(session, 0, 2, text, 16, &length, other, 16, &other_length));
    /* The description's bytes, put together by the page. */
    memcpy(at, "IOX2\2", 5);
    at = put(at + 5, 7, 8);
    memcpy(at, lamps_hash, 20);
    memcpy(at + 20, "\0\5lamps\0\2\0\5color\0\0\0\5place\0\5attic\1", 33);
    at = put(put(put(put(at + 53, 2, 8), 4, 8), 255, 8), 2, 8);
    at = put(put(put(put(put(at, 1, 1), 9, 8), 0, 1), 0, 1), 1, 1);
    at = put(put(put(put(at, 1, 8), 500, 4), 1700000000, 8), 5, 4);
    GIVES(WULAMERON_OK, wulameron_get_bytes(session, 0, bytes, sizeof bytes, &length));
    CHECK(length == (size_t)(at - wanted) && memcmp(bytes, wanted, length) == 0);
    closes(session);
}

/* Two nodes agree, and the second is refused what doesn't fit. */
static void two_nodes(void)
{
    wulameron_session *first = opened(7), *second = beside(first, 8);
    uint64_t number = 0, value = 0;
    uint32_t refusal = 0;
    create_lamps(first);
    /* Another node opens it with less, and gets what was agreed on. */
    GIVES(WULAMERON_OK, asked(second, WULAMERON_EVENT, WULAMERON_OPEN, 8, "lamps"));
    GIVES(WULAMERON_OK, wulameron_set_number(second, WULAMERON_MAX_LISTENERS, 3));
    GIVES(WULAMERON_NO_SUCH_SLOT, wulameron_send(second, 64, &number, &refusal));
    GIVES(WULAMERON_OK, wulameron_send(second, 63, &number, &refusal));
    GIVES(WULAMERON_OK, wulameron_get_number(second, 63, WULAMERON_MAX_LISTENERS, &value));
    CHECK(value == 4);
    /* With more it is refused: the 13th value of EventOpenError. */
    GIVES(WULAMERON_OK, asked(second, WULAMERON_EVENT, WULAMERON_OPEN, 8, "lamps"));
    GIVES(WULAMERON_OK, wulameron_set_number(second, WULAMERON_MAX_LISTENERS, 5));
    GIVES(WULAMERON_SLOT_IN_USE, wulameron_send(second, 63, &number, &refusal));
    GIVES(WULAMERON_REFUSED, wulameron_send(second, 1, &number, &refusal));
    CHECK(refusal == WULAMERON_EVENT_OPEN_ERROR + 13);
    GIVES(WULAMERON_SLOT_EMPTY, wulameron_get_number(second, 1, WULAMERON_MAX_LISTENERS, &value));
    /* A key that the service hasn't: the 5th. */
    GIVES(WULAMERON_OK, asked(second, WULAMERON_EVENT, WULAMERON_OPEN, 8, "lamps"));
    GIVES(WULAMERON_OK, wulameron_require_key(second, WULAMERON_TEXT("wall")));
    GIVES(WULAMERON_REFUSED, wulameron_send(second, 1, &number, &refusal));
    CHECK(refusal == WULAMERON_EVENT_OPEN_ERROR + 5);
    /* Both leave, and nothing of it is left. */
    GIVES(WULAMERON_OK, wulameron_close(first, 0));
    GIVES(WULAMERON_SLOT_EMPTY, wulameron_close(first, 0));
    GIVES(WULAMERON_OK, wulameron_close(second, 63));
    GIVES(WULAMERON_NO_SUCH_SLOT, wulameron_close(second, 64));
    GIVES(WULAMERON_OK, wulameron_list(first, &number));
    CHECK(number == 0);
    if (second != first) closes(second);
    closes(first);
}

/* A third node finds no room, and who comes later finds what is left. */
static void three_nodes(void)
{
    wulameron_session *first = opened(7), *second = beside(first, 8), *third = beside(first, 9);
    uint64_t number = 0, count = 9;
    uint32_t refusal = 0;
    create_lamps(first);
    GIVES(WULAMERON_OK, asked(second, WULAMERON_EVENT, WULAMERON_OPEN, 8, "lamps"));
    GIVES(WULAMERON_OK, wulameron_send(second, 63, &number, &refusal));
    /* It is there already: the 4th value of EventCreateError. */
    GIVES(WULAMERON_OK, asked(third, WULAMERON_EVENT, WULAMERON_CREATE, 9, "lamps"));
    GIVES(WULAMERON_REFUSED, wulameron_send(third, 1, &number, &refusal));
    CHECK(refusal == WULAMERON_EVENT_CREATE_ERROR + 4);
    /* There is room for two nodes: the 16th. */
    GIVES(WULAMERON_OK, asked(third, WULAMERON_EVENT, WULAMERON_OPEN, 9, "lamps"));
    GIVES(WULAMERON_REFUSED, wulameron_send(third, 1, &number, &refusal));
    CHECK(refusal == WULAMERON_EVENT_OPEN_ERROR + 16);
    GIVES(WULAMERON_OK, wulameron_list(third, &count));
    CHECK(count == 1);
    GIVES(WULAMERON_OK, wulameron_close(first, 0));
    GIVES(WULAMERON_OK, wulameron_close(second, 63));
    /* The one who opens a service that isn't there is refused: the 1st. An open or create creates it. */
    GIVES(WULAMERON_OK, asked(first, WULAMERON_EVENT, WULAMERON_OPEN, 7, "lamps"));
    GIVES(WULAMERON_REFUSED, wulameron_send(first, 1, &number, &refusal));
    CHECK(refusal == WULAMERON_EVENT_OPEN_ERROR + 1);
    GIVES(WULAMERON_OK, asked(first, WULAMERON_EVENT, WULAMERON_OPEN_OR_CREATE, 7, "lamps"));
    GIVES(WULAMERON_OK, wulameron_send(first, 1, &number, &refusal));
    /* Who lets go of it keeps its place. */
    GIVES(WULAMERON_OK, wulameron_abandon(first, 1));
    GIVES(WULAMERON_SLOT_EMPTY, wulameron_abandon(first, 1));
    GIVES(WULAMERON_NO_SUCH_SLOT, wulameron_abandon(first, 64));
    GIVES(WULAMERON_OK, wulameron_list(third, &count));
    CHECK(count == 1);
    if (third != first) closes(third);
    if (second != first) closes(second);
    closes(first);
}

/* The entries of a listing, by what wulameron.h tells. */
static void listing(void)
{
    wulameron_session *session = opened(7);
    uint64_t count = 9, number = 9, nodes = 9, max_nodes = 9;
    uint32_t state = 9, pattern = 9;
    uint8_t hash[WULAMERON_HASH_SIZE];
    char name[8];
    size_t length = 0;
    GIVES(WULAMERON_OK, wulameron_list(session, &count));
    CHECK(count == 0);
    create_lamps(session);
    GIVES(WULAMERON_NO_SUCH_ITEM, wulameron_get_entry(session, 0, &state, &pattern, &number, &nodes, &max_nodes));
    CHECK(state == 9 && max_nodes == 9);
    GIVES(WULAMERON_OK, wulameron_list(session, &count));
    GIVES(WULAMERON_OK, wulameron_get_entry(session, 0, &state, &pattern, &number, &nodes, &max_nodes));
    CHECK(state == WULAMERON_PUBLISHED && pattern == WULAMERON_EVENT && number == 0 && nodes == 1 && max_nodes == 2);
    GIVES(WULAMERON_TOO_SMALL, wulameron_get_entry_name(session, 0, name, 4, &length));
    GIVES(WULAMERON_OK, wulameron_get_entry_name(session, 0, name, sizeof name, &length));
    CHECK(length == 5 && memcmp(name, "lamps", 5) == 0);
    GIVES(WULAMERON_OK, wulameron_get_entry_hash(session, 0, hash, sizeof hash, &length));
    CHECK(length == sizeof hash && memcmp(hash, lamps_hash, sizeof hash) == 0);
    GIVES(WULAMERON_NO_SUCH_ITEM, wulameron_get_entry_name(session, 1, name, sizeof name, &length));
    closes(session);
}

/* Lines in the words of negotiate, by the replies of docs/PROGRAM.md. */
static void lines(void)
{
    wulameron_session *session = opened(7);
    static char many[65537];
    char reply[256] = "";
    size_t length = 9;
    uint64_t value = 0;
    GIVES(WULAMERON_OK, wulameron_get_reply(session, reply, sizeof reply, &length));
    CHECK(length == 0);
    GIVES(WULAMERON_OK, wulameron_line(session, WULAMERON_TEXT("event create 7 5 lamps max_listeners=4")));
    GIVES(WULAMERON_TOO_SMALL, wulameron_get_reply(session, reply, 3, &length));
    GIVES(WULAMERON_OK, wulameron_get_reply(session, reply, sizeof reply, &length));
    CHECK(length >= 13 && memcmp(reply, "ok 5 number=0", 13) == 0);
    GIVES(WULAMERON_OK, wulameron_get_number(session, 5, WULAMERON_MAX_LISTENERS, &value));
    CHECK(value == 4);
    GIVES(WULAMERON_OK, wulameron_line(session, WULAMERON_TEXT("event open 7 6 lamps max_listeners=5")));
    GIVES(WULAMERON_OK, wulameron_get_reply(session, reply, sizeof reply, &length));
    CHECK(length < sizeof reply);
    reply[length < sizeof reply ? length : 0] = 0;
    CHECK(strstr(reply, "DoesNotSupportRequestedAmountOfListeners") != NULL);
    GIVES(WULAMERON_BAD_LINE, wulameron_line(session, WULAMERON_TEXT("event crate 7 6 lamps")));
    GIVES(WULAMERON_OK, wulameron_get_reply(session, reply, sizeof reply - 1, &length));
    CHECK(length > 0);
    memset(many, 'x', sizeof many);
    GIVES(WULAMERON_BAD_LINE, wulameron_line(session, many, sizeof many));
    GIVES(WULAMERON_NULL, wulameron_line(session, NULL, 1));
    GIVES(WULAMERON_OK, wulameron_close(session, 5));
    closes(session);
}

/* The names and texts of refusals, as `tools/write-refusals` prints them. */
static void refusals(void)
{
    char text[512];
    size_t length = 0;
    GIVES(WULAMERON_OK, wulameron_refusal_name(WULAMERON_EVENT_OPEN_ERROR + 13, text, sizeof text, &length));
    CHECK(length == 56 && memcmp(text, "EventOpenError::DoesNotSupportRequestedAmountOfListeners", 56) == 0);
    GIVES(WULAMERON_TOO_SMALL, wulameron_refusal_name(9999, NULL, 0, &length));
    CHECK(length == strlen("RequestResponseOpenOrCreateError::SystemInFlux"));
    GIVES(WULAMERON_OK, wulameron_refusal_text(WULAMERON_EVENT_OPEN_ERROR + 13, text, sizeof text, &length));
    CHECK(length > 0 && memcmp(text, "at the second setting: ", 23) == 0);
    GIVES(WULAMERON_OK, wulameron_refusal_advice(WULAMERON_EVENT_OPEN_ERROR + 13, text, sizeof text, &length));
    CHECK(length > 0 && memcmp(text, "ask for at most as many", 23) == 0);
    GIVES(WULAMERON_NO_SUCH_ITEM, wulameron_refusal_name(1000, text, sizeof text, &length));
    GIVES(WULAMERON_NO_SUCH_ITEM, wulameron_refusal_text(1019, text, sizeof text, &length));
    GIVES(WULAMERON_NULL, wulameron_refusal_name(1001, text, sizeof text, NULL));
}

/* Nodes are there over a log alone. */
static void nodes(void)
{
    wulameron_session *session = opened(7), *other;
    uint64_t node = 0, count = 0, releases = 9, removals = 9;
    uint32_t state = 0, only = folder != NULL ? WULAMERON_OK : WULAMERON_ONLY_OVER_LOG;
    GIVES(only, wulameron_node(session, &node));
    GIVES(only, wulameron_nodes(session, &count));
    GIVES(only, wulameron_clean(session, WULAMERON_ANY_NODE, 1, &count, &releases, &removals));
    if (folder != NULL) {
        CHECK(count == 0 && releases == 0 && removals == 0);
        other = beside(session, 9);
        GIVES(WULAMERON_OTHER_NODE, asked(session, WULAMERON_EVENT, WULAMERON_CREATE, 9, "lamps"));
        GIVES(WULAMERON_NO_REQUEST, wulameron_set_number(session, WULAMERON_MAX_NODES, 1));
        GIVES(WULAMERON_OK, wulameron_nodes(session, &count));
        CHECK(count == 2);
        GIVES(WULAMERON_OK, wulameron_get_node(session, 1, &node, &state));
        CHECK(node == 9 && state == WULAMERON_ALIVE);
        GIVES(WULAMERON_NODE_ALIVE, wulameron_clean(session, 9, 0, &count, &releases, &removals));
        GIVES(WULAMERON_NO_SUCH_ITEM, wulameron_clean(session, 10, 0, &count, &releases, &removals));
        GIVES(WULAMERON_BAD_VALUE, wulameron_clean(session, 9, 2, &count, &releases, &removals));
        closes(other);
        GIVES(WULAMERON_OK, wulameron_nodes(session, &count));
        GIVES(WULAMERON_OK, wulameron_get_node(session, 1, &node, &state));
        CHECK(node == 9 && state == WULAMERON_NODE_ENDED);
        GIVES(WULAMERON_OK, wulameron_clean(session, 9, 0, &count, &releases, &removals));
        CHECK(releases == 0 && removals == 0);
    }
    GIVES(folder != NULL ? WULAMERON_NO_SUCH_ITEM : only, wulameron_get_node(session, 5, &node, &state));
    closes(session);
}

static void messages(void)
{
    wulameron_session *session = opened(1);
    uint64_t number = 0, value = 0, size = 0, alignment = 0;
    uint32_t refusal = 0, variant = 0;
    char text[32];
    size_t length = 0;
    GIVES(WULAMERON_OK, asked(session, WULAMERON_PUBLISH_SUBSCRIBE, WULAMERON_CREATE, 1, "camera"));
    GIVES(WULAMERON_OK, wulameron_set_number(session, WULAMERON_MAX_SUBSCRIBERS, 6));
    GIVES(WULAMERON_OK, wulameron_set_number(session, WULAMERON_ENABLE_SAFE_OVERFLOW, 0));
    GIVES(WULAMERON_OK, wulameron_set_type(session, WULAMERON_PAYLOAD, WULAMERON_DYNAMIC, WULAMERON_TEXT("u8"), 1, 1));
    GIVES(WULAMERON_OK, wulameron_set_number(session, WULAMERON_PAYLOAD_ALIGNMENT, 64));
    GIVES(WULAMERON_OK, wulameron_send(session, 0, &number, &refusal));
    GIVES(WULAMERON_OK, wulameron_get_number(session, 0, WULAMERON_ENABLE_SAFE_OVERFLOW, &value));
    CHECK(value == 0);
    GIVES(WULAMERON_OK, wulameron_get_type(session, 0, WULAMERON_PAYLOAD, &variant, &size, &alignment));
    CHECK(variant == WULAMERON_DYNAMIC && size == 1 && alignment == 64);
    GIVES(WULAMERON_OK, wulameron_get_type_name(session, 0, WULAMERON_PAYLOAD, text, sizeof text, &length));
    CHECK(length == 2 && memcmp(text, "u8", 2) == 0);
    GIVES(WULAMERON_OK, wulameron_get_type(session, 0, WULAMERON_USER_HEADER, &variant, &size, &alignment));
    CHECK(variant == WULAMERON_FIXED_SIZE && size == 0 && alignment == 1);
    GIVES(WULAMERON_OK, asked(session, WULAMERON_REQUEST_RESPONSE, WULAMERON_CREATE, 1, "camera"));
    GIVES(WULAMERON_OK, wulameron_set_number(session, WULAMERON_MAX_SERVERS, 3));
    GIVES(WULAMERON_OK, wulameron_set_number(session, WULAMERON_ENABLE_FIRE_AND_FORGET_REQUESTS, 1));
    GIVES(WULAMERON_OK,
        wulameron_set_type(session, WULAMERON_RESPONSE_PAYLOAD, WULAMERON_FIXED_SIZE, WULAMERON_TEXT("Pose"), 24, 8));
    GIVES(WULAMERON_OK, wulameron_send(session, 1, &number, &refusal));
    GIVES(WULAMERON_OK, wulameron_get_number(session, 1, WULAMERON_MAX_SERVERS, &value));
    CHECK(value == 3);
    GIVES(WULAMERON_OK, wulameron_get_type(session, 1, WULAMERON_RESPONSE_PAYLOAD, &variant, &size, &alignment));
    CHECK(variant == WULAMERON_FIXED_SIZE && size == 24 && alignment == 8);
    GIVES(WULAMERON_UNKNOWN_SETTING, wulameron_get_type(session, 1, WULAMERON_PAYLOAD, &variant, &size, &alignment));
    closes(session);
}

/* Each text is read back as it was set, whatever it has. */
static void any_text(void)
{
    static const char text[] = "a b=c,d:e%\n\303\244\"%20";
    const size_t size = sizeof text - 1;
    wulameron_session *session = opened(1);
    uint64_t number = 0, count = 0, of = 0, alignment = 0;
    uint32_t refusal = 0, variant = 0;
    char first[64] = "x", second[64] = "x";
    size_t length = 0, other = 0;
    GIVES(WULAMERON_OK, wulameron_begin(session, WULAMERON_PUBLISH_SUBSCRIBE, WULAMERON_OPEN_OR_CREATE, 1, text, size));
    GIVES(WULAMERON_OK, wulameron_set_type(session, WULAMERON_PAYLOAD, WULAMERON_FIXED_SIZE, text, size, 7, 16));
    GIVES(WULAMERON_OK, wulameron_add_attribute(session, text, size, text, size));
    GIVES(WULAMERON_OK, wulameron_add_attribute(session, WULAMERON_TEXT("%"), NULL, 0));
    GIVES(WULAMERON_OK, wulameron_require_key(session, text, size));
    GIVES(WULAMERON_OK, wulameron_send(session, 9, &number, &refusal));
    GIVES(WULAMERON_OK, wulameron_get_name(session, 9, first, sizeof first, &length));
    CHECK(length == size && memcmp(first, text, size) == 0);
    GIVES(WULAMERON_OK, wulameron_get_type_name(session, 9, WULAMERON_PAYLOAD, first, sizeof first, &length));
    CHECK(length == size && memcmp(first, text, size) == 0);
    GIVES(WULAMERON_OK, wulameron_get_type(session, 9, WULAMERON_PAYLOAD, &variant, &of, &alignment));
    CHECK(variant == WULAMERON_FIXED_SIZE && of == 7 && alignment == 16);
    GIVES(WULAMERON_UNKNOWN_SETTING, wulameron_get_number(session, 9, WULAMERON_PAYLOAD_ALIGNMENT, &of));
    GIVES(WULAMERON_UNKNOWN_SETTING, wulameron_get_duration(session, 9, WULAMERON_CREATION_TIME, &of, &variant));
    /* Both lengths are told, and neither text is written where one has no room. */
    memset(first, 'x', sizeof first);
    GIVES(WULAMERON_TOO_SMALL, wulameron_get_attribute(session, 9, 1, first, 64, &length, second, 1, &other));
    CHECK(length == size && other == size && first[0] == 'x');
    GIVES(WULAMERON_OK, wulameron_get_attribute(session, 9, 1, first, 64, &length, second, 64, &other));
    CHECK(memcmp(first, text, size) == 0 && memcmp(second, text, size) == 0);
    GIVES(WULAMERON_OK, wulameron_get_attribute(session, 9, 0, first, 64, &length, second, 64, &other));
    CHECK(length == 1 && first[0] == '%' && other == 0);
    GIVES(WULAMERON_OK, wulameron_list(session, &count));
    GIVES(WULAMERON_OK, wulameron_get_entry_name(session, 0, first, sizeof first, &length));
    CHECK(count == 1 && length == size && memcmp(first, text, size) == 0);
    closes(session);
}

/* A service may have the name of a setting. */
static void names_of_settings(void)
{
    static const char *const names[] = {"max_servers", "attribute", "hash", "none", "agreed", "create"};
    wulameron_session *session = opened(1);
    uint64_t number = 0, value = 0, count = 0;
    uint32_t k, refusal = 0;
    uint8_t hash[WULAMERON_HASH_SIZE];
    char name[16];
    size_t length = 0;
    for (k = 0; k < sizeof names / sizeof *names; k++) {
        GIVES(WULAMERON_OK, asked(session, WULAMERON_REQUEST_RESPONSE, WULAMERON_CREATE, 1, names[k]));
        GIVES(WULAMERON_OK, wulameron_set_number(session, WULAMERON_MAX_SERVERS, 3));
        GIVES(WULAMERON_OK, wulameron_send(session, k, &number, &refusal));
        GIVES(WULAMERON_OK, wulameron_get_number(session, k, WULAMERON_MAX_SERVERS, &value));
        GIVES(WULAMERON_OK, wulameron_get_attribute_count(session, k, &count));
        GIVES(WULAMERON_OK, wulameron_get_hash(session, k, hash, sizeof hash, &length));
        CHECK(value == 3 && count == 0 && length == sizeof hash);
        GIVES(WULAMERON_OK, wulameron_get_name(session, k, name, sizeof name, &length));
        CHECK(length == strlen(names[k]) && memcmp(name, names[k], length) == 0);
    }
    closes(session);
}

/* Equal pairs and keys count once; what a call has no use for is taken, and left out. */
static void limits(void)
{
    wulameron_session *session = opened(1);
    uint64_t number = 0, count = 0;
    uint32_t refusal = 0;
    unsigned k, round;
    char key[8];
    GIVES(WULAMERON_NO_REQUEST, wulameron_add_attribute(session, NULL, 0, NULL, 0));
    GIVES(WULAMERON_OK, asked(session, WULAMERON_EVENT, WULAMERON_OPEN_OR_CREATE, 1, "lamps"));
    for (round = 0; round < 2; round++) {
        for (k = 0; k < 64; k++) {
            snprintf(key, sizeof key, "k%u", k);
            GIVES(WULAMERON_OK, wulameron_add_attribute(session, key, strlen(key), WULAMERON_TEXT("v")));
            GIVES(WULAMERON_OK, wulameron_require_key(session, key, strlen(key)));
        }
    }
    GIVES(WULAMERON_TOO_MANY, wulameron_add_attribute(session, WULAMERON_TEXT("k0"), WULAMERON_TEXT("w")));
    GIVES(WULAMERON_TOO_MANY, wulameron_require_key(session, WULAMERON_TEXT("k")));
    GIVES(WULAMERON_BAD_ATTRIBUTE, wulameron_require_key(session, NULL, 0));
    GIVES(WULAMERON_OK, wulameron_send(session, 0, &number, &refusal));
    GIVES(WULAMERON_OK, wulameron_get_attribute_count(session, 0, &count));
    CHECK(count == 64);
    /* The slot is tested before the request. */
    GIVES(WULAMERON_SLOT_IN_USE, wulameron_send(session, 0, &number, &refusal));
    GIVES(WULAMERON_NO_REQUEST, wulameron_send(session, 1, &number, &refusal));
    GIVES(WULAMERON_OK, asked(session, WULAMERON_EVENT, WULAMERON_OPEN, 1, "lamps"));
    GIVES(WULAMERON_OK, wulameron_set_time(session, 1, 2));
    GIVES(WULAMERON_OK, wulameron_send(session, 1, &number, &refusal));
    GIVES(WULAMERON_OK, asked(session, WULAMERON_REQUEST_RESPONSE, WULAMERON_CREATE, 1, "lamps"));
    GIVES(WULAMERON_OK, wulameron_set_clock_fault(session));
    GIVES(WULAMERON_OK, wulameron_require_key(session, WULAMERON_TEXT("k")));
    GIVES(WULAMERON_OK, wulameron_send(session, 2, &number, &refusal));
    GIVES(WULAMERON_OK, asked(session, WULAMERON_EVENT, WULAMERON_CREATE, 1, "doors"));
    GIVES(WULAMERON_OK, wulameron_set_duration(session, WULAMERON_DEADLINE, 1, 0));
    GIVES(WULAMERON_OK, wulameron_set_clock_fault(session));
    GIVES(WULAMERON_REFUSED, wulameron_send(session, 3, &number, &refusal));
    CHECK(refusal > WULAMERON_EVENT_CREATE_ERROR && refusal < WULAMERON_EVENT_CREATE_ERROR + 100);
    closes(session);
}

static void what_is_wrong(void)
{
    static const char bad[] = "\377";
    wulameron_session *session = NULL;
    uint64_t number = 5;
    uint32_t refusal = 6;
    static char name[70000];
    memset(name, 'n', sizeof name);
    GIVES(WULAMERON_NULL, wulameron_open_table(WULAMERON_VERSION, NULL));
    GIVES(WULAMERON_VERSION_DIFFERS, wulameron_open_table(WULAMERON_VERSION + 1, &session));
    CHECK(session == NULL);
    session = opened(1);
    GIVES(WULAMERON_NULL, asked(NULL, WULAMERON_EVENT, WULAMERON_OPEN, 1, "lamps"));
    GIVES(WULAMERON_NULL, wulameron_begin(session, WULAMERON_EVENT, WULAMERON_OPEN, 1, NULL, 1));
    GIVES(WULAMERON_NULL, wulameron_send(session, 0, NULL, &refusal));
    GIVES(WULAMERON_NO_REQUEST, wulameron_set_number(session, WULAMERON_MAX_NODES, 1));
    GIVES(WULAMERON_NO_REQUEST, wulameron_set_clock_fault(session));
    GIVES(WULAMERON_UNKNOWN_PATTERN, asked(session, 4, WULAMERON_OPEN, 1, "lamps"));
    GIVES(WULAMERON_UNKNOWN_CALL, asked(session, WULAMERON_EVENT, 0, 1, "lamps"));
    GIVES(WULAMERON_BAD_NAME, wulameron_begin(session, WULAMERON_EVENT, WULAMERON_OPEN, 1, NULL, 0));
    GIVES(WULAMERON_BAD_NAME, wulameron_begin(session, WULAMERON_EVENT, WULAMERON_OPEN, 1, name, 256));
    GIVES(WULAMERON_BAD_NAME, wulameron_begin(session, WULAMERON_EVENT, WULAMERON_OPEN, 1, name, sizeof name));
    memcpy(name + 65535, "\303\244", 2);
    GIVES(WULAMERON_BAD_NAME, wulameron_begin(session, WULAMERON_EVENT, WULAMERON_OPEN, 1, name, sizeof name));
    GIVES(WULAMERON_NOT_UTF8, wulameron_begin(session, WULAMERON_EVENT, WULAMERON_OPEN, 1, bad, 1));
    GIVES(WULAMERON_NO_REQUEST, wulameron_send(session, 0, &number, &refusal));
    GIVES(WULAMERON_OK, wulameron_begin(session, WULAMERON_PUBLISH_SUBSCRIBE, WULAMERON_CREATE, 1, name, 255));
    GIVES(WULAMERON_UNKNOWN_SETTING, wulameron_set_number(session, WULAMERON_MAX_LISTENERS, 1));
    GIVES(WULAMERON_UNKNOWN_SETTING, wulameron_set_none(session, WULAMERON_DEADLINE));
    GIVES(WULAMERON_UNKNOWN_SETTING, wulameron_set_duration(session, WULAMERON_DEADLINE, 1, 0));
    GIVES(WULAMERON_BAD_VALUE, wulameron_set_duration(session, WULAMERON_DEADLINE, 1, 1000000000));
    GIVES(WULAMERON_BAD_VALUE, wulameron_set_time(session, 1, 1000000000));
    GIVES(WULAMERON_BAD_VALUE, wulameron_set_number(session, WULAMERON_ENABLE_SAFE_OVERFLOW, 2));
    GIVES(WULAMERON_BAD_VALUE, wulameron_set_number(session, WULAMERON_PAYLOAD_ALIGNMENT, 3));
    GIVES(WULAMERON_BAD_VALUE, wulameron_set_type(session, WULAMERON_PAYLOAD, 3, WULAMERON_TEXT("u8"), 1, 1));
    GIVES(WULAMERON_BAD_TYPE, wulameron_set_type(session, WULAMERON_PAYLOAD, 1, WULAMERON_TEXT("u8"), 1, 3));
    GIVES(WULAMERON_BAD_TYPE, wulameron_set_type(session, WULAMERON_PAYLOAD, 1, NULL, 0, 1, 1));
    GIVES(WULAMERON_NOT_UTF8, wulameron_set_type(session, WULAMERON_PAYLOAD, 1, bad, 1, 1, 1));
    GIVES(WULAMERON_UNKNOWN_SETTING,
        wulameron_set_type(session, WULAMERON_REQUEST_PAYLOAD, 1, WULAMERON_TEXT("u8"), 1, 1));
    GIVES(WULAMERON_BAD_ATTRIBUTE, wulameron_add_attribute(session, NULL, 0, WULAMERON_TEXT("v")));
    GIVES(WULAMERON_BAD_ATTRIBUTE, wulameron_require_key(session, name, 65));
    GIVES(WULAMERON_NOT_UTF8, wulameron_add_attribute(session, WULAMERON_TEXT("k"), bad, 1));
    CHECK(number == 5 && refusal == 6);
    GIVES(WULAMERON_OK, wulameron_send(session, 0, &number, &refusal));
    CHECK(number == 0);
    closes(session);
    closes(NULL);
    CHECK(strcmp(wulameron_code_text(WULAMERON_OK), "done") == 0);
    CHECK(strcmp(wulameron_code_text(WULAMERON_NONE), "the setting has no value") == 0);
    CHECK(strcmp(wulameron_code_text(WULAMERON_NODE_ALIVE), "the node is alive") == 0);
    CHECK(strcmp(wulameron_code_text(WULAMERON_LOST), "the session was lost; open again") == 0);
    CHECK(strcmp(wulameron_code_text(WULAMERON_LOST + 1), "no such code") == 0);
}

int main(int count, char **words)
{
    folder = count > 1 ? words[1] : NULL;
    events();
    two_nodes();
    three_nodes();
    messages();
    listing();
    lines();
    refusals();
    nodes();
    any_text();
    names_of_settings();
    limits();
    what_is_wrong();
    return counted();
}
