/* Growing texts, the leaves of escaped lines, and the forms of replies. No proof covers this file. */
#include "lines.h"
#include "wulameron.h"

#include <stdlib.h>
#include <string.h>

int wulameron_has_room(wulameron_text *text, size_t more)
{
    size_t size = text->size < LEAST ? LEAST : text->size;
    char *bytes;
    if (text->size - text->length >= more) return 1;
    while (size - text->length < more && size <= SIZE_MAX / 2) size *= 2;
    if (size - text->length < more) return 0;
    bytes = (char *)realloc(text->bytes, size);
    if (bytes == NULL) return 0;
    text->bytes = bytes;
    text->size = size;
    return 1;
}

static const char digits[] = "0123456789ABCDEF0123456789abcdef";

/* Whether a character of a form stands for what varies. */
static int is_mark(char c)
{
    return c == '~' || (c > ' ' && c < 'a' && c != ',' && c != ':' && c != '=' && c != '\'');
}

/* Writes bytes behind a text, as they are or as a leaf, and leaves room for what a form has of its own. */
static int is_put(wulameron_text *text, wulameron_part bytes, int is_leaf)
{
    char *to;
    size_t k;
    if (bytes.length > SIZE_MAX / 4 || !wulameron_has_room(text, (is_leaf ? 3 : 1) * bytes.length + LEAST)) return 0;
    to = text->bytes + text->length;
    if (!is_leaf && bytes.length > 0) memcpy(to, bytes.at, bytes.length);
    if (!is_leaf) to += bytes.length;
    else if (bytes.length == 0) *to++ = '%';
    for (k = 0; is_leaf && k < bytes.length; k++) {
        unsigned char byte = (unsigned char)bytes.at[k];
        int is_plain = byte > ' ' && byte < 0x7f && byte != '%' && byte != ',' && byte != ':' && byte != '=';
        to[0] = is_plain ? bytes.at[k] : '%';
        to[1] = digits[byte >> 4];
        to[2] = digits[byte & 15];
        to += is_plain ? 1 : 3;
    }
    text->length = (size_t)(to - text->bytes);
    return 1;
}

uint32_t wulameron_put(wulameron_text *text, const char *form, ...)
{
    size_t before = text->length;
    int is_whole = wulameron_has_room(text, LEAST);
    va_list given;
    va_start(given, form);
    for (; *form != 0 && is_whole; form++) {
        char number[20], *digit = number + sizeof number;
        wulameron_part next = {digit, 0};
        uint64_t rest = *form == '#' ? va_arg(given, uint64_t) : 0;
        if (*form == '#') do *--digit = (char)('0' + rest % 10); while ((rest /= 10) > 0);
        if (*form == '#') next = (wulameron_part){digit, (size_t)(number + sizeof number - digit)};
        if (*form == '*' || *form == '~') next = va_arg(given, wulameron_part);
        if (*form == '$') next.at = va_arg(given, const char *);
        if (*form == '$') next.length = strlen(next.at);
        if (*form == '_' || !is_mark(*form)) text->bytes[text->length++] = *form;
        else is_whole = is_put(text, next, *form == '~');
    }
    va_end(given);
    if (!is_whole) text->length = before;
    return is_whole ? WULAMERON_OK : WULAMERON_OUT_OF_MEMORY;
}

int wulameron_is_utf8(wulameron_part text)
{
    size_t at = 0;
    while (at < text.length) {
        unsigned first = (unsigned char)text.at[at++];
        /* No longer form than needed, no surrogate, nothing past the last character. */
        unsigned least = first == 0xe0 ? 0xa0 : first == 0xf0 ? 0x90 : 0x80;
        unsigned most = first == 0xed ? 0x9f : first == 0xf4 ? 0x8f : 0xbf;
        int more = first < 0x80 ? 0 : first < 0xe0 ? 1 : first < 0xf0 ? 2 : 3;
        if (first > 0xf4 || (first >= 0x80 && first < 0xc2)) return 0;
        for (; more > 0; more--, at++, least = 0x80, most = 0xbf)
            if (at == text.length || (unsigned char)text.at[at] < least || (unsigned char)text.at[at] > most) return 0;
    }
    return 1;
}

/* ---- replies */

wulameron_part wulameron_cut(wulameron_part *rest, char mark)
{
    const char *found = rest->length > 0 ? (const char *)memchr(rest->at, mark, rest->length) : NULL;
    wulameron_part front = {rest->at, found != NULL ? (size_t)(found - rest->at) : rest->length};
    rest->at += front.length + (found != NULL);
    rest->length -= front.length + (found != NULL);
    return front;
}

int wulameron_is(wulameron_part part, const char *text)
{
    return part.length == strlen(text) && memcmp(part.at, text, part.length) == 0;
}

static int is_number(wulameron_part word, uint64_t *number)
{
    size_t k;
    *number = 0;
    for (k = 0; k < word.length; k++) {
        unsigned digit = (unsigned)(unsigned char)word.at[k] - '0';
        if (digit > 9 || *number > (UINT64_MAX - digit) / 10) return 0;
        *number = *number * 10 + digit;
    }
    return word.length > 0;
}

/* The value of a hexadecimal digit, or 16. */
static unsigned digit_of(char digit)
{
    const char *found = digit != 0 ? strchr(digits, digit) : NULL;
    return found != NULL ? (unsigned)(found - digits) % 16 : 16;
}

/* Whether it is bytes, as a leaf or, with no mark, as digits: how many, and the bytes too unless `to` is null. */
static int is_bytes(wulameron_part word, char mark, unsigned char *to, size_t *length)
{
    size_t at, step;
    if (mark == '%' && wulameron_is(word, "%")) word.length = 0;
    for (at = *length = 0; at < word.length; at += step, ++*length) {
        const char *digits = word.at + at + (mark == '%');
        step = mark != '%' ? 2 : word.at[at] == '%' ? 3 : 1;
        if (step > word.length - at || (step > 1 && (digit_of(digits[0]) | digit_of(digits[1])) > 15)) return 0;
        if (to != NULL) to[*length] = (unsigned char)(step == 1 ? (unsigned)word.at[at]
                                                                : digit_of(digits[0]) << 4 | digit_of(digits[1]));
    }
    return 1;
}

/* What a word is for one character of a form. */
static uint32_t takes(wulameron_part word, char what, va_list *places, int pass)
{
    static const char *const flags[] = {"false", "true", NULL};
    const char *const *words = what == '^' ? va_arg(*places, const char *const *) : what == '!' ? flags : NULL;
    uint64_t number = 0, *wide = NULL;
    uint32_t *narrow = NULL;
    if (what == '_' || what == '*') {
        wulameron_part *part = what == '*' ? va_arg(*places, wulameron_part *) : NULL;
        if (pass == WRITES && part != NULL) *part = word;
        return WULAMERON_OK;
    }
    if (what == '@') {
        uint64_t wanted = va_arg(*places, uint64_t);
        return pass == PLACES || (is_number(word, &number) && number == wanted) ? WULAMERON_OK : WULAMERON_ENDED;
    }
    if (what == '~' || what == '&') {
        unsigned char *output = (unsigned char *)va_arg(*places, void *);
        size_t size = va_arg(*places, size_t), *length = va_arg(*places, size_t *), found;
        if (pass == PLACES) return length != NULL && (output != NULL || size == 0) ? WULAMERON_OK : WULAMERON_NULL;
        if (!is_bytes(word, what == '~' ? '%' : 0, pass == WRITES ? output : NULL, &found)) return WULAMERON_ENDED;
        *length = found;
        return found <= size ? WULAMERON_OK : WULAMERON_TOO_SMALL;
    }
    if (what == '#' || what == '!') wide = va_arg(*places, uint64_t *);
    else narrow = va_arg(*places, uint32_t *);
    if (pass == PLACES) return wide != NULL || narrow != NULL ? WULAMERON_OK : WULAMERON_NULL;
    while (words != NULL && words[number] != NULL && !wulameron_is(word, words[number])) number++;
    if ((words == NULL || words[number] == NULL) && (what == '^' || !is_number(word, &number))) return WULAMERON_ENDED;
    if (pass == WRITES && wide != NULL) *wide = number;
    if (pass == WRITES && narrow != NULL) *narrow = (uint32_t)number;
    return WULAMERON_OK;
}

uint32_t wulameron_read(wulameron_part text, const char *form, va_list places, int pass)
{
    uint32_t found = WULAMERON_OK, code = WULAMERON_OK;
    wulameron_part rest = text;
    const char *at;
    va_list next;
    va_copy(next, places);
    for (at = form; *at != 0 && (found == WULAMERON_OK || found == WULAMERON_TOO_SMALL); at++) {
        int varies = is_mark(*at);
        wulameron_part word = rest, left = rest;
        if (!varies) word.length = rest.length > 0;
        else if (at[1] != 0) word = wulameron_cut(&left, at[1]);
        if (varies) found = takes(word, *at, &next, pass);
        else if (pass != PLACES && (word.length == 0 || *word.at != *at)) found = WULAMERON_ENDED;
        if (found != WULAMERON_OK) code = found;
        rest.at += word.length;
        rest.length -= word.length;
    }
    va_end(next);
    if (code == WULAMERON_OK && pass != PLACES && rest.length > 0) return WULAMERON_ENDED;
    return code == WULAMERON_OK && pass == LOOKS ? wulameron_read(text, form, places, WRITES) : code;
}

int wulameron_matches(wulameron_part text, const char *form, ...)
{
    va_list places;
    int is_so = text.length == 0 || *text.at == *form || is_mark(*form);
    va_start(places, form);
    is_so = is_so && wulameron_read(text, form, places, WRITES) == WULAMERON_OK;
    va_end(places);
    return is_so;
}
