/* Makes the URI that the fuzz target asks for out of the one in the stream's head: the same, a neighbour of it, or nothing. */
#include "uri.h"

#include <string.h>
#include <strings.h>

#include "lent.h"

static const char name[] = "X-Ouinet-URI:";
static size_t asked;

const uint8_t *asked_uri(void) {
    return lent()->uri + MOST_URI - asked;
}

size_t asked_length(void) {
    return asked;
}

static void ask(const uint8_t *uri, size_t length) {
    asked = length < MOST_URI ? length : MOST_URI;
    memmove(lent()->uri + MOST_URI - asked, uri, asked);
}

/* Where the first such text ends, or the end of the bytes. */
static const uint8_t *behind(const uint8_t *from, const uint8_t *to, const char *text) {
    size_t length = strlen(text);
    for (; from + length <= to; from++) {
        if (memcmp(from, text, length) == 0) return from + length;
    }
    return to;
}

static int is_blank(uint8_t byte) {
    return byte == ' ' || byte == '\t';
}

/* The value of the head's first line of that name, without the blanks around it; empty where there is none. */
static size_t find(const uint8_t *stream, size_t length, const uint8_t **value) {
    const uint8_t *end = behind(stream, stream + length, "\r\n\r\n"), *line = stream;
    while (line < end) {
        const uint8_t *next = behind(line, end, "\r\n");
        if ((size_t)(next - line) > strlen(name) + 1 && strncasecmp((const char *)line, name, strlen(name)) == 0) {
            const uint8_t *start = line + strlen(name), *last = next - 2;
            while (start < last && is_blank(*start)) start++;
            while (start < last && is_blank(last[-1])) last--;
            *value = start;
            return (size_t)(last - start);
        }
        line = next;
    }
    *value = stream;
    return 0;
}

/* The bytes in `uri` changed in one of some ways. Their new length. */
static size_t changed(uint8_t change, uint8_t *uri, size_t length) {
    uint8_t *byte = &uri[length > 0 ? change / 8 % length : 0];
    switch (change % 8) {
    case 1:
        return 0;
    case 2:
        return length > 0 ? length - 1 : 0;
    case 3:
        uri[length] = " \t\n/"[change / 8 % 4];
        return length + 1;
    case 4:
        memmove(uri + 1, uri, length);
        uri[0] = ' ';
        return length + 1;
    case 5:
        *byte ^= 32;
        return length;
    case 6:
        *byte ^= 1;
        return length;
    case 7:
        memset(uri + length, 'x', MOST_URI - length);
        return MOST_URI;
    default:
        return length;
    }
}

int ask_for(uint8_t change, const uint8_t *stream, size_t length) {
    static uint8_t uri[MOST_URI];
    const uint8_t *own;
    size_t own_length = find(stream, length, &own);
    if (own_length > MOST_URI / 2) own_length = MOST_URI / 2;
    memcpy(uri, own, own_length);
    ask(uri, changed(change, uri, own_length));
    return asked == own_length && memcmp(asked_uri(), own, asked) == 0;
}

void ask_otherwise(uint64_t number) {
    uint8_t other[2] = {(uint8_t)number, 'x'};
    ask(other, number % 3);
}
