/*
 * include/ouinet_reader.h and the library behind it, from C: the example stream of crates/ouiread/data goes through in pieces of one size, without
 * and with the fields about its end, and what is said must be paper 01's nine lines, and the lines of crates/ouiread/stdout; then what is wrong with
 * these fields; then document 000's part answer, and what is wrong with others; then wrong texts, and the place that is told of each; then heads with
 * repeated fields; then URIs that were asked for and are not the head's; then heads and trailers as long as they may be, and buffers as long as they had to be before request #108; then the sizes that the header
 * names, each beside one that is one byte short; then forged states, in buffers that are longer than named and marked beyond.
 * tests/header.sh builds and runs it. Its last line is 'N passed, M failed'.
 */
#include "ouinet_reader.h"

#include <stdio.h>
#include <stdlib.h>
#include <string.h>

enum { STATE = OUINET_READER_STATE_SIZE, RESULT = OUINET_READER_RESULT_SIZE, RECORD = OUINET_READER_RECORD_SIZE };

static uint8_t state[STATE], result[RESULT];
static uint8_t head[OUINET_READER_HEAD_SIZE], block[OUINET_READER_BLOCK_SIZE], question[OUINET_READER_QUESTION_SIZE];
static uint8_t ring[RECORD];
/* What feed is lent: so much of the ring, and the URI asked for. */
static size_t ring_length = RECORD, uri_length;
static const uint8_t *uri;
static int passed, failed;

static void expect(const char *what, int good) {
    if (good) {
        passed++;
    } else {
        failed++;
        printf("FAILED: %s\n", what);
    }
}

/* Reads a file, with a 0 behind it, and gives its length. */
static size_t contents(const char *path, char *to, size_t room) {
    FILE *file = fopen(path, "rb");
    size_t length;
    if (!file) {
        perror(path);
        exit(1);
    }
    length = fread(to, 1, room - 1, file);
    to[length] = 0;
    fclose(file);
    return length;
}

static unsigned sextet(char c) {
    const char *letters = "ABCDEFGHIJKLMNOPQRSTUVWXYZabcdefghijklmnopqrstuvwxyz0123456789+/";
    const char *at = strchr(letters, c);
    return c && at ? (unsigned)(at - letters) : 0;
}

/* The record of a ring line: the key's 44 characters, the first and the last second. */
static void read_ring(const char *line) {
    unsigned long long first, last;
    int i;
    for (i = 0; i < 32; i++) {
        const char *four = line + i / 3 * 4;
        unsigned n = sextet(four[0]) << 18 | sextet(four[1]) << 12 | sextet(four[2]) << 6 | sextet(four[3]);
        ring[OUINET_READER_RECORD_KEY + i] = (uint8_t)(n >> (16 - 8 * (i % 3)));
    }
    if (sscanf(line + 44, "%llu %llu", &first, &last) != 2) {
        fprintf(stderr, "header: the ring has no two seconds\n");
        exit(1);
    }
    ouinet_reader_put_number(ring + OUINET_READER_RECORD_FIRST, first);
    ouinet_reader_put_number(ring + OUINET_READER_RECORD_LAST, last);
}

static uint8_t feed(const uint8_t *piece, size_t length) {
    return ouinet_reader_feed(state, STATE, head, sizeof head, block, sizeof block, question, sizeof question, ring, ring_length, uri,
                              uri_length, piece, length, result, RESULT);
}

static void ask_for(const char *text, size_t length) {
    uri = (const uint8_t *)text;
    uri_length = length;
}

static uint8_t answer(uint8_t good) {
    return ouinet_reader_answer(state, STATE, head, sizeof head, block, sizeof block, question, sizeof question, good, result, RESULT);
}

static uint8_t end(void) {
    return ouinet_reader_end(state, STATE, head, sizeof head, block, sizeof block, question, sizeof question, result, RESULT);
}

static unsigned long long number(const uint8_t *at) { return ouinet_reader_number(at); }

/* The line of a word, as the program ouiread writes it. */
static void say(char *to, uint8_t word) {
    unsigned long long first = number(result + OUINET_READER_RESULT_FIRST), second = number(result + OUINET_READER_RESULT_SECOND);
    to += strlen(to);
    if (word == OUINET_READER_QUESTION)
        sprintf(to, "question %llu\n", first);
    else if (word == OUINET_READER_HEAD)
        sprintf(to, "head %llu\n", first);
    else if (word == OUINET_READER_BLOCK)
        sprintf(to, "block %llu %llu\n", first, second);
    else if (word == OUINET_READER_CLOSED)
        sprintf(to, "closed %llu\n", first);
    else if (word == OUINET_READER_COMPLETE)
        sprintf(to, "complete %llu\n", first);
    else if (word == OUINET_READER_REFUSED)
        sprintf(to, "refused %llu\n", first);
}

static int is_last(uint8_t word) {
    return word == OUINET_READER_CLOSED || word == OUINET_READER_COMPLETE || word == OUINET_READER_REFUSED;
}

/* The whole stream in pieces, all answers yes; what was said, and the body that was handed out. */
static void sit(const uint8_t *stream, size_t length, size_t piece, char *said, char *body) {
    size_t at = 0;
    int in_result = 1, in_range = 1, in_block = 1;
    *said = *body = 0;
    expect("fresh is done", ouinet_reader_fresh(state, STATE) == 0);
    while (at < length) {
        size_t left = length - at < piece ? length - at : piece;
        uint8_t word = feed(stream + at, left);
        size_t taken = (size_t)number(result + OUINET_READER_RESULT_TAKEN);
        in_result &= number(result + OUINET_READER_RESULT_WORD) == word;
        in_range &= taken > 0 && taken <= left;
        at += taken;
        say(said, word);
        if (word == OUINET_READER_QUESTION) {
            word = answer(1);
            say(said, word);
        }
        if (word == OUINET_READER_BLOCK) {
            size_t size = ouinet_reader_block(state, STATE, block, sizeof block);
            in_block &= size == number(result + OUINET_READER_RESULT_SECOND);
            strncat(body, (const char *)block, size);
        }
        if (is_last(word))
            break;
    }
    expect("each word is in its result", in_result);
    expect("each feed takes a byte at least, and no more than there are", in_range);
    expect("each block has the length that is told", in_block);
    expect("the whole stream was taken", at == length);
}

/* Whether a refusal has no place, which is so with all but 3 and 6. */
static int has_no_place(void) {
    return number(result + OUINET_READER_RESULT_SECOND) == 0;
}

/* The first question alone: its signature, and the state's layout as far as the example fills it. */
static void look_inside(const uint8_t *stream, size_t length) {
    uint8_t zeros[64] = {0};
    size_t head_length = 0;
    ouinet_reader_fresh(state, STATE);
    expect("a fresh state is zeros, but for the hash of no bytes", !memcmp(state, (uint8_t[STATE]){0}, 336) && !memcmp(state + 400, (uint8_t[STATE]){0}, STATE - 400));
    expect("which is there", number(state + 336) == 0x6a09e667 && number(state + 392) == 0x5be0cd19);
    expect("a question comes", feed(stream, length) == OUINET_READER_QUESTION);
    head_length = (size_t)number(result + OUINET_READER_RESULT_TAKEN);
    expect("with a signature", memcmp(result + OUINET_READER_RESULT_SIGNATURE, zeros, 64) != 0);
    expect("by record 0", number(result + OUINET_READER_RESULT_SECOND) == 0);
    expect("its phase is 1, with the head's length", number(state) == 1 && number(state + 8) == head_length);
    expect("status, block size", number(state + 32) == 200 && number(state + 40) == 5);
    expect("the id and its length", number(state + 120) == 16 && !memcmp(state + 56, "qwertyuiop-12345", 16));
    expect("a feed now is not due", feed(stream, length) == OUINET_READER_REFUSED);
    expect("it is refusal 1, nothing taken", number(result + OUINET_READER_RESULT_FIRST) == OUINET_READER_NOT_DUE && number(result + OUINET_READER_RESULT_TAKEN) == 0);
    expect("no signature with it", !memcmp(result + OUINET_READER_RESULT_SIGNATURE, zeros, 64));
    expect("and no place", has_no_place());
    expect("any answer but 0 is yes", answer(2) == OUINET_READER_HEAD);
    expect("the head's length is kept", number(state + 24) == head_length && number(state) == 2);
    expect("the first chunk's data", feed(stream + head_length, 5) == OUINET_READER_MORE && number(state) == 3 && number(state + 16) == 5);
    expect("an end there is refusal 11", end() == OUINET_READER_REFUSED && number(result + OUINET_READER_RESULT_FIRST) == OUINET_READER_UNFINISHED);
    expect("without a place", has_no_place());
    expect("and final: phase 9", number(state) == 9 && number(state + 8) == OUINET_READER_UNFINISHED);
    ouinet_reader_fresh(state, STATE);
    expect("once more to the question", feed(stream, length) == OUINET_READER_QUESTION);
    expect("no is refusal 10", answer(0) == OUINET_READER_REFUSED && number(result + OUINET_READER_RESULT_FIRST) == OUINET_READER_BAD_SIGNATURE);
}

/* How many lines of the accepted head have a signed field's name. */
static size_t line_count(const char *name) {
    return ouinet_reader_value_count(state, STATE, head, sizeof head, (const uint8_t *)name, strlen(name));
}

static void look_up_values(void) {
    const char *type = "content-TYPE", *unsigned_field = "X-Ouinet-Sig0";
    uint8_t value[64];
    size_t length;
    memset(value, '.', sizeof value);
    length = ouinet_reader_value(state, STATE, head, sizeof head, (const uint8_t *)type, strlen(type), value, sizeof value);
    expect("a signed value", length > 0 && length < sizeof value && value[length] == '.' && memchr(value, '/', length));
    memset(value, '.', sizeof value);
    expect("is not cut", ouinet_reader_value(state, STATE, head, sizeof head, (const uint8_t *)type, strlen(type), value, length - 1) == length && value[0] == '.');
    expect("one that is not signed", ouinet_reader_value(state, STATE, head, sizeof head, (const uint8_t *)unsigned_field, strlen(unsigned_field), value, sizeof value) == 0);
    expect("of too short a state", ouinet_reader_value(state, STATE - 1, head, sizeof head, (const uint8_t *)type, strlen(type), value, sizeof value) == 0);
    expect("of too short a head buffer", ouinet_reader_value(state, STATE, head, sizeof head - 1, (const uint8_t *)type, strlen(type), value, sizeof value) == 0);
    expect("one line of a signed field", line_count(type) == 1);
    expect("none of one that is not signed", line_count(unsigned_field) == 0);
}

/* ---- where a text went wrong */

/* A stream from a byte on, in pieces, all answers yes, up to its last word. How many bytes were taken, those before included. */
static size_t read_on(const uint8_t *stream, size_t at, size_t length, size_t piece) {
    uint8_t word = OUINET_READER_MORE;
    while (at < length && !is_last(word)) {
        word = feed(stream + at, length - at < piece ? length - at : piece);
        at += (size_t)number(result + OUINET_READER_RESULT_TAKEN);
        if (word == OUINET_READER_QUESTION)
            word = answer(1);
    }
    return at;
}

/* The whole stream so. */
static size_t read_all(const uint8_t *stream, size_t length, size_t piece) {
    ouinet_reader_fresh(state, STATE);
    return read_on(stream, 0, length, piece);
}

/* The beginning of a text, its line ends escaped. */
static void show(char *to, const char *text, size_t length) {
    size_t i;
    for (i = 0; i < length && i < 40; i++)
        to += sprintf(to, text[i] == '\r' ? "\\r" : text[i] == '\n' ? "\\n" : "%c", text[i]);
}

/* A section behind so many bytes of the example: it is refused when all of it was taken, with this number, at this place. */
static void refuse(const char *front, size_t front_length, const char *section, size_t length, size_t piece, unsigned refusal, uint64_t place) {
    static uint8_t stream[40000];
    size_t taken;
    char shown[96], what[160];
    memcpy(stream, front, front_length);
    memcpy(stream + front_length, section, length);
    memcpy(stream + front_length + length, "more", 4);
    taken = read_all(stream, front_length + length + 4, piece);
    show(shown, section, length);
    sprintf(what, "'%s' is refused with %u at %u", shown, refusal, (unsigned)place);
    expect(what, taken == front_length + length && number(result + OUINET_READER_RESULT_WORD) == OUINET_READER_REFUSED &&
                     number(result + OUINET_READER_RESULT_FIRST) == refusal && number(result + OUINET_READER_RESULT_SECOND) == place);
}

static void find_places(const char *stream, size_t piece) {
    static const struct {
        const char *text;
        unsigned place;
    } heads[] = {{"\r\n\r\n", 0}, {"HTTP/1.0 200 OK\r\n\r\n", 7}, {"HTTP/1.1 20\r\n\r\n", 11}, {"HTTP/1.1 2000 OK\r\n\r\n", 12},
                 {"HTTP/1.1 200 OK\r\nA: b\rc\r\n\r\n", 22}, {"HTTP/1.1 200 OK\r\nA: b\nc\r\n\r\n", 21}, {"HTTP/1.1 200 OK\r\n\rA: b\r\n\r\n", 18},
                 {"HTTP/1.1 200 OK\r\nX-Ouinet-A:\r\nx-ouinet-a:\r\n\r\n", 45}, {"HTTP/1.1 200 OK\r\nx-ouinet-:\r\nA:\r\nX-OUINET-:\r\n\r\n", 47},
                 {"HTTP/1.1 200 OK\r\nContent-Length:\r\ncontent-length:\r\n\r\n", 53},
                 {"HTTP/1.1 200 OK\r\nTransfer-Encoding:\r\nTRANSFER-ENCODING:\r\n\r\n", 59},
                 {"HTTP/1.1 200 OK\r\nA:\r\na:\r\nB\r\n\r\n", 26}, {"HTTP/1.1 200 OK\r\nX-Ouinet-A:\r\nx-ouinet-a:\r\nB\r\n\r\n", 44}},
      lines[] = {{"\r\n", 0}, {"5 \r\n", 1}, {"5\r\r\n", 2}, {"000000005\r\n", 8}, {"5;OUISIG=\r\n", 2}, {"5;ouisig=\r\n", 9}},
      ends[] = {{"XY", 0}, {"\rX", 1}}, trailers[] = {{"\rA: b\r\n\r\n", 1}, {"A: b\r\nC d\r\n\r\n", 7}, {"A\r\n\r\n", 1}};
    size_t body = (size_t)(strstr(stream, "\r\n\r\n") - stream) + 4, i;
    static char front[4096], many[32768];
    for (i = 0; i < sizeof heads / sizeof *heads; i++)
        refuse("", 0, heads[i].text, strlen(heads[i].text), piece, OUINET_READER_BAD_HEAD, heads[i].place);
    for (i = 0; i < sizeof lines / sizeof *lines; i++)
        refuse(stream, body, lines[i].text, strlen(lines[i].text), piece, OUINET_READER_BAD_FRAME, lines[i].place);
    for (i = 0; i < sizeof ends / sizeof *ends; i++)
        refuse(stream, body + strlen("5\r\nHello"), ends[i].text, 2, piece, OUINET_READER_BAD_FRAME, ends[i].place);
    memcpy(front, stream, body);
    memcpy(front + body, "0\r\n", 3);
    for (i = 0; i < sizeof trailers / sizeof *trailers; i++)
        refuse(front, body + 3, trailers[i].text, strlen(trailers[i].text), piece, OUINET_READER_BAD_FRAME, trailers[i].place);
    memset(many, 'x', sizeof many);
    refuse("", 0, many, 32768, piece, OUINET_READER_BAD_HEAD, 32768);
    refuse(stream, body, many, 128, piece, OUINET_READER_BAD_FRAME, 128);
    refuse(front, body + 3, many, 32768, piece, OUINET_READER_BAD_FRAME, 32768);
    memcpy(many + 126, "\r\n", 2);
    refuse(stream, body, many, 128, piece, OUINET_READER_BAD_FRAME, 0);
}

/* ---- repeated fields */

/* The example's head with these lines behind its status line, and these words behind its last listed name. Its length. */
static size_t head_with(char *to, const char *stream, const char *lines, const char *listed) {
    const char *first = strstr(stream, "\r\n") + 2, *last = strstr(stream, "content-type\"") + strlen("content-type"), *after = strstr(stream, "\r\n\r\n") + 4;
    return (size_t)sprintf(to, "%.*s%s%.*s%s%.*s", (int)(first - stream), stream, lines, (int)(last - first), first, listed, (int)(after - last), last);
}

/* So many times the same line. */
static const char *lines_of(const char *line, int times) {
    static char lines[2048];
    *lines = 0;
    while (times-- > 0)
        strcat(lines, line);
    return lines;
}

/* Feeds a head in pieces, up to what is decided about it. How many bytes were taken. */
static size_t feed_head(const char *text, size_t length, size_t piece) {
    size_t at = 0;
    uint8_t word = OUINET_READER_MORE;
    ouinet_reader_fresh(state, STATE);
    for (; at < length && word == OUINET_READER_MORE; at += (size_t)number(result + OUINET_READER_RESULT_TAKEN))
        word = feed((const uint8_t *)text + at, length - at < piece ? length - at : piece);
    return at;
}

/* Feeds a head in pieces: whether its last byte brings the question. */
static int is_asked(const char *text, size_t length, size_t piece) {
    return feed_head(text, length, piece) == length && number(result + OUINET_READER_RESULT_WORD) == OUINET_READER_QUESTION;
}

/* Whether the message of the open question ends so. */
static int asks_of(const char *text) {
    size_t length = (size_t)number(result + OUINET_READER_RESULT_FIRST);
    return length >= strlen(text) && !memcmp(question + length - strlen(text), text, strlen(text));
}

static void count_lines(const char *stream, size_t piece) {
    const uint8_t *vary = (const uint8_t *)"vary", *via = (const uint8_t *)"VIA";
    char text[4096];
    uint8_t value[64] = {0}, before[STATE];
    size_t length = head_with(text, stream, "Vary:\r\nvary: b\r\nVia: 1.1 x\r\nAge: 1\r\nAge: 2\r\nVARY: \t c, d \r\nvia: 1.1 y\r\n", " vary via");
    expect("a head with repeated fields asks", is_asked(text, length, piece));
    expect("about their joined values", asks_of("\ncontent-type: text/plain\nvary: , b, c, d\nvia: 1.1 x, 1.1 y"));
    expect("before a yes nothing is counted", line_count("vary") == 0 && line_count("date") == 0);
    expect("it is accepted", answer(1) == OUINET_READER_HEAD);
    memcpy(before, state, STATE);
    expect("lines are counted, whatever the name's case", line_count("vary") == 3 && line_count("VaRy") == 3 && line_count("via") == 2);
    expect("a field that is not repeated has one", line_count("Date") == 1 && line_count("x-ouinet-URI") == 1);
    expect("one that is not signed has none", line_count("age") == 0 && line_count("X-Ouinet-Sig0") == 0 && line_count("Transfer-Encoding") == 0);
    expect("nor has a name in brackets", line_count("(created)") == 0 && line_count("(response-status)") == 0);
    expect("or in no line", line_count("var") == 0 && line_count("vary ") == 0 && line_count("nowhere") == 0 && line_count("") == 0);
    expect("the value is the first line's", ouinet_reader_value(state, STATE, head, sizeof head, via, 3, value, sizeof value) == 5 && !memcmp(value, "1.1 x", 6));
    expect("which may be empty", ouinet_reader_value(state, STATE, head, sizeof head, vary, 4, value, sizeof value) == 0);
    expect("no count of too short a state", ouinet_reader_value_count(state, STATE - 1, head, sizeof head, vary, 4) == 0);
    expect("nor of too short a head buffer", ouinet_reader_value_count(state, STATE, head, sizeof head - 1, vary, 4) == 0);
    expect("counting changes nothing", !memcmp(state, before, STATE) && !memcmp(head, text, length));
    expect("after the end it is the same", end() == OUINET_READER_REFUSED && line_count("vary") == 3);
    expect("a no hands nothing out", is_asked(text, length, piece) && answer(0) == OUINET_READER_REFUSED && line_count("vary") == 0);
    length = head_with(text, stream, lines_of("Vary: x\r\n", 119), " vary");
    expect("128 lines are counted", is_asked(text, length, piece) && answer(1) == OUINET_READER_HEAD && line_count("vary") == 119);
    length = head_with(text, stream, lines_of("Vary: x\r\n", 120), " vary");
    refuse("", 0, text, length, piece, OUINET_READER_BAD_HEAD, length);
    length = head_with(text, stream, "Vary: a\r\nVary: b\r\n", " vary VARY");
    refuse("", 0, text, length, piece, OUINET_READER_HEAD_RULE, 0);
}

/* A state that says that the head in the buffer, with so many lines more, was accepted. */
static void forge_accepted(const char *stream, int lines) {
    char text[4096];
    size_t length = head_with(text, stream, lines_of("Vary: x\r\n", lines), " vary");
    memcpy(head, text, length);
    ouinet_reader_fresh(state, STATE);
    ouinet_reader_put_number(state + 24, length);
}

/* Heads that were never judged: a good one is counted, and of one with too many lines nothing is handed out. */
static void count_forged_lines(const char *stream) {
    forge_accepted(stream, 119);
    expect("a good head is counted with a forged state too", line_count("vary") == 119 && line_count("date") == 1 && line_count("age") == 0);
    forge_accepted(stream, 120);
    expect("of one that is not good there is nothing to count", line_count("vary") == 0 && line_count("date") == 0);
    forge_accepted(stream, 200);
    expect("however long it is", line_count("vary") == 0 && line_count("date") == 0);
}

/* ---- the URI asked for */

/* A whole head in pieces, asked for by this URI: the refusal's number, or 0 where it is asked about. */
static unsigned refused_head(const char *text, size_t length, const char *asked, size_t piece) {
    char what[160];
    size_t taken;
    ask_for(asked, strlen(asked));
    taken = feed_head(text, length, piece);
    if (taken == length && number(result + OUINET_READER_RESULT_WORD) == OUINET_READER_QUESTION)
        return 0;
    sprintf(what, "asked for by '%.40s', all of the head was taken, and it is refused", asked);
    expect(what, taken == length && number(result + OUINET_READER_RESULT_WORD) == OUINET_READER_REFUSED && number(state) == 9);
    return (unsigned)number(result + OUINET_READER_RESULT_FIRST);
}

/* Other URIs than the example's, most of them almost the same. */
static void ask_for_others(const char *stream, const char *own, size_t piece) {
    static const char *const others[] = {"", "u", "https://example.com/hell", "https://example.com/hello/", "https://example.com/Hello",
                                         "HTTPS://EXAMPLE.COM/HELLO", "ttps://example.com/hello", " https://example.com/hello",
                                         "https://example.com/hello ", "https://example.com/hello\t", "https://example.com/hello\n",
                                         "https://example.com/hello\r\n", "https://example.com/iello", "X-Ouinet-URI: https://example.com/hello"};
    size_t length = (size_t)(strstr(stream, "\r\n\r\n") - stream) + 4, i;
    uint8_t before[OUINET_READER_QUESTION_SIZE];
    expect("its own URI", !strcmp(own, "https://example.com/hello") && refused_head(stream, length, own, piece) == 0);
    memset(question, 'q', sizeof question);
    memset(block, 'b', sizeof block);
    memcpy(before, question, sizeof before);
    for (i = 0; i < sizeof others / sizeof *others; i++) {
        expect("another URI is refused with 16", refused_head(stream, length, others[i], piece) == OUINET_READER_OTHER_URI && has_no_place());
        expect("the state says so", number(state + 8) == OUINET_READER_OTHER_URI);
        expect("the head stays, for a message", !memcmp(head, stream, length));
        expect("and nothing of it is handed out", line_count("x-ouinet-uri") == 0 && ouinet_reader_block(state, STATE, block, sizeof block) == 0);
        feed((const uint8_t *)stream, length);
        expect("it is final", number(result + OUINET_READER_RESULT_FIRST) == OUINET_READER_NOT_DUE);
    }
    expect("nothing was asked, and no block touched", !memcmp(question, before, sizeof before) && block[0] == 'b' && block[sizeof block - 1] == 'b');
}

/* A million bytes that begin with the URI. */
static void ask_for_a_million(const char *stream, const char *own, size_t piece) {
    enum { MILLION = 1000000 };
    static char asked[MILLION];
    size_t length = (size_t)(strstr(stream, "\r\n\r\n") - stream) + 4, own_length = strlen(own);
    memset(asked, 'x', MILLION);
    memcpy(asked, own, own_length);
    ask_for(asked, MILLION);
    expect("a million bytes are another URI", !is_asked(stream, length, piece));
    expect("and refused so", number(result + OUINET_READER_RESULT_FIRST) == OUINET_READER_OTHER_URI);
    ask_for(asked, own_length);
    expect("their first bytes are the right one", is_asked(stream, length, piece));
}

/* Refusals 3, 4 and 5 go before 16, and 12 after it. */
static void ask_in_order(const char *stream, const char *own, size_t piece) {
    static const struct {
        const char *from, *to;
        unsigned refusal;
    } edits[] = {{"X-Ouinet-URI:", "X-Ouinet-URI :", OUINET_READER_BAD_HEAD},
                 {"X-Ouinet-URI:", "X-Ouinet-URI: u\r\nX-Ouinet-URI:", OUINET_READER_BAD_HEAD},
                 {"Version: 4", "Version: 5", OUINET_READER_BAD_VERSION},
                 {"X-Ouinet-Version: 4\r\n", "", OUINET_READER_HEAD_RULE},
                 {"200 OK", "404 OK", OUINET_READER_HEAD_RULE},
                 {"X-Ouinet-URI: https://example.com/hello", "X-Ouinet-URI: \t", OUINET_READER_HEAD_RULE},
                 {"X-Ouinet-URI:", "X-Ouinet-URL:", OUINET_READER_HEAD_RULE},
                 {"content-type\"", "content-type nowhere\"", OUINET_READER_HEAD_RULE}};
    const char *asked[] = {own, "https://example.com/other", ""};
    size_t length = (size_t)(strstr(stream, "\r\n\r\n") - stream) + 4, i, j;
    char text[4096];
    for (i = 0; i < sizeof edits / sizeof *edits; i++) {
        const char *at = strstr(stream, edits[i].from), *after = at + strlen(edits[i].from);
        size_t edited = (size_t)sprintf(text, "%.*s%s%.*s", (int)(at - stream), stream, edits[i].to, (int)(stream + length - after), after);
        for (j = 0; j < 3; j++)
            expect("what else is wrong goes first", refused_head(text, edited, asked[j], piece) == edits[i].refusal);
    }
    ring_length = 0;
    expect("an untrusted key", refused_head(stream, length, own, piece) == OUINET_READER_UNTRUSTED);
    expect("another URI goes before it", refused_head(stream, length, asked[1], piece) == OUINET_READER_OTHER_URI);
    ring_length = RECORD;
    ask_for(own, strlen(own));
}

/* Only the URI that comes with the head's last byte is looked at. */
static void ask_at_the_right_time(const char *stream, size_t length, const char *own) {
    const uint8_t *bytes = (const uint8_t *)stream;
    size_t at = (size_t)(strstr(stream, "\r\n\r\n") - stream) + 4;
    uint8_t word = OUINET_READER_MORE;
    ouinet_reader_fresh(state, STATE);
    ask_for("x", 1);
    expect("another URI before", feed(bytes, at - 1) == OUINET_READER_MORE);
    ask_for(own, strlen(own));
    expect("the right one at the head's end", feed(bytes + at - 1, 1) == OUINET_READER_QUESTION && answer(1) == OUINET_READER_HEAD);
    ask_for("", 0);
    while (at < length && !is_last(word)) {
        word = feed(bytes + at, length - at);
        at += (size_t)number(result + OUINET_READER_RESULT_TAKEN);
        if (word == OUINET_READER_QUESTION)
            answer(1);
    }
    expect("none after, up to the end", word == OUINET_READER_CLOSED && at == length);
    ask_for(own, strlen(own));
}

static uint8_t feed_with(size_t s, size_t h, size_t b, size_t q, const uint8_t *keys, size_t k, size_t r) {
    return ouinet_reader_feed(state, s, head, h, block, b, question, q, keys, k, uri, uri_length, ring, 1, result, r);
}

static int is_refused(uint8_t word, unsigned refusal) {
    int has_place = refusal == OUINET_READER_BAD_HEAD || refusal == OUINET_READER_BAD_FRAME;
    return word == OUINET_READER_REFUSED && number(result + OUINET_READER_RESULT_FIRST) == refusal && (has_place || has_no_place());
}

/* ---- the end of the show */

/* The stream with its first such text in the trailer replaced. Its length. */
static size_t edit_trailer(char *to, const char *stream, size_t trailer, const char *from, const char *by) {
    const char *at = strstr(stream + trailer, from);
    expect("the text is in the trailer", at != NULL);
    return (size_t)sprintf(to, "%.*s%s%s", (int)(at - stream), stream, by, at + strlen(from));
}

/* Where the trailer of the example starts. */
static size_t trailer_start(const char *stream) {
    return (size_t)(strstr(strstr(stream, "\r\n0;ouisig=") + 2, "\r\n") - stream) + 2;
}

static int bytes_are(const uint8_t *at, size_t length, uint8_t byte) {
    while (length > 0 && at[length - 1] == byte)
        length--;
    return length == 0;
}

/* The last question, and what the state says of it: the trailer's length, the body's, and the hash of no more bytes than it has room for. */
static void look_at_the_end(const char *whole, size_t length, size_t piece) {
    static const char body[] = "Hello world!";
    size_t trailer = trailer_start(whole), i;
    uint8_t word = OUINET_READER_MORE;
    int time;
    for (time = 0; time < 2; time++) {
        memset(block, 'b', sizeof block);
        ouinet_reader_fresh(state, STATE);
        for (i = 0; i < length; i += (size_t)number(result + OUINET_READER_RESULT_TAKEN)) {
            if (word == OUINET_READER_QUESTION)
                answer(1);
            word = feed((const uint8_t *)whole + i, length - i < piece ? length - i : piece);
        }
        expect("the trailer's last byte brings a question", word == OUINET_READER_QUESTION && number(result + OUINET_READER_RESULT_FIRST) == 303);
        expect("about the digest and the size", asks_of("\ndigest: SHA-256=wFNeS+K3n/2TKRMFQ2v4iTFOSj+uwF7P/Lt98xrZ5Ro=\nx-ouinet-data-size: 12"));
        expect("by the head's record", number(result + OUINET_READER_RESULT_SECOND) == 0);
        expect("its phase is 10", number(state) == 10 && number(state + 8) == length - trailer && number(state + 16) == 12);
        expect("with what is not hashed yet", number(state + 464) == 12 && !memcmp(state + 400, body, 12));
        expect("and the hash before it", number(state + 336) == 0x6a09e667 && number(state + 392) == 0x5be0cd19);
        expect("a feed is not due", is_refused(feed((const uint8_t *)whole, 1), OUINET_READER_NOT_DUE));
        expect("nor is the end", is_refused(end(), OUINET_READER_NOT_DUE));
        expect("the trailer is in its buffer", !memcmp(block, whole + trailer, length - trailer));
        if (time == 0) {
            expect("a yes is complete", answer(1) == OUINET_READER_COMPLETE && number(result + OUINET_READER_RESULT_FIRST) == 12 && has_no_place());
            expect("its phase is 11", number(state) == 11 && number(state + 8) == 12);
            expect("and nothing is cleared", !memcmp(block, whole + trailer, length - trailer));
        } else {
            expect("a no is refused with 10", is_refused(answer(0), OUINET_READER_BAD_SIGNATURE));
            expect("and the trailer is cleared", bytes_are(block, length - trailer, 0) && block[length - trailer] == 'b');
        }
        expect("it is final", is_refused(feed((const uint8_t *)whole, 1), OUINET_READER_NOT_DUE) && is_refused(answer(1), OUINET_READER_NOT_DUE) &&
                                  is_refused(end(), OUINET_READER_NOT_DUE));
        expect("no field about the end is a value", line_count("digest") == 0 && line_count("x-ouinet-data-size") == 0 && line_count("content-type") == (size_t)1);
        word = OUINET_READER_MORE;
    }
}

static void refuse_ends(const char *whole, size_t piece) {
    static const struct {
        const char *from, *to;
        unsigned refusal;
    } edits[] = {{"Digest:", "Digests:", OUINET_READER_BAD_ENDS},
                 {"Digest:", "Digest: x\r\nDigest:", OUINET_READER_BAD_ENDS},
                 {"SHA-256=", "sha-256=", OUINET_READER_BAD_ENDS},
                 {"5Ro=", "5Rp=", OUINET_READER_BAD_ENDS},
                 {"Size: 12", "Size: 012", OUINET_READER_BAD_ENDS},
                 {"Size: 12", "Size: 12000000000", OUINET_READER_BAD_ENDS},
                 {"X-Ouinet-Sig1:", "X-Ouinet-Sig2:", OUINET_READER_BAD_ENDS},
                 {" digest x-Ouinet-data-size", " x-Ouinet-data-size digest", OUINET_READER_BAD_ENDS},
                 {"Size: 12", "Size: 13", OUINET_READER_OTHER_LENGTH},
                 {"Size: 12", "Size: 0", OUINET_READER_OTHER_LENGTH},
                 {"Size: 12", "Size: 4294967308", OUINET_READER_OTHER_LENGTH},
                 {"SHA-256=w", "SHA-256=x", OUINET_READER_OTHER_DIGEST},
                 {"ed25519=bt", "ed25519=bu", OUINET_READER_UNTRUSTED}};
    static char text[4096];
    size_t trailer = trailer_start(whole), i;
    for (i = 0; i < sizeof edits / sizeof *edits; i++) {
        char what[160];
        size_t length = edit_trailer(text, whole, trailer, edits[i].from, edits[i].to);
        memset(block, 'b', sizeof block);
        sprintf(what, "'%s' is refused with %u at the trailer's end", edits[i].to, edits[i].refusal);
        expect(what, read_all((const uint8_t *)text, length, piece) == length && is_refused((uint8_t)number(result), edits[i].refusal));
        expect("without a place, its trailer cleared", has_no_place() && bytes_are(block, length - trailer, 0) && block[length - trailer] == 'b');
        expect("and nothing handed out", ouinet_reader_block(state, STATE, block, sizeof block) == 0 && number(state) == 9);
    }
}

/* ---- part answers */

#define HASH "NhX4DJ0pPtdAJof5SyLVjlKbjMeRb4+sf933+9WvTPd309eVp6AKFr9+fz+5Vh7puq5IDan+ehh2nnGIawPzFQ=="
#define RANGE "Content-Range: bytes 5-11/12\r\n"
#define WAS_200 "X-Ouinet-HTTP-Status: 200\r\n"

/* The example's head with status 206 and these lines. Its length. */
static size_t part_head(char *to, const char *stream, const char *lines) {
    size_t length = head_with(to, stream, lines, "");
    memcpy(to + strlen("HTTP/1.1 "), "206", 3);
    return length;
}

/* Document 000's part answer: the second and the third block, their signatures the example's. Its length. */
static size_t part_of(char *to, const char *stream) {
    const char *second = strstr(stream, "\r\n worl") + 2;
    size_t length = part_head(to, stream, RANGE WAS_200);
    return length + (size_t)sprintf(to + length, "5;ouihash=" HASH "\r\n%.*s\r\n", (int)(stream + trailer_start(stream) - second), second);
}

/* What ouinet_reader_range gives of the state, as a line; empty where it gives nothing, and then it writes nothing either. */
static const char *range(size_t length) {
    static char line[96];
    uint64_t first = 91, last = 92, total = 93;
    *line = 0;
    if (ouinet_reader_range(state, length, &first, &last, &total))
        sprintf(line, "%llu-%llu/%llu", (unsigned long long)first, (unsigned long long)last, (unsigned long long)total);
    else
        expect("nothing is written where there is no range", first == 91 && last == 92 && total == 93);
    return line;
}

/* The four numbers at the end of the state. */
static int ends_in(uint64_t part, uint64_t first, uint64_t last, uint64_t total) {
    return number(state + 472) == part && number(state + 480) == first && number(state + 488) == last && number(state + 496) == total;
}

static void tell_range(const char *stream, const char *part, size_t length, size_t piece) {
    size_t head_length = (size_t)(strstr(part, "\r\n\r\n") - part) + 4;
    ouinet_reader_fresh(state, STATE);
    expect("a fresh state has no range", ends_in(0, 0, 0, 0) && !*range(STATE));
    expect("a part's head is asked about", is_asked(part, head_length, piece));
    expect("the state has its range", ends_in(1, 5, 11, 12) && number(state + 32) == 206);
    expect("but it is not told yet", !*range(STATE));
    expect("it is accepted with 206", answer(1) == OUINET_READER_HEAD && number(result + OUINET_READER_RESULT_FIRST) == 206);
    expect("now it is", !strcmp(range(STATE), "5-11/12") && !strcmp(range(STATE + 1), "5-11/12"));
    expect("not of too short a state", !*range(STATE - 1) && !*range(0));
    read_on((const uint8_t *)part, head_length, head_length + strlen("5;ouihash=" HASH "\r\n w"), piece);
    expect("its first block is the show's second, after the one whose hash is told", number(state) == 3 && number(state + 128) == 1 && !memcmp(state + 136, "\x36\x15\xf8\x0c", 4));
    read_on((const uint8_t *)part, head_length + strlen("5;ouihash=" HASH "\r\n w"), length, piece);
    expect("and after the end, too", number(state) == 8 && number(state + 128) == 3 && !strcmp(range(STATE), "5-11/12"));
    ouinet_reader_put_number(state + 472, 2);
    expect("any other number is no part", !*range(STATE));
    expect("a no tells nothing", is_asked(part, head_length, piece) && answer(0) == OUINET_READER_REFUSED && !*range(STATE));
    head_length = (size_t)(strstr(stream, "\r\n\r\n") - stream) + 4;
    expect("a whole answer has none", is_asked(stream, head_length, piece) && answer(1) == OUINET_READER_HEAD && ends_in(0, 0, 0, 0) && !*range(STATE));
}

/* What comes of a part's head with these lines: the refusal, or 0 where it is asked about. */
static unsigned part_refused(const char *stream, const char *lines, size_t piece) {
    char text[4096];
    size_t length = part_head(text, stream, lines), taken = feed_head(text, length, piece);
    expect("all of it was taken", taken == length);
    return number(result + OUINET_READER_RESULT_WORD) == OUINET_READER_QUESTION ? 0 : (unsigned)number(result + OUINET_READER_RESULT_FIRST);
}

static void refuse_part_heads(const char *stream, size_t piece) {
    static const char *const good[] = {"5-11/12", "0-11/12", "0-4/12", "5-9/12", "10-11/12", "0-0/1", "4294967295-4294967295/4294967296"},
                      *const bad[] = {"5-11/*", "05-11/12", "5-10/12", "6-11/12", "5-12/12", "5-4/12", "5-11/12, 0-4/12", "0-4294967296/4294967297",
                                      "18446744073709551621-18446744073709551627/18446744073709551628", ""};
    char lines[256];
    size_t i;
    for (i = 0; i < sizeof good / sizeof *good; i++) {
        sprintf(lines, "content-range: bytes %s\r\n" WAS_200, good[i]);
        expect(good[i], part_refused(stream, lines, piece) == 0);
    }
    for (i = 0; i < sizeof bad / sizeof *bad; i++) {
        sprintf(lines, "Content-Range: bytes %s\r\n" WAS_200, bad[i]);
        expect(bad[i], part_refused(stream, lines, piece) == OUINET_READER_HEAD_RULE && has_no_place());
    }
    expect("the status of the whole answer is signed", part_refused(stream, RANGE "X-Ouinet-HTTP-Status: 307\r\n", piece) == 0 && !memcmp(question, "(response-status): 307\n", 23));
    expect("it must be there", part_refused(stream, RANGE, piece) == OUINET_READER_HEAD_RULE);
    expect("and one of four", part_refused(stream, RANGE "X-Ouinet-HTTP-Status: 206\r\n", piece) == OUINET_READER_HEAD_RULE);
    expect("and the range too", part_refused(stream, WAS_200, piece) == OUINET_READER_HEAD_RULE);
    expect("once", part_refused(stream, RANGE RANGE WAS_200, piece) == OUINET_READER_HEAD_RULE);
    expect("as the status", part_refused(stream, RANGE WAS_200 WAS_200, piece) == OUINET_READER_BAD_HEAD);
}

/* Lines and data behind a part's head: each ends in this refusal when all was taken. */
static void refuse_part_bodies(const char *stream, size_t piece) {
    static const struct {
        const char *body;
        unsigned refusal, place;
    } bodies[] = {{"5\r\n", OUINET_READER_BAD_OUISIG, 0}, {"0\r\n", OUINET_READER_BAD_OUISIG, 0}, {"5;ouisig=" HASH "\r\n", OUINET_READER_BAD_OUISIG, 0},
                  {"0;ouihash=" HASH "\r\n", OUINET_READER_BAD_SIZE, 0}, {"6;ouihash=" HASH "\r\n", OUINET_READER_BAD_SIZE, 0},
                  {"5;ouihash=\r\n", OUINET_READER_BAD_FRAME, 10}, {"5;ouihasH=\r\n", OUINET_READER_BAD_FRAME, 8}, {"5;ouix\r\n", OUINET_READER_BAD_FRAME, 5},
                  {"5;ouihash=" HASH "\r\n worl\r\n2;ouihash=" HASH "\r\n", OUINET_READER_BAD_OUISIG, 0},
                  {"5;ouihash=" HASH "\r\n worl\r\n0;ouisig=" HASH "\r\n", OUINET_READER_BAD_SIZE, 0},
                  {"5;ouihash=" HASH "\r\n worl\r\n5;ouisig=" HASH "\r\n", OUINET_READER_BAD_SIZE, 0}};
    static char front[4096];
    size_t length = part_head(front, stream, RANGE WAS_200), i;
    for (i = 0; i < sizeof bodies / sizeof *bodies; i++)
        refuse(front, length, bodies[i].body, strlen(bodies[i].body), piece, bodies[i].refusal, bodies[i].place);
    length = head_with(front, stream, "", "");
    refuse(front, length, "5;ouihash=" HASH "\r\n", 100, piece, OUINET_READER_BAD_OUISIG, 0);
    length = part_head(front, stream, "Content-Range: bytes 0-11/12\r\n" WAS_200);
    refuse(front, length, "5;ouihash=" HASH "\r\n", 100, piece, OUINET_READER_BAD_OUISIG, 0);
}

/* All of the show as a part answer, with the fields about its end, good or not: they are not looked at. */
static void skip_the_end(const char *whole, size_t piece) {
    static char text[8192];
    size_t head_length = part_head(text, whole, "Content-Range: bytes 0-11/12\r\n" WAS_200), length;
    length = head_length + (size_t)sprintf(text + head_length, "%s", strstr(whole, "\r\n\r\n") + 4);
    expect("good ones", read_all((const uint8_t *)text, length, piece) == length && number(result) == OUINET_READER_CLOSED && number(result + OUINET_READER_RESULT_FIRST) == 12);
    memcpy(strstr(text + head_length, "Size: 12"), "Size: 13", 8);
    expect("wrong ones", read_all((const uint8_t *)text, length, piece) == length && number(result) == OUINET_READER_CLOSED && number(result + OUINET_READER_RESULT_FIRST) == 12);
    expect("and nothing is cleared", !memcmp(block, "Digest:", 7));
}

/* The head's buffer is overwritten when the head is accepted: a part is refused at the trailer's end then, as a whole answer is. */
static void lose_the_part_s_head(const char *part, size_t length, size_t piece) {
    size_t head_length = (size_t)(strstr(part, "\r\n\r\n") - part) + 4;
    expect("a part's head is accepted", is_asked(part, head_length, piece) && answer(1) == OUINET_READER_HEAD);
    memset(head, 'x', sizeof head);
    expect("without its bytes the part is refused with 13", read_on((const uint8_t *)part, head_length, length, piece) == length && is_refused((uint8_t)number(result), OUINET_READER_BAD_ENDS));
}

static void read_parts(const char *stream, const char *whole, size_t piece) {
    static const char seven[] = "question 219\nhead 206\nquestion 83\nblock 5 5\nquestion 84\nblock 10 2\nclosed 7\n";
    static char part[8192], said[4096], body[4096];
    size_t length = part_of(part, stream);
    sit((const uint8_t *)part, length, piece, said, body);
    expect("the seven lines of document 000's part", !strcmp(said, seven));
    expect("its body", !strcmp(body, " world!"));
    tell_range(stream, part, length, piece);
    refuse_part_heads(stream, piece);
    refuse_part_bodies(stream, piece);
    skip_the_end(whole, piece);
    lose_the_part_s_head(part, length, piece);
}

/* ---- longer heads and trailers */

enum { MOST = 32768, BEFORE = 8192, ROOM = MOST + 4096 };

/* The example's head made so long by one more field. */
static void head_of(char *to, const char *stream, size_t length) {
    static char line[ROOM];
    size_t lacking = length - head_with(to, stream, "Fill:\r\n", "");
    memcpy(line, "Fill:", 5);
    memset(line + 5, 'x', lacking);
    memcpy(line + 5 + lacking, "\r\n", 3);
    expect("a head of that length", head_with(to, stream, line, "") == length);
}

/* A trailer of so many bytes, and a few behind it. */
static size_t trailer_of(char *to, size_t length) {
    memcpy(to, "a:", 2);
    memset(to + 2, 'x', length - 6);
    memcpy(to + length - 4, "\r\n\r\nmore", 8);
    return length + 4;
}

/* Whether a stream, all answers yes, is taken so far and then ends in this word with these numbers. */
static int ends(const char *stream, size_t length, size_t piece, size_t taken, uint8_t word, uint64_t first, uint64_t second) {
    return read_all((const uint8_t *)stream, length, piece) == taken && number(result + OUINET_READER_RESULT_WORD) == word &&
           number(result + OUINET_READER_RESULT_FIRST) == first && number(result + OUINET_READER_RESULT_SECOND) == second;
}

/* Whether a head, an empty body behind it, is read to the end. */
static int is_good_head(char *text, size_t length, size_t piece) {
    memcpy(text + length, "0\r\n\r\nmore", 9);
    return ends(text, length + 9, piece, length + 5, OUINET_READER_CLOSED, 0, 0);
}

static void read_longer(const char *stream, size_t piece) {
    static const size_t good[] = {BEFORE, BEFORE + 1, MOST - 1, MOST}, bad[] = {MOST + 1, MOST + 1000};
    static char text[ROOM + MOST];
    size_t i, length, front;
    for (i = 0; i < sizeof good / sizeof *good; i++) {
        head_of(text, stream, good[i]);
        expect("a head within the limit", is_good_head(text, good[i], piece));
    }
    for (i = 0; i < sizeof bad / sizeof *bad; i++) {
        head_of(text, stream, bad[i]);
        expect("one beyond it is refused there", ends(text, bad[i], piece, MOST, OUINET_READER_REFUSED, OUINET_READER_BAD_HEAD, MOST));
    }
    length = head_with(text, stream, lines_of("A: b\r\n", 65 - 9), "");
    expect("65 fields", is_good_head(text, length, piece));
    length = head_with(text, stream, lines_of("A: b\r\n", 128 - 9), "");
    expect("128 fields", is_good_head(text, length, piece));
    length = head_with(text, stream, lines_of("A: b\r\n", 129 - 9), "");
    expect("129 fields", ends(text, length, piece, length, OUINET_READER_REFUSED, OUINET_READER_BAD_HEAD, length));
    front = head_with(text, stream, "", "") + 3;
    memcpy(text + front - 3, "0\r\n", 3);
    for (i = 0; i < sizeof good / sizeof *good; i++) {
        length = front + trailer_of(text + front, good[i]);
        expect("a trailer within the limit", ends(text, length, piece, front + good[i], OUINET_READER_CLOSED, 0, 0));
    }
    for (i = 0; i < sizeof bad / sizeof *bad; i++) {
        length = front + trailer_of(text + front, bad[i]);
        expect("one beyond it", ends(text, length, piece, front + MOST, OUINET_READER_REFUSED, OUINET_READER_BAD_FRAME, MOST));
    }
}

/* Each call with these lengths of head and question is refused with 2, and leaves state and buffers alone. */
static void lend_less(size_t h, size_t q) {
    enum { B = OUINET_READER_BLOCK_SIZE };
    static uint8_t heads[MOST], blocks[B], questions[MOST];
    uint8_t before[STATE];
    memcpy(before, state, STATE);
    memcpy(heads, head, MOST);
    memcpy(blocks, block, B);
    memcpy(questions, question, MOST);
    expect("a feed", is_refused(feed_with(STATE, h, B, q, ring, RECORD, RESULT), OUINET_READER_NO_ROOM));
    expect("takes nothing", number(result + OUINET_READER_RESULT_TAKEN) == 0);
    expect("an answer", is_refused(ouinet_reader_answer(state, STATE, head, h, block, B, question, q, 1, result, RESULT), OUINET_READER_NO_ROOM));
    expect("an end", is_refused(ouinet_reader_end(state, STATE, head, h, block, B, question, q, result, RESULT), OUINET_READER_NO_ROOM));
    expect("the state stays", !memcmp(before, state, STATE));
    expect("and so do the buffers", !memcmp(heads, head, MOST) && !memcmp(blocks, block, B) && !memcmp(questions, question, MOST));
}

/* Buffers that were long enough before, and ones that are a byte too short: for calls, and for what is handed out. */
static void lend_as_before(const char *stream) {
    static const size_t less[] = {BEFORE - 1, BEFORE, BEFORE + 1, MOST - 1};
    static char text[ROOM];
    const uint8_t *type = (const uint8_t *)"content-type";
    uint8_t value[64];
    size_t i, time;
    for (time = 0; time < 4; time++) {
        head_of(text, stream, MOST);
        ouinet_reader_fresh(state, STATE);
        if (time > 0)
            feed((const uint8_t *)text, time == 1 ? MOST / 2 : MOST);
        if (time > 2)
            expect("a head that fills its buffer", answer(1) == OUINET_READER_HEAD);
        for (i = 0; i < sizeof less / sizeof *less; i++) {
            lend_less(less[i], MOST);
            lend_less(MOST, less[i]);
            lend_less(less[i], less[i]);
        }
    }
    for (i = 0; i < sizeof less / sizeof *less; i++) {
        expect("no value of too short a buffer", ouinet_reader_value(state, STATE, head, less[i], type, 12, value, sizeof value) == 0);
        expect("nor a line", ouinet_reader_value_count(state, STATE, head, less[i], type, 12) == 0);
    }
    expect("a value of it", ouinet_reader_value(state, STATE, head, MOST, type, 12, value, sizeof value) == strlen("text/plain"));
    expect("and its line", ouinet_reader_value_count(state, STATE, head, MOST, type, 12) == 1);
}

/* Each size that the header names will do, and one byte less will not. */
static void measure(void) {
    enum { H = OUINET_READER_HEAD_SIZE, B = OUINET_READER_BLOCK_SIZE, Q = OUINET_READER_QUESTION_SIZE, KEYS = OUINET_READER_RING_LIMIT * RECORD };
    static uint8_t keys[KEYS + RECORD];
    uint8_t before[STATE];
    expect("fresh, one byte short", ouinet_reader_fresh(state, STATE - 1) == OUINET_READER_SHORT);
    ouinet_reader_fresh(state, STATE);
    memcpy(before, state, STATE);
    memset(result, 'r', RESULT);
    expect("state, one byte short", feed_with(STATE - 1, H, B, Q, keys, 0, RESULT) == OUINET_READER_SHORT);
    expect("result, one byte short", feed_with(STATE, H, B, Q, keys, 0, RESULT - 1) == OUINET_READER_SHORT);
    expect("the same of answer", ouinet_reader_answer(state, STATE, head, H, block, B, question, Q, 1, result, RESULT - 1) == OUINET_READER_SHORT);
    expect("the same of end", ouinet_reader_end(state, STATE - 1, head, H, block, B, question, Q, result, RESULT) == OUINET_READER_SHORT);
    expect("nothing is written then", result[0] == 'r' && !memcmp(state, before, STATE));
    expect("head, one byte short", is_refused(feed_with(STATE, H - 1, B, Q, keys, 0, RESULT), OUINET_READER_NO_ROOM));
    expect("block, one byte short", is_refused(feed_with(STATE, H, B - 1, Q, keys, 0, RESULT), OUINET_READER_NO_ROOM));
    expect("question, one byte short", is_refused(feed_with(STATE, H, B, Q - 1, keys, 0, RESULT), OUINET_READER_NO_ROOM));
    expect("half a record", is_refused(feed_with(STATE, H, B, Q, keys, RECORD / 2, RESULT), OUINET_READER_NO_ROOM));
    expect("a record too many", is_refused(feed_with(STATE, H, B, Q, keys, KEYS + RECORD, RESULT), OUINET_READER_NO_ROOM));
    expect("the state is as it was", !memcmp(state, before, STATE));
    expect("all records", feed_with(STATE, H, B, Q, keys, KEYS, RESULT) == OUINET_READER_MORE);
    expect("a byte is gathered", number(state + 8) == 1);
    memset(state, 0xff, STATE);
    expect("any bytes are a state: this one is over", is_refused(feed_with(STATE, H, B, Q, keys, 0, RESULT), OUINET_READER_NOT_DUE));
    expect("and hands out no more than there is", ouinet_reader_block(state, STATE, block, B) == B);
    expect("nor of too short a buffer", ouinet_reader_block(state, STATE, block, B - 1) == 0 && ouinet_reader_block(state, STATE - 1, block, B) == 0);
}

/* ---- forged states: the working buffers have MORE bytes beyond the sizes that the header names, all of them marked */

enum { MORE = 64 };

static uint8_t long_head[OUINET_READER_HEAD_SIZE + MORE], long_block[OUINET_READER_BLOCK_SIZE + MORE], long_question[OUINET_READER_QUESTION_SIZE + MORE];

static int beyond_is(uint8_t mark) {
    return bytes_are(long_head + OUINET_READER_HEAD_SIZE, MORE, mark) && bytes_are(long_block + OUINET_READER_BLOCK_SIZE, MORE, mark) &&
           bytes_are(long_question + OUINET_READER_QUESTION_SIZE, MORE, mark);
}

/* A state with a phase and its counts, all else zero; buffers of the byte `b`, marked beyond. */
static void forge(uint64_t phase, uint64_t first, uint64_t second, uint8_t mark) {
    memset(state, 0, STATE);
    ouinet_reader_put_number(state, phase);
    ouinet_reader_put_number(state + 8, first);
    ouinet_reader_put_number(state + 16, second);
    memset(long_head, mark, sizeof long_head);
    memset(long_block, mark, sizeof long_block);
    memset(long_question, mark, sizeof long_question);
    memset(long_head, 'b', OUINET_READER_HEAD_SIZE);
    memset(long_block, 'b', OUINET_READER_BLOCK_SIZE);
    memset(long_question, 'b', OUINET_READER_QUESTION_SIZE);
}

static uint8_t long_feed(const char *piece) {
    return ouinet_reader_feed(state, STATE, long_head, sizeof long_head, long_block, sizeof long_block, long_question, sizeof long_question, ring,
                              RECORD, uri, uri_length, (const uint8_t *)piece, strlen(piece), result, RESULT);
}

static uint8_t long_answer(uint8_t good) {
    return ouinet_reader_answer(state, STATE, long_head, sizeof long_head, long_block, sizeof long_block, long_question, sizeof long_question, good,
                                result, RESULT);
}

static uint8_t long_end(void) {
    return ouinet_reader_end(state, STATE, long_head, sizeof long_head, long_block, sizeof long_block, long_question, sizeof long_question, result, RESULT);
}

static void defy_forged_calls(uint8_t mark) {
    const uint64_t largest = UINT64_MAX;
    forge(6, largest, 0, mark);
    expect("a block of 2^64 - 1 bytes, answered yes, is a block", long_answer(1) == OUINET_READER_BLOCK);
    expect("of no more than a block may have", number(result + OUINET_READER_RESULT_SECOND) == OUINET_READER_BLOCK_SIZE);
    expect("nor is more handed out", ouinet_reader_block(state, STATE, long_block, sizeof long_block) == OUINET_READER_BLOCK_SIZE);
    expect("nothing beyond is written", beyond_is(mark));
    forge(6, largest, 0, mark);
    expect("answered no, it is refused", is_refused(long_answer(0), OUINET_READER_BAD_SIGNATURE));
    expect("what the size names is zero, and no byte beyond", bytes_are(long_block, OUINET_READER_BLOCK_SIZE, 0) && beyond_is(mark));
    forge(0, OUINET_READER_HEAD_SIZE, 0, mark);
    expect("a head with all its room taken takes no byte more", is_refused(long_feed("x"), OUINET_READER_BAD_HEAD));
    expect("and writes none beyond", beyond_is(mark) && bytes_are(long_head, OUINET_READER_HEAD_SIZE, 'b'));
    forge(3, OUINET_READER_BLOCK_SIZE + 8, largest, mark);
    expect("data past its room is refused", is_refused(long_feed("x"), OUINET_READER_BAD_FRAME));
    expect("and clears none beyond", bytes_are(long_block, OUINET_READER_BLOCK_SIZE, 0) && beyond_is(mark));
    forge(3, OUINET_READER_BLOCK_SIZE + 8, largest, mark);
    expect("an end there is refusal 11", is_refused(long_end(), OUINET_READER_UNFINISHED));
    expect("and clears none beyond, either", bytes_are(long_block, OUINET_READER_BLOCK_SIZE, 0) && beyond_is(mark));
    forge(7, OUINET_READER_BLOCK_SIZE, 0, mark);
    expect("nor does a trailer go beyond", is_refused(long_feed("x"), OUINET_READER_BAD_FRAME) && beyond_is(mark));
    forge(10, largest, largest, mark);
    expect("the last question of a forged state is answered", long_answer(1) == OUINET_READER_COMPLETE && beyond_is(mark));
    forge(10, largest, largest, mark);
    expect("and refused", is_refused(long_answer(0), OUINET_READER_BAD_SIGNATURE));
    expect("which clears none beyond", bytes_are(long_block, OUINET_READER_BLOCK_SIZE, 0) && beyond_is(mark));
    forge(11, 5, 0, mark);
    expect("what is complete is over", is_refused(long_feed("x"), OUINET_READER_NOT_DUE) && is_refused(long_answer(1), OUINET_READER_NOT_DUE) &&
                                           is_refused(long_end(), OUINET_READER_NOT_DUE));
    forge(12, 5, 0, mark);
    expect("and so is a phase that there is not", is_refused(long_feed("x"), OUINET_READER_NOT_DUE) && is_refused(long_answer(1), OUINET_READER_NOT_DUE));
}

/* The question after a forged block that is longer than its room: it is within its own, and says nothing of the bytes beyond. */
static void ask_of_forged_block(uint8_t mark, char *message) {
    char line[128] = "0;ouisig=";
    size_t length;
    memset(line + strlen(line), 'A', 86);
    strcat(line, "==\r\n");
    forge(5, 0, OUINET_READER_BLOCK_SIZE + 8, mark);
    ouinet_reader_put_number(state + 40, OUINET_READER_BLOCK_SIZE + 8);
    expect("the line after a forged block asks", long_feed(line) == OUINET_READER_QUESTION);
    length = (size_t)number(result + OUINET_READER_RESULT_FIRST);
    expect("a message within its room", length > 0 && length < 128 && beyond_is(mark));
    memcpy(message, long_question, length < 128 ? length : 0);
}

/* What is handed out of a forged count: `accepted` and `released`, with the head and the block of the example where they lie. */
static void defy_forged_parts(void) {
    const char *type = "content-type";
    const uint64_t counts[] = {OUINET_READER_HEAD_SIZE + 1, OUINET_READER_HEAD_SIZE + MORE, OUINET_READER_BLOCK_SIZE + 1, UINT64_MAX};
    uint8_t value[64];
    size_t i, length;
    memset(long_head, '\n', sizeof long_head);
    memcpy(long_head, head, sizeof head);
    length = ouinet_reader_value(state, STATE, long_head, sizeof long_head, (const uint8_t *)type, strlen(type), value, sizeof value);
    expect("a longer head buffer has as many lines", ouinet_reader_value_count(state, STATE, long_head, sizeof long_head, (const uint8_t *)type, strlen(type)) == 1);
    expect("a longer head buffer hands out the same", length > 0 && length == ouinet_reader_value(state, STATE, head, sizeof head, (const uint8_t *)type, strlen(type), value, sizeof value));
    for (i = 0; i < sizeof counts / sizeof *counts; i++) {
        ouinet_reader_put_number(state + 24, counts[i]);
        ouinet_reader_put_number(state + 328, counts[i]);
        expect("no value of a head past its room", ouinet_reader_value(state, STATE, long_head, sizeof long_head, (const uint8_t *)type, strlen(type), value, sizeof value) == 0);
        expect("and no lines", ouinet_reader_value_count(state, STATE, long_head, sizeof long_head, (const uint8_t *)type, strlen(type)) == 0);
        expect("no block past its room", ouinet_reader_block(state, STATE, long_block, sizeof long_block) == (counts[i] < OUINET_READER_BLOCK_SIZE ? counts[i] : OUINET_READER_BLOCK_SIZE));
    }
}

/* The head's buffer is overwritten when the head is accepted: with fields about its end or without, the stream is refused at the trailer's. */
static void lose_the_head(const char *stream, size_t length, size_t piece) {
    size_t head_length = (size_t)(strstr(stream, "\r\n\r\n") - stream) + 4;
    expect("a head is accepted", is_asked(stream, head_length, piece) && answer(1) == OUINET_READER_HEAD);
    memset(head, 'x', sizeof head);
    expect("without its bytes the stream is read up to the trailer", read_on((const uint8_t *)stream, head_length, length - 1, piece) == length - 1 && number(state) == 7);
    expect("all of the body is counted", number(state + 16) == 12);
    expect("the trailer's last byte is refused with 13", is_refused(feed((const uint8_t *)stream + length - 1, 1), OUINET_READER_BAD_ENDS));
    expect("which is final", number(state) == 9 && number(state + 8) == OUINET_READER_BAD_ENDS);
}

/* Paper 01's lines for the example without the fields about its end. */
static const char nine[] = "question 219\nhead 200\nquestion 83\nblock 0 5\nquestion 83\nblock 5 5\nquestion 84\nblock 10 2\nclosed 12\n";

/* The example up to its trailer, and this behind it. Its length. */
static size_t with_trailer(char *to, const char *stream, const char *trailer) {
    return (size_t)sprintf(to, "%.*s%s", (int)trailer_start(stream), stream, trailer);
}

int main(int count, char **arguments) {
    char stream[8192], whole[8192], keys[4096], expected[4096], said[4096], body[4096], own[4096], one[128] = {0}, other[128] = {0};
    size_t length, whole_length, piece;
    if (count != 6) {
        fprintf(stderr, "usage: header STREAM RING URI EXPECTED PIECE\n");
        return 1;
    }
    whole_length = contents(arguments[1], whole, sizeof whole);
    contents(arguments[2], keys, sizeof keys);
    ask_for(own, contents(arguments[3], own, sizeof own));
    contents(arguments[4], expected, sizeof expected);
    piece = (size_t)atol(arguments[5]);
    read_ring(keys);
    length = with_trailer(stream, whole, "\r\n");
    sit((const uint8_t *)whole, whole_length, piece, said, body);
    expect("the ten lines", !strcmp(said, expected));
    expect("the body", !strcmp(body, "Hello world!"));
    look_at_the_end(whole, whole_length, piece);
    refuse_ends(whole, piece);
    lose_the_head(whole, whole_length, piece);
    lose_the_head(stream, length, piece);
    sit((const uint8_t *)stream, length, piece, said, body);
    expect("the nine lines", !strcmp(said, nine));
    expect("the same body", !strcmp(body, "Hello world!"));
    look_up_values();
    defy_forged_parts();
    read_parts(stream, whole, piece);
    look_inside((const uint8_t *)stream, length);
    find_places(stream, piece);
    count_lines(stream, piece);
    count_forged_lines(stream);
    ask_for_others(stream, own, piece);
    ask_for_a_million(stream, own, piece);
    ask_in_order(stream, own, piece);
    ask_at_the_right_time(stream, length, own);
    read_longer(stream, piece);
    lend_as_before(stream);
    measure();
    defy_forged_calls(0xa5);
    ask_of_forged_block(0xa5, one);
    ask_of_forged_block(0x5a, other);
    expect("whatever stands beyond, it is the same", !memcmp(one, other, sizeof one));
    printf("%d passed, %d failed\n", passed, failed);
    return failed != 0;
}
