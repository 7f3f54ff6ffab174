/* A fuzz target for the C interface, for libFuzzer under AddressSanitizer. fuzz/run builds it and runs it for a while.
 *
 * An input is a byte for the cuts, one for the answers, one for the lengths, one for the URI asked for, and then a stream. The
 * stream is read twice, in pieces as long as can be and in small ones, and both readings must tell the same events at the same
 * places. Where the first byte is 255, a state comes before the stream, made up by the fuzzer: then the calls need only stay
 * within their buffers and say one of the words. (What the events must be is compared with another reader by rust/fuzz-calls.)
 */
#include <string.h>

#include "../include/ouinet_reader.h"
#include "features.h"
#include "lent.h"
#include "uri.h"

/* An input's first four bytes. */
struct plan {
    uint8_t cuts;    /* the seed of the piece lengths */
    uint8_t answers; /* so many are yes, then comes a no; 255: all are yes */
    uint8_t lengths; /* which buffer is too short now and then; 0: none */
    uint8_t uri;     /* the URI asked for; 0: the head's, see uri.h */
};

static const struct plan enough = {0, 0, 0, 0};

/* What one reading has told: a digest of all events, and what the next ones must fit to. */
struct told {
    uint64_t digest;
    uint64_t place;
    uint64_t start; /* where the body starts in the show: 0, unless it is a part answer */
    uint64_t body;
    uint64_t last; /* the last byte of a part answer */
    unsigned answers;
    int accepted;
    int is_part;
    int asks_of_end; /* whether the last question was about the body's end: the text of a head, after the head's own */
    int over;
    int is_asked_for; /* whether the URI asked for is the head's */
};

/* The public half of the test key, whose streams the first inputs are; see rust/streams/src/example.rs. */
static const uint8_t key[32] = {0x6e, 0xd6, 0x2e, 0x4b, 0x71, 0x25, 0x61, 0xfd, 0xb7, 0x0a, 0x93, 0xe7, 0x29, 0x29, 0x81, 0x73,
                                0x52, 0x51, 0xea, 0xb8, 0xde, 0xc1, 0x3a, 0xfd, 0xfc, 0xa8, 0xc5, 0x27, 0xbc, 0x39, 0x06, 0x21};

/* The result's numbers. */
static uint64_t taken_count(void) {
    return ouinet_reader_number(lent()->result + OUINET_READER_RESULT_TAKEN);
}

static uint64_t first_number(void) {
    return ouinet_reader_number(lent()->result + OUINET_READER_RESULT_FIRST);
}

static uint64_t second_number(void) {
    return ouinet_reader_number(lent()->result + OUINET_READER_RESULT_SECOND);
}

/* Whether the last call was refused with this number. */
static int is_refused(uint8_t word, uint64_t refusal) {
    return word == OUINET_READER_REFUSED && first_number() == refusal;
}

static void digest(struct told *told, const uint8_t *bytes, size_t length) {
    for (size_t place = 0; place < length; place++) told->digest = (told->digest ^ bytes[place]) * 0x100000001b3u;
}

/* Two records that do not fit, and one for the test key at any time. Returns the start of the ring's last `count` records. */
static const uint8_t *ring(size_t count) {
    uint8_t *end = lent()->ring + (OUINET_READER_RING_LIMIT + 1) * OUINET_READER_RECORD_SIZE;
    memcpy(end - OUINET_READER_RECORD_SIZE, key, sizeof key);
    memset(end - 16, 0, 8);
    memset(end - 8, 255, 8);
    return end - count * OUINET_READER_RECORD_SIZE;
}

/* How many bytes of a buffer are lent. */
static size_t cut(const struct plan *plan, int buffer, size_t size) {
    return plan->lengths == buffer ? size - 1 : size;
}

static uint8_t feed(const struct plan *plan, const uint8_t *bytes, size_t length) {
    const struct lent *l = lent();
    uint8_t *piece = l->piece + MOST_PIECE - length;
    size_t records = plan->lengths == 6 ? OUINET_READER_RING_LIMIT + 1 : 3;
    const uint8_t *asked = asked_uri();
    memmove(piece, bytes, length);
    return ouinet_reader_feed(l->state, cut(plan, 1, OUINET_READER_STATE_SIZE), l->head, cut(plan, 2, OUINET_READER_HEAD_SIZE),
                              l->block, cut(plan, 3, OUINET_READER_BLOCK_SIZE), l->question,
                              cut(plan, 4, OUINET_READER_QUESTION_SIZE), ring(records),
                              cut(plan, 7, records * OUINET_READER_RECORD_SIZE), asked, asked_length(), piece, length, l->result,
                              cut(plan, 5, OUINET_READER_RESULT_SIZE));
}

static uint8_t answer(const struct plan *plan, uint8_t good) {
    const struct lent *l = lent();
    return ouinet_reader_answer(l->state, cut(plan, 1, OUINET_READER_STATE_SIZE), l->head,
                                cut(plan, 2, OUINET_READER_HEAD_SIZE), l->block, cut(plan, 3, OUINET_READER_BLOCK_SIZE),
                                l->question, cut(plan, 4, OUINET_READER_QUESTION_SIZE), good, l->result,
                                cut(plan, 5, OUINET_READER_RESULT_SIZE));
}

static uint8_t end(const struct plan *plan) {
    const struct lent *l = lent();
    return ouinet_reader_end(l->state, cut(plan, 1, OUINET_READER_STATE_SIZE), l->head, cut(plan, 2, OUINET_READER_HEAD_SIZE),
                             l->block, cut(plan, 3, OUINET_READER_BLOCK_SIZE), l->question,
                             cut(plan, 4, OUINET_READER_QUESTION_SIZE), l->result, cut(plan, 5, OUINET_READER_RESULT_SIZE));
}

/* A feed with one buffer too short: it is refused and leaves the state alone. */
static void short_feed(const struct plan *plan, const uint8_t *bytes, size_t length) {
    const struct lent *l = lent();
    uint8_t before[OUINET_READER_STATE_SIZE];
    if (plan->lengths < 1 || plan->lengths > 7) return;
    memcpy(before, l->state, sizeof before);
    uint8_t word = feed(plan, bytes, length);
    if (plan->lengths == 1 || plan->lengths == 5) {
        must(word == OUINET_READER_SHORT, "a short state or result is told");
    } else {
        must(is_refused(word, OUINET_READER_NO_ROOM), "a short buffer and a wrong ring are refused with 2");
    }
    must(memcmp(before, l->state, sizeof before) == 0, "a refusal with 2 leaves the state");
}

/* Only a wrong head and a wrong frame have a place. It is within what was taken, and within the longest section. */
static void check_place(uint64_t taken) {
    uint64_t refusal = first_number(), place = second_number();
    if (refusal == OUINET_READER_BAD_HEAD || refusal == OUINET_READER_BAD_FRAME) {
        must(place <= taken && place <= OUINET_READER_HEAD_SIZE, "the place of a refusal is within its section");
    } else {
        must(place == 0, "another refusal has no place");
    }
}

/* How many lines of the head have that name: no more than a head may have, and none from buffers that are too short. */
static size_t line_count(const char *name) {
    const struct lent *l = lent();
    const uint8_t *bytes = (const uint8_t *)name;
    size_t length = strlen(name), state = OUINET_READER_STATE_SIZE, head = OUINET_READER_HEAD_SIZE;
    size_t count = ouinet_reader_value_count(l->state, state, l->head, head, bytes, length);
    must(count <= OUINET_READER_FIELD_LIMIT, "a name has no more lines than a head may have");
    must(ouinet_reader_value_count(l->state, state - 1, l->head, head, bytes, length) == 0, "a short state has no lines");
    must(ouinet_reader_value_count(l->state, state, l->head, head - 1, bytes, length) == 0, "a short head has no lines");
    return count;
}

/* The lines of a name that each head has once, of one that it may have often, and of one that is no field. */
static void tell_lines(struct told *told) {
    uint8_t vary = (uint8_t)line_count("vary");
    must(line_count("X-Ouinet-URI") == (told->accepted ? 1 : 0), "an accepted head has its URI once");
    must(vary == 0 || told->accepted, "no other head has lines");
    must(line_count("(created)") == 0, "a name in brackets has no line");
    digest(told, &vary, 1);
}

/* What the accepted head says of its range: a part answer has one, which is some whole blocks of the show. */
static void tell_range(struct told *told, uint64_t status) {
    const uint8_t *state = lent()->state;
    uint64_t total = 0, block = ouinet_reader_number(state + 40);
    must(!ouinet_reader_range(state, OUINET_READER_STATE_SIZE - 1, &told->start, &told->last, &total), "a short state has no range");
    told->is_part = ouinet_reader_range(state, OUINET_READER_STATE_SIZE, &told->start, &told->last, &total);
    must(told->is_part == (status == 206), "a part answer has the status 206");
    if (!told->is_part) return;
    must(told->start <= told->last && told->last < total && total <= 4294967296u, "a part lies within its show");
    must(told->start % block == 0 && (told->last + 1 == total || (told->last + 1) % block == 0), "a part is whole blocks");
    told->body = told->start;
}

/* The total of the last word, if it is a good one: that of the blocks that were handed out, and of a part all that it was to have. */
static void check_total(const struct told *told, uint8_t word, uint64_t total) {
    if (word != OUINET_READER_CLOSED && word != OUINET_READER_COMPLETE) return;
    must(total == told->body - told->start, "the total is that of the blocks");
    if (told->is_part) must(word == OUINET_READER_CLOSED && told->body == told->last + 1, "a part is closed behind its last byte");
}

/* The word with all it carries, and what is handed out after it. */
static void tell(struct told *told, uint8_t word) {
    static const uint8_t name[] = "X-Ouinet-URI";
    const struct lent *l = lent();
    uint64_t first = first_number(), second = second_number();
    uint8_t value[OUINET_READER_HEAD_SIZE];
    size_t block = ouinet_reader_block(l->state, OUINET_READER_STATE_SIZE, l->block, OUINET_READER_BLOCK_SIZE);
    must(ouinet_reader_number(l->result + OUINET_READER_RESULT_WORD) == word, "the result has the word");
    must(block == (word == OUINET_READER_BLOCK ? second : 0), "a block is handed out after its event alone");
    if (word == OUINET_READER_BLOCK) {
        must(first == told->body, "blocks follow one another");
        told->body += second;
        must(!told->is_part || told->body <= told->last + 1, "a part has no byte behind its last one");
        digest(told, l->block, block);
    }
    check_total(told, word, first);
    if (word == OUINET_READER_COMPLETE) must(told->asks_of_end, "the last yes is about the end");
    if (word == OUINET_READER_REFUSED) {
        check_place(told->place);
        must(first != OUINET_READER_OTHER_URI || !told->is_asked_for, "the head's own URI is not refused");
        must(first < OUINET_READER_BAD_ENDS || first > OUINET_READER_OTHER_DIGEST || told->accepted, "the end is judged after the head");
    }
    if (word == OUINET_READER_QUESTION) {
        must(told->is_asked_for, "a head of another URI is not asked about");
        told->asks_of_end = told->accepted && first > 0 && l->question[0] == '(';
        digest(told, l->question, first);
    }
    if (word == OUINET_READER_HEAD) {
        size_t length = ouinet_reader_value(l->state, OUINET_READER_STATE_SIZE, l->head, OUINET_READER_HEAD_SIZE, name,
                                            sizeof name - 1, value, sizeof value);
        must(length > 0 && length <= sizeof value, "an accepted head has its URI");
        must(length == asked_length() && memcmp(value, asked_uri(), length) == 0, "and it is the one asked for");
        digest(told, value, length);
        told->accepted = 1;
        tell_range(told, first);
        /* It is not looked at any more */
        ask_otherwise(told->place);
    }
    tell_lines(told);
    digest(told, (const uint8_t *)&told->place, sizeof told->place);
    digest(told, &word, 1);
    digest(told, l->result + OUINET_READER_RESULT_FIRST, OUINET_READER_RESULT_SIZE - OUINET_READER_RESULT_FIRST);
    told->over = word == OUINET_READER_CLOSED || word == OUINET_READER_COMPLETE || word == OUINET_READER_REFUSED;
    feature_of_word(word, first);
}

/* Feeds one piece and answers its question. */
static void piece(const struct plan *plan, struct told *told, const uint8_t *bytes, size_t length) {
    short_feed(plan, bytes, length);
    uint8_t word = feed(&enough, bytes, length);
    uint64_t taken = taken_count();
    must(taken <= length && (taken > 0 || length == 0), "a feed takes some of the piece");
    told->place += taken;
    if (word == OUINET_READER_MORE) {
        must(taken == length, "without an event all is taken");
        return;
    }
    tell(told, word);
    if (word == OUINET_READER_QUESTION) {
        must(is_refused(feed(&enough, bytes, 0), OUINET_READER_NOT_DUE), "a feed with a question open is refused with 1");
        tell(told, answer(&enough, plan->answers == 255 || told->answers++ < plan->answers));
    }
}

/* Reads a stream to its last event, in pieces of so many bytes at most. */
static struct told read_stream(const struct plan *plan, const uint8_t *bytes, size_t size, size_t most) {
    struct told told = {.digest = 0xcbf29ce484222325u};
    uint32_t seed = plan->cuts + 1u;
    told.is_asked_for = ask_for(plan->uri, bytes, size);
    must(ouinet_reader_fresh(lent()->state, OUINET_READER_STATE_SIZE) == 0, "a fresh state");
    while (told.place < size && !told.over) {
        size_t rest = size - told.place;
        seed = seed * 1664525u + 1013904223u;
        size_t length = most < MOST_PIECE ? (seed >> 16) % (most + 1) : most;
        piece(plan, &told, bytes + told.place, length < rest ? length : rest);
    }
    if (!told.over) tell(&told, end(&enough));
    must(told.over, "a reading that was told the end has its last event");
    must(is_refused(feed(&enough, bytes, 0), OUINET_READER_NOT_DUE), "nothing comes after the last event");
    return told;
}

/* Calls on a state that the fuzzer made: feeds and answers as the bits of the second byte say, and then the end. */
static void forged(const struct plan *plan, const uint8_t *bytes, size_t size) {
    const struct lent *l = lent();
    memcpy(l->state, bytes, OUINET_READER_STATE_SIZE);
    bytes += OUINET_READER_STATE_SIZE;
    size -= OUINET_READER_STATE_SIZE;
    ask_for(plan->uri, bytes, size);
    for (int call = 0; call < 6; call++) {
        size_t length = size < MOST_PIECE ? size : MOST_PIECE;
        int is_answer = plan->answers >> call & 1;
        uint8_t word = is_answer ? answer(plan, !(plan->lengths & 16)) : feed(plan, bytes, length);
        if (word == OUINET_READER_SHORT) return;
        uint64_t taken = taken_count();
        must(word <= OUINET_READER_COMPLETE && taken <= (is_answer ? 0 : length), "a word, and no more taken than there was");
        must(ouinet_reader_block(l->state, OUINET_READER_STATE_SIZE, l->block, OUINET_READER_BLOCK_SIZE) <=
                 OUINET_READER_BLOCK_SIZE,
             "a block lies within its buffer");
        must(word != OUINET_READER_QUESTION || first_number() <= OUINET_READER_QUESTION_SIZE, "so does a question");
        must(word != OUINET_READER_BLOCK || second_number() <= OUINET_READER_BLOCK_SIZE, "and the block that a word names");
        must(word != OUINET_READER_REFUSED || second_number() <= OUINET_READER_BLOCK_SIZE, "and the place of a refusal");
        uint64_t range[3];
        ouinet_reader_range(l->state, OUINET_READER_STATE_SIZE, &range[0], &range[1], &range[2]);
        line_count("X-Ouinet-URI");
        line_count("vary");
        feature_of_word(word, first_number());
        bytes += taken;
        size -= taken;
    }
    end(plan);
}

int LLVMFuzzerTestOneInput(const uint8_t *bytes, size_t size) {
    if (size < 4) return 0;
    struct plan plan = {bytes[0], bytes[1], bytes[2], bytes[3]};
    bytes += 4;
    size -= 4;
    if (plan.cuts == 255) {
        if (size >= OUINET_READER_STATE_SIZE) forged(&plan, bytes, size);
        return 0;
    }
    struct told whole = read_stream(&plan, bytes, size, MOST_PIECE);
    struct told pieces = read_stream(&plan, bytes, size, 1 + plan.cuts % 64);
    must(whole.digest == pieces.digest, "the events do not depend on the cuts");
    return 0;
}
