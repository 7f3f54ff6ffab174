/*
 * The reader of Ouinet signature streams (version 4), for C and C++.
 *
 * Link with libreader_export.a (`scripts/library` writes it to target/staticlib; x86-64 Linux). The library is proved: the contracts in
 * crates/reader_export_c/src say for every input what each function returns and what it leaves in every byte that it is lent.
 *
 * The library holds nothing between calls. It allocates nothing, opens nothing, and never verifies a signature: it asks, and the
 * caller answers. All that it works on is lent to each call:
 *
 *     state      what it keeps from call to call, OUINET_READER_STATE_SIZE bytes
 *     head       the head of the response, as it comes; it is read again at the trailer's end
 *     block      the block under way, and at the end the trailer
 *     question   the message that a signature is to be verified over
 *     ring       the keys that are trusted (feed alone)
 *     uri        the URI that was asked for (feed alone)
 *     result     what a call says, OUINET_READER_RESULT_SIZE bytes
 *
 * A buffer is passed as the address of its first byte and its length. An address is never NULL, not even where the length is 0, and
 * so many bytes are there. A buffer that is not `const` overlaps no other one of the same call. That is all that is asked: any
 * bytes may stand in any buffer, the state included, and a buffer that is too short is answered and not overrun. Several threads
 * may call at once, each with buffers of its own. Bytes that a buffer has beyond the size that is named for it are left as they are, with
 * every state; those of head, block and question are not read either.
 * A call that is refused with 1 or 2 leaves the same state; bytes that no call has written, and that say the same state in another way,
 * may come back in the usual one.
 * Between the calls of one stream leave the bytes of head, block and question as they are: a head buffer that no longer holds a good
 * head makes the stream end in OUINET_READER_BAD_ENDS, whether or not it has fields about its end, and also where it is a part answer.
 *
 * A sitting (docs/INTERFACE.md has it at length):
 *
 *     ouinet_reader_fresh(state, sizeof state);
 *     for each piece of the stream, as it comes:
 *         while bytes of it are left:
 *             word = ouinet_reader_feed(.., ring, ring_len, uri, uri_len, piece, left, result, sizeof result);
 *             go on behind as many bytes as were taken
 *             if word is OUINET_READER_QUESTION:
 *                 verify; word = ouinet_reader_answer(.., good, result, sizeof result);
 *             if word is OUINET_READER_BLOCK:
 *                 the first ouinet_reader_block(..) bytes of the block buffer are a verified part of the body
 *             if word is OUINET_READER_COMPLETE, OUINET_READER_CLOSED or OUINET_READER_REFUSED: stop
 *     where the stream stops before that: ouinet_reader_end(..)
 */
#ifndef OUINET_READER_H
#define OUINET_READER_H

#include <stddef.h>
#include <stdint.h>

#ifdef __cplusplus
extern "C" {
#endif

/* ---- sizes, in bytes */

#define OUINET_READER_STATE_SIZE 504
#define OUINET_READER_RESULT_SIZE 96

/* The least lengths of the three working buffers. A shorter one is refused with OUINET_READER_NO_ROOM. */
#define OUINET_READER_HEAD_SIZE 32768
#define OUINET_READER_BLOCK_SIZE 65536
#define OUINET_READER_QUESTION_SIZE 32768

/* The most field lines that an accepted head has, and so the most that ouinet_reader_value_count gives. */
#define OUINET_READER_FIELD_LIMIT 128

/* ---- the key ring
 *
 * Its records one after the other, in the order in which they are searched. It may be empty. A length that is no multiple of a
 * record's, or more than OUINET_READER_RING_LIMIT records, is refused with OUINET_READER_NO_ROOM. It is read only when the head is
 * judged. Every number here and below is 8 bytes, the lowest first.
 */

#define OUINET_READER_RING_LIMIT 16
#define OUINET_READER_RECORD_SIZE 48
#define OUINET_READER_RECORD_KEY 0    /* 32 bytes: the public key */
#define OUINET_READER_RECORD_FIRST 32 /* a number: the first second at which it is trusted */
#define OUINET_READER_RECORD_LAST 40  /* a number: the last such second */

/* ---- the URI asked for
 *
 * A signature says who signed a show, not that it is the one that was wanted. So feed is lent the URI that was asked for: any bytes, of any
 * length, none included (the address is not NULL then either); it is never a cause for OUINET_READER_NO_ROOM. It is read only when the head is
 * judged, that is, by the call that takes the head's last byte; what other calls are lent is not looked at. The value of the head's X-Ouinet-URI,
 * without the spaces and tabs at its ends, is compared with it byte by byte: no case is folded, and nothing is trimmed from the URI that is lent,
 * so a line feed left at its end makes it another one. Where they differ, the head is refused with OUINET_READER_OTHER_URI and nothing is asked.
 * That is tested after all of OUINET_READER_BAD_HEAD, OUINET_READER_HEAD_RULE and OUINET_READER_BAD_VERSION, and before OUINET_READER_UNTRUSTED.
 * A head without a URI, or with an empty one, is refused with OUINET_READER_HEAD_RULE, so with an empty URI lent no head is accepted.
 *
 * To tell the user which show came: after OUINET_READER_OTHER_URI the whole head stands at the front of the head buffer. It ends with the
 * first CR LF CR LF there, its text is good, and just one of its lines begins with the name X-Ouinet-URI, in any case, and a colon. Nobody has
 * verified it, so show it, escaped, and use it for nothing else. ouinet_reader_value gives nothing of a head that was not accepted.
 */

/* ---- the end of the show
 *
 * A block's signature does not say that it is the last one. Three fields do, each in the head or in the trailer: Digest (SHA-256= and 44 base64
 * characters), X-Ouinet-Data-Size (1 to 10 digits, no leading zero unless it is 0) and X-Ouinet-Sig1, which is written as X-Ouinet-Sig0 and signs
 * what that one signs, and the other two as well: its list is X-Ouinet-Sig0's, in any case, with digest and x-ouinet-data-size added at its end. They are
 * judged at the trailer's last byte, in this order:
 *
 *     none of the three is there, by name                               OUINET_READER_CLOSED: whether the body is complete was not checked
 *     some but not all, one twice anywhere, a wrong text or list, or
 *     digest or x-ouinet-data-size in X-Ouinet-Sig0's own list          refused with OUINET_READER_BAD_ENDS
 *     the size is not that of the blocks that were handed out           refused with OUINET_READER_OTHER_LENGTH
 *     the SHA-256 of these is not the digest                            refused with OUINET_READER_OTHER_DIGEST
 *     X-Ouinet-Sig1's key is not X-Ouinet-Sig0's                        refused with OUINET_READER_UNTRUSTED
 *     else                                                              OUINET_READER_QUESTION, the last one: a yes gives OUINET_READER_COMPLETE
 *
 * The record of that question is the one that was found for the head. These refusals have no place, and set the trailer in the block buffer to
 * zero, as a no does. The values that are handed out stay those of X-Ouinet-Sig0's list. Whoever passes a stream on can take the three out: take
 * OUINET_READER_CLOSED for a beginning of the show where all of it is needed.
 */

/* ---- part answers
 *
 * Who asks for a range of a show gets a part answer, status 206: some of its blocks, one after the other. Its head is that of the whole answer, with the
 * same signature, and says more:
 *
 *     Content-Range         once: `bytes a-b/t`, each number 1 to 12 digits, no leading zero unless it is 0: the first and the last byte of the part, counted
 *                           from 0, and how many the show has. a is at most b, b below t, t at most 4,294,967,296; a is divisible by the block size N, and
 *                           b + 1 is t or divisible by N, so that a part is whole blocks
 *     X-Ouinet-HTTP-Status  200, 301, 302 or 307: the whole answer's status, which stands for (response-status) in the message of the head's question
 *
 * Neither need be signed. A 206 that breaks these rules is refused with OUINET_READER_HEAD_RULE; a head of another status may have both fields,
 * and they mean nothing there.
 *
 * OUINET_READER_HEAD says 206, and ouinet_reader_range gives a, b and t from then on. Places in OUINET_READER_BLOCK and in the messages are those in the show:
 * the first is a. Where a is above 0, the first chunk line carries `;ouihash=` and 88 characters, the hash of the block before, with which the chain of hashes
 * begins; the signature of the first block covers it. It is refused with OUINET_READER_BAD_OUISIG where it is missing there, and on any other line, of whole
 * answers too. A 0 line before the part's last byte, and a chunk past it, are refused with OUINET_READER_BAD_SIZE. The fields about the end of
 * the show are not looked at: a part ends in OUINET_READER_CLOSED, whose number is the bytes of this part, b - a + 1.
 *
 * Whoever passes a stream on can send a part where the whole show was asked for. So where only a whole answer will do, stop at OUINET_READER_HEAD with 206:
 * the blocks that follow do not begin with the show's first byte unless a is 0.
 *
 * Each block of a part is a block of the show at its place, by whoever signed it. That t is the show's length is what the sender says, and is not
 * signed. Where a part is put behind bytes that are there already, the id (state 56) and the block size must be the same, and the 64 bytes at the end of
 * the first block's message must be the SHA-512 of the hash of the block before, as those bytes give it, and the block: then that block's
 * signature covers all that is before it.
 */

/* ---- the result of feed, answer and end */

#define OUINET_READER_RESULT_WORD 0       /* a number: the word, the same as is returned */
#define OUINET_READER_RESULT_TAKEN 8      /* a number: how many bytes of the piece were taken, 0 from answer and end */
#define OUINET_READER_RESULT_FIRST 16     /* a number: see the words */
#define OUINET_READER_RESULT_SECOND 24    /* a number: see the words */
#define OUINET_READER_RESULT_SIGNATURE 32 /* 64 bytes: the signature that a question is about, else zeros */

/* Words. A number that is not named is 0. */
#define OUINET_READER_MORE 0     /* the whole piece was taken, and nothing was decided */
#define OUINET_READER_QUESTION 1 /* first: the message is so many bytes at the front of the question buffer; second: the number of the key's record, from 0 */
#define OUINET_READER_HEAD 2     /* the head is accepted; first: its status, 206 for a part answer */
#define OUINET_READER_BLOCK 3    /* a block is handed out; first: its place in the body, of a part answer that in the whole show; second: its length */
#define OUINET_READER_CLOSED 4   /* the framing ended well; the stream has no end fields or is a part answer, so nothing says that the body is complete; first: the bytes handed out. Final */
#define OUINET_READER_REFUSED 5  /* first: the number of the refusal; second: with 3 and 6 its place, see there. Final, but for the first two */
#define OUINET_READER_COMPLETE 6 /* from answer: the body is complete; first: its bytes. The size and the SHA-256 of the bytes handed out are those that the last yes was about. Final */

/* Returned where the buffer of the state or of the result is too short. Nothing was changed, and no result written. */
#define OUINET_READER_SHORT 255

/* ---- refusals. The first two answer a call and change nothing; with the others the stream is over. 12 comes at the head's end or at the
 * trailer's, 13, 14 and 15 at the trailer's alone.
 *
 * OUINET_READER_BAD_HEAD and OUINET_READER_BAD_FRAME have a place, the second number of the result, counted from the first byte of the head, chunk
 * line, end of data or trailer. Where its text is wrong, the place is the length of the longest beginning that some good text has too, however
 * long as a whole and with its line ends: the byte there is the first that cannot stand where it does. Where the cause is another one
 * (no end within the limit, over 128 field lines, a field twice that may come only once), the place is the length of the section as far as it was
 * taken. No end goes before wrong text, and that before fields. With all other refusals the second number is 0.
 *
 * A field may come only once if its name begins X-Ouinet- or is Content-Length or Transfer-Encoding, in any case. All others may be
 * repeated; of one that is signed the signature covers the values of all its lines.
 */

#define OUINET_READER_NOT_DUE 1       /* feed or end with a question open; answer with none open; any call after a final word */
#define OUINET_READER_NO_ROOM 2       /* head, block or question buffer too short, or the ring's length wrong; tested before 1 */
#define OUINET_READER_BAD_HEAD 3      /* head text wrong, longer than 32,768 bytes, over 128 field lines, or a field twice that may come only once */
#define OUINET_READER_HEAD_RULE 4     /* a rule of heads is broken, other than those of 3, 5, 16 and 12; the rules of a part answer's head are among them */
#define OUINET_READER_BAD_VERSION 5   /* the version is there, and is not 4 */
#define OUINET_READER_BAD_FRAME 6     /* chunk line, end of data or trailer wrong, a line longer than 128 bytes, or a trailer longer than 32,768 */
#define OUINET_READER_BAD_SIZE 7      /* a chunk's size is against the block rule; in a part answer also a 0 line before its last byte, or a chunk past it */
#define OUINET_READER_BAD_OUISIG 8    /* ouisig, a block's signature, or ouihash, the hash that a part begins with, is missing where it is due, or there where it is not */
#define OUINET_READER_TOO_LONG 9      /* the body would pass 4,294,967,296 bytes */
#define OUINET_READER_BAD_SIGNATURE 10 /* the answer was no */
#define OUINET_READER_UNFINISHED 11   /* the end came before the stream's */
#define OUINET_READER_UNTRUSTED 12    /* the key is not in the ring, or not trusted at the time, or the two key ids differ; at the trailer's end: X-Ouinet-Sig1's key is not X-Ouinet-Sig0's */
#define OUINET_READER_BAD_ENDS 13     /* some but not all of the three end fields, one twice, a wrong text or list, or one that X-Ouinet-Sig0 signs already */
#define OUINET_READER_OTHER_LENGTH 14 /* X-Ouinet-Data-Size is not the length of the body that was handed out */
#define OUINET_READER_OTHER_DIGEST 15 /* Digest is not the SHA-256 of the body that was handed out */
#define OUINET_READER_OTHER_URI 16    /* the head's URI is not the one asked for; tested before 12 */

/* ---- the state
 *
 * Copy it, keep it, throw it away; ouinet_reader_fresh alone needs nothing of it beforehand. Its layout, for those who look inside:
 *
 *       0  phase           0 head, 1 its question open, 2 first chunk line, 3 data, 4 end of data, 5 next chunk line, 6 a block's
 *                          question open, 7 trailer, 8 closed, 9 refused, 10 the question about the end open, 11 complete; any other number
 *                          is read as 9
 *       8  first count     bytes gathered; with 1 the head's length, with 6 the block's, with 8 and 11 the body's, with 9 the refusal, with 10
 *                          the trailer's
 *      16  second count    with 3, 4 and 5 the block's length, with 6 that of the next, with 7 and 10 the body's; else 0
 *      24  accepted        length of the accepted head, else 0
 *      32  status          206 for a part answer
 *      40  block size
 *      48  key             number of its record
 *      56  id              64 bytes
 *     120  id length
 *     128  block number    in the show: in a part answer, from the first chunk line on, the first block's is its first byte's place divided by the
 *                          block size
 *     136  hash            64 bytes: of the block before; at the first block of a part, that of ouihash
 *     200  line            128 bytes: of the chunk line under way
 *     328  released        length of the block that is handed out, else 0
 *     336  digest          eight numbers: the SHA-256 of the body so far, its eight words; of a larger number the lowest four bytes count
 *     400  rest            64 bytes: the body's last bytes that are not hashed yet, as many as the count's remainder by 64
 *     464  count           how many bytes of the body came into that hash
 *     472  part            1 for a part answer, else 0; any other number is read as 0
 *     480  first           of a part answer the place of its first byte in the show
 *     488  last            the place of its last byte
 *     496  total           how many bytes the show has by the head's word. These three are 0 for a whole answer; all four are written when the head is
 *                          judged
 *
 * A state that no stream has led to is as safe as any other. With every state, a forged one too:
 *
 *     the count taken is at most the length of the piece, and 0 from answer and end;
 *     the length of a question in a result is at most OUINET_READER_QUESTION_SIZE, and at most the question buffer's;
 *     the length of a block in a result, and what ouinet_reader_block gives, is at most OUINET_READER_BLOCK_SIZE, and at most the
 *     block buffer's;
 *     what ouinet_reader_value gives is at most OUINET_READER_HEAD_SIZE, and at most the head buffer's length;
 *     what ouinet_reader_value_count gives is at most OUINET_READER_FIELD_LIMIT;
 *     no byte of these buffers beyond the three sizes is read or written.
 *
 * But what such a state hands out proves nothing, and the number of a key's record is what the state says: hold it against the ring before
 * it is used as an index. Nor does the place of a refusal say anything about a stream then.
 */

/* ---- calls */

/* A number of 8 bytes, as it stands in a result. */
static inline uint64_t ouinet_reader_number(const uint8_t *at) {
    uint64_t n = 0;
    int i;
    for (i = 7; i >= 0; i--)
        n = n << 8 | at[i];
    return n;
}

/* Writes a number of 8 bytes, as it stands in a key record. */
static inline void ouinet_reader_put_number(uint8_t *at, uint64_t n) {
    int i;
    for (i = 0; i < 8; i++)
        at[i] = (uint8_t)(n >> 8 * i);
}

/* Writes the state of a reader before its stream. 0, or OUINET_READER_SHORT. */
uint8_t ouinet_reader_fresh(uint8_t *state, size_t state_len);

/*
 * Takes a piece of the stream, of any length: its bytes up to and with the one that decides something, or all of them. Returns the
 * word. Bytes that were not taken are fed again, after the question before them is answered. The ring and the URI asked for are read when
 * the head is judged, and not kept.
 */
uint8_t ouinet_reader_feed(uint8_t *state, size_t state_len, uint8_t *head, size_t head_len, uint8_t *block, size_t block_len,
                           uint8_t *question, size_t question_len, const uint8_t *ring, size_t ring_len, const uint8_t *uri,
                           size_t uri_len, const uint8_t *piece, size_t piece_len, uint8_t *result, size_t result_len);

/* Answers the open question: 0 where the signature is not good, anything else where it is. Returns the word. */
uint8_t ouinet_reader_answer(uint8_t *state, size_t state_len, uint8_t *head, size_t head_len, uint8_t *block, size_t block_len,
                             uint8_t *question, size_t question_len, uint8_t good, uint8_t *result, size_t result_len);

/* No bytes will follow. Returns the word, which is always OUINET_READER_REFUSED, or OUINET_READER_SHORT. */
uint8_t ouinet_reader_end(uint8_t *state, size_t state_len, uint8_t *head, size_t head_len, uint8_t *block, size_t block_len,
                          uint8_t *question, size_t question_len, uint8_t *result, size_t result_len);

/*
 * Which bytes of the show the part answer has whose head was accepted: 1, and the places of its first and its last byte, counted from 0, and the
 * number of bytes that the show has by what the head says. 0 for a whole answer, before the head is accepted and where the state is too short; then
 * nothing is written. With a state that no stream has led to, the three may be any numbers.
 */
static inline int ouinet_reader_range(const uint8_t *state, size_t state_len, uint64_t *first, uint64_t *last, uint64_t *total) {
    if (state_len < OUINET_READER_STATE_SIZE || ouinet_reader_number(state + 24) == 0 || ouinet_reader_number(state + 472) != 1)
        return 0;
    *first = ouinet_reader_number(state + 480);
    *last = ouinet_reader_number(state + 488);
    *total = ouinet_reader_number(state + 496);
    return 1;
}

/*
 * How many bytes at the front of the block buffer are the block that is handed out: from OUINET_READER_BLOCK until the next feed or
 * end that is not refused with 1 or 2. 0 at other times, and where a buffer is too short.
 */
size_t ouinet_reader_block(const uint8_t *state, size_t state_len, const uint8_t *block, size_t block_len);

/*
 * The value of a signed field of the accepted head, its name in any case; where the head has several lines of that name, the first
 * line's. Returns the value's length, and copies it to the front of `value` where it fits whole; else nothing is copied. 0 for a field
 * that is not signed, before the head is accepted, and where a buffer is too short.
 */
size_t ouinet_reader_value(const uint8_t *state, size_t state_len, const uint8_t *head, size_t head_len, const uint8_t *name,
                           size_t name_len, uint8_t *value, size_t value_len);

/*
 * How many lines of the accepted head have the name of a signed field, in any case: 1, or more where the field is repeated. An empty
 * value is a line too, and commas in a value are not looked at. 0 for a field that is not signed, before the head is accepted, and
 * where a buffer is too short.
 */
size_t ouinet_reader_value_count(const uint8_t *state, size_t state_len, const uint8_t *head, size_t head_len, const uint8_t *name,
                                 size_t name_len);

#ifdef __cplusplus
}
#endif

#endif
