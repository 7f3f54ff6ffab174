/* Makes the buffers that the fuzz target lends, each up against a page that nobody may touch. */
#include "lent.h"

#include <stdio.h>
#include <stdlib.h>
#include <sys/mman.h>
#include <unistd.h>

void must(int is_so, const char *what) {
    if (!is_so) {
        fprintf(stderr, "not so: %s\n", what);
        abort();
    }
}

/* So many bytes between two pages that nobody may touch, up against the second one. */
static uint8_t *guarded(size_t size) {
    size_t page = (size_t)sysconf(_SC_PAGESIZE);
    size_t inner = (size + page - 1) / page * page;
    uint8_t *start = mmap(NULL, inner + 2 * page, PROT_NONE, MAP_PRIVATE | MAP_ANONYMOUS, -1, 0);
    must(start != MAP_FAILED, "there is memory");
    must(mprotect(start + page, inner, PROT_READ | PROT_WRITE) == 0, "memory can be used");
    return start + page + inner - size;
}

const struct lent *lent(void) {
    static struct lent made;
    if (made.state == NULL) {
        made.state = guarded(OUINET_READER_STATE_SIZE);
        made.head = guarded(OUINET_READER_HEAD_SIZE);
        made.block = guarded(OUINET_READER_BLOCK_SIZE);
        made.question = guarded(OUINET_READER_QUESTION_SIZE);
        made.result = guarded(OUINET_READER_RESULT_SIZE);
        made.piece = guarded(MOST_PIECE);
        made.ring = guarded((OUINET_READER_RING_LIMIT + 1) * OUINET_READER_RECORD_SIZE);
        made.uri = guarded(MOST_URI);
    }
    return &made;
}
