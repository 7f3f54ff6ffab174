/* Coverage of the proved library's own machine code, which no compiler of ours instruments. fuzz/run lists where its basic blocks
 * start. At each an instruction is put that stops the program; the first time that one is met it is counted for the input at hand
 * and taken away again, so that the library then runs at its full speed. An input that meets a new one is kept by libFuzzer.
 */
#define _GNU_SOURCE
#include "features.h"

#include <signal.h>
#include <stdio.h>
#include <stdlib.h>
#include <string.h>
#include <sys/mman.h>
#include <ucontext.h>
#include <unistd.h>

#include "lent.h"

#define MOST_BLOCKS 16384
#define WORDS 64
#define STOP 0xcc

/* libFuzzer reads these as features of an input, and clears them before the next. Nothing here reads them, hence volatile. */
__attribute__((section("__libfuzzer_extra_counters"), used)) static volatile uint8_t counters[MOST_BLOCKS + WORDS];

struct block {
    uint8_t *start;
    uint8_t byte;
};

static struct block blocks[MOST_BLOCKS];
static size_t count, reached;

void feature_of_word(uint8_t word, uint64_t first) {
    counters[MOST_BLOCKS + (word == 5 ? 8 + first % 32 : word % 8)] = 1;
}

/* The block that starts there; the list is in order. */
static size_t find(const uint8_t *start) {
    size_t low = 0, high = count;
    while (low < high) {
        size_t middle = (low + high) / 2;
        if (blocks[middle].start < start) {
            low = middle + 1;
        } else {
            high = middle;
        }
    }
    return low;
}

static void met(int signal_number, siginfo_t *info, void *context) {
    greg_t *next = &((ucontext_t *)context)->uc_mcontext.gregs[REG_RIP];
    uint8_t *start = (uint8_t *)*next - 1;
    size_t place = find(start);
    (void)info;
    if (place == count || blocks[place].start != start) {
        signal(signal_number, SIG_DFL);
        return;
    }
    *start = blocks[place].byte;
    *next = (greg_t)start;
    counters[place] = 1;
    reached++;
}

static void say(void) {
    fprintf(stderr, "library: %zu of %zu basic blocks reached\n", reached, count);
}

/* Lets code be changed: that of the pages from the first block to the last. */
static void open_code(void) {
    uintptr_t page = (uintptr_t)sysconf(_SC_PAGESIZE);
    uintptr_t start = (uintptr_t)blocks[0].start / page * page;
    uintptr_t end = ((uintptr_t)blocks[count - 1].start / page + 1) * page;
    must(mprotect((void *)start, end - start, PROT_READ | PROT_WRITE | PROT_EXEC) == 0, "code can be changed");
}

/* Reads the list, a hexadecimal address a line in order, from the file that the environment names. */
int LLVMFuzzerInitialize(int *argument_count, char ***arguments) {
    const char *path = getenv("FUZZ_BLOCKS");
    FILE *list = path == NULL ? NULL : fopen(path, "r");
    unsigned long address;
    (void)argument_count, (void)arguments;
    if (list == NULL) return 0;
    while (count < MOST_BLOCKS && fscanf(list, "%lx", &address) == 1) blocks[count++].start = (uint8_t *)address;
    fclose(list);
    if (count == 0) return 0;
    open_code();
    struct sigaction action;
    memset(&action, 0, sizeof action);
    action.sa_sigaction = met;
    action.sa_flags = SA_SIGINFO;
    must(sigaction(SIGTRAP, &action, NULL) == 0, "stops can be met");
    for (size_t place = 0; place < count; place++) {
        blocks[place].byte = *blocks[place].start;
        *blocks[place].start = STOP;
    }
    atexit(say);
    return 0;
}
