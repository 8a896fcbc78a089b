/*
 * What guides the search. The archive isn't instrumented, so its blocks get a trap each, which is taken away when a run comes by: an input that
 * enters a block for the first time is new to the fuzzer. So is one that comes by a value not seen before.
 */
#define _GNU_SOURCE
#include "fuzz.h"

#include <signal.h>
#include <stdio.h>
#include <stdlib.h>
#include <sys/mman.h>
#include <ucontext.h>

enum { MOST = 4096, PAGE = 4096, TRAP = 0xcc };

/* libFuzzer reads counters of its own kind from this section, and empties them before each run */
__attribute__((section("__libfuzzer_extra_counters"), aligned(64))) static uint8_t counters[2 * MOST];

static struct {
    uint8_t *at;
    uint8_t was;
} blocks[MOST];

static size_t count, entered;

void seen(uint32_t sort, uint32_t value)
{
    counters[MOST + (sort * 619 + value) % MOST] = 1;
}

static void trapped(int number, siginfo_t *info, void *context)
{
    greg_t *at = &((ucontext_t *)context)->uc_mcontext.gregs[REG_RIP];
    size_t low = 0, high = count;
    (void)number;
    (void)info;
    while (low + 1 < high) {
        size_t middle = (low + high) / 2;
        if (blocks[middle].at <= (uint8_t *)*at - 1)
            low = middle;
        else
            high = middle;
    }
    if (count == 0 || blocks[low].at != (uint8_t *)*at - 1 || *blocks[low].at != TRAP)
        abort(); /* a trap that wasn't set here */
    *blocks[low].at = blocks[low].was;
    counters[low] = 1;
    entered++;
    *at -= 1;
}

void watch_blocks(void)
{
    const char *name = getenv("FENNELRAKE_BLOCKS");
    struct sigaction action = {0};
    unsigned long address;
    size_t i;
    FILE *file;

    if (name == NULL)
        return;
    file = fopen(name, "r");
    if (file == NULL) {
        perror(name);
        exit(2);
    }
    while (count < MOST && fscanf(file, "%lx", &address) == 1)
        blocks[count++].at = (uint8_t *)address;
    fclose(file);
    action.sa_sigaction = trapped;
    action.sa_flags = SA_SIGINFO;
    sigaction(SIGTRAP, &action, NULL);
    for (i = 0; i < count; i++) {
        uint8_t *page = blocks[i].at - (uintptr_t)blocks[i].at % PAGE;
        if (mprotect(page, PAGE, PROT_READ | PROT_WRITE | PROT_EXEC) != 0) {
            perror("fuzz: the archive's code can't be written");
            exit(2);
        }
        blocks[i].was = *blocks[i].at;
        *blocks[i].at = TRAP;
    }
}

int tell_blocks(void)
{
    if (count == 0)
        return 100;
    fprintf(stderr, "%lu of the archive's %lu blocks were entered\n", (unsigned long)entered, (unsigned long)count);
    return (int)(100 * entered / count);
}
