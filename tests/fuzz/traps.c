#include "traps.h"
#include <signal.h>
#include <stdint.h>
#include <stdio.h>
#include <stdlib.h>
#include <sys/mman.h>
#include <ucontext.h>
#include <unistd.h>

enum { MOST_TRAPS = 1 << 14, BREAKPOINT = 0xcc };

struct trap {
    uint8_t *at;
    uint8_t byte; /* what stood there */
    int reached;
};

static struct trap traps[MOST_TRAPS];
static size_t trap_count;
static volatile uint8_t reached_now[MOST_TRAPS] __attribute__((section("__libfuzzer_extra_counters")));
static char unreached_name[4096];

static void give_up(const char *what)
{
    fprintf(stderr, "fuzz: %s\n", what);
    exit(2);
}

static size_t trap_at(const uint8_t *at)
{
    size_t low = 0, high = trap_count;
    while (low < high) {
        size_t middle = low + (high - low) / 2;
        if (traps[middle].at < at)
            low = middle + 1;
        else
            high = middle;
    }
    return low;
}

/* The instruction is run again, with its byte back in place. */
static void reach(int number, siginfo_t *info, void *context)
{
    greg_t *next = &((ucontext_t *)context)->uc_mcontext.gregs[REG_RIP];
    uint8_t *at = (uint8_t *)(uintptr_t)(*next - 1);
    size_t trap = trap_at(at);
    (void)number;
    (void)info;
    if (trap == trap_count || traps[trap].at != at)
        abort();
    *at = traps[trap].byte;
    traps[trap].reached = 1;
    reached_now[trap] = 1;
    *next = (greg_t)(uintptr_t)at;
}

static void read_addresses(FILE *file)
{
    unsigned long at;
    while (fscanf(file, "%lx", &at) == 1) {
        if (trap_count == MOST_TRAPS || (trap_count > 0 && (uintptr_t)traps[trap_count - 1].at >= at))
            give_up("too many instructions, or not rising");
        traps[trap_count++].at = (uint8_t *)(uintptr_t)at;
    }
    if (trap_count == 0)
        give_up("no instructions");
}

static void let_write(const uint8_t *first, const uint8_t *last)
{
    uintptr_t page = (uintptr_t)sysconf(_SC_PAGESIZE), from = (uintptr_t)first / page * page;
    if (mprotect((void *)from, (uintptr_t)last + 1 - from, PROT_READ | PROT_WRITE | PROT_EXEC) != 0)
        give_up("the library's code cannot be written");
}

static void report(void)
{
    size_t reached = 0;
    FILE *file = fopen(unreached_name, "w");
    for (size_t i = 0; i < trap_count; i++) {
        if (traps[i].reached)
            reached++;
        else if (file != NULL)
            fprintf(file, "%lx\n", (unsigned long)(uintptr_t)traps[i].at);
    }
    if (file != NULL)
        fclose(file);
    fprintf(stderr, "fuzz: %zu of the library's %zu instructions reached\n", reached, trap_count);
}

void traps_set(const char *program)
{
    char name[4096];
    struct sigaction action = {.sa_flags = SA_SIGINFO};
    snprintf(name, sizeof name, "%s.instructions", program);
    snprintf(unreached_name, sizeof unreached_name, "%s.unreached", program);
    FILE *file = fopen(name, "r");
    if (file == NULL)
        give_up("the file of the library's instructions is missing");
    read_addresses(file);
    fclose(file);
    action.sa_sigaction = reach;
    if (sigaction(SIGTRAP, &action, NULL) != 0)
        give_up("no handler for breakpoints");
    let_write(traps[0].at, traps[trap_count - 1].at);
    for (size_t i = 0; i < trap_count; i++) {
        traps[i].byte = *traps[i].at;
        *traps[i].at = BREAKPOINT;
    }
    atexit(report);
}
