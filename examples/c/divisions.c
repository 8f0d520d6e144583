/* The first byte of each instruction becomes a trap. In the trap the instruction is put back and run
 * as a single step, behind which it becomes a trap again. */
#define _GNU_SOURCE
#include "divisions.h"

#if defined(__x86_64__)

#include <signal.h>
#include <stdint.h>
#include <stdio.h>
#include <sys/mman.h>
#include <ucontext.h>
#include <unistd.h>

#define MOST 64
#define TRAP 0xCC
#define SINGLE_STEP 0x100

static struct site {
    uint8_t *at, first;
    unsigned bits, of, memory;
    long offset;
} sites[MOST], *stepped;
static size_t count;

int divisions_read(const char *file)
{
    FILE *from = fopen(file, "r");
    unsigned long at;
    int found = 0;

    if (from == NULL)
        return 0;
    while (count < MOST && (found = fscanf(from, "%lu %u %u %u %ld", &at, &sites[count].bits,
                                           &sites[count].of, &sites[count].memory,
                                           &sites[count].offset)) == 5) {
        sites[count].at = (uint8_t *)at;
        sites[count].first = *sites[count].at;
        count++;
    }
    fclose(from);
    return found == EOF && count > 0;
}

static void tell(const struct site *site, const greg_t *registers)
{
    const uint64_t mask = site->bits == 64 ? UINT64_MAX : UINT32_MAX;
    uint64_t divisor = (uint64_t)registers[site->of];

    if (site->memory && site->bits == 64)
        divisor = *(const uint64_t *)(divisor + (uint64_t)site->offset);
    else if (site->memory)
        divisor = *(const uint32_t *)(divisor + (uint64_t)site->offset);
    printf("%lu %lu %lu %lu\n", (unsigned long)site->at,
           (unsigned long)((uint64_t)registers[REG_RDX] & mask),
           (unsigned long)((uint64_t)registers[REG_RAX] & mask), (unsigned long)(divisor & mask));
}

static void trapped(int unused, siginfo_t *also, void *context)
{
    greg_t *registers = ((ucontext_t *)context)->uc_mcontext.gregs;

    (void)unused;
    (void)also;
    if (stepped != NULL) {
        *stepped->at = TRAP;
        stepped = NULL;
        registers[REG_EFL] &= ~SINGLE_STEP;
        return;
    }
    for (size_t i = 0; i < count; i++)
        if ((uint64_t)sites[i].at == (uint64_t)registers[REG_RIP] - 1)
            stepped = &sites[i];
    if (stepped == NULL)
        _exit(2);
    registers[REG_RIP]--;
    tell(stepped, registers);
    *stepped->at = stepped->first;
    registers[REG_EFL] |= SINGLE_STEP;
}

int divisions_watch(int on)
{
    const uint64_t page = (uint64_t)sysconf(_SC_PAGESIZE);
    struct sigaction action = {0};

    action.sa_sigaction = trapped;
    action.sa_flags = SA_SIGINFO;
    if (sigaction(SIGTRAP, &action, NULL) != 0)
        return 0;
    for (size_t i = 0; i < count; i++) {
        void *start = (void *)((uint64_t)sites[i].at & ~(page - 1));

        if (mprotect(start, page, PROT_READ | PROT_WRITE | PROT_EXEC) != 0)
            return 0;
        *sites[i].at = on ? TRAP : sites[i].first;
    }
    return 1;
}

#else

int divisions_read(const char *file)
{
    (void)file;
    return 0;
}

int divisions_watch(int on)
{
    (void)on;
    return 0;
}

#endif
