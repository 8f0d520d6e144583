/*
 * wim_scrub and wim_scrub_depth, which overwrite the stack that a call may have used, and the
 * registers.
 *
 * It is C and no proof speaks of it: Rattle has no word for memory that no variable stands in. It
 * changes nothing that a program may still read.
 */
#include "wimmostry.h"

/* Its frame has to lie where the call's frame lay, so it is never put into its caller's. */
#if defined(__GNUC__)
#define OWN_FRAME __attribute__((noinline))
typedef uint8_t wide __attribute__((vector_size(16)));
#else
#define OWN_FRAME
typedef uint64_t wide;
#endif

/*
 * Parts of secrets also stay in registers, and whatever saves registers next would lay them on
 * the stack again: a signal lays all of them there. Zeroed are the general and the vector registers
 * that a function may change, as code for the archive's level has them: the archive is such code
 * and calls no other (c/memory.c). With AVX they are ymm0 to ymm15. On Arm a call leaves nothing in
 * v8 to v15: it loads the lower halves of its caller again, which zeroes the upper ones.
 */
#if defined(__GNUC__) && defined(__x86_64__)
#if defined(__AVX__)
#define ZERO_VECTORS "vzeroall\n\t"
#else
#define ZERO(n) "pxor %%xmm" #n ", %%xmm" #n "\n\t"
#define ZERO_VECTORS                                                                             \
    ZERO(0) ZERO(1) ZERO(2) ZERO(3) ZERO(4) ZERO(5) ZERO(6) ZERO(7)                              \
    ZERO(8) ZERO(9) ZERO(10) ZERO(11) ZERO(12) ZERO(13) ZERO(14) ZERO(15)
#endif
#define ZERO_REGISTERS()                                                                         \
    __asm__ volatile(ZERO_VECTORS                                                                \
                     "xorl %%eax, %%eax\n\txorl %%ecx, %%ecx\n\txorl %%edx, %%edx\n\t"           \
                     "xorl %%esi, %%esi\n\txorl %%edi, %%edi\n\txorl %%r8d, %%r8d\n\t"           \
                     "xorl %%r9d, %%r9d\n\txorl %%r10d, %%r10d\n\txorl %%r11d, %%r11d"           \
                     :                                                                           \
                     :                                                                           \
                     : "xmm0", "xmm1", "xmm2", "xmm3", "xmm4", "xmm5", "xmm6", "xmm7", "xmm8",   \
                       "xmm9", "xmm10", "xmm11", "xmm12", "xmm13", "xmm14", "xmm15", "rax",      \
                       "rcx", "rdx", "rsi", "rdi", "r8", "r9", "r10", "r11", "cc", "memory")
#elif defined(__GNUC__) && defined(__aarch64__)
#define ZERO(n) "movi v" #n ".2d, #0\n\t"
#define CLEAR(n) "mov x" #n ", #0\n\t"
#define ZERO_REGISTERS()                                                                         \
    __asm__ volatile(ZERO(0) ZERO(1) ZERO(2) ZERO(3) ZERO(4) ZERO(5) ZERO(6) ZERO(7)             \
                     ZERO(16) ZERO(17) ZERO(18) ZERO(19) ZERO(20) ZERO(21) ZERO(22) ZERO(23)     \
                     ZERO(24) ZERO(25) ZERO(26) ZERO(27) ZERO(28) ZERO(29) ZERO(30) ZERO(31)     \
                     CLEAR(0) CLEAR(1) CLEAR(2) CLEAR(3) CLEAR(4) CLEAR(5) CLEAR(6) CLEAR(7)     \
                     CLEAR(8) CLEAR(9) CLEAR(10) CLEAR(11) CLEAR(12) CLEAR(13) CLEAR(14)         \
                     CLEAR(15) CLEAR(16) CLEAR(17) CLEAR(18)                                     \
                     :                                                                           \
                     :                                                                           \
                     : "v0", "v1", "v2", "v3", "v4", "v5", "v6", "v7", "v16", "v17", "v18",      \
                       "v19", "v20", "v21", "v22", "v23", "v24", "v25", "v26", "v27", "v28",     \
                       "v29", "v30", "v31", "x0", "x1", "x2", "x3", "x4", "x5", "x6", "x7",      \
                       "x8", "x9", "x10", "x11", "x12", "x13", "x14", "x15", "x16", "x17",       \
                       "x18", "cc", "memory")
#else
#define ZERO_REGISTERS() ((void)0)
#endif

/*
 * No compiler drops a write to what is volatile. There is no call to memset: where the linker
 * looks that up at its first call, it saves registers below all that is overwritten here. The loop
 * writes 64 bytes at a time.
 */
OWN_FRAME void wim_scrub_depth(size_t depth)
{
    static const wide zero;
    const size_t count = (depth + WIM_SCRUB_MORE + 63) / 64 * (64 / sizeof(wide));
    volatile wide room[count];

    for (volatile wide *at = room; at < room + count; at += 4) {
        at[0] = zero;
        at[1] = zero;
        at[2] = zero;
        at[3] = zero;
    }
    ZERO_REGISTERS();
}

/* Without a frame of its own, or with one of a few bytes that holds no secret. */
void wim_scrub(void)
{
    wim_scrub_depth(WIM_STACK);
}
