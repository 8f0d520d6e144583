#include "registers.h"

#include <string.h>

static uint8_t filled[64]; /* of one byte */

/* F for some registers in turn */
#define TO_7(F) F(0) F(1) F(2) F(3) F(4) F(5) F(6) F(7)
#define TO_15(F) F(8) F(9) F(10) F(11) F(12) F(13) F(14) F(15)
#define TO_31(F)                                                                                 \
    F(16) F(17) F(18) F(19) F(20) F(21) F(22) F(23) F(24) F(25) F(26) F(27) F(28) F(29) F(30) F(31)

#if defined(__x86_64__)

static enum { SSE, AVX, AVX512 } widest;

const char *registers_found(void)
{
    /* which say whether the system keeps the registers too */
    widest = __builtin_cpu_supports("avx512bw") ? AVX512
             : __builtin_cpu_supports("avx")    ? AVX
                                                : SSE;
    return widest == AVX512 ? "zmm0 to zmm31, k0 to k7"
           : widest == AVX  ? "ymm0 to ymm15"
                            : "xmm0 to xmm15";
}

#define SSE_FILL(n) "movdqu (%0), %%xmm" #n "\n\t"
#define AVX_FILL(n) "vmovdqu (%0), %%ymm" #n "\n\t"
#define AVX512_FILL(n) "vmovdqu64 (%0), %%zmm" #n "\n\t"
#define MASK_FILL(n) "kmovq (%0), %%k" #n "\n\t"
#define SSE_KEEP(n) "movdqu %%xmm" #n ", 16*" #n "(%0)\n\t"
#define AVX_KEEP(n) "vmovdqu %%ymm" #n ", 32*" #n "(%0)\n\t"
#define AVX512_KEEP(n) "vmovdqu64 %%zmm" #n ", 64*" #n "(%0)\n\t"
#define MASK_KEEP(n) "kmovq %%k" #n ", 2048+8*" #n "(%0)\n\t"
/* The compiler uses no others, since it compiles for the plain processor. */
#define CHANGED                                                                                  \
    "xmm0", "xmm1", "xmm2", "xmm3", "xmm4", "xmm5", "xmm6", "xmm7", "xmm8", "xmm9", "xmm10",     \
        "xmm11", "xmm12", "xmm13", "xmm14", "xmm15"

void registers_fill(uint8_t byte)
{
    memset(filled, byte, sizeof filled);
    if (widest == AVX512)
        __asm__ volatile(TO_7(AVX512_FILL) TO_15(AVX512_FILL) TO_31(AVX512_FILL)
                         TO_7(MASK_FILL)
                         : : "r"(filled) : CHANGED, "memory");
    else if (widest == AVX)
        __asm__ volatile(TO_7(AVX_FILL) TO_15(AVX_FILL) : : "r"(filled) : CHANGED, "memory");
    else
        __asm__ volatile(TO_7(SSE_FILL) TO_15(SSE_FILL) : : "r"(filled) : CHANGED, "memory");
}

size_t registers_keep(uint8_t *into)
{
    if (widest == AVX512) {
        __asm__ volatile(TO_7(AVX512_KEEP) TO_15(AVX512_KEEP) TO_31(AVX512_KEEP)
                         TO_7(MASK_KEEP)
                         : : "r"(into) : "memory");
        return 32 * 64 + 8 * 8;
    }
    if (widest == AVX) {
        __asm__ volatile(TO_7(AVX_KEEP) TO_15(AVX_KEEP) : : "r"(into) : "memory");
        return 16 * 32;
    }
    __asm__ volatile(TO_7(SSE_KEEP) TO_15(SSE_KEEP) : : "r"(into) : "memory");
    return 16 * 16;
}

#elif defined(__aarch64__)

const char *registers_found(void)
{
    return "v0 to v31";
}

#define FILL(n) "ldr q" #n ", [%0]\n\t"
#define KEEP(n) "str q" #n ", [%0, 16*" #n "]\n\t"

/* Of v8 to v15 the lower halves are the caller's. */
void registers_fill(uint8_t byte)
{
    memset(filled, byte, sizeof filled);
    __asm__ volatile(TO_7(FILL) TO_31(FILL)
                     : : "r"(filled)
                     : "v0", "v1", "v2", "v3", "v4", "v5", "v6", "v7", "v16", "v17", "v18", "v19",
                       "v20", "v21", "v22", "v23", "v24", "v25", "v26", "v27", "v28", "v29", "v30",
                       "v31", "memory");
}

size_t registers_keep(uint8_t *into)
{
    __asm__ volatile(TO_7(KEEP) TO_15(KEEP) TO_31(KEEP)
                     : : "r"(into) : "memory");
    return 32 * 16;
}

#else
#error "x86-64 or Arm"
#endif
