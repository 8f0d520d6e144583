/* The vector registers of the processor at hand, all that it has: on x86-64 the 16 of 128 bits, of
 * 256 where it has AVX, and with AVX-512 (of which BW) the 32 of 512 bits and the eight masks; on
 * Arm the 32 of 128 bits. */
#ifndef REGISTERS_H
#define REGISTERS_H

#include <stddef.h>
#include <stdint.h>

#define REGISTERS (32 * 64 + 8 * 8) /* bytes of all of them at most */

/* Which they are, in words. To be called first. */
const char *registers_found(void);

/* Lays a byte all over those that a function may change. */
void registers_fill(uint8_t byte);

/* Copies them all as they are; how many bytes. */
size_t registers_keep(uint8_t *into);

#endif
