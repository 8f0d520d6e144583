/* Which of the instructions that divide a call comes to, and what each divides by what, on x86-64. */
#ifndef DIVISIONS_H
#define DIVISIONS_H

/* Reads the instructions from a file, a line each in decimal: the address, the bits of the divisor,
 * the divisor's register by its place among the system's (gregs), and, where the divisor stands in
 * memory, 1 and how far behind that address, else 0 and 0. 0 where the file is not so. */
int divisions_read(const char *file);

/* From now on, or until now, each that is come to is a line on standard output: the address, the
 * dividend's upper and lower half and the divisor. 0 where the system does not let it. */
int divisions_watch(int on);

#endif
