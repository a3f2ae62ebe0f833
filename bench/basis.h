/* The making of bases by the board against the plain C version and FLINT: the bytes, the time, the stack. */
#ifndef BASIS_H
#define BASIS_H

/* Prints what was measured, and each difference; gives how many there are. */
int print_bases(void);

#endif
