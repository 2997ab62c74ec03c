/* Lines on the first serial port. */
#ifndef SAY_H
#define SAY_H

#include <stdint.h>

/* Writes a text: %s is a text, %u a number, %x one in hexadecimal; numbers have 64 bits. */
void say(const char *format, ...);

/* Says what is wrong, and leaves QEMU. */
_Noreturn void stop(const char *what, uint64_t number);

#endif
