/* What a program of this folder asks of a machine, and what it gives to it. */
#ifndef MACHINE_H
#define MACHINE_H

#include <stdint.h>

/* Each writes to standard output: bytes, a text, a number in decimal. */
void machine_write(const char *bytes, uint32_t count);
void say(const char *text);
void say_number(uint32_t number);

/* The program: 0 if nothing differs. */
int machine_run(void);

#endif
