/* Text, numbers and bytes on the output of the program, also where there is no stdio. */
#ifndef PRINT_H
#define PRINT_H

#include <stdint.h>

/* Writes a text. Each system has its own: stdio.c, or firmware/semihosting.c on a bare core. */
void print(const char *text);

/* A number, in decimal. */
void print_number(uint32_t number);

/* Bytes, in hexadecimal. */
void print_bytes(const uint8_t *bytes, uint64_t length);

#endif
