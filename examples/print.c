#include "print.h"

void print_number(uint32_t number)
{
    char digits[11]; /* the last is the end of the text */
    char *first = digits + 10;
    *first = 0;
    do *--first = (char)('0' + number % 10);
    while ((number /= 10) > 0);
    print(first);
}

void print_bytes(const uint8_t *bytes, uint64_t length)
{
    static const char digit[] = "0123456789abcdef";
    for (uint64_t i = 0; i < length; i++) {
        char pair[3] = { digit[bytes[i] >> 4], digit[bytes[i] & 15], 0 };
        print(pair);
    }
}
