/* The exchange of exchange.c. */
#ifndef EXCHANGE_H
#define EXCHANGE_H

/* Makes it and prints each message and the verdict. 0: accepted; 1: refused; 2: the library linked has other lengths. */
int run_exchange(void);

#endif
