/* The exchange on a system that has stdio. */
#include "exchange.h"

int main(void) { return run_exchange(); }
