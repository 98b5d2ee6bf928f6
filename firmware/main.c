/* One exchange on the core: examples/exchange.c, probe and target in one program. A probe keeps the calls unlock_prover_* of it, and
   sends and receives messages where the example hands them on. */
#include "exchange.h"
#include "stack.h"

int main(void)
{
    int status = run_exchange();
    fill_stack(0); /* the library's calls leave seeds and shares there */
    return status;
}
