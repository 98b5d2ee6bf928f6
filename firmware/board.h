/* What start-up and programs ask of the board; semihosting.c has it for a core under a debugger or in an emulator. */
#ifndef BOARD_H
#define BOARD_H

/* Ends the run. Does not return. */
void end_run(int status);

#endif
