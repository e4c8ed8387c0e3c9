/* Lines on standard output, a line at a time. */
#ifndef SAY_H
#define SAY_H

#include <stdint.h>

void say(const char *text);
void say_number(uint64_t n);
/* ends the line and writes it */
void say_end(void);
/* says why, and ends the program with status 2 */
_Noreturn void say_stop(const char *why);

#endif
