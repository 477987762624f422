/* The ways to run the kernel that stand in files of their own. */
#ifndef KERNEL_H
#define KERNEL_H

#include "sides.h"

/* Whether an interrupt in front of this address comes inside the library. The different places where it did are counted. */
bool in_library(uint64_t address);
extern uint64_t places;

/* A fire, a growth or a removal in front of each instruction of a soft interrupt, one at a time. */
void stepped(void);

/* Prints how deep the stack of each call of the library goes. */
void stack_use(void);

#endif
