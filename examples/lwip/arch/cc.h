/* The compiler and the processor, for lwIP: its own defaults, by the headers of C99. */
#ifndef ARCH_CC_H
#define ARCH_CC_H
#include <stdio.h>
#include <stdlib.h>
#endif
