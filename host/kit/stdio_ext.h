#ifndef KIT_STDIO_EXT_H
#define KIT_STDIO_EXT_H
#include <stdio.h>
size_t __fpending(FILE *);
#endif
