/* The few C declarations that the tool and the tests use, for the kit's clang, which has no headers. x86-64 Linux with glibc. A system compiler
 * does not see these files: it has its own. */
#ifndef KIT_STDDEF_H
#define KIT_STDDEF_H
typedef __SIZE_TYPE__ size_t;
#define NULL ((void *)0)
#define offsetof(type, field) __builtin_offsetof(type, field)
#endif
