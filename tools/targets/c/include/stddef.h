/* For a compiler without a C library: what include/xaropinto.h takes from this header. */
#ifndef TARGETS_STDDEF_H
#define TARGETS_STDDEF_H
typedef __SIZE_TYPE__ size_t;
#define NULL ((void *)0)
#define offsetof(type, field) __builtin_offsetof(type, field)
#endif
