/* For a compiler without a C library: what include/xaropinto.h takes from this header. */
#ifndef TARGETS_STDINT_H
#define TARGETS_STDINT_H
typedef __UINT8_TYPE__ uint8_t;
typedef __UINT64_TYPE__ uint64_t;
typedef __INT64_TYPE__ int64_t;
#endif
