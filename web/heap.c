// The heap of memory.c as exports, for its test (heap.js).
#include "memory.c"

#define EXPORT(name) __attribute__((export_name(#name)))
EXPORT(take) void *take(size_t n) { return malloc(n); }
EXPORT(resize) void *resize(void *p, size_t n) { return realloc(p, n); }
EXPORT(give) void give(void *p) { free(p); }
