/* What tarnoklej.h asks of stddef.h, for a compiler without a C library. */
typedef __SIZE_TYPE__ size_t;
#define NULL ((void *)0)
