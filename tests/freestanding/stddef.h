/* What include/cigar.h needs of <stddef.h>. */
typedef __SIZE_TYPE__ size_t;
