/* What include/cigar.h needs of <stdbool.h>. */
#define bool _Bool
