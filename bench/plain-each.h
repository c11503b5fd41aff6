/* Includes the file EACH for 2, 4 and 8 shares. */
#define N 2
#include EACH
#undef N
#define N 4
#include EACH
#undef N
#define N 8
#include EACH
#undef N
