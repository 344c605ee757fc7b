/* The calls of <cut/site.h> on a cut_run as functions of the library, by the text that is inline in a program in C. */
#include <cut/refusal.h>

#undef CUT_INLINE
#define CUT_INLINE
#include <cut/site.h>
