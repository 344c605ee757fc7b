/* The calls of <cut/refusal.h> as functions of the library: what is inline in a program in C, and the version. It stands alone, so that a controller
 * that uses it gets nothing of the site engine. */
#define CUT_INLINE
#include <cut/refusal.h>

uint32_t cut_version(void)
{
    return CUT_VERSION_NUMBER;
}
