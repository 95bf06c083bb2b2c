/* In a file of its own, so that no compiler leaves a call out. */
#include "mark.h"

void mark(void)
{
}
