/* What the kit links with a program on x86-64, for a program of another machine: the number of the C library's last error. */
#include <errno.h>

int rattle_errno(void);

int rattle_errno(void) { return errno; }
