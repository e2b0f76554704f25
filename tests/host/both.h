/* One call made on the library and on the brute force. */
#ifndef BOTH_H
#define BOTH_H

#include "lending.h"

extern unsigned long cases, differ;

void both_begin(void);

/* Makes the call on both, compares the results and every lent buffer, and
 * leaves in the case what the brute force left. Gives its result. */
uint64_t both(struct call_case *c);

/* The library's result of the last call. */
uint64_t library_gave(void);

void print_seen(void);

#endif
