/* The four calls in plain C, for comparison of cost: the parameters, results
 * and bytes of include/freelist.h. */
#ifndef PLAIN_H
#define PLAIN_H

#include "../tests/table.h"

DECLARE_CALLS(plain);

#endif
