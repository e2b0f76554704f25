/* What the C host calls. */
#ifndef HOST_H
#define HOST_H

#include "../../include/freelist.h"

#endif
