/* Every way to lay modules on a 3x4 surface, their kinds drawn, each checked and
 * listed, and some asked away. */
#ifndef ALL34_H
#define ALL34_H

/* Gives how many ways there were on W columns and H rows. */
unsigned long every_way(unsigned w, unsigned h);

#endif
