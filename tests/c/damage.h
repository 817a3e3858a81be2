/* Files that are no longer what they were, for the tests of the files and of the weave. */
#ifndef DAMAGE_H
#define DAMAGE_H

#include "harness.h"

/* Files of several sizes, the longest too, with bytes changed, cut, and with bytes behind: each is refused at its place. */
void damages(void);

/* a file with some bytes changed, put in, taken out or exchanged, or cut; often in its first lines, and often by bytes of a file */
struct bytes damaged(struct bytes file);

#endif
