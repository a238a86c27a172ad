// Another library's CMAC for the tree. One file of cmac_*.c is linked.
#ifndef CMAC_H
#define CMAC_H

#include "tree.h"

extern const char cmac_name[];

// Ends the program where the library does not offer it.
struct tree_cmac make_cmac(void);

#endif
