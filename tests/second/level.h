/* How far the house has come in document 02: Q-1 to Q-LEVEL hold, in that order; 0 is document 01 alone. One source
 * serves every level, and what a request changes stands behind LEVEL >= its number. */
#ifndef LEVEL_H
#define LEVEL_H

#ifndef LEVEL
#define LEVEL 7
#endif

#endif
