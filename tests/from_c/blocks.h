/* Counts the blocks of memory that the library holds: programs are linked with -Wl,--wrap=malloc,--wrap=realloc,--wrap=free. */
#ifndef BLOCKS_H
#define BLOCKS_H

/* How many blocks were allocated by the library or by a program's own code, and not freed. */
long blocks_held(void);

#endif
