/* The targets, and what guides the search for new inputs. */
#ifndef FUZZ_H
#define FUZZ_H

#include <stddef.h>
#include <stdint.h>

/* Each runs an input and aborts where something promised doesn't hold. */
void passage(const uint8_t *data, size_t size);
void foreign(const uint8_t *data, size_t size);

/* Notes that the run came by this: a value of a sort. */
void seen(uint32_t sort, uint32_t value);

/* From now on notes the blocks of the archive that a run enters for the first time, where FENNELRAKE_BLOCKS names a file of their addresses. */
void watch_blocks(void);

/* Prints how many of them were entered, and answers that in hundredths: 100 where none are watched. */
int tell_blocks(void);

#endif
