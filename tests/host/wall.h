/* Room with a wall behind it, memory that nobody may read or write: a call that goes past the end of
   what it was lent ends the host. */

#ifndef WALL_H
#define WALL_H

#include <stddef.h>
#include <stdint.h>
#include <sys/mman.h>

enum { WALL = 1 << 16 };

/* The end of a room of so many bytes that a wall follows, a multiple of WALL; null if there is no
   such room. */
static inline uint8_t *end_of_room(size_t bytes)
{
    uint8_t *room = mmap(NULL, bytes + WALL, PROT_READ | PROT_WRITE, MAP_PRIVATE | MAP_ANONYMOUS,
                         -1, 0);
    if (room == MAP_FAILED || mprotect(room + bytes, WALL, PROT_NONE) != 0)
        return NULL;
    return room + bytes;
}

#endif
