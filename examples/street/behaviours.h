/*
 * behaviours.h: the two behaviours of a hub's process.
 */
#ifndef STREET_BEHAVIOURS_H
#define STREET_BEHAVIOURS_H

#include "process.h"

extern const struct behaviour honest, cheap;

/* what a cheap hub does to draw something: by its id, one after the other */
enum cheap_kind { FLAPS, LIES, ASKS, LISTENS, CHEAP_KINDS };

/* ids from here on are cheap hubs' */
enum { FIRST_CHEAP = 1001 };

static inline enum cheap_kind cheap_kind(uint32_t id)
{
    return (enum cheap_kind)((id - FIRST_CHEAP) % CHEAP_KINDS);
}

#endif
