/*
 * report.h: what is printed of a run, and what has to hold of it.
 */
#ifndef STREET_REPORT_H
#define STREET_REPORT_H

#include "clock.h"

struct settings {
    size_t hubs, cheap;
    uint64_t seconds, seed;
    bool pace;
};

void begin_report(const struct settings *settings);

/* what happens, as it does */
void tell_crowd(uint64_t time);
void tell_ended(uint64_t time, struct process *const *ended, size_t count, bool power);
void tell_returned(uint64_t time, size_t count);

/* A notice is published; gives its number. */
uint32_t begin_notice(const struct process *from, uint64_t time);

/* Whether a hub was up long enough before a time to have its place in the mesh. */
bool has_been_up(const struct process *process, uint64_t time);

/* The end: who heard what, and the checks; false where one does not hold. */
bool print_report(void);

#endif
