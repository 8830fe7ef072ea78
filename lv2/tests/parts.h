/* The parts of takes. */
#ifndef PARTS_H
#define PARTS_H
#include "host.h"

void expect(bool holds, const char *what);
float peak(const take *a, uint32_t from, uint32_t to);
void fixed_list(events *list);
void random_list(events *list, unsigned seed);
bool played_by_calls(const events *list, take *into);
void pedal_commits(void);
void input_is_clamped(void);
void chord_does_not_clip(void);
void low_note_is_refused(void);
int bad_states(void);
#endif
