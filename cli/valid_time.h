/* When a field holds: reference time plus forecast time, in the proleptic Gregorian calendar. */
#ifndef VALID_TIME_H
#define VALID_TIME_H

#include "decoding.h"
#include "words.h"

/*
 * The time as `2026-03-14 12:00Z`, with `from` before it where it is the start of an interval.
 * Where no such time can be told for certain the two numbers that it would come from are there, as
 * `ref 2026-03-14 06:00Z +7 unit 200`: a day is never made up.
 */
void add_valid_time(struct words *text, const struct submessage *s);

#endif
