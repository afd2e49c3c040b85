/* Where a field lies, by WMO Code table 4.5: tables/levels.tsv. */
#ifndef LEVELS_H
#define LEVELS_H

#include "buttresk.h"
#include "words.h"

/* In words, as `10 m above ground`, `0-0.1 m below ground` or `surface to 500 hPa`; a type that has
   none by its number. `-` where there is no level. */
void add_level(struct words *text, const struct buttresk_surfaces_field *surfaces);

#endif
