/* How the answers about files are asked for. */
#ifndef ASKED_H
#define ASKED_H

#include <stdbool.h>

#include "buttresk.h"

struct asked {
    bool several; /* there may be more than one file: the output says of each line whose it is */
    bool json;
    bool strict; /* octets outside messages, and no message at all, count as a refusal */
    bool force;  /* of a copy: a file that stands there is replaced */
    enum buttresk_reading reading; /* of product templates */
    bool says_reading;             /* in JSON: of a verb that can be asked for either */
};

#endif
