/* What vtrun and the starter tell each other. */
#ifndef STARTER_H
#define STARTER_H

#include <stdint.h>

enum { MOST_ORDER = 65600 }; /* bytes of an order with the words of the longest request */

/* What vtrun asks for: a program, whose words follow, each with a null byte; or the command if there are none. */
struct order {
    uint32_t console; /* of its standard streams, or 0 for those of vtrun */
    uint32_t number;  /* by which its end is told */
};

/* How a program ended. */
struct report {
    uint32_t number;
    int32_t status;
};

_Noreturn void be_starter(int socket);
_Noreturn void run_starter(int socket, int signals, int children);

#endif
