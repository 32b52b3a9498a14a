/* The port for threads: each has its own stack, so that a place on one needs no mark. */
#ifndef UNIT_PORT_H
#define UNIT_PORT_H

struct port_mark {
    char unused;
};

#endif
