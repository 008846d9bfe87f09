/* The gateway's keys and rules as they stand in a table of keys of 128 bits.
 * Key: destination address in the upper 32 bits of the first word, port in the 16 bits below. The second word is not used. */
#ifndef GATEWAY_H
#define GATEWAY_H

#define WIDTH TCAM_WIDTH_128
#include "frames.h"

/* an address and a port, as the first word of a value, a mask or a key */
#define KEY(a, b, c, d, port) \
    ((uint64_t)(a) << 56 | (uint64_t)(b) << 48 | (uint64_t)(c) << 40 | (uint64_t)(d) << 32 | (uint64_t)(port) << 16)

/* records, for initializers of tables and rules */
#define RULE(id, priority, value, mask, action) (value), 0, (mask), 0, TCAM_ID_ACTION(id, action), (priority)
#define EMPTY 0, 0, 0, 0, 0, 0

#endif
