/* Station A in version 1, for the tests in C: U owns subject 1, subject 1 owns subject 2, and subject 2 owns log 3. */
#ifndef STATION_A_H
#define STATION_A_H

#include <stdint.h>

static const uint8_t station_a[31] = {
    1, 0, 0, 0, 0x1A, 3, 1, /* version, L, n, p */
    0, 2, 0, 1, 0, 0, 0, 0, /* row 0 */
    0, 0, 0, 2, 0, 1, 0, 0, /* row 1 */
    0, 0, 0, 0, 0, 2, 0, 1, /* row 2 */
};

#endif
