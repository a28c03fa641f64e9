/* hand.h: a step of the meter that was written by hand, to be counted beside the proved one. */
#ifndef HAND_H
#define HAND_H

#include "dirgemist_meter.h"

#define HAND_UNKNOWN 98 /* nobody has written this by hand */

/* As dirgemist_meter_check. */
uint8_t hand_check(const struct dirgemist_meter *meter);

/* As dirgemist_meter_meet with the same tests, for the events that are counted: characters up to the write of a table and up to the
 * data block, a second, a pulse of either direction. Any other is answered HAND_UNKNOWN. */
uint8_t hand_meet(struct dirgemist_meter *meter, uint8_t kind, uint32_t value, uint8_t *reply,
                  dirgemist_size room, dirgemist_size *length, uint8_t *speed, uint8_t *place);

#endif
