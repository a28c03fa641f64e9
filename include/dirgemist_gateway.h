/* dirgemist_gateway.h: the meter, for a gateway that delivers complete frames.
 *
 * A gateway that has a whole frame hands it over as a slice, in one call, where firmware gives its
 * characters one by one. Both work on the same record, and may take turns on it. What
 * dirgemist_meter.h says of records, pointers and threads goes for this call too. It takes some 1,000
 * bytes of stack (740 on a Cortex-M0), below DIRGEMIST_FRAME_STACK; hosts/stack and
 * hosts/chip/count.c measure it.
 *
 * Link with libgateway.a; the record is made and tested by the calls of dirgemist_meter.h.
 */
#ifndef DIRGEMIST_GATEWAY_H
#define DIRGEMIST_GATEWAY_H

#include "dirgemist_meter.h"

#define DIRGEMIST_FRAME_STACK 2048 /* the most stack that the call takes, in bytes */

#ifdef __cplusplus
extern "C" {
#endif

/* The slice is no frame that this meter could take whole. */
#define DIRGEMIST_NO_FRAME 17

/* A frame has come, all of it: the frame_length bytes at frame, SOH first, BCC last, with parity.
 * The meter is in mode 2, 3 or 4 and holds nothing. Number, reply, *length, *speed, *place and
 * *meter are then those of dirgemist_meter_receive at the last byte, all others having been given
 * before it.
 * 12 for a reply buffer under DIRGEMIST_REPLY_ROOM, then 14 for a record that is not well-formed,
 * then 17 for any other slice, mode or receiver: one that does not start with an undamaged SOH, whose
 * frame ends before the last byte, or does not end there, either whole or with 5. A SOH inside, not
 * as the BCC, starts the frame anew, so that the slice may have any length. With all three *meter and
 * the buffer are as they were, *length and *place are 0, and *speed is 0 with 12 and 14, the
 * record's with 17. A frame_length of 0 gives 17; frame is then not read through. */
uint8_t dirgemist_meter_frame(struct dirgemist_meter *meter, const uint8_t *frame,
                              dirgemist_size frame_length, uint8_t *reply, dirgemist_size room,
                              dirgemist_size *length, uint8_t *speed, uint8_t *place);

#ifdef __cplusplus
}
#endif

#endif
