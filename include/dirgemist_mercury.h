/* dirgemist_mercury.h: accumulated energy read from a Mercury three-phase meter beside ours.
 *
 * The head asks with one request, code 05 hex, and the meter answers with four quantities or with a
 * status. The request is built by one call, CRC included; the answer is read by another. The CRC is
 * that of the Modbus serial line, low byte first.
 *
 * Every function takes any bytes of any length and any numbers, keeps nothing between calls and may
 * be called from several threads at once. Each is proved, for all inputs, to do what its paragraph
 * says. A buffer is a pointer and a length; where the length is 0 the pointer is never read or
 * written through, and any pointer that is not null will do. What is only read is const. Buffers and
 * numbers handed out must not overlap each other or what is read. Every number handed out is always
 * written.
 *
 * Link with libmercurylink.a.
 */
#ifndef DIRGEMIST_MERCURY_H
#define DIRGEMIST_MERCURY_H

#include "dirgemist_size.h"

#ifdef __cplusplus
extern "C" {
#endif

/* The numbers returned. */
#define DIRGEMIST_MERCURY_DONE 1           /* built, or read with its quantities */
#define DIRGEMIST_MERCURY_WRONG_LENGTH 50  /* neither the length of a data nor of a status answer */
#define DIRGEMIST_MERCURY_WRONG_CRC 51     /* the last two bytes are not the CRC of the others */
#define DIRGEMIST_MERCURY_OTHER_ADDRESS 52 /* the answer of another meter */
#define DIRGEMIST_MERCURY_STATUS 53        /* a status; its code is handed out */
#define DIRGEMIST_MERCURY_FIELD 54         /* a field out of its range; nothing written */
#define DIRGEMIST_MERCURY_NO_ROOM 55       /* a buffer under DIRGEMIST_MERCURY_REQUEST; nothing written */

/* Lengths in bytes. */
#define DIRGEMIST_MERCURY_REQUEST 6 /* the request */
#define DIRGEMIST_MERCURY_DATA 19   /* an answer with quantities */
#define DIRGEMIST_MERCURY_CODE 4    /* an answer with a status */

/* The bits of what was measured. */
#define DIRGEMIST_MERCURY_ACTIVE_IN 1
#define DIRGEMIST_MERCURY_ACTIVE_OUT 2
#define DIRGEMIST_MERCURY_REACTIVE_IN 4
#define DIRGEMIST_MERCURY_REACTIVE_OUT 8

/* Writes the request to the meter of an address at the front of out, a buffer of out_length bytes.
 * The array is 0 to 5 or 9 to 13; the month is 1 to 12 with the arrays of months, 3 and 11, and 0
 * with every other; the tariff is 1 to 4, or 0 for their sum. Any address will do. Returns
 *   DIRGEMIST_MERCURY_DONE     the request stands at the front of out, *length is
 *                              DIRGEMIST_MERCURY_REQUEST, and every byte past it is as it was;
 *   DIRGEMIST_MERCURY_FIELD    array, month or tariff is out of its range; this comes before the
 *                              next;
 *   DIRGEMIST_MERCURY_NO_ROOM  out_length is under DIRGEMIST_MERCURY_REQUEST.
 * A refusal leaves every byte of out as it was, and *length is 0. */
uint8_t dirgemist_mercury_ask(uint8_t address, uint8_t array, uint8_t month, uint8_t tariff,
                              uint8_t *out, dirgemist_size out_length, dirgemist_size *length);

/* Reads the answer_length bytes at answer as those of the meter of an address. Returns, and the
 * refusals come in this order,
 *   DIRGEMIST_MERCURY_WRONG_LENGTH   answer_length is neither DIRGEMIST_MERCURY_DATA nor
 *                                    DIRGEMIST_MERCURY_CODE;
 *   DIRGEMIST_MERCURY_WRONG_CRC      the last two bytes are not the CRC of the others;
 *   DIRGEMIST_MERCURY_OTHER_ADDRESS  the first byte is another address;
 *   DIRGEMIST_MERCURY_STATUS         a status: *status is its code, and any code is one, 0 too;
 *   DIRGEMIST_MERCURY_DONE           four quantities, in Wh and varh: active energy in and out,
 *                                    reactive energy in and out. *measured has the bits of those
 *                                    that were measured; one that was not is 0 and is no number.
 * But for DIRGEMIST_MERCURY_STATUS *status is 0; but for DIRGEMIST_MERCURY_DONE *measured and all
 * four are 0. */
uint8_t dirgemist_mercury_read(uint8_t address, const uint8_t *answer, dirgemist_size answer_length,
                               uint8_t *status, uint8_t *measured, uint32_t *active_in,
                               uint32_t *active_out, uint32_t *reactive_in, uint32_t *reactive_out);

/* The CRC of the message_length bytes at message; its low byte is sent first. */
uint16_t dirgemist_mercury_crc(const uint8_t *message, dirgemist_size message_length);

#ifdef __cplusplus
}
#endif

#endif
