/* dirgemist_card.h: settings cards, one file with the account and the tables of a meter.
 *
 * A card is fields, each a one-byte tag, a two-byte length with the high byte first, and the content: first tag 1, the account, ten
 * letters, digits, spaces or underscores; then none or more of tag 2, a table, one byte of number and a row of 24 characters '1' to
 * '4', the numbers strictly rising within 1 to 24, or to 25 for meters of edition 2; and nothing more.
 *
 * The functions take any bytes of any length, keep nothing between calls and may be called from several threads at once. Each is
 * proved, for all inputs, to do what its paragraph says. A buffer is a pointer and a length; where the length is 0 the pointer is
 * never read or written through, and any pointer that is not null will do. Text and record are only read. What is lent must not
 * overlap.
 *
 * Link with libcardlink.a.
 */
#ifndef DIRGEMIST_CARD_H
#define DIRGEMIST_CARD_H

#include "dirgemist_meter.h"

#ifdef __cplusplus
extern "C" {
#endif

/* The numbers returned. */
#define DIRGEMIST_CARD_DONE 1        /* a card; read or written, where that was asked */
#define DIRGEMIST_CARD_MALFORMED 14  /* the record is no meter's state */
#define DIRGEMIST_CARD_NO_EDITION 16 /* an edition that there is not; before all others */
#define DIRGEMIST_CARD_NOT_A_CARD 40 /* the place says where the text leaves every card */
#define DIRGEMIST_CARD_NO_ROOM 41    /* the buffer is shorter than what would be written */

/* Lengths in bytes. */
#define DIRGEMIST_CARD_ACCOUNT_FIELD 13   /* the account's field */
#define DIRGEMIST_CARD_TABLE_FIELD 28     /* a table's field */
#define DIRGEMIST_CARD_ACCOUNT_FRAME 19   /* the frame that sets the account */
#define DIRGEMIST_CARD_TABLE_FRAME 36     /* the frame that sets a table */
#define DIRGEMIST_CARD_LONGEST 685        /* a card with all 24 tables */
#define DIRGEMIST_CARD_FRAMES_LONGEST 883 /* its frames */
#define DIRGEMIST_CARD_LONGEST_2 713      /* a card with all 25 tables of edition 2 */
#define DIRGEMIST_CARD_FRAMES_LONGEST_2 919 /* its frames */

/* Tells whether the text_length bytes at text are a card for meters of an edition, 1 or 2. Returns DIRGEMIST_CARD_DONE if they are, and else
 * DIRGEMIST_CARD_NOT_A_CARD. *place is always written: 0 for a card, and else the length of the longest beginning that the text
 * shares with some card. Another edition is DIRGEMIST_CARD_NO_EDITION, with place 0, here and in the reader. */
uint8_t dirgemist_card_check(uint8_t edition, const uint8_t *text, dirgemist_size text_length, dirgemist_size *place);

/* Turns the card of text_length bytes at text into frames at out, a buffer of out_length bytes: SOH `W1` STX `K(account)` ETX BCC,
 * then SOH `W1` STX `Z(xx;row)` ETX BCC for each table, in order, with even parity, ready for the line. Returns
 *   DIRGEMIST_CARD_DONE        the frames stand at the front of out, *length is their length, *place is 0; every byte of out past
 *                              them is as it was;
 *   DIRGEMIST_CARD_NOT_A_CARD  *place is the check's, *length is 0; this comes before the next, in any room;
 *   DIRGEMIST_CARD_NO_ROOM     out_length is under DIRGEMIST_CARD_ACCOUNT_FRAME and DIRGEMIST_CARD_TABLE_FRAME a table; *length and
 *                              *place are 0.
 * A refusal leaves every byte of out as it was. *length and *place are always written. */
uint8_t dirgemist_card_read(uint8_t edition, const uint8_t *text, dirgemist_size text_length, uint8_t *out, dirgemist_size out_length, dirgemist_size *length, dirgemist_size *place);

/* Writes the card of the meter's record to out, a buffer of out_length bytes: its account and all of its tables. Returns
 *   DIRGEMIST_CARD_NO_EDITION the record's edition is none; *length is 0; this comes before all others;
 *   DIRGEMIST_CARD_DONE       the card stands at the front of out, *length is DIRGEMIST_CARD_LONGEST, for a meter of edition 2
 *                             DIRGEMIST_CARD_LONGEST_2; every byte of out past it is as it was;
 *   DIRGEMIST_CARD_MALFORMED  *length is 0; this comes before the next, in any room;
 *   DIRGEMIST_CARD_NO_ROOM    out_length is under that; *length is 0.
 * A refusal leaves every byte of out as it was. *length is always written. */
uint8_t dirgemist_card_write(const struct dirgemist_meter *meter, uint8_t *out, dirgemist_size out_length, dirgemist_size *length);

#ifdef __cplusplus
}
#endif

#endif
