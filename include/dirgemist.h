/* dirgemist.h: posts of tariff tables, checked and turned into frames for the meter's optical link.
 *
 * A post is one or more lines `131.0.xx(row)` CR LF, xx 01 to 24 strictly rising, each row 24 characters '1' to '4', then `!` CR LF
 * and nothing more; for meters of edition 2, which have a table 25 for Saturdays, xx goes up to 25. A line is DIRGEMIST_LINE bytes.
 *
 * Both functions take any bytes of any length, keep nothing between calls and may be called from several threads at once.
 * Each is proved, for all inputs, to do what its paragraph says. A buffer is a pointer and a length; where the length is 0 the
 * pointer is never read or written through, and any pointer that is not null will do. The text is only read. The text, the
 * buffer and the numbers handed out must not overlap.
 *
 * Link with libforum.a.
 */
#ifndef DIRGEMIST_H
#define DIRGEMIST_H

#include "dirgemist_size.h"

#ifdef __cplusplus
extern "C" {
#endif

/* The numbers returned. */
#define DIRGEMIST_DONE 1        /* a post; exported, where that was asked */
#define DIRGEMIST_NO_EDITION 16 /* an edition that there is not; before all others, length and place are 0 */
#define DIRGEMIST_NOT_A_POST 20 /* the place says where the text leaves every post */
#define DIRGEMIST_NO_ROOM 21    /* a post, and a buffer under DIRGEMIST_FRAME bytes a line */

/* Lengths in bytes. */
#define DIRGEMIST_LINE 36          /* a line of a post, CR LF included */
#define DIRGEMIST_FRAME 36         /* the frame that a line becomes */
#define DIRGEMIST_LONGEST_POST 867 /* 24 lines and the last */
#define DIRGEMIST_LONGEST_POST_2 903 /* 25 lines and the last, for edition 2 */

/* Tells whether the text_length bytes at text are a post for meters of an edition, 1 or 2. Returns DIRGEMIST_DONE if they are, and
 * else DIRGEMIST_NOT_A_POST; DIRGEMIST_NO_EDITION for any other edition.
 * *place is always written: 0 for a post, and else the length of the longest beginning that the text shares with some post, so
 * that the byte at *place is the first that no post has there; it is text_length where the text is the proper beginning of a
 * post, and the post's length where more stands behind a post. */
uint8_t dirgemist_post_check(uint8_t edition, const uint8_t *text, dirgemist_size text_length, dirgemist_size *place);

/* Turns the post, for meters of an edition, of text_length bytes at text into frames at out, a buffer of out_length bytes: one frame of DIRGEMIST_FRAME bytes a
 * line, in order, SOH `W1` STX `Z(xx;row)` ETX BCC with even parity, ready for the line. Returns
 *   DIRGEMIST_NO_EDITION  *length and *place are 0; this comes before all others;
 *   DIRGEMIST_DONE        the frames stand at the front of out, *length is their length, *place is 0; every byte of out past them
 *                         is as it was;
 *   DIRGEMIST_NOT_A_POST  *place is the check's, *length is 0; this comes before the next, in any room;
 *   DIRGEMIST_NO_ROOM     out_length is under DIRGEMIST_FRAME times the number of lines; *length and *place are 0.
 * A refusal leaves every byte of out as it was. *length and *place are always written. */
uint8_t dirgemist_post_export(uint8_t edition, const uint8_t *text, dirgemist_size text_length, uint8_t *out, dirgemist_size out_length, dirgemist_size *length, dirgemist_size *place);

#ifdef __cplusplus
}
#endif

#endif
