/* dirgemist_head.h: what a reading head says to a meter on the optical link, and what it makes of the replies.
 *
 * A head signs on, confirms, sends P1 and then R1 and W1 frames, and ends with B0. Each of these is built by one call, parity and
 * BCC included, ready for the line. A reply is stripped of its parity, its part is found, and the data sets of the part are read
 * one by one, or one is found by its address; the value of a set is read back to the numbers or characters that made it.
 *
 * Every function takes any bytes of any length and any numbers, keeps nothing between calls and may be called from several
 * threads at once. Each is proved, for all inputs, to do what its paragraph says. A buffer is a pointer and a length; where the
 * length is 0 the pointer is never read or written through, and any pointer that is not null will do. What is only read is const.
 * Buffers and numbers handed out must not overlap each other or what is read. Every number handed out is always written.
 *
 * Link with libheadlink.a.
 */
#ifndef DIRGEMIST_HEAD_H
#define DIRGEMIST_HEAD_H

#include "dirgemist_size.h"

#ifdef __cplusplus
extern "C" {
#endif

/* The numbers returned. */
#define DIRGEMIST_HEAD_END 0         /* no more data sets; the reader stays */
#define DIRGEMIST_HEAD_DONE 1        /* built, stripped, found or read */
#define DIRGEMIST_HEAD_FIELD 9       /* a field outside its rule; nothing written */
#define DIRGEMIST_HEAD_NO_EDITION 16 /* an edition that there is not; before all others, nothing written */
#define DIRGEMIST_HEAD_NO_DECIMALS 18 /* decimals that no EQM meter has; before all others */
#define DIRGEMIST_HEAD_NO_ROOM 19    /* a command buffer under DIRGEMIST_HEAD_COMMAND_ROOM; nothing written */
#define DIRGEMIST_HEAD_NO_BLOCK 22   /* not STX .. ETX and one character */
#define DIRGEMIST_HEAD_WRONG_BCC 23  /* a block whose BCC does not fit */
#define DIRGEMIST_HEAD_DAMAGED 24    /* a byte whose count of ones is odd; nothing written */
#define DIRGEMIST_HEAD_MALFORMED 25  /* no data set at that place, or a value not in its line's form */
#define DIRGEMIST_HEAD_SHORT_COPY 26 /* a buffer shorter than what goes into it; nothing written */
#define DIRGEMIST_HEAD_MISSING 27    /* the sets ended, and none has the address */

/* Lengths in bytes. */
#define DIRGEMIST_HEAD_COMMAND_ROOM 64 /* the least buffer that a command is built in */
#define DIRGEMIST_HEAD_SERIAL 10       /* a serial's digits */
#define DIRGEMIST_HEAD_PASSWORD 8      /* a password's digits */
#define DIRGEMIST_HEAD_ACCOUNT 10      /* an account's characters */
#define DIRGEMIST_HEAD_ROW 24          /* a table's row */

/* ---- Commands.
 *
 * Each writes one command at the front of out, a buffer of out_length bytes, with even parity. It returns
 *   DIRGEMIST_HEAD_DONE     the command stands at the front of out and *length is its length; every byte past it is as it was;
 *   DIRGEMIST_HEAD_NO_ROOM  out_length is under DIRGEMIST_HEAD_COMMAND_ROOM; this comes before the next;
 *   DIRGEMIST_HEAD_FIELD    a field lies outside its rule, which the paragraph gives; one without a rule never returns this.
 * A refusal leaves every byte of out as it was, and *length is 0. */

/* The sign-on to any meter: `/?!` CR LF. */
uint8_t dirgemist_head_sign_on(uint8_t *out, dirgemist_size out_length, dirgemist_size *length);

/* The sign-on `/C!` CR LF: the meter closes a period and answers as to `/?!`. */
uint8_t dirgemist_head_close(uint8_t *out, dirgemist_size out_length, dirgemist_size *length);

/* The sign-on to the meter of a serial: `/?nnn nnnnnnn!` CR LF. The serial is ten digits, '0' to '9'. */
uint8_t dirgemist_head_sign_on_to(const uint8_t *serial, dirgemist_size serial_length, uint8_t *out, dirgemist_size out_length, dirgemist_size *length);

/* The sign-on on the wired link: `/Annn.nnnnnnn` CR LF. The serial is ten digits; the meter of that serial answers
 * `/gnnn.nnnnnnn` CR LF, to ten zeros whichever is there, with its own. */
uint8_t dirgemist_head_sign_on_wired(const uint8_t *serial, dirgemist_size serial_length, uint8_t *out, dirgemist_size out_length, dirgemist_size *length);

/* The confirmation: ACK `0` speed choice CR LF. The speed is the character '0' (300 baud) or '5' (9600), the choice '0' or '7' for the data
 * block, '6' for the data block with the closed periods, '1' for a session. */
uint8_t dirgemist_head_confirm(uint8_t speed, uint8_t choice, uint8_t *out, dirgemist_size out_length, dirgemist_size *length);

/* P1 `()`: a session that only reads. */
uint8_t dirgemist_head_enter(uint8_t *out, dirgemist_size out_length, dirgemist_size *length);

/* P1 `(password)`: a session that may write. The password is eight digits. */
uint8_t dirgemist_head_password(const uint8_t *password, dirgemist_size password_length, uint8_t *out, dirgemist_size out_length, dirgemist_size *length);

/* R1 `T()`, `L()`, `K()` and `E0()`: ask for the clock, the serial, the account and the total. */
uint8_t dirgemist_head_read_clock(uint8_t *out, dirgemist_size out_length, dirgemist_size *length);
uint8_t dirgemist_head_read_serial(uint8_t *out, dirgemist_size out_length, dirgemist_size *length);
uint8_t dirgemist_head_read_account(uint8_t *out, dirgemist_size out_length, dirgemist_size *length);
uint8_t dirgemist_head_read_total(uint8_t *out, dirgemist_size out_length, dirgemist_size *length);

/* R1 `En()`: asks for a zone's energy. The zone is 1 to 4. */
uint8_t dirgemist_head_read_zone(uint8_t zone, uint8_t *out, dirgemist_size out_length, dirgemist_size *length);

/* R1 `G0()` and `Gn()`: ask an EQM meter for what went out, the total and a zone's. The zone is 1 to 4. A meter that counts only what
 * comes in refuses both with 9. */
uint8_t dirgemist_head_read_total_out(uint8_t *out, dirgemist_size out_length, dirgemist_size *length);
uint8_t dirgemist_head_read_zone_out(uint8_t zone, uint8_t *out, dirgemist_size out_length, dirgemist_size *length);

/* R1 `Z(xx)`: asks a meter of an edition for a table. The table is 1 to 24, and to 25 for edition 2; an edition that is neither 1 nor
 * 2 is DIRGEMIST_HEAD_NO_EDITION, before all others. */
uint8_t dirgemist_head_read_table(uint8_t edition, uint8_t table, uint8_t *out, dirgemist_size out_length, dirgemist_size *length);

/* W1 `T(dd-mm-yyyy;hh:nn:ss)`: sets the clock. It is a real date in 2000 to 2099 with a time of day. */
uint8_t dirgemist_head_write_clock(uint16_t year, uint8_t month, uint8_t day, uint8_t hour, uint8_t minute, uint8_t second, uint8_t *out, dirgemist_size out_length, dirgemist_size *length);

/* W1 `K(account)`: sets the account. It is ten letters, digits, spaces or underscores. */
uint8_t dirgemist_head_write_account(const uint8_t *account, dirgemist_size account_length, uint8_t *out, dirgemist_size out_length, dirgemist_size *length);

/* W1 `Z(xx;row)`: sets a table of a meter of an edition. Edition and table are as above, the row is 24 characters '1' to '4'. */
uint8_t dirgemist_head_write_table(uint8_t edition, uint8_t table, const uint8_t *row, dirgemist_size row_length, uint8_t *out, dirgemist_size out_length, dirgemist_size *length);

/* B0: ends the session. */
uint8_t dirgemist_head_sign_off(uint8_t *out, dirgemist_size out_length, dirgemist_size *length);

/* ---- Replies. */

/* Strips the parity of the reply_length bytes at reply into out, a buffer of out_length bytes. Returns
 *   DIRGEMIST_HEAD_DONE        the seven bits of each byte stand at the front of out, *length is reply_length, and every byte of out
 *                              past them is as it was; an empty reply is good in any room;
 *   DIRGEMIST_HEAD_SHORT_COPY  out_length is under reply_length; this comes before the next;
 *   DIRGEMIST_HEAD_DAMAGED     the count of ones in some byte is odd.
 * A refusal leaves every byte of out as it was, and *length is 0. With DIRGEMIST_HEAD_DAMAGED *place is that of the first such byte,
 * the first of the reply being at 0; otherwise it is 0. */
uint8_t dirgemist_head_strip(const uint8_t *reply, dirgemist_size reply_length, uint8_t *out, dirgemist_size out_length, dirgemist_size *length, dirgemist_size *place);

/* Finds the part of a stripped block: the data between its STX and its ETX. Returns
 *   DIRGEMIST_HEAD_DONE       the part is the *length bytes from stripped + *start on;
 *   DIRGEMIST_HEAD_NO_BLOCK   the first byte is not STX, the last but one not ETX, another ETX stands before that, or a byte is above
 *                             7F hex; the shortest block is STX ETX BCC;
 *   DIRGEMIST_HEAD_WRONG_BCC  the last byte is not the exclusive-or of all from the second through that ETX.
 * A refusal gives *start and *length 0. */
uint8_t dirgemist_head_part(const uint8_t *stripped, dirgemist_size stripped_length, dirgemist_size *start, dirgemist_size *length);

/* Reads the data set that starts at place at of the sets_length bytes at sets: an address of 1 to 16 letters, digits, '.' or '*',
 * '(', a value of 0 to 32 printable characters without `()/!`, ')' CR LF. Returns
 *   DIRGEMIST_HEAD_DONE       the address is the *address_length bytes from at on, the value the *value_length bytes behind its '(', and
 *                             *next the place behind the set; *place is 0;
 *   DIRGEMIST_HEAD_END        `!` CR LF stands at at, or at is the end of the data or past it; *next is at and *place is 0;
 *   DIRGEMIST_HEAD_MALFORMED  anything else stands there; *next and *place are at.
 * But for DIRGEMIST_HEAD_DONE both lengths are 0. A reader starts at 0 and goes on at *next. */
uint8_t dirgemist_head_next(const uint8_t *sets, dirgemist_size sets_length, dirgemist_size at, dirgemist_size *address_length, dirgemist_size *value_length, dirgemist_size *next, dirgemist_size *place);

/* Reads the data set behind the first count sets of the sets_length bytes at sets: with 0 the first. *start is the place where it was read, and
 * the rest is what dirgemist_head_next returns and writes for that place. Where an end or a malformed set comes before, it is that one. */
uint8_t dirgemist_head_set_after(const uint8_t *sets, dirgemist_size sets_length, dirgemist_size count, dirgemist_size *start, dirgemist_size *address_length, dirgemist_size *value_length, dirgemist_size *next, dirgemist_size *place);

/* Finds the first data set of the sets_length bytes at sets that has the address of asked_length bytes at asked, and reads no further. Any
 * bytes may be asked for; an address that no set can have is never found. Returns
 *   DIRGEMIST_HEAD_DONE       the set's address is the *address_length bytes from sets + *address_start on, its value the *value_length bytes
 *                             from sets + *value_start on; *count is its position, the first set being 1; *place is 0;
 *   DIRGEMIST_HEAD_MALFORMED  before any match a malformed set stands at *place, behind *count good ones;
 *   DIRGEMIST_HEAD_MISSING    none of the *count sets before `!` CR LF or the end of the data has it; *place is 0.
 * But for DIRGEMIST_HEAD_DONE both starts and both lengths are 0. Whatever stands behind the match changes nothing. */
uint8_t dirgemist_head_find(const uint8_t *sets, dirgemist_size sets_length, const uint8_t *asked, dirgemist_size asked_length, dirgemist_size *count, dirgemist_size *place, dirgemist_size *address_start, dirgemist_size *address_length, dirgemist_size *value_start, dirgemist_size *value_length);

/* ---- Values, as they stand between the brackets of a data set.
 *
 * Each returns DIRGEMIST_HEAD_DONE with the value, or DIRGEMIST_HEAD_MALFORMED with zeros for it where the length bytes at value are not
 * in the form given. Those that write characters write as many as the paragraph says at the front of the buffer, characters or
 * zeros (the number 0), and leave the bytes past them as they were; where the buffer is shorter than that they return
 * DIRGEMIST_HEAD_SHORT_COPY and leave all of it as it was. */

/* `nnn nnnnnnn`: the DIRGEMIST_HEAD_SERIAL digits of a serial. */
uint8_t dirgemist_head_value_serial(const uint8_t *value, dirgemist_size length, uint8_t *serial, dirgemist_size serial_length);

/* The DIRGEMIST_HEAD_ACCOUNT characters of an account: letters, digits, spaces or underscores. */
uint8_t dirgemist_head_value_account(const uint8_t *value, dirgemist_size length, uint8_t *account, dirgemist_size account_length);

/* The DIRGEMIST_HEAD_ROW characters of a row: '1' to '4'. */
uint8_t dirgemist_head_value_row(const uint8_t *value, dirgemist_size length, uint8_t *row, dirgemist_size row_length);

/* `yy-mm-dd`: a real date of 20yy. */
uint8_t dirgemist_head_value_date(const uint8_t *value, dirgemist_size length, uint16_t *year, uint8_t *month, uint8_t *day);

/* `hh:nn:ss`: a time of day. */
uint8_t dirgemist_head_value_time(const uint8_t *value, dirgemist_size length, uint8_t *hour, uint8_t *minute, uint8_t *second);

/* `yy-mm-dd hh:nn`: when a period was closed, a real date of 20yy with hour and minute. */
uint8_t dirgemist_head_value_period(const uint8_t *value, dirgemist_size length, uint16_t *year, uint8_t *month, uint8_t *day, uint8_t *hour, uint8_t *minute);

/* `eeeeee.eee*kWh`: a counter's Wh, 0 to 999,999,999. */
uint8_t dirgemist_head_value_counter(const uint8_t *value, dirgemist_size length, uint32_t *wh);

/* A counter of an EQM meter with so many decimals, in units of its last place, 0 to 99,999,999: `eeeeee.ee*kWh` for 2, `eeeee.eee*kWh`
 * for 3, `eeee.eeee*kWh` for 4. Any other decimals are DIRGEMIST_HEAD_NO_DECIMALS, before all else, and *number is 0. */
uint8_t dirgemist_head_value_eqm(uint8_t decimals, const uint8_t *value, dirgemist_size length, uint32_t *number);

#ifdef __cplusplus
}
#endif

#endif
