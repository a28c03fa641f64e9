/* dirgemist_session.h: the head's half of a conversation, from the sign-on to B0.
 *
 * A host tells a session whom to call, how to enter and what to do: a list of reads, or a post. It sends the message that it is
 * given, hands the meter's whole reply over, sends the next message, and so on until the session says that it is over: done, or
 * stopped by NAK, by a wrong reply or by silence, with the number of the message that it happened at, the sign-on being 1. A
 * session with n reads, or a post of n lines, has n + 4 messages: sign-on, confirmation, P1, the n, and B0.
 *
 * The record is the host's: it may lie anywhere and may be kept, copied or stored as it is. Any bytes at all may stand there;
 * a record that no session reaches is told by DIRGEMIST_SESSION_NONE and left as it was. The work is not kept in the record: the
 * host lends it with each call, and each message is made from the work of that call. Work from which the next message can't be
 * made is told by the same number; other work that will do gives the messages of that work. Of a post only the line that is sent
 * next is looked at then, and a byte that a list of reads lacks counts as 0.
 * The functions keep nothing between calls: two sessions may be held from two threads at once. Each is proved, for all records,
 * numbers and buffers, to do what its paragraph says. Pointers must not be null, and what they point to must not overlap; where a
 * length is 0, its pointer is never read or written through. Every number handed out is always written.
 *
 * Link with libsessionlink.a.
 */
#ifndef DIRGEMIST_SESSION_H
#define DIRGEMIST_SESSION_H

#include "dirgemist_size.h"

#ifdef __cplusplus
extern "C" {
#endif

/* named: 1 calls the meter of the serial, 0 any. access: 1 enters with the password, 0 with `()`. work: 1 a post, 0 reads. count:
 * messages of work. sent: the number of the message sent last. fact: one of those below. edition: that of the meters that are called, 1
 * or 2. decimals: those of EQM meters, 2, 3 or 4, or 0 for other meters. What was not told is zeros. */
struct dirgemist_session {
    uint8_t serial[10];
    uint8_t password[8];
    uint8_t named;
    uint8_t access;
    uint8_t work;
    uint8_t count;
    uint8_t sent;
    uint8_t fact;
    uint8_t edition;
    uint8_t decimals;
};

/* The numbers returned. */
#define DIRGEMIST_SESSION_DONE 1       /* started, or heard */
#define DIRGEMIST_SESSION_FIELD 9      /* a serial, a password or a read that the head can't build a message from */
#define DIRGEMIST_SESSION_NO_EDITION 16 /* an edition that there is not; before all others */
#define DIRGEMIST_SESSION_NO_DECIMALS 18 /* decimals that no meter has; after 16, before all others */
#define DIRGEMIST_SESSION_NO_ROOM 19   /* a buffer under DIRGEMIST_SESSION_ROOM */
#define DIRGEMIST_SESSION_NO_POST 20   /* a text that is no post; with the place */
#define DIRGEMIST_SESSION_NO_READS 28  /* an empty list of reads */
#define DIRGEMIST_SESSION_MANY_READS 29 /* more than 32 reads */
#define DIRGEMIST_SESSION_READ_ONLY 30 /* a post with `()` */
#define DIRGEMIST_SESSION_NONE 31      /* a record that no session reaches, or work that is not this session's */

/* Where a session stands. */
#define DIRGEMIST_SESSION_GOES_ON 0
#define DIRGEMIST_SESSION_OVER 1   /* every message was answered as it should be */
#define DIRGEMIST_SESSION_NAK 2    /* the meter refused */
#define DIRGEMIST_SESSION_WRONG 3  /* a reply that is not the right one */
#define DIRGEMIST_SESSION_SILENT 4 /* no reply came */

#define DIRGEMIST_SESSION_ROOM 64 /* the least buffer that a message is built in */

/* Starts a session with meters of an edition and of a family in *session, whatever stood there: only that edition's
 * identification is then right, and energy only in that family's lines. decimals is 0, or 2, 3 or 4 for EQM meters. named is 1
 * with the ten digits of a serial at serial, or 0 for any meter; access is 1 with the eight digits of a password at password, or
 * 0 for `()`; what is not named is not looked at. kind is 0 for reads, two bytes each at work: a letter 'T', 'L', 'K', 'E', 'G'
 * or 'Z', and the number of the energy, 0 to 4 (0 the total), or of the table, 1 to 24, or to 25 for edition 2; with the other
 * letters the number may be any. 'G', what went out, is for EQM meters alone, and else 9. kind is 1 for the text of a post at
 * work.
 * Returns DIRGEMIST_SESSION_DONE: the sign-on stands at the front of out, *length is its length, and every byte past it is as it
 * was. Or a refusal, in the order 16, 18, 19, 28, 29, 20, 30, 9: *session is then all zeros, which is no session, *length is 0,
 * and every byte of out is as it was. *place is 0 but for 20, where it is the length of the longest beginning that some post
 * shares. A list of reads with an odd number of bytes, a flag that is neither 0 nor 1, and a kind that is neither, are 9. */
uint8_t dirgemist_session_start(struct dirgemist_session *session, uint8_t edition, uint8_t decimals, uint8_t named, const uint8_t *serial, dirgemist_size serial_length, uint8_t access, const uint8_t *password, dirgemist_size password_length, uint8_t kind, const uint8_t *work, dirgemist_size work_length, uint8_t *out, dirgemist_size out_length, dirgemist_size *length, dirgemist_size *place);

/* A reply has come, all of it, as the bytes of the line. Returns
 *   DIRGEMIST_SESSION_DONE     *fact says how the session stands. DIRGEMIST_SESSION_GOES_ON: the next message stands at the front of
 *                              out, *length is its length, *message its number. Else *length is 0 and *message is the number of the
 *                              message just answered; a session that has ended stays as it is and says the same again;
 *   DIRGEMIST_SESSION_NO_ROOM  out_length is under DIRGEMIST_SESSION_ROOM;
 *   DIRGEMIST_SESSION_NONE     no session, or not its work.
 * The last two leave *session as it was, and give *fact, *message and *length 0. Every byte of out past the message is as it was. */
uint8_t dirgemist_session_reply(struct dirgemist_session *session, const uint8_t *work, dirgemist_size work_length, const uint8_t *reply, dirgemist_size reply_length, uint8_t *out, dirgemist_size out_length, uint8_t *fact, uint8_t *message, dirgemist_size *length);

/* No reply came, for as long as the host waits. Returns DIRGEMIST_SESSION_DONE: the session is over, *fact is
 * DIRGEMIST_SESSION_SILENT, or what ended it before, and *message the number of the message that was not answered. Or
 * DIRGEMIST_SESSION_NONE, with zeros. */
uint8_t dirgemist_session_silence(struct dirgemist_session *session, uint8_t *fact, uint8_t *message);

#ifdef __cplusplus
}
#endif

#endif
