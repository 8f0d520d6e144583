/*
 * Wimmostry: key exchange by BCNS, NewHope and Frodo, for two boxes that agree on a fresh key.
 *
 * The library does the arithmetic of one exchange and of its two messages. It is written in
 * Rattle, and every call below is proved to meet its contract: for all inputs whatsoever it ends,
 * touches no memory but what it is lent, and gives exactly what this file says. Beside the calls
 * stand eight small functions and a table in plain C: wim_sizes, wim_bcns_table, wim_wipe,
 * wim_same, wim_scrub, wim_scrub_depth, wim_version, wim_cpu and wim_refusal_text.
 *
 *     the initiator                             the replier
 *     wim_offer   a, s, e, seed -> opening  -->
 *                                           <-- wim_reply   opening, a, s', e', e'', coins
 *                                                             -> reply, key, digest
 *     wim_finish  reply, s      -> key, digest
 *
 * Both know the public numbers a; where a comes from is between them. NewHope's grow from the seed:
 * wim_grow makes them of its 32 bytes at either end, so that no file of numbers has to be carried,
 * and the replier finds the seed at the end of the opening. wim_expand makes them of a stream that
 * both have. The calls of the exchange carry the seed and do not read it. s, e, s', e' and e'' are
 * secrets, drawn afresh for each exchange; wim_noise makes them from random bytes, in BCNS by a
 * table that is lent too. In names s1, e1 and e2 stand for s', e' and e''. wim_open and wim_answer
 * are Offer and Reply on what they make of random bytes themselves: see FROM RANDOM BYTES.
 *
 * Frodo's A has up to 746496 numbers. A box that cannot hold them gives them to Offer and Reply row
 * by row: see BY ROWS.
 *
 * A session keeps these calls in step and holds the key that they give: see SESSIONS. A rack keeps
 * the sessions of eight studios: see RACKS.
 *
 * The digest beside a key is its SHA3-256. Equal keys have equal digests, and other keys other ones
 * as far as anyone knows, so that two boxes can show or compare digests and never show a key.
 *
 *
 * LINKING
 *
 * `./native wimmostry` writes an archive, libwimmostry.a, and a shared library of the whole of it,
 * libwimmostry.so, in target/native for the machine at hand, x86-64 or Arm. `./install` puts them
 * and this header where
 *
 *     cc -static yours.c $(pkg-config --static --cflags --libs wimmostry)   the archive
 *     cc yours.c $(pkg-config --cflags --libs wimmostry)                    the shared library
 *
 * finds them. Both take `--cpu x86-64-v3` for libraries that are faster and need a processor with
 * AVX2; wim_cpu tells which it is. Of the shared library `./install` always puts that one beside
 * the other, and the loader takes it where the processor has AVX2. What is said of the archive here
 * and below holds of the shared library too. The archive needs nothing from outside. It has no
 * state, takes no memory from a heap and starts nothing, so that any number of threads may call at
 * once.
 *
 * Header and archive belong together. Each file that includes the header refers to a symbol that
 * has the header's version in its name (WIM_VERSION_SYMBOL). An archive of another version has
 * another symbol, so that the link fails. The version changes with whatever a caller sees.
 *
 *
 * RETURN VALUE, PLACE AND COUNTS
 *
 * A call returns 0, or the number of its refusal; wim_refusal_text has the sentence:
 *
 *     WIM_NO_STUDIO     16   the studio's number is over 7
 *     WIM_OUT_OF_STAGE  10   the session's stage does not allow this call with this scheme
 *     WIM_OUT_OF_TURN   11   no begin for this part or end, a part past its row, or rows missing
 *     WIM_NO_SCHEME      1   the scheme is not 0 to 5
 *     WIM_NO_RULE       12   the rule is not 14 or 16
 *     WIM_LENGTH         2   an input's length is not the fixed one (streams, hashes: over 65536)
 *     WIM_ROOM           3   an output buffer is shorter than the answer
 *     WIM_NOT_ASCENDING 18   the table of noise is not strictly ascending
 *     WIM_PUBLIC_OVER    4   a lent public number is q or more
 *     WIM_MESSAGE_OVER   5   a number of the message is q or more
 *     WIM_BLANK         17   a message's packed part is all zero bytes
 *     WIM_SECRET_BEYOND  6   a secret or noise value lies beyond the largest noise
 *     WIM_RAN_OUT        7   the stream held fewer than 1024 numbers
 *     WIM_NEWER_FORMAT  15   the text of settings is in a newer format than the reader's
 *     WIM_MISFIT         8   the text is no settings, or a byte of the label is not allowed
 *
 * 16 is that of the calls on a rack alone, 10 that of these and of those on a session, and 11 that
 * of the calls by rows, where 1 is for a scheme that is not one of Frodo's, 2 to 5, and 2 also for
 * a state. 5 never arises in Frodo, 6 is for values above the largest noise or below its negative,
 * 7 and 12 are those of wim_expand, wim_grow, wim_open and wim_answer alone (12 of
 * wim_settings_write too), and 18 is that of wim_noise, wim_open and wim_answer in BCNS alone; 15
 * and 8 are those of the settings; no seed is known for which 7 arises but in wim_expand. 17 is for
 * a message without content, as a dead card sends it: seed and hints don't count. It is given for a
 * message received, and for one about to be sent, which is zero where secret and noise are; a zero
 * secret with some noise passes.
 * *place is the index of the first bad entry after 4, 5 and 6, the first entry of the table that is
 * not above its forerunner, 1 to 50, after 18, how many numbers the stream held after 7, and 0
 * after 16, 10, 11, 1, 12, 2, 3, 17, 15, 8 and a success. wim_product has lengths of its own for 2,
 * and gives 3 for a scratch that is too short as well.
 *
 * The tests go in the order of this table, and within one number in the order in which the inputs,
 * or for 3 the outputs, stand in the call; the first that fails is the refusal. 17 stands there for
 * a part received, after 5 and before 6; that of a part about to be sent comes last, after 6 and 7.
 * wim_settings_read tests 3 last, after 15 and 8, since the label has to be read before its length
 * is known. An index counts entries from 0 in its own input; in a message, the numbers of its
 * packed part.
 *
 * After a success the answer stands at the start of its output, its length, in entries of that
 * output, in *written (where there are several, in the count with the output's name), and the rest
 * of the output is zero. An output may be longer than the answer. After a refusal each output is
 * zero from end to end, whatever it held, and each count and other number is 0; but after 15 the
 * format of wim_settings_read is the newer one. A state, a session or a rack is no output in this
 * sense: a refused part, end or call leaves it as it is.
 *
 *
 * WHAT A CALLER MUST SEE TO
 *
 * - Each pointer is valid for its length and aligned for its type. Where the length is 0 it may be
 *   null, as an empty vector's may be; this is tested for every slice (examples/c/empty.c). place,
 *   the counts, differ, slack and slack_index, and where they are outputs format, scheme and rule,
 *   each point to one number. A length counts entries, not bytes.
 * - No output, state, session or rack and none of these numbers shares memory with another
 *   argument. Inputs may share memory with each other.
 * - No other thread writes to what is lent, or touches an output, a state, a session or a rack,
 *   during a call.
 * - There is stack for the call: WIM_STACK bytes are enough, and for wim_scrub WIM_SCRUB_STACK.
 *
 * And beyond the memory:
 *
 * - Fresh secrets, noise and coins for every exchange, from a good random generator, and never
 *   used again: a peer can find out a secret that is used twice. s is kept for wim_finish and then
 *   destroyed.
 * - Who the peer is. The library knows nothing of certificates. Whoever can change messages on the
 *   way can sit between the two boxes, unless the messages are signed or bound to the peers in
 *   some other way.
 * - Key confirmation. The two keys agree unless the noise was uncommonly large, or a message was
 *   changed on the way into another that no test refuses. Differing public numbers, and another s
 *   at wim_finish, also end in different keys. Only what is made with the key shows that the keys
 *   agree: tags, or the digests, where nobody on the way can change them. Compare tags by wim_same,
 *   in constant time; on a mismatch drop the keys and start again with fresh secrets.
 * - The keys are raw. Hash them, together with both messages, before use. A digest is of the key
 *   alone: it can be the key that is used, as the print of NewHope has it, or be shown, not both.
 *   Whoever sees one can try keys against it, and Frodo Challenge's have 8 bytes.
 * - Wiping. A refused call leaves nothing in its outputs. But parts of secrets and keys stay
 *   behind on the stack below the caller's frame and in registers, as after any function, until
 *   wim_scrub overwrites them; and the caller's own buffers are the caller's to wipe, by wim_wipe,
 *   since a compiler drops a memset before a free or a return. What the caller's own copies of a
 *   key leave in registers is the caller's too.
 * - Time. Nothing is promised about how long a call takes, nor that its time does not depend on
 *   secrets; SECRETS AND TIME below has what was measured.
 *
 *
 * SLACK
 *
 * wim_finish and wim_bench tell how near an exchange came to failing. In Frodo the slack of an
 * entry is how far the initiator's value w lies, around the circle of q, from the nearest value
 * that has the entry's hint; in BCNS it is how far 2w lies, around the circle of 2q, from the
 * nearest value below 2q that has it. It is 0 exactly where the own value has the hint. *slack is
 * the largest over all entries and *slack_index the first entry that has it; both are 0 in NewHope
 * and after a refusal.
 *
 * Since the replier's value has the hint, the two values lay at least so far apart. WIM_X_MARGIN is
 * the largest distance, in the same unit, at which the two keys are still proved to agree: a slack
 * near it is a warning. A small one proves nothing, since a value past the margin may lie near
 * another value with the same hint. In BCNS an exchange with unaltered messages stays below
 * 10653800, a hundredth of the margin. The slack is made of s and belongs in the own log, not in
 * the peer's.
 *
 *
 * FROM RANDOM BYTES
 *
 * wim_open and wim_answer take random bytes in place of seed, secrets, noise and coins, and make of
 * them what wim_noise, and in NewHope wim_grow, would. Then they are wim_offer and wim_reply: the
 * same messages, key and digest. wim_finish ends an exchange, with the s that wim_open gives.
 *
 * - How many random bytes is fixed by scheme and call: WIM_X_OPEN_BYTES and WIM_X_ANSWER_BYTES.
 *   They are cut from the front: seed, s, e; and s', e', e'', coins. The seed comes first, so that
 *   in Frodo the caller makes A of it before the call.
 * - The random bytes are secret, but for the seed, and serve once: wim_wipe them after the call. e,
 *   s', e', e'' and NewHope's numbers stay inside the call and never leave it; wim_scrub overwrites
 *   them.
 * - a has WIM_X_LENT_A numbers: in NewHope none, since they are grown by the rule from the seed. In
 *   BCNS and Frodo both ends lend the same a. The table is wim_bcns_table in BCNS, and empty else.
 * - The rule is WIM_RULE_LOW_BITS or WIM_RULE_WHOLE_WORD in every scheme, as in the settings.
 *   NewHope alone uses it, and both ends must use the same.
 * - 6 never arises: what is made of random bytes is in range.
 *
 *
 * BY ROWS
 *
 * wim_offer and wim_reply are lent all of A. In Frodo each has three calls in its place, which are
 * lent A in parts, and between them a running state: WIM_X_STATE numbers of 32 bits, which the
 * caller owns. The library keeps nothing of it.
 *
 *     begin   secret, noise and seed (Offer) or opening message (Reply) into the state. It starts
 *             afresh, whatever the state held; refused, it zeroes the state.
 *     part    some numbers of the current row: all WIM_X_ROW of it, or some of them from where the
 *             part before ended, or none. The cut makes no difference, but no part runs past the
 *             end of its row. Behind row 0 comes row 1, and so on, WIM_X_ROW rows.
 *     end     what the call on the whole matrix gives, where that is the accepted parts joined:
 *             message, or message, key and digest, byte for byte. It zeroes the state.
 *
 * A refused part or end leaves the state as it was, and the outputs zero, and may be tried again: a
 * part with a wrong number is sent again, put right, and the rows go on. The place of 4 is the
 * index in the part. 11 is for a part that runs past the row or past the last row (an empty one
 * never does), for an end before all rows have come, and for any part or end without a begin.
 *
 * - A state is handed on as it is: each part and end gets it as the call before left it. It may be
 *   moved between calls. One that is not of its length, that no call leaves in its first 67 numbers
 *   (which call, which scheme, how many numbers of A have come, the seed or the replier's values),
 *   or that was begun for the other of the two calls, counts as none: 11. The other numbers (the
 *   secret, the sums and the rows held back, as words of 16 bits, two in a number) may be anything,
 *   so that changing them is not found out, but makes another message.
 * - A state belongs to one build of the library and to one byte order. Its first number changes
 *   with the layout, so that a state of a build with another layout, or of a machine with the other
 *   byte order, counts as none: 11.
 * - A part is laid into the state as words, and held back there until sixteen rows have come, which
 *   then enter the sums together: the part that ends them takes the time of all sixteen, the others
 *   that of a copy.
 * - A state is a secret: it holds s or s', and what the key is made of. A good end zeroes it, and
 *   so does a refused begin. Where the exchange is given up before the end, the caller zeroes it by
 *   wim_wipe, all WIM_X_STATE numbers. No copy of it goes on by itself: that would use the secrets
 *   twice.
 * - What was lent to begin is not lent again. e, s', e' and e'' can be destroyed as soon as begin
 *   has returned; s is kept for wim_finish.
 * - A grows as it is needed. The library makes no A: both ends make row i by a generator of their
 *   own, say from a seed and i, lend it as a part, and write row i + 1 over it, so that A is never
 *   held (examples/c/rows.c does so with wim_shake128). Both must make the same numbers.
 * - One end by rows and the other by the whole matrix agree as two of a kind do.
 *
 *
 * SESSIONS
 *
 * A session is one end of a link: it knows where the exchange stands, and it holds the key. It is
 * WIM_SESSION bytes, which the caller owns and lends to each call; the library keeps nothing of
 * them. The calls move it by this table and in no other way:
 *
 *     call                  allowed                     leads to
 *     wim_session_offer     idle                        offered with that scheme
 *     wim_session_open      idle                        offered with that scheme
 *     wim_session_reply     idle                        keyed with that scheme, its key
 *     wim_session_answer    idle                        keyed with that scheme, its key
 *     wim_session_finish    offered, with that scheme   keyed with that scheme, its key
 *     wim_session_close     always                      idle, key zero
 *
 * At WIM_SESSION_STAGE stands the stage, at WIM_SESSION_SCHEME the scheme, which is 0 when idle,
 * and from WIM_SESSION_KEY on WIM_MAX_KEY bytes of key: zero until keyed, then the one that reply,
 * answer or finish gave, and zeros behind it. So WIM_SESSION zeros are an idle session: a fresh or
 * a wiped buffer is one, and none has to be set up. These bytes may be read, kept and copied
 * between calls; a copy of a keyed one is a copy of the key.
 *
 * An allowed call does what the call without a session does, refusals and all, and gives all that
 * it gives, the key also in its own output. One that is not allowed is refused with 10, before
 * anything else is tested: a finish when offered with any other scheme, known or not; but an offer,
 * open, reply or answer when idle with an unknown scheme is 1. A refused call, with 10 or any other
 * number, changes no byte of the session and zeroes its outputs, and may be tried again.
 *
 * A buffer of another length, or one that no call leaves (another stage or scheme, key bytes where
 * the stage has none or behind the key), is in no stage: every call but close refuses it with 10
 * and leaves it as it is. wim_session_close zeroes the buffer, whatever it holds and however long
 * it is, and returns 0 always.
 *
 * - s is not in the session. It is lent to wim_session_offer, or given by wim_session_open, kept by
 *   the caller, and lent to wim_session_finish, which cannot tell whether it is the same: with
 *   another the keys differ.
 *   Destroy it as soon as finish has succeeded or the session is closed.
 * - No s serves two offers, not even after a close. A finish that was refused has made nothing of
 *   s and may be tried again with it; after one that succeeded the next is 10.
 * - The session keeps the raw key until it is closed: close it as soon as the key was hashed, and
 *   whenever the link fails. Only close wipes it.
 * - Which peer and which message a session belongs to is the caller's to know.
 *
 *
 * RACKS
 *
 * A rack keeps a session for each of WIM_STUDIOS studios, which are numbered from 0 to 7. It is
 * WIM_RACK bytes, owned and lent as a session's are: a record of WIM_RECORD bytes for each studio,
 * at its own fixed slot, the number of the studio first and its session at WIM_RECORD_SESSION.
 * wim_rack_clear makes an empty one of any WIM_RACK bytes, whose sessions are idle; zeros are none
 * yet, since the numbers are missing.
 *
 * wim_rack_offer, wim_rack_reply and wim_rack_finish are the calls of SESSIONS on the session of
 * one studio, and its table holds in each slot separately. Such a call changes no byte of another
 * slot, and no byte of another slot decides what it gives: whatever other studios do, a studio sees
 * what it would see if it were alone. There is no common count and no limit.
 *
 * wim_rack_close leaves the number of its slot and WIM_SESSION zeros behind it, whatever the slot
 * held, so that whoever takes the slot next reads zeros.
 *
 * A studio over 7 is refused with 16, before all else. Then a rack of another length is 10, and,
 * but for close, so is another number than the studio's own in its slot. A refused call changes no
 * byte of the rack.
 *
 * A call on a rack lends all of it, so that a rack is for one thread at a time. Eight threads serve
 * eight studios at once by the calls on a session, each on the WIM_SESSION bytes of its own slot:
 *
 *     uint8_t *own = rack + WIM_RECORD * studio + WIM_RECORD_SESSION;
 *     wim_session_reply(own, WIM_SESSION, scheme, ..);
 *     wim_session_close(own, WIM_SESSION);
 *
 * They need no lock, and no call on the rack itself may run meanwhile. What they leave is what the
 * calls on the rack would have left.
 *
 *
 * SETTINGS
 *
 * A technician keeps the settings of a box as text, in one of two formats, each line ended by LF:
 *
 *     format=1            format=2
 *     scheme=4            scheme=4
 *     rule=16             rule=16
 *                         label=STUDIO7
 *
 * The scheme is 0 to 5, the rule 14 or 16, the label 1 to 16 capital letters or digits. A number
 * has 1 to 10 decimal digits and no leading zero but that of 0 itself, so that the newest format
 * that 15 can name is 9999999999. Nothing stands behind the last line. wim_settings_write takes the
 * oldest format that holds the settings, so that boxes that know format 1 alone read all they can;
 * wim_settings_read reads all formats up to its own number. What is written is read back as it was,
 * two settings have the same text exactly where they are the same, and no other text is read: a
 * file with a byte too many is refused and not guessed at. A reader of format 1 that meets a text
 * in format 2 says so (15) and gives no setting. Keep the old file until the new one is on the
 * disk: ./box settings write does that.
 *
 *
 * STACK
 *
 * What a call takes below its caller's frame at most, over all schemes, in KiB rounded up, on
 * x86-64. On Arm it was measured before the products that stand now: no call took more than here.
 *
 *     wim_offer 102              wim_reply 125              wim_finish 104
 *     wim_open 133               wim_answer 187             wim_noise 3
 *     wim_expand 1               wim_grow 7                 wim_shake128 3
 *     wim_sha3_256 2             wim_product 2              wim_bench 159
 *     wim_session_offer 102      wim_session_reply 125      wim_session_finish 105
 *     wim_session_open 133       wim_session_answer 187     wim_session_close 1
 *     wim_rack_offer 102         wim_rack_reply 125         wim_rack_finish 105
 *     wim_rack_close 1           wim_rack_clear 1           wim_settings_write 1
 *     wim_settings_read 1        wim_rows_offer_begin 28    wim_rows_offer_part 21
 *     wim_rows_offer_end 41      wim_rows_reply_begin 86    wim_rows_reply_part 21
 *     wim_rows_reply_end 43
 *
 * Measured by filling a thread's stack with a pattern and looking, after an accepted call in each
 * scheme, how deep the pattern is gone (examples/c/stack.c). All local arrays have fixed sizes, so
 * that no input makes it more. examples/c/depths writes the table, and fails where a call is off it
 * by more than a KiB.
 *
 * Call wim_scrub after every call that had secrets or a key, on the same thread and from the
 * function that made the call. It overwrites WIM_STACK + WIM_SCRUB_MORE bytes below that function's
 * frame, which is more than any call takes. A function further up may call it as well, where the
 * frames in between and the call take no more than that together. Several calls in a row need it
 * once. wim_scrub_depth does the same for a caller who knows what its calls took, by the table.
 * examples/c/residue.c looks on the stack for secrets, keys and intermediate values after each
 * call, in all schemes: it finds many before the scrub and none after it, and what the
 * call used is then zero but for less than 64 bytes next to the caller's frame. After the scrub
 * every vector register that the processor has is as it was before the call, or zero, and a
 * signal's frame, which holds all registers, has no part of a key.
 *
 * A signal that comes during a call finds secrets in the registers. The system lays all of them on
 * the thread's stack, below what the call has taken so far, and the handler runs below them. The
 * WIM_SCRUB_MORE bytes are for that: registers take 3 KiB with AVX-512, the rest is the handler's.
 * What lies deeper, or on a stack of the handler's own (sigaltstack), no scrub reaches. Where a
 * handler takes more, or stands on a stack of its own, block signals around call and scrub:
 *
 *     sigset_t all, before;
 *     sigfillset(&all);
 *     pthread_sigmask(SIG_SETMASK, &all, &before);
 *     refusal = wim_finish(..);
 *     wim_scrub();
 *     pthread_sigmask(SIG_SETMASK, &before, NULL);
 *
 *
 * SECRETS AND TIME
 *
 * Measured and not proved: on accepted input no address depends on a secret, and the branches that
 * do are the verdicts of the range tests (refusal 6), one an input: 2 in wim_offer, 3 in wim_reply,
 * 1 in wim_finish, none in wim_noise and the two hashes; in wim_product those of the range tests of
 * its factors (refusal 4), should they be secret. wim_offer has two more and wim_reply one, on the
 * first number that is sent (refusal 17), which the peer sees anyway. wim_open and wim_answer
 * branch as these two do. wim_bench has those of its parts, and branches on the numbers of the
 * messages and, but in BCNS, on the keys, which it compares. The calls on a session or a rack
 * branch as those without one, and close, clear, wim_wipe and wim_same on nothing. By rows begin
 * has those of its secrets, 2 and 3, and end those of what is sent; each part and end of Reply has
 * one more, the verdict on the values in its state, and a part of Offer none. A refused secret is
 * searched value by value for its place. Nothing is divided but 65,536 by q, and by rows how many
 * numbers have come by n and 16 n, all of which are public. So it is in the archives for x86-64 and
 * x86-64-v3, in all schemes (runs/secrets): the branches by valgrind with the secrets marked as
 * undefined, the divisions by a trace with two sets of secrets. Another compiler may do otherwise,
 * and what the processor makes of it is not measured.
 */
#ifndef WIMMOSTRY_H
#define WIMMOSTRY_H

#include <stddef.h>
#include <stdint.h>

#ifdef __cplusplus
extern "C" {
#endif

/* The version of header and archive; wim_version tells the archive's. */
#define WIM_VERSION_MAJOR 0
#define WIM_VERSION_MINOR 4
#define WIM_VERSION_PATCH 0
#define WIM_VERSION "0.4.0"

/*
 * The archive's version once more, in a symbol that has it in its name. Who includes this header
 * refers to it, used or not, so that nothing links with an archive of another version.
 */
#define WIM_VERSION_SYMBOL wim_version_0_4_0
extern const char WIM_VERSION_SYMBOL[];
#if defined(__has_attribute)
#if __has_attribute(retain)
#define WIM_KEPT __attribute__((used, retain)) /* also where the linker drops unused sections */
#endif
#endif
#if defined(__GNUC__) && !defined(WIM_KEPT)
#define WIM_KEPT __attribute__((used))
#endif
#if defined(WIM_KEPT)
static const char *const wim_linked_version WIM_KEPT = WIM_VERSION_SYMBOL;
#endif

/* A refusal that nobody looks at is a mistake: the compiler warns where it can. */
#if defined(__GNUC__)
#define WIM_MUST_USE __attribute__((warn_unused_result))
#else
#define WIM_MUST_USE
#endif

/* The schemes. */
#define WIM_BCNS 0
#define WIM_NEWHOPE 1
#define WIM_FRODO_CHALLENGE 2
#define WIM_FRODO_CLASSICAL 3
#define WIM_FRODO_RECOMMENDED 4
#define WIM_FRODO_PARANOID 5

/* The rules of wim_expand and wim_grow. */
#define WIM_RULE_LOW_BITS 14
#define WIM_RULE_WHOLE_WORD 16

/* The refusals. */
#define WIM_DONE 0
#define WIM_NO_SCHEME 1
#define WIM_LENGTH 2
#define WIM_ROOM 3
#define WIM_PUBLIC_OVER 4
#define WIM_MESSAGE_OVER 5
#define WIM_SECRET_BEYOND 6
#define WIM_RAN_OUT 7
#define WIM_MISFIT 8
#define WIM_OUT_OF_STAGE 10
#define WIM_OUT_OF_TURN 11
#define WIM_NO_RULE 12
#define WIM_NEWER_FORMAT 15
#define WIM_NO_STUDIO 16
#define WIM_BLANK 17
#define WIM_NOT_ASCENDING 18

/*
 * The fixed numbers of each scheme, here X:
 *
 *     WIM_X_Q        public numbers and the numbers of a message are below it
 *     WIM_X_NOISE    the largest noise: secrets and noise lie from -WIM_X_NOISE to WIM_X_NOISE
 *     WIM_X_A        entries of a; in Frodo the rows of A, n by n, one after another
 *     WIM_X_S        entries of s, e, s' and e' each; in Frodo s and e are n by 8, s' and e' 8 by
 *                    n, row after row
 *     WIM_X_E2       entries of e''; in Frodo 8 by 8
 *     WIM_X_SEED     bytes of the seed
 *     WIM_X_COINS    bytes of the coins
 *     WIM_X_OPENING  bytes of the opening message
 *     WIM_X_REPLY    bytes of the reply message
 *     WIM_X_KEY      bytes of the key
 *     WIM_X_S_BYTES  random bytes from which wim_noise makes one of s, e, s' and e'
 *     WIM_X_E2_BYTES random bytes from which wim_noise makes e''
 *     WIM_X_TABLE    64-bit words of the table that wim_noise is lent: 0, but in BCNS
 *     WIM_X_MARGIN   the margin of the slack (0: NewHope has no slack)
 *     WIM_X_ROW      numbers of a row of A, which is n, and rows of A: 0, but in Frodo
 *     WIM_X_STATE    numbers of a running state by rows, 16 n + 67: 0, but in Frodo
 *     WIM_X_LENT_A   entries of a that wim_open and wim_answer are lent: WIM_X_A, but 0 in NewHope
 *     WIM_X_OPEN_BYTES    random bytes that wim_open takes
 *     WIM_X_ANSWER_BYTES  random bytes that wim_answer takes
 *
 * WIM_MAX_.. is the largest over all schemes: buffers of these sizes serve each of them. A program
 * that learns its scheme as it runs finds the numbers by name in what wim_sizes gives.
 */
#define WIM_BCNS_Q 4294967295u
#define WIM_BCNS_NOISE 51
#define WIM_BCNS_A 1024
#define WIM_BCNS_S 1024
#define WIM_BCNS_E2 1024
#define WIM_BCNS_SEED 0
#define WIM_BCNS_COINS 256
#define WIM_BCNS_OPENING 4096
#define WIM_BCNS_REPLY 4224
#define WIM_BCNS_KEY 128
#define WIM_BCNS_S_BYTES 25600
#define WIM_BCNS_E2_BYTES 25600
#define WIM_BCNS_TABLE 153
#define WIM_BCNS_MARGIN 1073741823
#define WIM_BCNS_ROW 0
#define WIM_BCNS_STATE 0
#define WIM_BCNS_LENT_A 1024
#define WIM_BCNS_OPEN_BYTES 51200
#define WIM_BCNS_ANSWER_BYTES 77056

#define WIM_NEWHOPE_Q 12289u
#define WIM_NEWHOPE_NOISE 16
#define WIM_NEWHOPE_A 1024
#define WIM_NEWHOPE_S 1024
#define WIM_NEWHOPE_E2 1024
#define WIM_NEWHOPE_SEED 32
#define WIM_NEWHOPE_COINS 32
#define WIM_NEWHOPE_OPENING 1824
#define WIM_NEWHOPE_REPLY 2048
#define WIM_NEWHOPE_KEY 32
#define WIM_NEWHOPE_S_BYTES 4096
#define WIM_NEWHOPE_E2_BYTES 4096
#define WIM_NEWHOPE_TABLE 0
#define WIM_NEWHOPE_MARGIN 0
#define WIM_NEWHOPE_ROW 0
#define WIM_NEWHOPE_STATE 0
#define WIM_NEWHOPE_LENT_A 0
#define WIM_NEWHOPE_OPEN_BYTES 8224
#define WIM_NEWHOPE_ANSWER_BYTES 12320

#define WIM_FRODO_CHALLENGE_Q 2048u
#define WIM_FRODO_CHALLENGE_NOISE 3
#define WIM_FRODO_CHALLENGE_A 123904
#define WIM_FRODO_CHALLENGE_S 2816
#define WIM_FRODO_CHALLENGE_E2 64
#define WIM_FRODO_CHALLENGE_SEED 16
#define WIM_FRODO_CHALLENGE_COINS 0
#define WIM_FRODO_CHALLENGE_OPENING 3888
#define WIM_FRODO_CHALLENGE_REPLY 3880
#define WIM_FRODO_CHALLENGE_KEY 8
#define WIM_FRODO_CHALLENGE_S_BYTES 5632
#define WIM_FRODO_CHALLENGE_E2_BYTES 128
#define WIM_FRODO_CHALLENGE_TABLE 0
#define WIM_FRODO_CHALLENGE_MARGIN 256
#define WIM_FRODO_CHALLENGE_ROW 352
#define WIM_FRODO_CHALLENGE_STATE 5699
#define WIM_FRODO_CHALLENGE_LENT_A 123904
#define WIM_FRODO_CHALLENGE_OPEN_BYTES 11280
#define WIM_FRODO_CHALLENGE_ANSWER_BYTES 11392

#define WIM_FRODO_CLASSICAL_Q 4096u
#define WIM_FRODO_CLASSICAL_NOISE 4
#define WIM_FRODO_CLASSICAL_A 350464
#define WIM_FRODO_CLASSICAL_S 4736
#define WIM_FRODO_CLASSICAL_E2 64
#define WIM_FRODO_CLASSICAL_SEED 16
#define WIM_FRODO_CLASSICAL_COINS 0
#define WIM_FRODO_CLASSICAL_OPENING 7120
#define WIM_FRODO_CLASSICAL_REPLY 7112
#define WIM_FRODO_CLASSICAL_KEY 16
#define WIM_FRODO_CLASSICAL_S_BYTES 9472
#define WIM_FRODO_CLASSICAL_E2_BYTES 128
#define WIM_FRODO_CLASSICAL_TABLE 0
#define WIM_FRODO_CLASSICAL_MARGIN 256
#define WIM_FRODO_CLASSICAL_ROW 592
#define WIM_FRODO_CLASSICAL_STATE 9539
#define WIM_FRODO_CLASSICAL_LENT_A 350464
#define WIM_FRODO_CLASSICAL_OPEN_BYTES 18960
#define WIM_FRODO_CLASSICAL_ANSWER_BYTES 19072

#define WIM_FRODO_RECOMMENDED_Q 32768u
#define WIM_FRODO_RECOMMENDED_NOISE 5
#define WIM_FRODO_RECOMMENDED_A 565504
#define WIM_FRODO_RECOMMENDED_S 6016
#define WIM_FRODO_RECOMMENDED_E2 64
#define WIM_FRODO_RECOMMENDED_SEED 16
#define WIM_FRODO_RECOMMENDED_COINS 0
#define WIM_FRODO_RECOMMENDED_OPENING 11296
#define WIM_FRODO_RECOMMENDED_REPLY 11288
#define WIM_FRODO_RECOMMENDED_KEY 32
#define WIM_FRODO_RECOMMENDED_S_BYTES 12032
#define WIM_FRODO_RECOMMENDED_E2_BYTES 128
#define WIM_FRODO_RECOMMENDED_TABLE 0
#define WIM_FRODO_RECOMMENDED_MARGIN 512
#define WIM_FRODO_RECOMMENDED_ROW 752
#define WIM_FRODO_RECOMMENDED_STATE 12099
#define WIM_FRODO_RECOMMENDED_LENT_A 565504
#define WIM_FRODO_RECOMMENDED_OPEN_BYTES 24080
#define WIM_FRODO_RECOMMENDED_ANSWER_BYTES 24192

#define WIM_FRODO_PARANOID_Q 32768u
#define WIM_FRODO_PARANOID_NOISE 6
#define WIM_FRODO_PARANOID_A 746496
#define WIM_FRODO_PARANOID_S 6912
#define WIM_FRODO_PARANOID_E2 64
#define WIM_FRODO_PARANOID_SEED 16
#define WIM_FRODO_PARANOID_COINS 0
#define WIM_FRODO_PARANOID_OPENING 12976
#define WIM_FRODO_PARANOID_REPLY 12968
#define WIM_FRODO_PARANOID_KEY 32
#define WIM_FRODO_PARANOID_S_BYTES 13824
#define WIM_FRODO_PARANOID_E2_BYTES 128
#define WIM_FRODO_PARANOID_TABLE 0
#define WIM_FRODO_PARANOID_MARGIN 512
#define WIM_FRODO_PARANOID_ROW 864
#define WIM_FRODO_PARANOID_STATE 13891
#define WIM_FRODO_PARANOID_LENT_A 746496
#define WIM_FRODO_PARANOID_OPEN_BYTES 27664
#define WIM_FRODO_PARANOID_ANSWER_BYTES 27776

#define WIM_MAX_A 746496
#define WIM_MAX_S 6912
#define WIM_MAX_E2 1024
#define WIM_MAX_SEED 32
#define WIM_MAX_COINS 256
#define WIM_MAX_OPENING 12976
#define WIM_MAX_REPLY 12968
#define WIM_MAX_KEY 128
#define WIM_MAX_S_BYTES 25600
#define WIM_MAX_E2_BYTES 25600
#define WIM_MAX_TABLE 153
#define WIM_MAX_ROW 864
#define WIM_MAX_STATE 13891
#define WIM_MAX_LENT_A 746496
#define WIM_MAX_OPEN_BYTES 51200
#define WIM_MAX_ANSWER_BYTES 77056

/* wim_expand: the length of its answer in numbers, which is wim_grow's too, and the longest stream
 * in bytes. */
#define WIM_EXPAND_NUMBERS 1024
#define WIM_EXPAND_STREAM 65536

/* The longest factor of wim_product, in numbers; its scratch then takes six times as many. */
#define WIM_PRODUCT 1024

/* Bytes of a digest, and the longest input of wim_shake128 and wim_sha3_256. */
#define WIM_DIGEST 32
#define WIM_HASH_INPUT 65536

/* Bytes of a session, and where in it the stage, the scheme and the key stand. */
#define WIM_SESSION 130
#define WIM_SESSION_STAGE 0
#define WIM_SESSION_SCHEME 1
#define WIM_SESSION_KEY 2

/* The stages. */
#define WIM_STAGE_IDLE 0
#define WIM_STAGE_OFFERED 1
#define WIM_STAGE_KEYED 2

/* The studios of a rack; bytes of a record, where in it the studio's number and the session stand,
 * and bytes of a rack. */
#define WIM_STUDIOS 8
#define WIM_RECORD 131
#define WIM_RECORD_STUDIO 0
#define WIM_RECORD_SESSION 1
#define WIM_RACK 1048

/* Settings: bytes of a label and of a text at most, and the newest format that is read. */
#define WIM_SETTINGS_LABEL 16
#define WIM_SETTINGS_TEXT 49
#define WIM_SETTINGS_FORMAT 2

/* Bytes of stack that are enough for any call on either machine; how many more wim_scrub
 * overwrites; and bytes of stack that are enough for wim_scrub. */
#define WIM_STACK 204800
#define WIM_SCRUB_MORE 8192
#define WIM_SCRUB_STACK 214016

/* What is fixed in a scheme: its name as it is written, its number, and then each WIM_X_.. under
 * its own name. A later version may have more behind them. */
struct wim_sizes {
    const char *name;
    uint32_t number;
    uint32_t q;
    int32_t noise;
    size_t a;
    size_t s;
    size_t e2;
    size_t seed;
    size_t coins;
    size_t opening;
    size_t reply;
    size_t key;
    size_t s_bytes;
    size_t e2_bytes;
    size_t table;
    uint64_t margin;
    size_t row;
    size_t state;
    size_t lent_a;
    size_t open_bytes;
    size_t answer_bytes;
};

/* Those of the scheme of a number, 0 to 5; null for any other number. */
const struct wim_sizes *wim_sizes(uint32_t scheme);

/*
 * The table by which BCNS's paper draws noise, as wim_noise takes it: 51 entries of three 64-bit
 * words, the highest first. data/bcns-table.txt has it as text, in hexadecimal, an entry a line.
 */
extern const uint64_t wim_bcns_table[WIM_BCNS_TABLE];

/*
 * Offer: scheme, public a, secret s, noise e, seed. Gives the opening message: as + e in packed
 * bytes, and the seed (first in Frodo, last in NewHope). Refuses with 1, 2, 3, 4, 6, 17: the last
 * where as + e is zero, as it is where s and e are.
 */
WIM_MUST_USE uint32_t wim_offer(uint32_t scheme, const uint32_t *a, size_t a_len,
                                const int32_t *s, size_t s_len, const int32_t *e, size_t e_len,
                                const uint8_t *seed, size_t seed_len,
                                uint8_t *message, size_t message_len,
                                uint64_t *place, uint64_t *written);

/*
 * Reply: scheme, opening message, public a, s', e', e'', coins. Gives the reply message (as' + e'
 * in packed bytes, then the hints of bs' + e''), the replier's key and the key's SHA3-256. Refuses
 * with 1, 2, 3, 4, 5, 17 (the opening), 6, 17 (the reply, where as' + e' is zero), in this order;
 * of 3, the message's room is tested first and the digest's last.
 */
WIM_MUST_USE uint32_t wim_reply(uint32_t scheme, const uint8_t *opening, size_t opening_len,
                                const uint32_t *a, size_t a_len,
                                const int32_t *s1, size_t s1_len,
                                const int32_t *e1, size_t e1_len,
                                const int32_t *e2, size_t e2_len,
                                const uint8_t *coins, size_t coins_len,
                                uint8_t *message, size_t message_len,
                                uint8_t *key, size_t key_len,
                                uint8_t *digest, size_t digest_len,
                                uint64_t *place, uint64_t *message_written,
                                uint64_t *key_written, uint64_t *digest_written);

/*
 * Finish: scheme, reply message, secret s. Gives the initiator's key and the key's SHA3-256, and in
 * *slack and *slack_index how near the exchange came to failing (see SLACK). Refuses with 1, 2, 3,
 * 5, 17, 6, in this order; of 3, the key's room is tested first.
 */
WIM_MUST_USE uint32_t wim_finish(uint32_t scheme, const uint8_t *reply, size_t reply_len,
                                 const int32_t *s, size_t s_len,
                                 uint8_t *key, size_t key_len,
                                 uint8_t *digest, size_t digest_len,
                                 uint64_t *place, uint64_t *key_written,
                                 uint64_t *digest_written,
                                 uint64_t *slack, uint64_t *slack_index);

/*
 * Open: scheme, rule, public a, a table, random bytes. Gives the opening message and the secret s,
 * WIM_X_S values, for wim_finish: what wim_offer gives on what the random bytes make. Refuses with
 * 1, 12, 2, 3, 18, 4, 7, 17 (where as + e is zero), in this order; of 3, the message's room is
 * tested first. See FROM RANDOM BYTES.
 */
WIM_MUST_USE uint32_t wim_open(uint32_t scheme, uint32_t rule, const uint32_t *a, size_t a_len,
                               const uint64_t *table, size_t table_len,
                               const uint8_t *random, size_t random_len,
                               uint8_t *opening, size_t opening_len, int32_t *s, size_t s_len,
                               uint64_t *place, uint64_t *opening_written, uint64_t *s_written);

/*
 * Answer: scheme, rule, opening message, public a, a table, random bytes. Gives what wim_reply
 * gives on what the random bytes make; NewHope's a grows from the seed in the opening. Refuses with
 * 1, 12, 2, 3, 18, 4, 5, 17 (the opening), 7, 17 (the reply), in this order; of 3, the message's
 * room is tested first and the digest's last. See FROM RANDOM BYTES.
 */
WIM_MUST_USE uint32_t wim_answer(uint32_t scheme, uint32_t rule,
                                 const uint8_t *opening, size_t opening_len,
                                 const uint32_t *a, size_t a_len,
                                 const uint64_t *table, size_t table_len,
                                 const uint8_t *random, size_t random_len,
                                 uint8_t *message, size_t message_len,
                                 uint8_t *key, size_t key_len,
                                 uint8_t *digest, size_t digest_len,
                                 uint64_t *place, uint64_t *message_written,
                                 uint64_t *key_written, uint64_t *digest_written);

/*
 * Noise: scheme, random bytes, a table. Gives WIM_X_S values from WIM_X_S_BYTES bytes, WIM_X_E2
 * values from WIM_X_E2_BYTES; no other length is taken. The table is empty but in BCNS.
 *
 * BCNS takes 25 bytes a value. The first 24, the highest first, are a number v of 192 bits; the
 * value's size is how many of the table's 51 entries are at most v, so 0 to 51, and it is negative
 * where the last byte is odd. An entry is three 64-bit words, the highest first, and the entries
 * must ascend. Any such table is taken; that of the paper, by which keys are as secret as the paper
 * says, is wim_bcns_table. The table is public: the bytes are not, and every entry is looked at
 * whatever they are.
 *
 * Refuses with 1, 2, 3, 18, in this order; of 2, the bytes' length is tested first.
 */
WIM_MUST_USE uint32_t wim_noise(uint32_t scheme, const uint8_t *bytes, size_t bytes_len,
                                const uint64_t *table, size_t table_len,
                                int32_t *out, size_t out_len, uint64_t *place, uint64_t *written);

/*
 * Expand: rule, a stream of bytes, which is read as 16-bit words, the lower byte first. By rule 14
 * the low 14 bits of a word are taken if they are below 12289; by rule 16 the whole word is taken
 * if it is below 61445, and reduced modulo 12289. Gives the first 1,024 numbers taken, public
 * numbers for NewHope; both ends must use the same rule, since two make different numbers of one
 * stream. Refuses with 12, 2, 3, 7, in this order.
 */
WIM_MUST_USE uint32_t wim_expand(uint32_t rule, const uint8_t *stream, size_t stream_len,
                                 uint32_t *out, size_t out_len,
                                 uint64_t *place, uint64_t *written);

/*
 * Grow: rule, seed. Gives what wim_expand by that rule gives of the first 24 blocks of 168 bytes of
 * SHAKE-128 of the seed, which is WIM_NEWHOPE_SEED bytes long: NewHope's public numbers. Both ends
 * must use the same rule. Refuses with 12, 2, 3, 7, in this order.
 */
WIM_MUST_USE uint32_t wim_grow(uint32_t rule, const uint8_t *seed, size_t seed_len,
                               uint32_t *out, size_t out_len, uint64_t *place, uint64_t *written);

/*
 * SHAKE-128 by FIPS 202: the input. Fills the output, however long it is. Refuses with 2 where the
 * input is over WIM_HASH_INPUT bytes.
 */
WIM_MUST_USE uint32_t wim_shake128(const uint8_t *input, size_t input_len,
                                   uint8_t *out, size_t out_len,
                                   uint64_t *place, uint64_t *written);

/*
 * SHA3-256 by FIPS 202: the input. Gives WIM_DIGEST bytes. Refuses with 2 where the input is over
 * WIM_HASH_INPUT bytes, and with 3.
 */
WIM_MUST_USE uint32_t wim_sha3_256(const uint8_t *input, size_t input_len,
                                   uint8_t *out, size_t out_len,
                                   uint64_t *place, uint64_t *written);

/*
 * Product: a, b, two BCNS polynomials of a length L, which is 32 times a power of two up to 1024,
 * with numbers below 4294967295. Gives their product modulo X^L + 1 and 4294967295, L numbers, the
 * coefficient of 1 first: that of the plain rule, made from three products of half the length, and
 * these likewise down to 32. The scratch takes at least 6L numbers, holds what it likes before, and
 * is zero over its whole length afterwards, refused or not. No call of the exchange needs it.
 * Refuses with 2 (another length, or two), 3 (the output first, then the scratch), 4 (in a first,
 * then in b), in this order.
 */
WIM_MUST_USE uint32_t wim_product(const uint32_t *a, size_t a_len, const uint32_t *b, size_t b_len,
                                  uint32_t *out, size_t out_len,
                                  uint32_t *scratch, size_t scratch_len,
                                  uint64_t *place, uint64_t *written);

/*
 * Bench: both ends on lent secrets, the initiator's s, e and seed and the replier's s', e', e''
 * and coins. *differ is 0 where the two keys agree, and else 1 + the first differing bit, counted
 * lowest first through the bytes. In BCNS the keys are proved to agree, whatever is lent: the
 * answer has no differing case there, nothing is compared, and *differ is always 0. *slack and
 * *slack_index are those of wim_finish, whether the keys agree or differ. Messages and keys stay
 * inside, so that there is no output. Refuses with 1, 2, 4, 6, 17: all of Offer's tests come first,
 * then Reply's. After a refusal *differ is 0.
 */
WIM_MUST_USE uint32_t wim_bench(uint32_t scheme, const uint32_t *a, size_t a_len,
                                const int32_t *s, size_t s_len, const int32_t *e, size_t e_len,
                                const uint8_t *seed, size_t seed_len,
                                const int32_t *s1, size_t s1_len,
                                const int32_t *e1, size_t e1_len,
                                const int32_t *e2, size_t e2_len,
                                const uint8_t *coins, size_t coins_len,
                                uint64_t *place, uint64_t *differ,
                                uint64_t *slack, uint64_t *slack_index);

/*
 * Offer by rows; see BY ROWS. Begin: scheme, secret s, noise e, seed, into the state. Refuses with
 * 1 (not 2 to 5), 2 and 6, in this order; of 2, the state's length is tested last.
 */
WIM_MUST_USE uint32_t wim_rows_offer_begin(uint32_t scheme, const int32_t *s, size_t s_len,
                                           const int32_t *e, size_t e_len,
                                           const uint8_t *seed, size_t seed_len,
                                           uint32_t *state, size_t state_len, uint64_t *place);

/* A part: the next numbers of the current row. Refuses with 11 and 4, in this order. */
WIM_MUST_USE uint32_t wim_rows_offer_part(const uint32_t *part, size_t part_len,
                                          uint32_t *state, size_t state_len, uint64_t *place);

/* End: gives wim_offer's message. Refuses with 11, 3 and 17, in this order. */
WIM_MUST_USE uint32_t wim_rows_offer_end(uint32_t *state, size_t state_len,
                                         uint8_t *message, size_t message_len,
                                         uint64_t *place, uint64_t *written);

/*
 * Reply by rows; see BY ROWS. Begin: scheme, opening message, s', e', e'', into the state; coins
 * there are none in Frodo. Refuses with 1 (not 2 to 5), 2, 17 (the opening) and 6, in this order;
 * of 2, the state's length is tested last.
 */
WIM_MUST_USE uint32_t wim_rows_reply_begin(uint32_t scheme,
                                           const uint8_t *opening, size_t opening_len,
                                           const int32_t *s1, size_t s1_len,
                                           const int32_t *e1, size_t e1_len,
                                           const int32_t *e2, size_t e2_len,
                                           uint32_t *state, size_t state_len, uint64_t *place);

/* A part: the next numbers of the current row. Refuses with 11 and 4, in this order. */
WIM_MUST_USE uint32_t wim_rows_reply_part(const uint32_t *part, size_t part_len,
                                          uint32_t *state, size_t state_len, uint64_t *place);

/*
 * End: gives wim_reply's message, the replier's key and the key's SHA3-256. Refuses with 11, 3 and
 * 17 (the reply), in this order; of 3, the message's room is tested first and the digest's last.
 */
WIM_MUST_USE uint32_t wim_rows_reply_end(uint32_t *state, size_t state_len,
                                         uint8_t *message, size_t message_len,
                                         uint8_t *key, size_t key_len,
                                         uint8_t *digest, size_t digest_len,
                                         uint64_t *place, uint64_t *message_written,
                                         uint64_t *key_written, uint64_t *digest_written);

/*
 * Offer, Reply and Finish on a session, which is in and out: then all is as in wim_offer, wim_reply
 * and wim_finish. Refuse with 10, and then as these do. See SESSIONS.
 */
WIM_MUST_USE uint32_t wim_session_offer(uint8_t *session, size_t session_len, uint32_t scheme,
                                        const uint32_t *a, size_t a_len,
                                        const int32_t *s, size_t s_len,
                                        const int32_t *e, size_t e_len,
                                        const uint8_t *seed, size_t seed_len,
                                        uint8_t *message, size_t message_len,
                                        uint64_t *place, uint64_t *written);

WIM_MUST_USE uint32_t wim_session_reply(uint8_t *session, size_t session_len, uint32_t scheme,
                                        const uint8_t *opening, size_t opening_len,
                                        const uint32_t *a, size_t a_len,
                                        const int32_t *s1, size_t s1_len,
                                        const int32_t *e1, size_t e1_len,
                                        const int32_t *e2, size_t e2_len,
                                        const uint8_t *coins, size_t coins_len,
                                        uint8_t *message, size_t message_len,
                                        uint8_t *key, size_t key_len,
                                        uint8_t *digest, size_t digest_len,
                                        uint64_t *place, uint64_t *message_written,
                                        uint64_t *key_written, uint64_t *digest_written);

WIM_MUST_USE uint32_t wim_session_finish(uint8_t *session, size_t session_len, uint32_t scheme,
                                         const uint8_t *reply, size_t reply_len,
                                         const int32_t *s, size_t s_len,
                                         uint8_t *key, size_t key_len,
                                         uint8_t *digest, size_t digest_len,
                                         uint64_t *place, uint64_t *key_written,
                                         uint64_t *digest_written,
                                         uint64_t *slack, uint64_t *slack_index);

/*
 * Open and Answer on a session, which is in and out: then all is as in wim_open and wim_answer.
 * Refuse with 10, and then as these do. See SESSIONS.
 */
WIM_MUST_USE uint32_t wim_session_open(uint8_t *session, size_t session_len,
                                       uint32_t scheme, uint32_t rule,
                                       const uint32_t *a, size_t a_len,
                                       const uint64_t *table, size_t table_len,
                                       const uint8_t *random, size_t random_len,
                                       uint8_t *opening, size_t opening_len,
                                       int32_t *s, size_t s_len,
                                       uint64_t *place, uint64_t *opening_written,
                                       uint64_t *s_written);

WIM_MUST_USE uint32_t wim_session_answer(uint8_t *session, size_t session_len,
                                         uint32_t scheme, uint32_t rule,
                                         const uint8_t *opening, size_t opening_len,
                                         const uint32_t *a, size_t a_len,
                                         const uint64_t *table, size_t table_len,
                                         const uint8_t *random, size_t random_len,
                                         uint8_t *message, size_t message_len,
                                         uint8_t *key, size_t key_len,
                                         uint8_t *digest, size_t digest_len,
                                         uint64_t *place, uint64_t *message_written,
                                         uint64_t *key_written, uint64_t *digest_written);

/*
 * Close: zeroes the session, whatever it holds and however long it is: it is idle, and its key is
 * gone. Returns 0 always.
 */
uint32_t wim_session_close(uint8_t *session, size_t session_len);

/*
 * Offer, Reply and Finish on the session of a studio in a rack, which is in and out: then all is as
 * in wim_offer, wim_reply and wim_finish. Refuse with 16, 10, and then as these do. See RACKS.
 */
WIM_MUST_USE uint32_t wim_rack_offer(uint8_t *rack, size_t rack_len, uint32_t studio,
                                     uint32_t scheme, const uint32_t *a, size_t a_len,
                                     const int32_t *s, size_t s_len,
                                     const int32_t *e, size_t e_len,
                                     const uint8_t *seed, size_t seed_len,
                                     uint8_t *message, size_t message_len,
                                     uint64_t *place, uint64_t *written);

WIM_MUST_USE uint32_t wim_rack_reply(uint8_t *rack, size_t rack_len, uint32_t studio,
                                     uint32_t scheme, const uint8_t *opening, size_t opening_len,
                                     const uint32_t *a, size_t a_len,
                                     const int32_t *s1, size_t s1_len,
                                     const int32_t *e1, size_t e1_len,
                                     const int32_t *e2, size_t e2_len,
                                     const uint8_t *coins, size_t coins_len,
                                     uint8_t *message, size_t message_len,
                                     uint8_t *key, size_t key_len,
                                     uint8_t *digest, size_t digest_len,
                                     uint64_t *place, uint64_t *message_written,
                                     uint64_t *key_written, uint64_t *digest_written);

WIM_MUST_USE uint32_t wim_rack_finish(uint8_t *rack, size_t rack_len, uint32_t studio,
                                      uint32_t scheme, const uint8_t *reply, size_t reply_len,
                                      const int32_t *s, size_t s_len,
                                      uint8_t *key, size_t key_len,
                                      uint8_t *digest, size_t digest_len,
                                      uint64_t *place, uint64_t *key_written,
                                      uint64_t *digest_written,
                                      uint64_t *slack, uint64_t *slack_index);

/*
 * Close in a rack: the studio's number and zeros behind it, whatever its slot held. Refuses with
 * 16, and with 10 where the rack has another length.
 */
WIM_MUST_USE uint32_t wim_rack_close(uint8_t *rack, size_t rack_len, uint32_t studio,
                                     uint64_t *place);

/*
 * Clear: eight idle records with their numbers, whatever the rack held. Refuses with 10 where it
 * has another length.
 */
WIM_MUST_USE uint32_t wim_rack_clear(uint8_t *rack, size_t rack_len, uint64_t *place);

/*
 * Settings read: the reader's own number, 1 or 2 (WIM_SETTINGS_FORMAT), and a text. Gives the label
 * (none in format 1), and in *format, *scheme and *rule the numbers. Refuses with 15, 8, 3, in this
 * order: with 15 where the first line is `format=` with a number above the reader's, whatever
 * follows, and *format is that number; with 8 where the text is no settings otherwise; with 3 where
 * label is shorter than the label in the text. WIM_SETTINGS_LABEL bytes are always enough, and a
 * text in format 1 needs none. Another number of a reader is no refusal: 0 knows no format, so that
 * every one is newer, and one above 2 reads what 2 reads, and has 8 for the formats that there are
 * not.
 */
WIM_MUST_USE uint32_t wim_settings_read(uint32_t reader, const uint8_t *text, size_t text_len,
                                        uint8_t *label, size_t label_len,
                                        uint64_t *place, uint64_t *label_written,
                                        uint64_t *format, uint64_t *scheme, uint64_t *rule);

/*
 * Settings write: scheme, rule, label, empty where there is none. Gives the text, of at most
 * WIM_SETTINGS_TEXT bytes. Refuses with 1, 12, 2 (a label over WIM_SETTINGS_LABEL bytes), 3, 8 (a
 * byte of the label that is no capital letter and no digit), in this order.
 */
WIM_MUST_USE uint32_t wim_settings_write(uint32_t scheme, uint32_t rule,
                                         const uint8_t *label, size_t label_len,
                                         uint8_t *text, size_t text_len,
                                         uint64_t *place, uint64_t *written);

/*
 * Zeros over count bytes (bytes, not entries: sizeof), which no compiler drops though nobody reads
 * them: for secrets and keys that are done with. Where count is 0 the pointer may be null.
 */
void wim_wipe(void *memory, size_t count);

/*
 * 1 where the count bytes of a and b are the same, else 0, in a time that depends on count alone:
 * for tags and digests. Where count is 0 the pointers may be null, and it is 1.
 */
WIM_MUST_USE uint32_t wim_same(const void *a, const void *b, size_t count);

/*
 * Overwrites what a call may have left on the stack below the caller's frame, and what a signal
 * during it may have left there; see STACK above. It zeroes the general registers and the vector
 * registers that a function may change besides: on x86-64 xmm0 to xmm15 (for x86-64-v3 ymm0 to
 * ymm15), on Arm v0 to v7 and v16 to v31. The calls leave nothing in others or in wider ones: they
 * call no function from outside the archive, not even memcpy.
 */
void wim_scrub(void);

/*
 * wim_scrub after calls that took at most `depth` bytes of stack: it overwrites these and
 * WIM_SCRUB_MORE more. It takes 1024 bytes of stack besides.
 */
void wim_scrub_depth(size_t depth);

/* The archive's version, WIM_VERSION of the header that it was built with. */
const char *wim_version(void);

/*
 * The level of processors that the archive was compiled for: "x86-64", "x86-64-v3" or "aarch64". On
 * a processor without it no other function may be called.
 */
const char *wim_cpu(void);

/* A sentence for a return value, "done" for 0 and "unknown refusal" for what is no refusal. */
const char *wim_refusal_text(uint32_t refusal);

#ifdef __cplusplus
}
#endif

#endif
