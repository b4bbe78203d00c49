/*
 * Loquatquoits: verified control under delay, for C and C++ callers.
 *
 * Build the library with `.ci/build` and link target/staticlib/libcapi.a; besides that it needs memcpy and memset. Every function
 * is total: any bytes and any lengths get a result or a refusal. It answers 0 where it accepts, and else the refusal's number:
 *
 *   reading a yard sheet
 *    1  under 20 bytes; first offset neither 20 nor 25; with 20 letters not S P C U; with 25 under 25 bytes or letters not S P C U G; a
 *       body not beginning where the last ended, or the last not ending with the sheet
 *    2  positions not 1 to 256, or a P byte over 3
 *    3  S not 3 bytes, commands not 1 to 8, lag over 6, start absent or not own
 *    4  C not in threes, not rising by from and then command, from not own, command not below the number of commands, or to not yard
 *    5  U not in twos, over 4,096 moves, not rising by from and then to, from not yard, or to not own
 *   24  a G body that isn't one byte of 0 or 1; it is tested here, after 5 and before 6, wherever those are: "1 to 7" and "1 to 8" below
 *       have it in this place
 *    6  a position without a move
 *    7  more than LQ_MOST_PAIRS pairs
 *   solving and making
 *    8  the mask buffer or the rank buffer has fewer entries than there are pairs at the asked lag
 *    9  the output is shorter than 19 + first words + 2 * pairs, all at the asked lag; in posting, shorter than the table sheet, which has
 *       19 + first words + pairs bytes
 *   reading a winning sheet
 *   10  under 15 bytes, letters not S W T, or places wrong as in 1 with 15 for 20
 *   11  S not 4 bytes, commands or lag out of range, start over the highest position, more than LQ_MOST_PAIRS pairs, a wrong length of W
 *       or T, a W byte over 1, or a mask bit at the number of commands or above
 *   12  no first word is good: no W byte is 1
 *   the cabin (i is the state's turn, d the sheet's lag)
 *   13  the needed report has not been heard
 *   14  the needed report's pair allows no command: its mask is 0
 *   15  the turn is 1,000,000
 *   16  the reported position is over the highest position
 *   17  the reported index is below the window
 *   18  the reported index is over the window
 *   19  that index was heard with another position
 *   20  not a state: see the cabin below
 *   judging a table made elsewhere
 *   21  the sheets differ in start, number of commands, lag or highest position
 *   hearing a packet of reports
 *   22  more than LQ_MOST_OBSERVATIONS records
 *   posting a closing notice
 *   23  a position of the notice that doesn't exist
 *
 * Checks are made in the order in which each function names them. A refusal alters nothing that was lent.
 *
 * Words. A pair is a position and a word of d / 2 commands (halves are rounded down), so there are positions * commands ^ (d / 2) pairs,
 * numbered position by position and then by the word read in base `commands`, its oldest command leading. A first word has (d + 1) / 2
 * commands, so there are commands ^ ((d + 1) / 2) first words. At turn i the window is the indices from 2 * i - d (never below 0) to
 * 2 * i, and the needed report is that of index 2 * i - d, from the first turn on at which 2 * i is not below d; no report is needed
 * before.
 *
 * Gates. A yard sheet whose first offset is 25 has a fifth entry, G, with one byte. 0 says nothing: the sheet means what it would without
 * G. 1 says that the yard has holding gates, which do command 0 where they don't permit the command that arrives. Such a sheet means the
 * completed yard: at every own position that has a line for command 0, each command below their number that has no line there is permitted
 * and leads where command 0 does; a position without a line for command 0 stays as it is. All that is said below of a yard, of the
 * commands it permits and of its plays is said of the completed one. Checks 4 and 6 look at the lines as they are written. Tables and
 * cabins know nothing of gates: a table sheet is the same for a holding yard as for the completed one written out as lines.
 *
 * Memory. The library has no static data and needs no initialisation: a function reads and writes only what is lent to it and its stack.
 * So it is reentrant, and threads may call at the same time if none writes to what another was lent. (One sheet may be lent to all, a
 * cabin's state to one at a time.) A pointer is not null and valid for the length that goes with it, and what is lent for writing
 * overlaps nothing else that is lent. Measured on x86-64 over sheets with up to 16,384 pairs, lq_post goes 111,910 bytes deep into the
 * stack, lq_make 96,070, lq_solve 95,320, lq_judge 77,920, lq_read 23,010 and each other function fewer than 600: a stack of 128 KiB is
 * enough for any, and one of 4 KiB for the cabin's functions.
 */
#ifndef LOQUATQUOITS_H
#define LOQUATQUOITS_H

#include <stddef.h>
#include <stdint.h>

/*
 * Buffers of these sizes are enough for every sheet: entries of masks and of ranks, the bytes of W, and the bytes of output that refusal 9
 * asks for. Each is reached: 32 positions, 8 commands and lag 6 have 16,384 pairs and 512 first words.
 */
#define LQ_MOST_PAIRS 16384
#define LQ_MOST_FIRST_WORDS 512
#define LQ_MOST_OUTPUT (19 + LQ_MOST_FIRST_WORDS + 2 * LQ_MOST_PAIRS)

/* The bytes of a cabin's state. */
#define LQ_STATE 21

/* The most records of a packet. */
#define LQ_MOST_OBSERVATIONS 16

/* What lq_solve and lq_make leave in *losing where the asked lag wins. */
#define LQ_WINS 255

/* What lq_judge leaves in *verdict: yes, or what offends. */
#define LQ_SOUND 0
#define LQ_BAD_WORD 1
#define LQ_BAD_PAIR 2

#ifdef __cplusplus
extern "C" {
#endif

/*
 * Reads a yard sheet: refusals 1 to 7. Accepted: header holds start, number of commands and lag. places holds the offset and the length
 * of each body in the sheet: S at 0 and 1, P at 2 and 3, C at 4 and 5, U at 6 and 7. *reached is the number of positions that lie on some
 * play from the start, the start included, safe or not and whichever commands are played: under the number of positions where part of the
 * yard is cut off. *holding is 1 where the yard has holding gates, and 0 where G is 0 or there is none. A refusal leaves all four.
 */
uint8_t lq_read(const uint8_t *sheet, size_t sheet_len, uint8_t header[3], size_t places[8], size_t *reached, uint8_t *holding);

/*
 * Solves a yard sheet: refusals 1 to 7, then 8. Accepted: *losing is LQ_WINS, and both buffers hold the entries for the asked lag, one for
 * each pair by its number; or *losing is the least lag at which no strategy wins, and they hold the entries for that lag. A mask has
 * bit c set for each allowed command c; a rank is the round in which the pair fell, 0 for none. Entries beyond are as they were. *reached
 * is as in reading, winning or losing; a refusal leaves it.
 */
uint8_t lq_solve(const uint8_t *sheet, size_t sheet_len, uint8_t *masks, size_t masks_len, uint16_t *ranks, size_t ranks_len,
                 uint8_t *losing, size_t *reached);

/*
 * Makes the sheet of a table: refusals 1 to 8 as in solving, then 9. Accepted: the buffers as in solving; *losing is LQ_WINS and out holds
 * a winning sheet (S, W, T), or *losing is the losing lag and out holds a losing sheet (S, R); *size is its length. Bytes beyond are as
 * they were. *reached is as in reading, winning or losing; a refusal leaves it.
 */
uint8_t lq_make(const uint8_t *sheet, size_t sheet_len, uint8_t *masks, size_t masks_len, uint16_t *ranks, size_t ranks_len, uint8_t *out,
                size_t out_len, size_t *size, uint8_t *losing, size_t *reached);

/*
 * Reads a winning sheet: refusals 10 to 12. Accepted: place holds the offset and the length of the T body, the masks by pair number, in the
 * caller's sheet.
 */
uint8_t lq_masks(const uint8_t *sheet, size_t sheet_len, size_t place[2]);

/*
 * Judges the table of a winning sheet, whoever made it, for a yard: refusals 1 to 7 of the yard sheet, then 10 to 12 of the winning sheet,
 * then 21. The pairs that have a mask (a mask that is not 0) count as kept and all others as fallen. Accepted: *verdict is LQ_SOUND and
 * *place 0 exactly if every flagged first word is good, every pair with a mask has the right side and a safe position, and no command in
 * any mask is spoilt. Else *verdict is LQ_BAD_WORD and *place the number of the first flagged word that is not good; or, if no word
 * offends, LQ_BAD_PAIR and the number of the first pair that does. A refusal leaves both, and neither sheet is written to.
 *
 * The right side is own for an even lag and the yard's for an odd one. A command is spoilt at a pair if, once it joins the word, the oldest
 * command is not permitted where it is played, or if some choice of the yard passes an unsafe position or leads to a fallen pair. A first
 * word is good if, for an even lag, the start with that word is kept; for an odd lag, the start is safe and permits the first command, and
 * its target with the remaining commands is kept.
 *
 * A yes means that any choice out of the table wins at its lag, with whatever memory: a flagged first word, then each time a command in the
 * mask of the needed report's pair. The cabin may be opened on it as on ours. The table need not allow everything, but whatever it flags
 * and allows, ours does too. A winning sheet from lq_make always gets a yes.
 */
uint8_t lq_judge(const uint8_t *sheet, size_t sheet_len, const uint8_t *table, size_t table_len, uint8_t *verdict, size_t *place);

/*
 * Posts a closing notice, a list of positions that count as unsafe from now on, on the table of a winning sheet, whoever made it: refusals
 * 1 to 7 of the yard sheet, 10 and 11 of the winning sheet, then 21, 23 and 9. 12 is not among them: a sheet without a good first word is
 * read too. The notice may have any length, repeats and no position at all. Accepted: out holds the sheet of the largest part of the given
 * table that the rule of lq_judge allows with those positions unsafe: pairs' masks, commands and first words are only taken away, and
 * every table inside the given one that the rule allows lies inside this one. *size is its length, that of the given sheet; bytes beyond
 * are as they were. *remains is 1 where a first word remains; else it is 0, and W is all 0. A refusal leaves all three as they were.
 *
 * On a sheet from lq_make it is what lq_make would give for the yard with those positions unsafe, at that lag, also where that yard loses
 * there. Where a first word remains, lq_judge says yes to the sheet, and a cabin that is opened on it never comes to a closed position.
 *
 * Notices may be posted one after another, each on the sheet that the one before left, with a first word or none: the sheet, *size and
 * *remains are those of one notice with all their positions, in whatever order they come and however often they name a position. A notice
 * that names no other positions than those before it, an empty one too, leaves such a sheet as it is, and so does an empty one a winning
 * sheet from lq_make.
 */
uint8_t lq_post(const uint8_t *sheet, size_t sheet_len, const uint8_t *table, size_t table_len, const uint8_t *notice, size_t notice_len,
                uint8_t *out, size_t out_len, size_t *size, uint8_t *remains);

/*
 * The cabin. Its state is LQ_STATE bytes that the caller lends:
 *
 *   0 to 3       the turn, low byte first
 *   4 to 6       the commands of the last three turns, the newest first; what was not given is 0
 *   7 + 2k       for k from 0 to 6: 0 where no report of index 2 * turn - k was heard; a cabin writes 1 where one was, and any other
 *                byte that is not 0 counts as 1
 *   8 + 2k       its position
 *
 * Any bytes are a state, but for three reasons to refuse them with 20: the turn is over 1,000,000; one of the newest d / 2 commands (of all
 * that were given, before turn d / 2) is not below the number of commands; a position heard in the window is over the highest. So states
 * that no cabin comes to are accepted too. Every call reads the winning sheet and refuses 10 to 12 first; a refusal leaves the state as
 * it was.
 */

/* Opens a cabin: refusals 10 to 12. Accepted: turn 0, no command given, no report heard. */
uint8_t lq_open(const uint8_t *sheet, size_t sheet_len, uint8_t state[LQ_STATE]);

/*
 * Hears a report, the position at an index of the play: refusals 10 to 12, 20, then 16 to 19. Accepted: the two bytes of the index hold the
 * report, and no other byte changes; a repeat of a report, which is accepted, changes none at all.
 */
uint8_t lq_observe(const uint8_t *sheet, size_t sheet_len, uint8_t state[LQ_STATE], size_t index, uint8_t position);

/* The record of a report: the position at an index of the play. */
typedef struct {
    size_t index;
    uint8_t position;
} lq_observation;

/* What hearing a packet answers: 0 or the refusal's number, and the refused record's place, from 0. The place goes with 16 to 19 only. */
typedef struct {
    uint8_t refusal;
    size_t place;
} lq_heard;

/*
 * Hears a packet of count reports: refusals 10 to 12, 20, then 22 before any record is looked at, then 16 to 19 by record. It is accepted
 * exactly if lq_observe would accept each record, first to last, and the state then has the very bytes that those calls leave. Otherwise
 * nothing is heard: all bytes of the state are as they were, also where records before the refused one could be heard, and the answer has
 * the first refusal. With 16 to 19 comes the place of the refused record; without them the place is 0 and says nothing. An empty packet
 * is accepted where 10 to 12 and 20 don't refuse it, and changes nothing. Any rearrangement of an accepted packet is accepted and leaves
 * the same bytes.
 */
lq_heard lq_observe_all(const uint8_t *sheet, size_t sheet_len, uint8_t state[LQ_STATE], const lq_observation *observations, size_t count);

/*
 * Gives the command of the state's turn: refusals 10 to 12, 20, then 15, 13 and 14. Accepted: *action is the command, the turn goes up by
 * one, and reports below the new window are dropped. Reports fresher than the needed one have no say.
 */
uint8_t lq_act(const uint8_t *sheet, size_t sheet_len, uint8_t state[LQ_STATE], uint8_t *action);

#ifdef __cplusplus
}
#endif

#endif
