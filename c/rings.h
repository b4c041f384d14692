/*
 * The ring register: worst-case distances of a register of cards, by the tables and Equation C-1 of the EPA's guidance,
 * those of a day and of the year, registers from comma lines and back, the likely distance of a card at a rate that is
 * supplied, whether a stored answer is old, and cards added to a register, replaced and withdrawn. Eleven calls, proved in
 * crates/rings_c; link crates/rings_c/out/librings_c.a (written by `rt lib` there).
 */
#ifndef RINGS_H
#define RINGS_H

#include <stddef.h>
#include <stdint.h>

#ifdef __cplusplus
extern "C" {
#endif

#define RINGS_HEADER_LEN 7                                                                   /* bytes before the first card in version 1 */
#define RINGS_STORED_HEADER_LEN 11                                                           /* the same in versions 2 and 3 */
#define RINGS_CARD_LEN 24                                                                    /* bytes of a card in versions 1 and 2 */
#define RINGS_SEASONAL_CARD_LEN 28                                                           /* the same in version 3 */
#define RINGS_ANSWER_LEN 16                                                                  /* bytes of a card's answer */
#define RINGS_MAX_CARDS 2000                                                                 /* cards of the longest register */
#define RINGS_MAX_LEN (RINGS_STORED_HEADER_LEN + RINGS_MAX_CARDS * RINGS_SEASONAL_CARD_LEN)  /* its bytes, 56,011 */
#define RINGS_MAX_LINE 200                                                                   /* bytes of a comma line, read */
#define RINGS_MAX_STRICT_LINE 59                                                             /* written, with its line feed */
#define RINGS_MAX_STRICT_LEN (RINGS_MAX_CARDS * RINGS_MAX_STRICT_LINE)                       /* bytes of the lines of a register */
#define RINGS_MAX_RATE 1000000000                                                            /* thousandths that may be supplied */
#define RINGS_LAST_DAY 366                                                                   /* of a year, the first is 1 */

/*
 * The header of a register, each number big-endian: 4 bytes for its length, 1 for its version, 2 for how many cards.
 * Version 1 has the cards behind these. Versions 2 and 3 have first the distances of the farthest cards that rings_answer
 * gives, which are those of the year, in hundredths of a mile, 2 bytes for toxic and 2 for flammable, zero for none. All
 * three versions are taken by every call that reads a register, but for rings_write_lines; rings_read_lines makes version 1,
 * and an edit version 3.
 */

/*
 * The season of a card. In version 3 a card has 28 bytes: the 24 that it has in versions 1 and 2, and behind them its first
 * and its last day, each a big-endian number of 2 bytes, 1 to RINGS_LAST_DAY, both included. A first day after the last
 * runs across New Year: 366 and 1 are two days, 152 and 151 all of them. On these days the card is in force. A card of
 * version 1 or 2 is in force on every day, as from 1 to 366. No call but rings_day and rings_year looks at seasons once
 * they have passed their check.
 */

/*
 * The state of a card, its byte 1: 1 gas, 2 gas liquefied under pressure, 3 gas liquefied by refrigeration alone,
 * 4 liquid, 5 solution. A solution is one in water of a substance of Exhibit B-3, or oleum. Bytes 18 and 19 are in state 4
 * the temperature, signed tenths of a degree Celsius; in state 5 the concentration, unsigned tenths of a percent by weight;
 * in the others zero. The pounds of a solution are those of the whole, and it is at 25 degrees.
 */

/*
 * The containment of a toxic card, its byte 3: 0 open, 1 dike, 2 building, 3 shed with doors, which is a building without
 * the factor. Bytes 12 to 15 are in 1 the diked area, in 2 and 3 the floor, both in square feet, and in 0 zero; bytes 16
 * and 17 are in 1 the wall, in hundredths of a foot, in the others zero. A pool covers no more than the floor of 2 or 3.
 * From 2 a gas leaves at 0.55 of its rate in the open and a pool's vapor at a tenth; from 3 nothing lowers the rate.
 */

/*
 * Why a register, a text or a card is sent back. 1 to 4, 13, 19, 20 and the 21 of rings_day mean no card, and their place is
 * 0; the place of 12 is the line's number, counted from 1. A register is checked in the order 1, 2, 3, 4, its cards in turn,
 * and last 3 once more, for what versions 2 and 3 store; a card in the order 5, 6, 7, 8, 9, 14, 15 (or 16 in state 5), 21,
 * 10, 11. 17 and 18 are of rings_likely alone, 19 and 20 of edits.
 */
enum rings_refusal {
    RINGS_LENGTH = 1,         /* under 7 bytes, or the length field is not register_len; in an edit, the length field is
                                 under 7 or past the buffer */
    RINGS_VERSION = 2,        /* the version is not 1, 2 or 3; for rings_write_lines, it is not 1 */
    RINGS_COUNT = 3,          /* over 2,000 cards, or a length that is not 7 + 24 x cards, in version 2 11 + 24 x cards, in
                                 version 3 11 + 28 x cards; or, once every card has passed, a stored distance that is not
                                 the farthest card's */
    RINGS_BUFFER = 4,         /* answers_len is under 16 x cards */
    RINGS_NUMBER = 5,         /* a card number is zero or not above the last */
    RINGS_FORM = 6,           /* bytes 0 to 3 are unlisted, or a must-be-zero field is filled */
    RINGS_UNLISTED = 7,       /* the CAS number is not listed for the kind, or in state 5 not in Exhibit B-3 */
    RINGS_QUANTITY = 8,       /* pounds not 1 to 10,000,000, for either kind */
    RINGS_AREA = 9,           /* area out of range */
    RINGS_MISMATCH = 10,      /* state, substance and containment do not go together, or the exhibit has no data */
    RINGS_BEYOND = 11,        /* beyond the table; never of a flammable card, which reads none */
    RINGS_LINE = 12,          /* a line is not eleven well-formed fields, or has over 200 bytes */
    RINGS_ROOM = 13,          /* the buffer is too small for what has to be written, or there are over 2,000 lines */
    RINGS_WALL = 14,          /* wall out of range */
    RINGS_TEMPERATURE = 15,   /* temperature out of range */
    RINGS_CONCENTRATION = 16, /* concentration zero, or above the highest that is printed for the substance */
    RINGS_RATE = 17,          /* the supplied rate is zero or above RINGS_MAX_RATE */
    RINGS_DURATION = 18,      /* the supplied duration is zero */
    RINGS_PRESENCE = 19,      /* no card of that number to replace or withdraw, or one there already to add */
    RINGS_CAPACITY = 20,      /* the buffer cannot hold the register as it would then be, 11 + 28 x cards, or it would pass
                                 2,000 cards */
    RINGS_DAY = 21            /* a day that is not 1 to RINGS_LAST_DAY: the first or the last of a card, of either kind, or
                                 the one that rings_day is asked for */
};

/*
 * How a likely distance was found: it is printed, at a row's rate, for a range or below the first row; it lies between
 * those of two rows; or it is 25 miles, beyond which the tables tell nothing apart.
 */
enum rings_found {
    RINGS_PRINTED = 1,
    RINGS_INTERPOLATED = 2,
    RINGS_LIMIT = 3
};

/*
 * Answers a register.
 *
 * register_ptr   the register's first byte; it is only read.
 * register_len   its length in bytes; no length is too long or too short to be handed in.
 * answers_ptr    the answer buffer's first byte. A card's answer is 16 bytes, in the order of the cards, each number
 *                big-endian: card number 4, route 1, table 1, thousandths of a pound per minute 8, hundredths of a
 *                mile 2. Route 3 is a blast, whose table and rate are 0: its distance comes from Equation C-1. A rate by
 *                route 1 is exact; one by route 2 is rounded up, and below the exact one plus 0.014 x LF x TCF (a tenth
 *                of that in a building) plus 0.001 pounds per minute. Bytes beyond the last answer are left alone.
 * answers_len    the buffer's length in bytes: 16 x cards, or more.
 * toxic          set to the farthest toxic card: 0 for none, else card number x 65,536 + hundredths of a mile.
 * flammable      the same of the farthest flammable card.
 *
 * Returns 0 if the register is accepted. A refusal is its number x 2^32 + the card's place, counted from 0, and changes
 * neither a byte of the buffer nor a word.
 *
 * No pointer may be null, not even with a length of 0. The buffer and the two words overlap neither each other nor the
 * register. None is kept after the call, which holds no state: threads may call at once, each with its own buffers.
 */
uint64_t rings_answer(const uint8_t *register_ptr, size_t register_len,
                      uint8_t *answers_ptr, size_t answers_len,
                      uint64_t *toxic, uint64_t *flammable);

/*
 * The leaders of a register after its first cards: the farthest toxic and the farthest flammable card among those, the
 * earlier one on a tie.
 *
 * register_ptr   the register's first byte; it is only read.
 * register_len   its length in bytes; no length is too long or too short to be handed in.
 * cards          how many cards, counted from the first. After 0 there are no leaders; at the register's count and
 *                beyond it, up to SIZE_MAX, they are the farthest that rings_answer gives.
 * toxic          set to the farthest toxic card among them: 0 for none, else card number x 65,536 + hundredths of a mile.
 * flammable      the same of the farthest flammable card.
 *
 * Returns 0 if the register is accepted. A refusal is the one that rings_answer gives for the register, but never
 * RINGS_BUFFER, wherever its card stands, behind the first cards too: its number x 2^32 + the card's place, counted from 0.
 * It changes neither word.
 *
 * For pointers, overlaps and threads the rules of rings_answer hold.
 */
uint64_t rings_leaders_after(const uint8_t *register_ptr, size_t register_len,
                             size_t cards,
                             uint64_t *toxic, uint64_t *flammable);

/*
 * The farthest toxic and the farthest flammable card of a register among those in force on a day, the earlier one on a tie.
 *
 * register_ptr   the register's first byte; it is only read.
 * register_len   its length in bytes; no length is too long or too short to be handed in.
 * day            1 to RINGS_LAST_DAY; any number may be handed in.
 * toxic          set to the farthest toxic card of that day: 0 for none, else card number x 65,536 + hundredths of a mile.
 * flammable      the same of the farthest flammable card.
 *
 * Returns 0 if the register is accepted and there is such a day. A refusal is its number x 2^32 + the card's place, counted
 * from 0: the one that rings_answer gives for the register, but never RINGS_BUFFER; then RINGS_DAY with place 0. It changes
 * neither word.
 *
 * For pointers, overlaps and threads the rules of rings_answer hold.
 */
uint64_t rings_day(const uint8_t *register_ptr, size_t register_len,
                   uint32_t day,
                   uint64_t *toxic, uint64_t *flammable);

/*
 * The farthest toxic and the farthest flammable card of a register in a year, which are those that rings_answer gives, and
 * for each the earliest day on which some card in force has its distance.
 *
 * register_ptr   the register's first byte; it is only read.
 * register_len   its length in bytes; no length is too long or too short to be handed in.
 * toxic          set to the farthest toxic card: 0 for none, else card number x 65,536 + hundredths of a mile.
 * flammable      the same of the farthest flammable card.
 * toxic_day      set to the first day whose farthest toxic card has that distance, 1 to RINGS_LAST_DAY: 0 for none. It need
 *                not be a day of the card that is told, since an equally far one may be in force before.
 * flammable_day  the same of flammable cards.
 *
 * Returns 0 if the register is accepted. A refusal is the one that rings_answer gives for the register, but never
 * RINGS_BUFFER: its number x 2^32 + the card's place, counted from 0. It changes none of the four words.
 *
 * For pointers, overlaps and threads the rules of rings_answer hold, of all four words.
 */
uint64_t rings_year(const uint8_t *register_ptr, size_t register_len,
                    uint64_t *toxic, uint64_t *flammable,
                    uint64_t *toxic_day, uint64_t *flammable_day);

/*
 * Reads comma lines into a register of version 1.
 *
 * text_ptr       the text's first byte; it is only read. A line is a card: kind, state, ground, containment, CAS number
 *                with hyphens, pounds, area, wall, temperature, card number and a remark that is dropped, with commas
 *                between them; then a line feed, which the last line may do without. Spaces around a field and zeros
 *                before a number are allowed. Where the state is 5, of whatever kind the card is, the temperature's place
 *                has a concentration of 0 to 65,535 and no minus. No bytes are no lines.
 * text_len       its length in bytes; no length is too long or too short to be handed in.
 * register_ptr   the first byte of the buffer for the register. Bytes behind the register are left alone.
 * register_len   the buffer's length in bytes: 7 + 24 x lines, or more; RINGS_MAX_LEN is enough for any text.
 * at             set in every case: to the register's length in bytes, or to the refusal's place.
 *
 * Returns 0 if the lines are read. The form of the lines is looked at and nothing else: whether the register is accepted
 * is for rings_answer to say. A refusal is its number, RINGS_LINE or RINGS_ROOM, and changes no byte of the buffer.
 * RINGS_LINE comes first, for any line, and its place is that of the first such line, counted from 1.
 *
 * No pointer may be null, not even with a length of 0. The buffer and the word overlap neither each other nor the text.
 * None is kept after the call, which holds no state: threads may call at once, each with its own buffers.
 */
uint64_t rings_read_lines(const uint8_t *text_ptr, size_t text_len,
                          uint8_t *register_ptr, size_t register_len,
                          uint64_t *at);

/*
 * Writes an accepted register of version 1 as comma lines in their one strict form: no spaces, no zeros before a number, an
 * empty remark, a line feed behind every line. Read again they give the same register.
 *
 * register_ptr   the register's first byte; it is only read. Versions 2 and 3 are RINGS_VERSION, right after RINGS_LENGTH.
 * register_len   its length in bytes; no length is too long or too short to be handed in.
 * text_ptr       the first byte of the buffer for the text. Bytes behind the text are left alone.
 * text_len       the buffer's length in bytes; RINGS_MAX_STRICT_LEN is enough for any register.
 * at             set in every case: to the text's length in bytes, or to the refusal's place.
 *
 * Returns 0 if the lines are written. A refusal is its number and changes no byte of the buffer: RINGS_LENGTH, then
 * RINGS_VERSION, then those that rings_answer gives for the register, but never RINGS_BUFFER, with the card's place, counted
 * from 0; then RINGS_ROOM.
 *
 * For pointers, overlaps and threads the rules of rings_read_lines hold.
 */
uint64_t rings_write_lines(const uint8_t *register_ptr, size_t register_len,
                           uint8_t *text_ptr, size_t text_len,
                           uint64_t *at);

/*
 * The likely distance of a toxic card, from the guidance's tables of alternative scenarios, at a rate and a duration that
 * are supplied. What the card says of its quantity, its containment and its temperature is checked, but does not change it.
 *
 * card           the first of the card's 24 bytes, as they stand in a register, without a season; they are only read. Its
 *                number may be anything, zero too.
 * rate           thousandths of a pound per minute, 1 to RINGS_MAX_RATE.
 * minutes        how long it lasts, 1 or more: up to 10 minutes select a 10-minute table, more a 60-minute one. A
 *                solution always reads a 10-minute table, and the tables of single substances hold for any duration.
 * table          set to the number of the table that was read, 14 to 25.
 * found          set to how the distance was found in it, one of rings_found.
 * hundredths     set to hundredths of a mile, above 0 and at most 2,500, which is 25 miles and stands with RINGS_LIMIT
 *                alone. Between two rows it is d0 + (d1 - d0) * ((r - r0) / (r1 - r0)), each operation rounded by itself.
 *
 * Returns 0 if there is one. A refusal is its number x 2^32, since its place is always 0, and changes none of the three
 * words: RINGS_RATE, then RINGS_DURATION; then RINGS_FORM for a card that is not toxic, whatever else is wrong with it; then
 * those that rings_answer gives for the card, in their order, but for RINGS_NUMBER and RINGS_BEYOND; last RINGS_BEYOND
 * where the rate is above the last row of the table that is read here, unless its last entry is 25 miles.
 *
 * No pointer may be null. The three words overlap neither each other nor the card. None is kept after the call, which
 * holds no state: threads may call at once, each with its own words.
 */
uint64_t rings_likely(const uint8_t *card, uint64_t rate, uint32_t minutes,
                      uint64_t *table, uint64_t *found, double *hundredths);

/*
 * Tells whether a stored answer is old. Blasts were once read from Table 13, which Equation C-1 has replaced; no answer that
 * rings_answer gives has that table any more. An old answer is to be asked for anew.
 *
 * answer         the first of the answer's 16 bytes, as rings_answer wrote them; they are only read.
 *
 * Returns 1 if the answer is old, which is exactly if its table, byte 5, is 13; else 0. No other byte counts.
 *
 * The pointer may not be null and is not kept after the call, which holds no state: threads may call at once.
 */
uint64_t rings_is_old(const uint8_t *answer);

/*
 * Adds a card to the register that a lent buffer starts with, at its place by number. The register is then of version 3,
 * whichever it was, with the distances of its farthest cards in the header; the other cards keep their bytes, and those of
 * version 1 or 2 gain a season behind them, 1 to 366.
 *
 * buffer_ptr     the buffer's first byte. The register starts there, and its length field says where it ends; bytes behind
 *                it are not looked at, and after an accepted edit they are zeros up to the buffer's end.
 * buffer_len     the buffer's length in bytes; no length is too long or too short to be handed in. RINGS_MAX_LEN is enough
 *                for any edit.
 * card           the first of the card's 28 bytes; they are only read. Its number is bytes 20 to 23, its season the last
 *                four.
 * at             set in every case: to the register's length in bytes as it now is, or to the refusal's place.
 *
 * Returns 0 if the card is added. A refusal is its number and changes no byte of the buffer, those behind the register
 * included. First come those of the old register: RINGS_LENGTH where the length field is under 7 or past the buffer, then
 * those that rings_answer gives, but never RINGS_BUFFER, with the old card's place, counted from 0. Then RINGS_PRESENCE, then
 * RINGS_CAPACITY. Last the new card's own, in their order, with its place among the cards as they would then be; its
 * RINGS_NUMBER means the number zero.
 *
 * No pointer may be null, not even with a length of 0. The buffer and the word overlap neither each other nor the card.
 * None is kept after the call, which holds no state: threads may call at once, each with its own buffer and word.
 */
uint64_t rings_add(uint8_t *buffer_ptr, size_t buffer_len,
                   const uint8_t *card,
                   uint64_t *at);

/*
 * Replaces the card that has the same number as the one that is handed in. All else of it may change; the same bytes once
 * more are an edit like any other.
 *
 * The rest is as in rings_add. A register of version 1 grows by four bytes and four a card, one of version 2 by four a card,
 * so that this may be RINGS_CAPACITY too.
 */
uint64_t rings_replace(uint8_t *buffer_ptr, size_t buffer_len,
                       const uint8_t *card,
                       uint64_t *at);

/*
 * Withdraws the card of a number. Without its last card a register has 11 bytes, no cards and no distances.
 *
 * number         the card's number; any may be handed in, zero too, which no card has.
 *
 * The rest is as in rings_add, without a new card. From seven cards of version 1 on, or eight of version 2, even this may be
 * RINGS_CAPACITY, since the other cards grow.
 */
uint64_t rings_withdraw(uint8_t *buffer_ptr, size_t buffer_len,
                        uint32_t number,
                        uint64_t *at);

#ifdef __cplusplus
}
#endif

#endif
