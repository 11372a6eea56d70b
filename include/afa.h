/* The C interface of the proved checker for alternating finite automata.
   docs/FORMAT.md has the image byte by byte, the numbers that the functions
   answer, and what a run leaves in each table.

   Every input is answered. No function keeps what it is lent, and none reads
   or writes outside it, if the caller sees to four things:
   - A pointer is good for the length beside it, which counts elements. It may
     be null where that length is 0. head, length, counts, record and found are
     never null.
   - Tables are aligned as their type, head, length, counts, record and found
     too.
   - Tables must not overlap: what a function may write (head, room, length,
     masks, levels, entered, cases, symbols, counts, record, found; afa_why
     writes found alone) shares no byte with anything else that it is lent in
     the same call.
   - The stack has room for the call: 550 KB for afa_print_run, 80 KB for
     afa_run and afa_step, 1 KB for each of the others. */
#ifndef AFA_H
#define AFA_H

#include <stddef.h>
#include <stdint.h>

#ifdef __cplusplus
extern "C" {
#endif

/* Reads an image. 0, and n, k, m, I and F in head; or the number under which
   the image is refused (20 to 27), and head as it was. */
uint64_t afa_read(const uint8_t *image, size_t image_len, uint64_t head[5]);

/* Tests a word, one symbol a byte. 1 if it is accepted, 0 if not; the number
   under which the image is refused (20 to 27); or 32 if a symbol is k or
   above. */
uint64_t afa_accepts(const uint8_t *image, size_t image_len,
                     const uint8_t *word, size_t word_len);

/* Prints an accepting run over a word into room, from its first place on: a
   line with the initial case, then for each event one with the symbol and the
   case reached, in decimal; each state picks its first row, in the image's
   order, that leaves the rest of the word accepted. 1, and length has the
   number of bytes written; the bytes behind them stay. On any other number
   nothing is written and length has 0: the number under which the image is
   refused (20 to 27), 32 if a symbol is k or above, 0 if the word is not
   accepted, 35 if the room is too short. A room of 21 bytes and 24 for each
   event of the word is always long enough. */
uint64_t afa_print_run(const uint8_t *image, size_t image_len,
                       const uint8_t *word, size_t word_len,
                       uint8_t *room, size_t room_len, uint64_t length[1]);

/* Decides whether any word is accepted, in two rooms that the caller lends:
   masks, levels and entered for blockers, cases and symbols for pending cases
   and the word. The tables of a room have one length. 0 is empty, and masks
   begin with the frame; 1 is nonempty, and symbols begin with a shortest word,
   whose length is the level; 2, 3 and 4 are a run that stopped for want of
   steps, blocker room or word room: after 2 and 3 no accepted word is shorter
   than the level, after 4 none is as long as cases has places, or shorter; 20
   to 27, 30, 31, 36 and 37 are refusals, and leave every table as it was.
   edition is 1 or 2, any other is refused under 36. They differ only where the
   initial case is final already, so that the empty word is accepted: 1 answers
   1 with that word; 2 answers 5, with 0 in counts and in every place of the
   tables. way is 0 or 1, any other is refused under 37. It says how blockers
   are grown where no hint is taken: 0 state by state, 1 through a hitting set.
   Steps and blockers differ, verdicts and the lengths of words do not. entered
   has for each blocker held the count of steps including the block that made
   it, and 0 after them. counts has steps, level, blockers held and hints
   accepted, all 0 where refused. */
uint64_t afa_run(const uint8_t *image, size_t image_len,
                 uint64_t *masks, size_t masks_len,
                 uint32_t *levels, size_t levels_len,
                 uint64_t *entered, size_t entered_len,
                 uint64_t *cases, size_t cases_len,
                 uint8_t *symbols, size_t symbols_len,
                 const uint64_t *hints, size_t hints_len,
                 uint64_t allowance, uint64_t edition, uint64_t way,
                 uint64_t counts[4]);

/* Begins a run that afa_step then makes one step at a time. What is lent is
   what afa_run is lent, without an allowance; record has eight places: answer,
   steps, level, open, blockers held, pending, blocks made, hints accepted. A
   begin that is refused answers its number as afa_run would (20 to 27, 30, 31,
   36, 37), leaves every table as it was, and record has that number and seven
   zeros. Otherwise every place of the tables becomes 0, and the answer, which
   record has too, is 6 for a run that works; or, where the initial case is
   final already, 1 in edition 1 and 5 in edition 2. */
uint64_t afa_begin(const uint8_t *image, size_t image_len,
                   uint64_t *masks, size_t masks_len,
                   uint32_t *levels, size_t levels_len,
                   uint64_t *entered, size_t entered_len,
                   uint64_t *cases, size_t cases_len,
                   uint8_t *symbols, size_t symbols_len,
                   const uint64_t *hints, size_t hints_len,
                   uint64_t edition, uint64_t way,
                   uint64_t record[8]);

/* Makes one step of the run that record and the tables hold, as the call
   before left them. Everything is checked again, as afa_begin does; then
   record: 33 if its answer is above 6, more blockers are held than masks has
   places, its level is above the places of cases, more is pending than its
   level, or more blocks were made or hints accepted than steps. A refused step
   answers its number and changes nothing, record included. A record whose
   answer is 0 to 5 has finished: the step answers that again and changes
   nothing. With 6 one step is made, with the hints, the allowance and the way
   of this call; 2 if the steps made have reached or passed the allowance. Then
   record and tables have the new state, and the answer is record's: 6, or 0 to
   4 where the run has ended and the tables hold what afa_run leaves in them.
   edition is checked, and that of the begin holds. Steps from an afa_begin on,
   on one image and in the same tables, that are all given the same are the run
   that afa_run makes. If hints, ways or allowances differ from step to step,
   verdict and length of the word are still those of afa_run; 2, 3 and 4 have
   shown what they show after afa_run; and while the answer is 6, no accepted
   word is shorter than record's level. Any record that is not refused is
   stepped, made by afa_begin or not, for the places in use as they stand: the
   first of masks, levels and entered, as many as are held, and the first of
   cases and symbols, as many as are pending. Places that a step frees become
   0, and all others stay. open is 0 or 1, any other number is read as 1. */
uint64_t afa_step(const uint8_t *image, size_t image_len,
                  uint64_t *masks, size_t masks_len,
                  uint32_t *levels, size_t levels_len,
                  uint64_t *entered, size_t entered_len,
                  uint64_t *cases, size_t cases_len,
                  uint8_t *symbols, size_t symbols_len,
                  const uint64_t *hints, size_t hints_len,
                  uint64_t allowance, uint64_t edition, uint64_t way,
                  uint64_t record[8]);

/* Tells why a case is blocked at a level. 1 if it is blocked by a blocker, and
   found has the place, from 0, of the first in table order that covers it (of
   the level asked or more, and with the case as a subset) and that blocker's
   own level; 2 if the level is 0 and the case does not contain the initial
   case, and found has the lowest initial state absent from it, and 0; 0 if it
   is not blocked there, and found has 0 and 0. Of masks and levels of unlike
   length the shorter says how many blockers there are: after a run, lend as
   many of each as are held. No input is refused. A level above 2^32 - 1 is
   above every blocker's. */
uint64_t afa_why(uint64_t initial,
                 const uint64_t *masks, size_t masks_len,
                 const uint32_t *levels, size_t levels_len,
                 uint64_t level, uint64_t mask, uint64_t found[2]);

#ifdef __cplusplus
}
#endif

#endif
