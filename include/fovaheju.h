/* The check of clockless stages, for C. Link target/staticlib/libfovaheju.a, which `scripts/build fovaheju` writes for
   x86-64; of the C library it uses memcpy and memset only.

   Each call takes byte strings, and lists of numbers, as a pointer and then a length, which counts bytes, or numbers of a
   list. They may be any; that they are there (a list as its type is aligned), that nothing else writes them during the
   call, and that a row, a buffer or a list that is written overlaps nothing else is all that is asked. Each call
   returns, keeps nothing for later calls, and touches no other memory but its answer and the stack: at most 64
   kilobytes of it (measured: report 60, join 58, witness 46, check 43, read a text 24, play 20, run by keys 20, settled
   row 18, write a text 18, make a stage 6, draw a reference 1, the next stage less than 1). So calls may run at the same time in several threads, each with a
   row, list or buffers of its own.

   A pointer that goes with the length 0 is not read through. What is proved is about pointers that are not null; with
   the length 0 any other address will do. A null pointer with the length 0 was tried too: it counts as an empty file,
   or as an empty row or buffer. */

#ifndef FOVAHEJU_H
#define FOVAHEJU_H

#include <stddef.h>
#include <stdint.h>

#ifdef __cplusplus
extern "C" {
#endif

/* The verdict: four numbers. All are 0 where the call accepts. */
struct fovaheju_verdict {
    /* What was found: 0 accepted, 1 to 9 a file that cannot be read, 10 and 11 counts that differ, 12 a loop,
       13 a wrong output, 14 not input-complete, 15 not observable, 16 and 17 a row or keys that cannot be taken, 18 and 19 a
       care word that cannot be taken, 20 not input-complete in its fall, 21 not observable in its fall, 22 parts
       that do not fit, 23 an answer that the second part does not care for, 24 a buffer that is too short, 25 a signal
       that leads to no output, 26 too many gates needed, 27 a buffer that is too short for a stage, 28 a gate of a
       retired kind, 29 a line of a text that has another form, or a care list, which has no text, 30 a name in a text that
       nobody drives, 31 a name that is driven again, or an output that would give a net a second name, 32 a gate that
       never rises, 33 a register that reaches itself, has a loop of C-elements behind its Ki or is fed from unequal
       levels, 34 a Ko that is missing behind a Ki, 35 a net that may not stand behind a Ki, 36 to 38 no next small
       stage, 39 to 41 no drawn reference.
       docs/VERDICTS.md has the list. */
    uint64_t number;
    /* In which file: 1 the stage or a stage's text, 2 the reference, 3 the row, the keys or a buffer, 0 none. Of a join 1 and 2 are
       the first part's, 4 and 5 the second's; 3 is none in the second part, and for 24 a buffer. */
    uint64_t file;
    /* At which place: a byte of the file for 1 to 9, 18 and 19, the stage's count for 10 and 11, a gate for 12, 15, 21,
       28 and 32, an output for 13, an input for 14, 17 and 20, a register for 33 to 35, counted by themselves, the length
       of the row or of the keys for 16, the first part's outputs for 22, a
       signal for 25, how many gates are needed for 26, a line of the text for 29 to 31, counted from 0, where a text is
       written an output for 31. */
    uint64_t at;
    /* In which input word for 13 to 15, 20, 21 and 23, input 0 being the highest bit of as many bits as the stage has
       inputs, or the lowest where `order` is not 0 (of a join the part's stage, for 23 the first); the reference's
       count for 10 and 11; the second part's inputs for 22; else 0. */
    uint64_t word;
};

/* How words are counted and named, in an answer and by a caller, the parameter `order`: 0 has input 0 as the highest bit of a word, of
   as many bits as the stage has inputs; every other number has it as the lowest, so that input i is bit i. The word
   that a verdict names is the least in this order, and a report's words rise in it. Acceptance is the same either way.
   Care words in files have input 0 as the lowest bit always. */

/* The verdict on a stage file and a reference file, given as their bytes. The numbers are 0 to 15,
   18 to 21, 28 and 32 to 35. Of all calls this one alone reads registers and C-elements, the commands 04 and 05 of
   a stage file: to every other they are no commands, and it answers 2 at the first of them (of a join's second part
   with file 4; fovaheju_next_stage answers 37). */
struct fovaheju_verdict fovaheju_check(uint64_t order, const uint8_t *stage, size_t stage_len,
                                       const uint8_t *reference, size_t reference_len);

/* The switching report: the verdict, and of an accepted stage how many gates are high at the rest of each word. */
struct fovaheju_report {
    /* As fovaheju_check answers of files without registers. Where it refuses, all that follows is 0. */
    struct fovaheju_verdict verdict;
    /* How many words the stage has: its care words, or without them 2 to the power of its inputs. */
    uint64_t words;
    /* The sum of the lines; half of all gate switchings when each word rises and falls once. */
    uint64_t total;
    /* lines[k] is how many gates are high at the rest of word names[k]; 0 behind the last word's line. */
    uint16_t lines[1024];
    /* The words as `order` names them, rising; 0 behind the last. */
    uint16_t names[1024];
};

/* The report of a stage file against a reference file. */
struct fovaheju_report fovaheju_report(uint64_t order, const uint8_t *stage, size_t stage_len,
                                       const uint8_t *reference, size_t reference_len);

/* Settles a row of the stage: one byte for each net, two for each input (rail 0, rail 1), then one for each gate. The
   bytes of the inputs are 0 or 1 and not both 1; what the bytes of the gates hold is ignored. Where the number is 0,
   each gate's byte is then 1 if the gate is high and 0 if it is low, and the inputs' bytes are as before. Where the
   number is another, the row is left as it was. The numbers are 0 to 9, 12 and 16 to 19. */
struct fovaheju_verdict fovaheju_settled_row(const uint8_t *stage, size_t stage_len,
                                             uint8_t *row, size_t row_len);

/* The answer of a join: the verdict, and how many bytes were written into each buffer. */
struct fovaheju_join {
    struct fovaheju_verdict verdict;
    /* Both are 0 where the join is refused. */
    uint64_t stage_count;
    uint64_t reference_count;
};

/* Joins two stages with their references: output j of the first is tied to input j of the second. The joined stage and
   reference are written at the start of two buffers; the bytes past them keep their values, and so do all of both where
   the number is not 0. A part may have at most 128 gates in its stage and 256 in its reference; 5,715 bytes have room
   for every joined stage, and 3,123 for every joined reference. The numbers are those of fovaheju_check but 33 to 35 on
   the first part, then on the second, with 3 added to its file, then 22, 23 and 24. The bytes written are the same in either
   order. fovaheju_check accepts what is written, or answers 32: a gate of the whole may never rise. */
struct fovaheju_join fovaheju_join(uint64_t order, const uint8_t *stage1, size_t stage1_len,
                                   const uint8_t *reference1, size_t reference1_len,
                                   const uint8_t *stage2, size_t stage2_len,
                                   const uint8_t *reference2, size_t reference2_len,
                                   uint8_t *stage_out, size_t stage_out_len,
                                   uint8_t *reference_out, size_t reference_out_len);

/* The answer of a call that writes one file: the verdict, and how many bytes were written, 0 where the call refuses. */
struct fovaheju_written {
    struct fovaheju_verdict verdict;
    uint64_t count;
};

/* Makes a stage that computes what a reference says: NOT swaps rails, every other operation becomes two gates. The stage is
   written at the start of a buffer; the bytes past it keep their values, and so do all where the number is not 0.
   fovaheju_check accepts what is written against the reference, or answers 32: a gate may never rise. 2,643 bytes have
   room for every such stage. The numbers are 0; 1 to 9 with file 2; then 25, 26 and 27, with the files 2, 2 and 3. */
struct fovaheju_written fovaheju_make_stage(const uint8_t *reference, size_t reference_len,
                                            uint8_t *stage_out, size_t stage_out_len);

/* Reads the text of a stage in the line form: the input names, the output names, then a line for each gate. Its stage file,
   gates before outputs, is written at the start of a buffer; the bytes past it keep their values, and so do all where the
   number is not 0. The text may have any length and any bytes; where it names more than a stage may have, the time grows with
   the square of its length. No text that reads has more than 27,322 bytes, and 2,643 have room for every such file: 2 for the
   inputs, 10 for each of 256 gates, 5 for each of 16 outputs, 1 for the end; tests/tests/text.rs counts both. The numbers are 0;
   29, 30 and 31, with `at` the line, counted from 0; 3, 5 and 6, with `at` a place in the file that would be made; all these
   with file 1; then 24 with file 3. */
struct fovaheju_written fovaheju_read_text(const uint8_t *text, size_t text_len, uint8_t *stage_out, size_t stage_out_len);

/* Writes a stage file as text in the line form: the names of the inputs, those of the outputs, then a line for each gate, with
   its kind, its pins and its net. The text is written at the start of a buffer; the bytes past it keep their values, and so
   do all where the number is not 0. fovaheju_read_text gives the file's own bytes back, if its gates stand before its
   outputs. 10,012 bytes have room for every text, as tests/tests/text.rs counts; that 11,908 have is proved. The numbers are 0;
   1 to 9, 18 and 19; 29 for a file with a care list; 31 with `at` the least output that would give a net a second name; all
   these with file 1; then 24 with file 3. */
struct fovaheju_written fovaheju_write_text(const uint8_t *stage, size_t stage_len, uint8_t *text_out, size_t text_out_len);

/* Writes the next file of the family of small stages: 1 or 2 inputs, 0 to 2 gates of kinds 1 and 2, one output, gates
   first, no care list, no loop; by inputs, then gates, then bytes. After the empty file comes the first. From it on,
   until 36, every file of the family is written exactly once. The bytes past the file keep their values, and so do all
   where the number is not 0; 28 bytes have room for every such file. The numbers are 0; 37 a file that is not of the
   family and 36 none further, both with file 1; 38 with file 3, a buffer that is too short. */
struct fovaheju_written fovaheju_next_stage(const uint8_t *stage, size_t stage_len,
                                            uint8_t *stage_out, size_t stage_out_len);

/* Writes the reference that is drawn from a seed, with 1 to 10 inputs and 0 to 40 gates: always the same for the same
   three numbers. It reads, and fovaheju_make_stage answers 0 on it, or 27 where its buffer is too short. The bytes past
   the file keep their values, and so do all where the number is not 0; 291 bytes have room for every such file. The
   numbers are 0; 39 inputs or gates out of range and 40 more than 16 outputs, both with file 0; 41 with file 3, a buffer
   that is too short. */
struct fovaheju_written fovaheju_draw_reference(uint32_t seed, size_t inputs, size_t gates,
                                                uint8_t *reference_out, size_t reference_out_len);

/* A run of a word: the nets that switch, one after the other, first in its rise from all low, then, where it has one, in its
   fall from where the rise has ended. Net 2i is rail 0 of input i and net 2i + 1 its rail 1; gate k drives net 2n + k,
   with n inputs. */
struct fovaheju_run {
    struct fovaheju_verdict verdict;
    /* How many switchings the rise has: the fall begins at this place of the list. */
    uint64_t rise;
    /* How many both have together. Where the list has fewer places it is left as it was. 552 places have room for every
       run. */
    uint64_t count;
};

/* The witness of a verdict: what fovaheju_check answers of files without registers, and a run that shows it, at the start of the
   list. Under 13 it is a full rise of the word that is named, at whose end output `at` is not the reference's DATA; under
   14 a rise after which all outputs are DATA and input `at` is NULL; under 15 one after which all outputs are DATA and gate
   `at` is low with its set expression true; these three have no fall. Under 20 and 21 it is a full rise and a fall after
   which all outputs are NULL, but input `at` is DATA or gate `at` high. Where the pair is accepted it is a full rise and a
   full fall of the word that the name `asked` spells; of a name the lowest bits count, as many as there are inputs. Under
   32 it is a full rise and a full fall in which gate `at` never switches, of the word with the name `asked` if the stage
   cares for it, else of the first word that it cares for; a name with more bits than there are inputs is none there. Other
   numbers have no run: `rise` and `count` are 0. At each step the least net that may switch does, until none may; what is
   named under 14, 15, 20 and 21 is held back. Places past the run keep their values. */
struct fovaheju_run fovaheju_witness(uint64_t order, const uint8_t *stage, size_t stage_len,
                                     const uint8_t *reference, size_t reference_len,
                                     size_t asked, uint16_t *list, size_t list_len);

/* What a list of switchings comes to. */
struct fovaheju_played {
    struct fovaheju_verdict verdict;
    /* How many steps come before the first that the rules bar; all of them where they bar none. */
    uint64_t steps;
};

/* Judges a list of switchings of the word that a name spells, any name, by its lowest bits: its steps are those of a rise up to
   place `fall`, which of a run that was handed out is its `rise`, and from there on those of a fall. A step is barred if
   its net may not switch then, and the first of the fall also if the rise has not ended. Where the number is 0, the row,
   one byte for each net, is 1 for each net that is high after the steps before the first that is barred, and 0 for the
   others; what it held before is not looked at. Where it is another, the row is left as it was. The numbers are 0 to 9, 18,
   19, 12, and 16 for the row's length. */
struct fovaheju_played fovaheju_play(uint64_t order, const uint8_t *stage, size_t stage_len,
                                     size_t name, size_t fall, const uint16_t *list, size_t list_len,
                                     uint8_t *row, size_t row_len);

/* Plays a full rise and a full fall of the word that a name spells, any name, by its lowest bits, in an order that is chosen by
   keys: one for each net in the rise, then one for each in the fall, so that n inputs and g gates take 2 (2n + g) keys. At
   each step, of the nets that may switch, that with the least key does, the least net of equal keys. Every full rise with
   every full fall is played by some keys. The run stands at the start of the list; places past it keep their values. The
   numbers are 0 to 9, 18, 19, 12, and 16 for how many keys there are. */
struct fovaheju_run fovaheju_run_by_keys(uint64_t order, const uint8_t *stage, size_t stage_len,
                                         size_t name, const uint32_t *keys, size_t keys_len,
                                         uint16_t *list, size_t list_len);

#ifdef __cplusplus
}
#endif

#endif
