/* Dumachik's calls: MFL texts counted, printed, given by value, held to the PK-only profile and resolved. `rt lib` in crates/dumachik proves
 * them and writes crates/dumachik/out/libdumachik.a, for x86-64. Of other libraries it needs memcpy and memset alone.
 *
 * No call allocates, keeps state or copies the text, and only mfl_resolve takes a working buffer. Any bytes may be given: a text need not be
 * UTF-8, and bytes of 128 and more may stand only in a comment. No output may overlap another or an input. Where a length is 0 its pointer is
 * not read, but must not be null.
 *
 * Limits: 16,384 bytes of text, 256 statements, 64 entries of an array. The stack that a call takes at most, whatever it is given
 * (docs/BENCHMARKS.md): mfl_statements 125,360 bytes, mfl_profile 104,864, mfl_print 66,272, mfl_resolve 57,712, the others under 4 KiB.
 *
 * Every call that reads statements takes a ceiling, last: the largest count that a text may have, from 0 to 256. Held to it are single counts,
 * both ends of a range wherever one stands, and the entries of an array of counts; not names that are numbers, and not ALLOMETRY's reference.
 * MFL_CEILING is the source's limit. A canonical text and a ground text are read again under the ceiling that they were made with.
 *
 * Bits 32 to 39 of an answer are a refusal's number, and 0 where nothing is refused; bits 0 to 31 are then its place. Places are counted from
 * zero in bytes of the text unless said otherwise.
 *
 *   1   text over 16,384 bytes                                            0
 *   2   byte that starts no token                                         its offset
 *   3   token not allowed, or end of text                                 its offset, or the text's length
 *   4   count not a whole 32-bit number, or above the ceiling             the number's offset
 *   5   range backwards                                                   the left number's offset
 *   6   unknown keyword                                                   the keyword's offset
 *   7   `?` on a feature without it                                       the keyword's offset
 *   8   number of arguments                                               the keyword's offset
 *   9   argument of a wrong kind, empty array, word in an array of
 *       counts, second argument after N, mandatory `*` effect             the argument's offset
 *   10  unknown mode                                                      its word's or number's offset
 *   11  any token but a separator after 256 statements;
 *       a 65th word or number in an array                                 that token's offset
 *   12  context not as it must be                                         0
 *   13  second LET of a key                                               its statement's index
 *   14  unknown symbol, or one whose template or block is missing         the statement's index
 *   15  name not in the model                                             the statement's index
 *   16  effect against the covariate's kind                               the statement's index
 *   17  pair forced by two statements                                     the lowest index that forces a pair again
 *   18  over 2,048 effects before merging; over 256 ground statements;
 *       ground text over 16,384 bytes                                     0
 *   19  an output shorter than its answer; a working buffer that is
 *       too short                                                         0
 *   20  statement index not below the count                               the index
 *   21  ceiling above 256; before 1                                       0
 *   22  feature outside the PK-only profile                               the statement's index
 *   23  second statement of one of the profile's five features            the statement's index
 *   24  count above 10, against the profile                               the statement's index
 */
#ifndef DUMACHIK_H
#define DUMACHIK_H

#include <stddef.h>
#include <stdint.h>

#ifdef __cplusplus
extern "C" {
#endif

#define MFL_TEXT_LIMIT 16384
#define MFL_STATEMENT_LIMIT 256
#define MFL_ENTRY_LIMIT 64
#define MFL_CEILING_LIMIT 256

/* The ceiling of the source, and of the programs. */
#define MFL_CEILING 64

/* The largest count of the PK-only profile. */
#define MFL_PROFILE_COUNT 10

/* mfl_statement never writes more numbers (proved). COVARIATE with two lists of 64 names and all seven effects has as many. */
#define MFL_STATEMENT_ROOM 272

/* mfl_statements never writes more numbers for a text of so many bytes (proved). */
#define MFL_STATEMENTS_ROOM(length) (2 * (length))

/* A refusal's number, 0 where the answer is none; and its place. */
#define MFL_REFUSAL(answer) ((uint32_t)((answer) >> 32) & 0xff)
#define MFL_PLACE(answer) ((uint32_t)(answer))

/* Full size for mfl_resolve, which always suffices (proved), and how many elements its working buffer has to have. */
#define MFL_GROUND_ROOM 16384
#define MFL_EFFECT_ROOM 2048
#define MFL_NOTE_ROOM 257
#define MFL_WORKING 2048

/* How many bytes of ground text, effects and notes an answer of mfl_resolve gives, where it is no refusal. */
#define MFL_GROUND(answer) ((size_t)((answer) & 0xffff))
#define MFL_EFFECTS(answer) ((size_t)((answer) >> 16 & 0xffff))
#define MFL_NOTES(answer) ((size_t)((answer) >> 40))

/* The offset of the first byte that starts no token, or the text's length where there is none. Of a text of any length. */
size_t mfl_scan(const uint8_t *text, size_t length);

/* Count: the number of statements of a text. */
uint64_t mfl_count(const uint8_t *text, size_t length, uint32_t ceiling);

/* Print: the canonical text's bytes in `out`, and their number. `out` past them is as it was, and all of it where Print refuses, by 19 where
 * `room` is shorter than the canonical text. That is never longer than its text, so `room` = `length` always has room. */
uint64_t mfl_print(const uint8_t *text, size_t length, uint8_t *out, size_t room, uint32_t ceiling);

/* Statement: the statement at an index, from zero, as 32-bit numbers in `out`, and how many. `out` past them is as it was, and all of it
 * where Statement refuses, by 20 where the index is not below the count, by 19 where `room` is shorter than the answer.
 *
 * First the keyword: 0 ABSORPTION, 1 ELIMINATION, 2 PERIPHERALS, 3 TRANSITS, 4 LAGTIME, 5 COVARIATE, 6 ALLOMETRY, 7 DIRECTEFFECT,
 * 8 EFFECTCOMP, 9 INDIRECTEFFECT, 10 METABOLITE, 11 IIV, 12 IOV, 13 COVARIANCE, 14 LET. Then 1 where it has a `?`, else 0. Then its
 * arguments in their order, each by a number for its kind and what belongs to that kind:
 *
 *   0   `*`, for modes, parameters or covariates
 *   1   modes: how many, their places in their family
 *   2   one count: the count
 *   3   a range: its two ends
 *   4   a list of counts: how many, the counts
 *   5   N
 *   6   a symbol: the offset and the length of its name, without the `@`
 *   7   names: how many, the offset and the length of each, sorted by offset
 *   8   a name alone (ALLOMETRY's two, LET's first): its offset and its length
 *   9   an argument that was left out
 *   10  the operator `*`, also where it is not written
 *   11  the operator `+`
 *   12  the values of a LET: how many, of each its kind (0 a word, 1 a number), its offset and its length, sorted by offset
 *
 * PERIPHERALS and TRANSITS have counts and modes (or 9); COVARIATE has parameters, covariates, modes and an operator; ALLOMETRY a name alone
 * and another (or 9); INDIRECTEFFECT modes twice; IIV and IOV parameters and modes; COVARIANCE modes and parameters; LET a name alone and
 * values; the others modes. The families are, from place 0:
 *
 *   ABSORPTION                                    INST FO ZO SEQ-ZO-FO WEIBULL
 *   ELIMINATION                                   FO ZO MM MIX-FO-MM
 *   PERIPHERALS                                   DRUG MET
 *   TRANSITS                                      DEPOT NODEPOT
 *   LAGTIME                                       OFF ON
 *   COVARIATE                                     lin piece_lin exp pow cat cat2 custom
 *   DIRECTEFFECT, EFFECTCOMP, INDIRECTEFFECT      LINEAR EMAX SIGMOID STEP LOGLIN
 *   INDIRECTEFFECT's second                       PRODUCTION DEGRADATION
 *   METABOLITE                                    BASIC PSC
 *   IIV, IOV                                      EXP ADD PROP LOG RE_LOG
 *   COVARIANCE                                    IIV IOV
 */
uint64_t mfl_statement(const uint8_t *text, size_t length, uint32_t index, uint32_t *out, size_t room, uint32_t ceiling);

/* Statement at every index, in one reading of the text: the numbers of all statements, one statement after the other, those of each behind how
 * many they are, and how many all are. `out` past them is as it was, and all of it where the call refuses, by 19 where `room` is shorter than
 * the answer. Two for each byte of the text always suffice (proved). */
uint64_t mfl_statements(const uint8_t *text, size_t length, uint32_t *out, size_t room, uint32_t ceiling);

/* Profile: 0 where a text is read under the ceiling and is of the PK-only profile, else the refusal; nothing is written. The profile has no
 * DIRECTEFFECT, EFFECTCOMP, INDIRECTEFFECT or METABOLITE, at most one statement each of ABSORPTION, ELIMINATION, PERIPHERALS, TRANSITS and
 * LAGTIME, and no count above 10: a single one, the right end of a range, an entry of an array; N is no count. 21 and the faults of reading, 1
 * to 11, come first; then, of the first statement that has one, 22 before 23 before 24, with its index, from zero, LETs counted. 23 is at the
 * second statement of its feature. Where a text of the profile has a ground text, that is of the profile too, under the same ceiling. */
uint64_t mfl_profile(const uint8_t *text, size_t length, uint32_t ceiling);

/* An effect: the parameter and the covariate, each the index of its name's first entry in its list (declared covariates, or data columns
 * without a block), the form by its place in COVARIATE's family, the operator (0 `*`, 1 `+`), and whether it is optional (0 or 1). */
struct mfl_effect {
    uint8_t parameter, covariate, form, op, optional;
};

/* A note: 0 and the index of a statement that was dropped; or, last, 1 and 0: some effect is additive. */
struct mfl_note {
    uint8_t reason, index;
};

/* Resolve: a text in a context gives its ground text, its covariate effects and its notes.
 *
 * The context is a block of name bytes, at most 16,384, and a run of numbers: how many parameters, IIV parameters, template bindings, declared
 * covariates and data columns there are, at most 64 each; 1 where there is a template, else 0; 1 where there is a declaration block, else 0; and
 * then the entries, list after list. A parameter, an IIV parameter and a data column are two numbers, an offset and a length into the block; a
 * binding four, its role's pair and its variable's; a declared covariate three, its pair and its kind, 0 continuous or 1 categorical. The pairs
 * of a list are sorted by offset, without overlap; a name has 1 to 32 bytes that are one word or one number. All of it is checked (12).
 *
 * Outputs past what is given are as they were, and all of them where Resolve refuses: by 19, last of all, where one is shorter than its answer.
 * A working buffer that is shorter than MFL_WORKING is 19 before every other refusal, 21 too, and stays as it is; else all of it is zero
 * afterwards, whatever it held. */
uint64_t mfl_resolve(const uint8_t *text, size_t length, const uint8_t *block, size_t block_length, const uint32_t *lists, size_t lists_length,
                     uint8_t *ground, size_t ground_room, struct mfl_effect *effects, size_t effects_room, struct mfl_note *notes,
                     size_t notes_room, uint32_t *work, size_t work_length, uint32_t ceiling);

#ifdef __cplusplus
}
#endif

#endif
