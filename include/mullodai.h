/* mullodai: an LTL bench for small state tables.
 *
 * A case is a string of bytes (a state table and one rule). Each function reads the bytes it is handed, keeps no state of its
 * own, allocates nothing, and may be called with any bytes whatever: what is wrong with a case is said in the answer.
 *
 * An answer has a number and a place. Number 0 is success (holds, satisfies), 1 is violated; 10 to 32 refuse the case, and what follows
 * refuses what was lent with it. Fields are taken in order, and in each 10 (its head), 11, 12, 10 (its value); 13 comes right after
 * field 01 and 14 after field 04. Then 20 over all states, 21 and 22 edge by edge, 23, 30 and 31 node by node, 32; always the lowest
 * place. Then 40 and 41 for the search, 42 for the state list, and 50, 51, 52, 53, 54, 40 for the judge:
 *
 *   10  fewer than 3 bytes left for a field's head, or fewer than its length for its value    the field's offset
 *   11  the tag is not the expected one                                                       the field's offset
 *   12  the length is not as the format says                                                  the field's offset
 *   13  S is not 1 to 64, or A not 0 to 16                                                    0
 *   14  bytes left after field 04                                                             the first one's offset
 *   20  a label bit from A upward, or flags above 1                                           state
 *   21  an edge's end is S or more                                                            edge
 *   22  an edge is not above the one before                                                   edge
 *   23  a state starts no edge                                                                state
 *   30  unknown operator                                                                      node
 *   31  an operand or an unused byte is wrong                                                 node
 *   32  more than 4 temporal operators (6 to 11)                                              their number
 *   40  the workspace (search) or the scratch (judge) is too short                            the entries needed
 *   41  the track is too short (search)                                                       the entries needed
 *   42  the state list is shorter than S; or, where one state is asked for, there is none     S
 *   50  m is 0 (judge, as the rest)                                                           0
 *   51  k + m is above the track's length                                                     the track's length
 *   52  an entry is S or more                                                                 the entry
 *   53  the first state is not initial                                                        0
 *   54  no edge from an entry to the next (from the last: to entry k)                         the entry
 *
 * States, edges, nodes and offsets are counted from 0.
 */
#ifndef MULLODAI_H
#define MULLODAI_H

#include <stddef.h>
#include <stdint.h>

#ifdef __cplusplus
extern "C" {
#endif

/* A state: bit j of label is atom j; initial is 0 or 1. */
typedef struct {
    uint16_t label;
    uint8_t initial;
} mullodai_state_record;

/* number 0 and the record, with place 0; or a refusal with its place, and a record of zeros. */
typedef struct {
    uint64_t number, place;
    mullodai_state_record state;
} mullodai_state_answer;

/* Reads one state, counted from 0, of the case of `length` bytes at `bytes`. The pointer must be valid for that many bytes (and
 * not null even where length is 0); it is only read. */
mullodai_state_answer mullodai_state(const uint8_t *bytes, size_t length, uint64_t state);

/* The answer of the entries that fill or search: the number, its place, and a run's stem and loop, 0 where the rules give none. */
typedef struct {
    uint64_t number, place, stem, loop;
} mullodai_answer;

/* The most records that a case fills. */
#define MULLODAI_STATES_MOST 64

/* Fills a lent list with the states of the case of `length` bytes at `bytes`.
 *
 * Success: number 0 and place S; the first S records of the list are the case's states, in order, and later ones are untouched.
 * A refusal (10 to 32), or 42 with S where list_length is below S: nothing is written. Stem and loop are always 0.
 *
 * Both pointers must be valid for their lengths, not null even where a length is 0, and the two must not overlap; the bytes are
 * only read. A list of MULLODAI_STATES_MOST records is enough for any case. Its records may hold anything before the call; the
 * padding byte of a record is nobody's. */
mullodai_answer mullodai_states(const uint8_t *bytes, size_t length, mullodai_state_record *list, size_t list_length);

/* The most entries that a search needs in its workspace and in its track. */
#define MULLODAI_WORKSPACE_MOST 30720
#define MULLODAI_TRACK_MOST 10240

/* Looks for a run that breaks the rule of the case of `length` bytes at `bytes`.
 *
 * With P = S * 2^T * (E+1) places (T counts the rule's nodes with operators 6 to 11, E those with 7 to 11) the workspace needs 6 * P
 * entries and the track 2 * P. Number 0: the rule holds, no looping run of any length breaks it; the track is untouched. Number 1: it is
 * violated; the first stem + loop entries of the track are the states of a run that breaks it (the run repeats from entry `stem` on), and
 * later entries are untouched. After either, the first 6 * P entries of the workspace are 0 and later ones untouched, whatever stood
 * there before. A refusal (10 to 32; 40 and 41 with the entries needed): nothing is written, and stem and loop are 0.
 *
 * All pointers must be valid for their lengths, not null even where a length is 0, and must not overlap; the bytes are only read. */
mullodai_answer mullodai_search(const uint8_t *bytes, size_t length, uint16_t *workspace, size_t workspace_length, uint16_t *track,
                                size_t track_length);

/* Judges the run of stem k and loop m (m at least 1) whose states are the first k + m entries of the track: whether it is one of the
 * table's, and the case's rule is false on it.
 *
 * Number 0: the run satisfies the rule. Number 1: it violates it. After either, the first k + m entries of the scratch are 0 and later
 * ones untouched. A refusal (10 to 32; 50 to 54; 40 with k + m): nothing is written. Place is 0 for 0 and 1; stem and loop are always 0.
 * Any k and m may be asked for: their sum is taken as a whole number, and does not wrap.
 *
 * All pointers must be valid for their lengths, not null even where a length is 0, and must not overlap; the bytes and the track are
 * only read. */
mullodai_answer mullodai_judge(const uint8_t *bytes, size_t length, const uint16_t *track, size_t track_length, uint64_t k, uint64_t m,
                               uint32_t *scratch, size_t scratch_length);

#ifdef __cplusplus
}
#endif

#endif
