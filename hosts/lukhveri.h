/* Lukhveri for C hosts: finds the units of a roster, the people whom a fee scheme counts together.
 *
 * A plan holds the scheme's rules, a case holds what is known of a roster's people; the answer is one line for each person. Link
 * target/staticlib/libexports.a, which `tools/build exports` makes (x86-64, C calling convention; of the C library it needs memcpy and memset).
 *
 * Rules of use
 *   - Any bytes may be given as plan, case and table, any numbers as amounts, and buffers of any length and content may be lent: nothing is asked of
 *     the caller but that each pointer reaches as many bytes, or amounts, as its length says. A pointer is never null, also where its length is 0.
 *   - Buffers that are written (lines, events, text, told, the units of lukhveri_pool, the plan and made of lukhveri_import) overlap no other buffer
 *     of the call. What else is given is only read.
 *   - Nothing is allocated and nothing is kept between calls: no state, no pointer. Calls from several threads are independent.
 *   - A function that takes told or made returns the refusal's number, 0 for none, which is also told[LUKHVERI_TOLD_REFUSAL] or
 *     made[LUKHVERI_MADE_REFUSAL]; all numbers of told and made are written. The other two, lukhveri_list and lukhveri_circle, say themselves what
 *     they return.
 *   - After a refusal the buffers of lines and events, and of a plan that is made, are zero from end to end. After a result the lines, the events or
 *     the plan stand at their start, one after another, and every byte past them is zero.
 *   - A call works on the stack of its thread, which has to be large enough: see LUKHVERI_STACK.
 *
 * Integers in files, lines and events are little-endian. A mask has bit p for person (or fact, citation, piece of evidence) p, bit 0 lowest.
 */
#ifndef LUKHVERI_H
#define LUKHVERI_H

#include <stddef.h>
#include <stdint.h>

#ifdef __cplusplus
extern "C" {
#endif

/* Persons are numbered from 0 to 63. */
#define LUKHVERI_PERSONS 64

/* A line: 29 bytes, at these offsets. */
#define LUKHVERI_LINE 29
#define LUKHVERI_LINE_PERSON 0
#define LUKHVERI_LINE_KIND 1
#define LUKHVERI_LINE_ROLE 2
#define LUKHVERI_LINE_BLOCK 3           /* 8 bytes: everyone counted together, the person too; 0 where it is open */
#define LUKHVERI_LINE_OPEN_FACTS 11     /* 8 bytes: open facts whose influence holds the person */
#define LUKHVERI_LINE_OPEN_DECISIONS 19 /* 2 bytes: unresolved decisions that could, by cut, then edge */
#define LUKHVERI_LINE_CITATIONS 21      /* 8 bytes: citations of the rules that made the block */

/* Kinds of lines. */
#define LUKHVERI_DECIDED 0
#define LUKHVERI_MEMBERSHIP_OPEN 1
#define LUKHVERI_ROLE_OPEN 2
#define LUKHVERI_OVERLAP 3
#define LUKHVERI_DISCRETION 4
#define LUKHVERI_ROSTER_INCOMPLETE 5
#define LUKHVERI_INCONSISTENT 6

/* Roles. */
#define LUKHVERI_NO_ROLE 0
#define LUKHVERI_MEMBER 1
#define LUKHVERI_EXCLUDED 2
#define LUKHVERI_BARRED 3

/* An event: 12 bytes, at these offsets. Unused bytes are 0; events rise in byte order, none twice. */
#define LUKHVERI_EVENT 12
#define LUKHVERI_EVENT_KIND 0
#define LUKHVERI_EVENT_A 1
#define LUKHVERI_EVENT_B 2
#define LUKHVERI_EVENT_C 3
#define LUKHVERI_EVENT_MASK 4 /* 8 bytes */

/* Kinds of events, with a, b, c and mask. */
#define LUKHVERI_EVENT_FROZEN 1     /* edge, left, right */
#define LUKHVERI_EVENT_APPLIED 2    /* cut, actor or 0, -; evidence */
#define LUKHVERI_EVENT_BLOCKED 3    /* cut, edge, actor or 0; evidence */
#define LUKHVERI_EVENT_OVERLAP 4    /* lowest cut of the earlier set, of the later */
#define LUKHVERI_EVENT_ATTACHED 5   /* attachment, anchor, actor; evidence */
#define LUKHVERI_EVENT_BARRED 6     /* bar */
#define LUKHVERI_EVENT_EXCLUDED 7   /* status, person */
#define LUKHVERI_EVENT_DEFAULT 8    /* fact, actor, value; the citation's number, no mask */
#define LUKHVERI_EVENT_DISCRETION 9 /* -, -, -; persons */

/* Refusals. The record is counted from 0 over the file that is at fault: the plan's if lukhveri_check refuses it, else the case's. It is 0
 * for 8 and 9 and from 11 on, but for 16: there it is the row of the table. */
#define LUKHVERI_MALFORMED 1            /* cut short, unknown kind or bit, falling kind, value or count outside its range */
#define LUKHVERI_PAST_LIMIT 2           /* more records of a kind, or more unresolved decisions, than there may be */
#define LUKHVERI_INCOMPLETE 3           /* required field missing, wrong set of bits, no heading at the start */
#define LUKHVERI_NAMES_NOTHING 4        /* a number that names nothing, or nothing of the right sort */
#define LUKHVERI_OUT_OF_ORDER 5         /* facts out of order, an edge decided twice; a family or a fact told twice */
#define LUKHVERI_UNDECIDED 6            /* a cut and a Combination edge crossing without a decision; the cut's record */
#define LUKHVERI_ELECTIONS_DIFFER 7     /* elections on one fact that differ; the later record */
#define LUKHVERI_SEGMENT_INCOMPLETE 8   /* the segment is not complete */
#define LUKHVERI_HEADING 9              /* relation differs, scope, segment or roster empty, a rule's person off the roster */
#define LUKHVERI_UNKNOWN_AND_OBSERVED 10 /* explicit unknown beside observations */
#define LUKHVERI_TOO_MANY_WORLDS 11     /* more than the heading allows: told has count and maximum, both 2^64 - 1 from 2^64 on */
#define LUKHVERI_LINES_DO_NOT_FIT 12    /* 29 bytes for each person of the roster */
#define LUKHVERI_EVENTS_DO_NOT_FIT 13   /* 12 bytes for each event */
#define LUKHVERI_NO_SUCH_WORLD 14       /* also where the roster is not complete or no world is admissible */
#define LUKHVERI_AMOUNTS_DO_NOT_FIT 15  /* the list of amounts is not as long as the roster */
#define LUKHVERI_BROKEN_ROW 16          /* a row of the table breaks its form; the first such row, the header's being 0 */
#define LUKHVERI_PLAN_DOES_NOT_FIT 17   /* the plan of the table is longer than its buffer */

/* The seven numbers that a call tells. Count and maximum are those of refusal 11, else 0; the last three are 0 after a refusal. */
#define LUKHVERI_TOLD 7
#define LUKHVERI_TOLD_REFUSAL 0
#define LUKHVERI_TOLD_RECORD 1
#define LUKHVERI_TOLD_COUNT 2
#define LUKHVERI_TOLD_MAXIMUM 3
#define LUKHVERI_TOLD_LINES 4
#define LUKHVERI_TOLD_EVENTS 5
#define LUKHVERI_TOLD_WORLDS 6 /* admissible worlds of the case */

/* The nine numbers that lukhveri_pool tells: those seven, and two more, which are 0 after a refusal. */
#define LUKHVERI_POOL_TOLD 9
#define LUKHVERI_TOLD_UNITS 7
#define LUKHVERI_TOLD_UNPLACED 8 /* cents */

/* The three numbers of lukhveri_import. */
#define LUKHVERI_MADE 3
#define LUKHVERI_MADE_REFUSAL 0
#define LUKHVERI_MADE_RECORD 1 /* the row of refusal 16, else 0 */
#define LUKHVERI_MADE_LENGTH 2 /* bytes of the plan; 0 after a refusal */

/* Entries of each array of units. Nobody is in two units, so that there are no more. */
#define LUKHVERI_UNITS 64

/* The most worlds that a case's heading can allow. */
#define LUKHVERI_WORLDS 4096

/* Bytes that hold the lines of every roster: 12 never comes. */
#define LUKHVERI_LINES_LENGTH (LUKHVERI_PERSONS * LUKHVERI_LINE)

/* Bytes for 4,096 events, as many as the lister takes. Most cases need far fewer, but not all fit: 13 tells it. */
#define LUKHVERI_EVENTS_LENGTH (4096 * LUKHVERI_EVENT)

/* Bytes that hold the events of every case: 13 never comes. Kinds 1 to 8 have at most 64 + 16 + 1,024 + 120 + 32 + 32 + 32 + 48 = 1,368
 * events. A component that is left to discretion has three persons or more, so kind 9 has at most 21 events for each world. With a
 * base-chain citation in the plan's heading there are none of kind 9. */
#define LUKHVERI_MOST_EVENTS_LENGTH ((1368 + 21 * LUKHVERI_WORLDS) * LUKHVERI_EVENT)

/* Bytes that hold every text of the lister. */
#define LUKHVERI_TEXT_LENGTH 13216

/* Bytes that hold the plan of every table: 17 never comes. */
#define LUKHVERI_IMPORTED_LENGTH 550

/* Bytes of stack that are enough for a call, whatever is lent: hosts/measure found 97,015. Many events take little time: an answer with 4,096
 * of kind 9 took 2 ms, one with 16,384 took 21 ms. */
#define LUKHVERI_STACK (256 * 1024)

/* Checks a plan. */
uint8_t lukhveri_check(const uint8_t *plan, size_t plan_length, uint64_t told[LUKHVERI_TOLD]);

/* Answers a case. */
uint8_t lukhveri_answer(const uint8_t *plan, size_t plan_length, const uint8_t *case_bytes, size_t case_length, uint8_t *lines,
                        size_t lines_length, uint8_t *events, size_t events_length, uint64_t told[LUKHVERI_TOLD]);

/* Shows the world of that number, counted from 0 among the admissible ones. Its lines have open fields of zero; events are its own. */
uint8_t lukhveri_show(const uint8_t *plan, size_t plan_length, const uint8_t *case_bytes, size_t case_length, uint64_t world,
                      uint8_t *lines, size_t lines_length, uint8_t *events, size_t events_length, uint64_t told[LUKHVERI_TOLD]);

/* Answers a case and pools amounts by unit: cents, one amount for each person of the roster, in rising order. A unit's pool is the sum over its
 * persons of kind LUKHVERI_DECIDED whose role is not LUKHVERI_EXCLUDED; told[LUKHVERI_TOLD_UNPLACED] is the sum over everyone else, and all
 * together is the sum of the list. Unit i, in order of the units' lowest persons, has the mask blocks[i] and the pool pools[i]; open[i] is 1 if
 * somebody in it has kind LUKHVERI_ROLE_OPEN, whose amount is unplaced, so that the pool is not final, else 0. A unit that is no household (see
 * lukhveri_list) is listed like the others, with pools[i] and open[i] 0. Entries past the count of units are 0. Lines and events are those of
 * lukhveri_answer, and so are the refusals; after them comes LUKHVERI_AMOUNTS_DO_NOT_FIT. After a refusal the three arrays are 0. */
uint8_t lukhveri_pool(const uint8_t *plan, size_t plan_length, const uint8_t *case_bytes, size_t case_length, const uint32_t *amounts,
                      size_t amount_count, uint8_t *lines, size_t lines_length, uint8_t *events, size_t events_length,
                      uint64_t blocks[LUKHVERI_UNITS], uint64_t pools[LUKHVERI_UNITS], uint8_t open[LUKHVERI_UNITS],
                      uint64_t told[LUKHVERI_POOL_TOLD]);

/* Writes what the lister prints of a plan and a case to the start of text, in ASCII, without a zero at its end, and returns how many bytes it
 * wrote: a heading, a row for each line and a last row, "units" with the count of households; or a single row, which begins with "refused", with
 * the refusal's number and record. A line feed ends each row. Of a text that is longer than its buffer it writes and counts what fits; bytes past
 * the text stay as they are. Lines and events are answered into their buffers, which decide whether 12 or 13 comes.
 *
 * A unit is a household if somebody in it has kind LUKHVERI_ROLE_OPEN, or kind LUKHVERI_DECIDED and another role than LUKHVERI_EXCLUDED. So a unit in
 * which everybody is excluded is none: the last row does not count it, though its persons have their rows, with their block. */
size_t lukhveri_list(const uint8_t *plan, size_t plan_length, const uint8_t *case_bytes, size_t case_length, uint8_t *lines,
                     size_t lines_length, uint8_t *events, size_t events_length, uint8_t *text, size_t text_length);

/* Returns the circle of a person as a mask: that person and all who are reached by rules, unresolved decisions and facts that join persons, on
 * the roster or off it. What a case says of a fact that touches nobody of the circle does not show in the person's line. Plan, heading and
 * constraints alone make a circle. 0 for a person above 63, for a plan that lukhveri_check refuses, and for a case that is refused by 1 to 4; a
 * case that a later number refuses has circles. */
uint64_t lukhveri_circle(const uint8_t *plan, size_t plan_length, const uint8_t *case_bytes, size_t case_length, uint8_t person);

/* Makes the plan of a table of rules, as a spreadsheet exports it by RFC 4180: fields parted by commas, any of them in quotation marks, rows ended by
 * CR LF, which the last may lack; a CR or LF by itself breaks the quoting. The first row is kind,left,right,citation. Below it each row is a rule
 * that always holds: base or combination, the persons left and right, a citation; or status, the person left, who is excluded from the relief while
 * the place in the unit stays, nothing, a citation. Persons and citations are 0 to 63, in base ten, without leading zeros. Edges come before statuses
 * in the plan, both in the order of their rows; its heading has roster relation 1 and no base-chain citation, so that three or more persons joined by
 * base need a row for each two of them: a mere chain is left to discretion. lukhveri_check accepts the plan.
 * LUKHVERI_BROKEN_ROW, which is asked first, names the first row that breaks the quoting, the header, the count of fields, a word, a number's form
 * or range, a status's empty field or the plan's limit of edges or statuses. */
uint8_t lukhveri_import(const uint8_t *table, size_t table_length, uint8_t *plan, size_t plan_length, uint64_t made[LUKHVERI_MADE]);

#ifdef __cplusplus
}
#endif

#endif
