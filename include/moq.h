/* The collector's core, called from C and C++. `tools/archive` makes the archive, target/native/libexports.a; examples/ shows it
   used from C, Rust and Python.

   Each call answers a number, and its comment lists those that can come. The calls on a ledger have further ones, which stand there:

     0  done
     1  more bytes are needed
     2  the type is unknown
     3  the body of a message is over 65,000 bytes
     4  the fields don't fill the body; a datagram is cut, or bytes follow a status
     5  a value is forbidden, or a number is too great
     6  a count or a length is over its size
     7  what is lent to be written is too short

   How a reader decides. Of a message the Type is read first: 1 where it is cut, 2 where it is unknown. Then the Length: 1 where it is
   cut, 3 where it is over 65,000, whether the body is there or not. Then the whole body has to be there, else 1. Only then its fields are
   read, from left to right, each judged as soon as its integer or its byte is read, and the first fault is answered: 5 for a forbidden
   value; 6 for a count or a length over its size, even where the bytes that it names are missing; 4 where the body ends within the field.
   Bytes of the body that no field takes are 4. So `07 01 21` is 6, for 33 namespace fields, and not 4, and `17 80 00 FD E9` is 3. A header
   has a type and fields, and no Length: where it is cut it is 1 on a stream and 4 in a datagram.

   A number of reading is answered before any other. What is lent to be written is changed only where 0 is answered, or one of a ledger's
   numbers that say so; and of that only as many bytes or values as the call says, from the front on. Every byte and value after them
   stays.

   A slice is a pointer and a count of elements. What the caller must see to, as the calls can't:
     - a pointer points at that many elements, and isn't null even where the count is 0;
     - `info`, `numbers` and `run` are aligned as uint64_t;
     - what is lent to be written overlaps nothing else that is lent in the same call.
   No call keeps a pointer, allocates, or waits. Calls that are lent different memory may run at the same time. */

#ifndef MOQ_H
#define MOQ_H

#include <stddef.h>
#include <stdint.h>

#ifdef __cplusplus
extern "C" {
#endif

/* ---- integers: RFC 9000, section 16 */

/* The integer at the front of s. info[0]: the number; info[1]: the bytes used.
   1: it is cut. 7: info has fewer than 2 values. */
uint64_t moq_integer_read(const uint8_t *s, size_t s_len, uint64_t *info, size_t info_len);

/* A number's shortest form, at the front of out. info[0]: the bytes written.
   5: n is above 4,611,686,018,427,387,903. 7: info has no value, or out is too short. */
uint64_t moq_integer_write(uint64_t n, uint8_t *out, size_t out_len, uint64_t *info, size_t info_len);

/* ---- messages and headers: one is read from the front of s, and written again in its shortest form at the front of out

   info[0]: the bytes used; info[1]: the bytes written, never more than were used; info[2]: the type, or 0 for the header of an
   object, which has none. 7: info has fewer than 3 values, or out is too short. */

/* A control message: 1, 2, 3, 4, 5, 6, 7. None has more than MOQ_LONGEST_MESSAGE bytes, the longest body after a Type and a Length of
   eight bytes each; where so many are lent, 1 is not answered. */
#define MOQ_LONGEST_BODY 65000
#define MOQ_LONGEST_MESSAGE (8 + 8 + MOQ_LONGEST_BODY)
uint64_t moq_control_rewrite(const uint8_t *s, size_t s_len, uint8_t *out, size_t out_len, uint64_t *info, size_t info_len);

/* The header of a datagram, which is always whole: 2, 4, 5, 7. The payload of an object follows the bytes used. */
uint64_t moq_datagram_rewrite(const uint8_t *s, size_t s_len, uint8_t *out, size_t out_len, uint64_t *info, size_t info_len);

/* The header of a stream: 1, 2, 7. */
uint64_t moq_stream_rewrite(const uint8_t *s, size_t s_len, uint8_t *out, size_t out_len, uint64_t *info, size_t info_len);

/* The header of an object on a subgroup's stream: 1, 5, 7. */
uint64_t moq_subgroup_object_rewrite(const uint8_t *s, size_t s_len, uint8_t *out, size_t out_len, uint64_t *info, size_t info_len);

/* The header of an object on a fetch's stream: 1, 5, 7. */
uint64_t moq_fetch_object_rewrite(const uint8_t *s, size_t s_len, uint8_t *out, size_t out_len, uint64_t *info, size_t info_len);

/* ---- traces: the text of a whole trace, at the front of out

   info[0]: the bytes written. A trace that is at fault has a text too, which says where. 7: info has no value, or out is too short. */

/* The report, which has at most MOQ_LONGEST_REPORT bytes: a line for the session, one for the columns and one for each
   row, none of them longer than MOQ_LONGEST_LINE. */
#define MOQ_LONGEST_LINE 204
#define MOQ_LONGEST_REPORT (MOQ_LONGEST_LINE * (2 + MOQ_ROWS))
uint64_t moq_report(const uint8_t *trace, size_t trace_len, uint8_t *out, size_t out_len, uint64_t *info, size_t info_len);

/* What each field was answered, a line for each. */
uint64_t moq_answers(const uint8_t *trace, size_t trace_len, uint8_t *out, size_t out_len, uint64_t *info, size_t info_len);

/* ---- ledgers: the subscriptions of a session in one direction

   A ledger is MOQ_LEDGER_NUMBERS numbers, which the caller holds and lends as `numbers`; what stands after them stays. The first
   MOQ_OWN_NUMBERS are its own:

     0  part: 0 for the subscriber's end, 1 for the publisher's
     1  session: 0 while it is open, or 1 to 7, the rule that closed it
     2  capacity: how many rows may be in use
     3  maximum: an ID that is not below it isn't accepted
     4  next: one more than the highest ID accepted, 0 for none
     5  used: how many rows are in use

   Then MOQ_ROWS rows of MOQ_ROW_NUMBERS each, those in use first:

     0  Subscribe ID
     1  Track Alias
     2  0 for pending, 1 for active
     3  range: 0 for not known, 1 for open, 2 for closed
     4  its first group
     5  its first object
     6  its last group, where it is closed
     7  greatest place counted: 0 for none, 1 for one
     8  its group
     9  its object
    10  count

   Numbers that a range or a place doesn't have are 0. Numbers are a ledger's where all this is so: the capacity is 1 to MOQ_ROWS,
   and no more rows are in use; their IDs rise, and none is above the highest; no alias comes twice; the count is 0 exactly where there
   is no place; a pending row counts nothing, and the range of an active one is known; all numbers of a row that isn't in use are 0; no
   count is above 4,294,967,295, and neither the highest ID nor any other number is above 4,611,686,018,427,387,903.

     8  done
     9  the ledger doesn't keep such messages
    10  the session is closed already
    11  all rows are in use
    12  stale: no row has the ID, and it isn't above the highest
    13  a rule is broken: by this end, and nothing is done; or by the peer, and that closes the session
    14  the numbers aren't a ledger's, or are too few
    15  a ledger can't start so
    16  the arrival is counted
    17  it is outside the row's range
    18  no row has the alias
    19  the row is pending

   Where a call's list has no "or", the first of it that holds is answered. `numbers` are the next ledger's with 8, with 16, with 13 where
   the peer broke the rule, and with the 0 of a run; with any other number they stay as they are. */

#define MOQ_ROWS 64
#define MOQ_OWN_NUMBERS 6
#define MOQ_ROW_NUMBERS 11
#define MOQ_LEDGER_NUMBERS (MOQ_OWN_NUMBERS + MOQ_ROW_NUMBERS * MOQ_ROWS)

/* A new ledger with no row in use: 5, 15, 7, 8. 5: part is neither 0 nor 1. 15: rows isn't 1 to MOQ_ROWS, or the maximum is above
   4,611,686,018,427,387,903. 7: numbers has fewer than MOQ_LEDGER_NUMBERS values. What it held before isn't looked at. */
uint64_t moq_ledger_start(uint64_t part, uint64_t rows, uint64_t maximum, uint64_t *numbers, size_t numbers_len);

/* The control message at the front of s is taken; its type tells who sent it. info[0]: the bytes used; info[1]: the rule with 13, else
   0; both are told with every number from 8 to 13. The numbers of reading are answered first: 1, 2, 3, 4, 5, 6. Then 14; 7: info has
   fewer than 2 values; then 10, and then 9, 13, 12, 11 or 8. */
uint64_t moq_ledger_take(const uint8_t *s, size_t s_len, uint64_t *numbers, size_t numbers_len, uint64_t *info, size_t info_len);

/* Control bytes of the peer's could not be read, with 2, 3, 4, 5 or 6: 14, 10, or else 13, which is rule 1. */
uint64_t moq_ledger_malformed(uint64_t *numbers, size_t numbers_len);

/* An arrival: 14, 5, 10, 18, 19, 17, 16. 5: one of its three numbers is above 4,611,686,018,427,387,903. */
uint64_t moq_ledger_arrival(uint64_t alias, uint64_t group, uint64_t object, uint64_t *numbers, size_t numbers_len);

/* Arrivals one after the other, each an alias, a group and an object in run; one or two values at its end are none: 14, 7, 0.
   answers[i]: what moq_ledger_arrival answers to the i-th, which is never 14. 7: answers has fewer bytes than there are arrivals, and
   none of them is taken. */
uint64_t moq_ledger_arrivals(const uint64_t *run, size_t run_len, uint64_t *numbers, size_t numbers_len,
                             uint8_t *answers, size_t answers_len);

#ifdef __cplusplus
}
#endif

#endif
