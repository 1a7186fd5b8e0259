/* The client's half as four calls with C's calling convention, for x86-64 Linux: a COMPOUND is written from operations, and the reply to it
   is taken apart. Link target/staticlib/libclient.a, which `tools/archive client` writes. Of the C library it takes memcpy, memmove and
   memset; it allocates nothing and keeps no state.

   Lengths count elements. Every call takes any numbers, lengths and contents, and answers 0 or one of these:

      9  the request buffer is shorter than the request
     10  the reply is not one to this request
     11  the request can't be written: more than CLIENT_MAX_OPERATIONS operations, a tag over CLIENT_MAX_TAG bytes, a span outside the data, a
         value that the server would answer BADXDR or NOTSUPP, or more than CLIENT_MAX_REQUEST bytes

   What the calls do ask: each pointer is aligned, valid for its length and not null, also where the length is 0, and what a call may
   write overlaps nothing else that it is lent. Threads may call at the same time. */
#ifndef CLIENT_H
#define CLIENT_H

#include <stddef.h>
#include <stdint.h>

#define CLIENT_MAX_OPERATIONS 12
#define CLIENT_MAX_TAG 1024
#define CLIENT_MAX_REQUEST 65536
#define CLIENT_DONE 1
#define CLIENT_NO_STATUS 4294967295u

#ifdef __cplusplus
extern "C" {
#endif

/* Where bytes stand: in the data that is lent with a request, or in a reply. */
struct client_span {
    uint64_t start, len;
};

/* An operation: its number, at most two spans of the data, and at most five numbers. What an operation has not is not looked at.

     number                        first            second    numbers
     9 GETATTR                     bitmap's words
     10 GETFH
     22 PUTFH                      handle
     25 READ, 68 READ_PLUS         stateid                    offset, count
     31 RESTOREFH, 32 SAVEFH
     38 WRITE                      stateid          data      offset, stable_how
     59 ALLOCATE, 62 DEALLOCATE    stateid                    offset, length
     60 COPY                       source stateid   target    source offset, target offset, count, consecutive, synchronous
     69 SEEK                       stateid                    offset, what
     71 CLONE                      source stateid   target    source offset, target offset, count

   A bitmap's words stand as they are sent, four bytes each with the highest first. */
struct client_operation {
    uint64_t number;
    struct client_span first, second;
    uint64_t numbers[5];
};

#define CLIENT_OPERATION 10

/* Writes the request from a tag and operations, CLIENT_OPERATION numbers each in the order of struct client_operation; a rest of them is
   refused with 11. Sets *written to the request's length, 0 on a refusal. Bytes of the buffer behind it stay as they are, and on a refusal all of
   them. Answers 0, 9 or 11. */
uint32_t client_write_request(const uint8_t *tag, size_t tag_len, const uint64_t *operations, size_t operations_len,
    const uint8_t *data, size_t data_len, uint8_t *request, size_t request_len, uint64_t written[1]);

/* Opens the reply to a request with this tag and these operation numbers. Sets told:

     told[0]  the reply's status; CLIENT_NO_STATUS on a refusal
     told[1]  the place of the first result; the reply's length on a refusal

   Answers 0 or 10: the bytes aren't one COMPOUND reply to the last of them; the tag is another; the results' numbers don't follow the request's,
   all of them where the status is OK; a result stands behind one that failed; or the status is not the last result's. */
uint32_t client_open_reply(const uint8_t *tag, size_t tag_len, const uint32_t *numbers, size_t numbers_len,
    const uint8_t *reply, size_t reply_len, uint64_t told[2]);

/* The result at a place of a reply that was opened: the first one's, or the one told with the last result. Sets told:

     told[0]  operation number
     told[1]  status
     told[2]  the place of the next result
     told[3]  and on, where the status is OK:
              GETATTR    bitmap's words: start, length in bytes; values: start, length
              GETFH      handle: start, length
              READ       eof; data: start, length
              WRITE      count, committed; verifier: start, length
              COPY       count, committed; verifier: start, length; consecutive, synchronous
              READ_PLUS  eof, number of pieces, place of the first piece
              SEEK       eof, offset

   Starts are places of the reply; what is not told is 0. Answers 0; CLIENT_DONE behind the last result; or 10, where no result stands at a
   place that was not told. */
uint32_t client_next_result(const uint8_t *reply, size_t reply_len, uint64_t at, uint64_t told[10]);

/* The piece at a place of a reply that was opened: the first one's of a READ_PLUS, or the one told with the last piece. Sets told:

     told[0]  0 for data, 1 for a hole
     told[1]  its offset in the file
     told[2]  its length
     told[3]  where its data starts in the reply; 0 for a hole
     told[4]  the place of the next piece

   Answers 0; or 10, where no piece stands at the place, with zeros. */
uint32_t client_next_piece(const uint8_t *reply, size_t reply_len, uint64_t at, uint64_t told[5]);

#ifdef __cplusplus
}
#endif

#endif
