/* The server core as four calls with C's calling convention, for x86-64 Linux. Link target/staticlib/libserver.a, which
   `tools/archive server` writes. Of the C library it takes memcpy, memmove and memset; it allocates nothing and keeps no state.

   The store is lent with every call:

     files       1 to 64
     slots       of a file, 1 to 1,024
     blocks      in the pool, 1 to 65,536
     block_size  512, 1,024, 2,048 or 4,096 bytes
     sizes       a size for each file:                 sizes_len = files
     words       a slot word for each slot, by file:   words_len = files * slots
     mem         the block memory:                     mem_len   = blocks * block_size

   Lengths count elements. Every call takes any numbers, lengths and contents, and answers 0 or the first of these that applies:

     1  the geometry lies outside the numbers above
     2  a table, the block memory, the verifier or the zero page has another length
     3  the store is not sound, or the zero page is not all zero
     4  the request is longer than SERVER_MAX_REQUEST
     5  the reply buffer is shorter than SERVER_MIN_REPLY
     6  the tag, the minor version or the number of operations does not decode, or the tag is longer than 1,024 bytes
     8  there is no such file or no such slot

   A refused call leaves the store and the reply as they are and sets its counts to zero. One that shows a slot shows the zero page's
   empty start.

   What the calls do ask: each pointer is aligned, valid for its length and not null, also where the length is 0, and what a call may
   write overlaps nothing else that it is lent. Threads may call at the same time on stores of their own. A call takes up to
   270 KiB of stack, most of it a table of holders: a thread with 512 KiB has room for it. */
#ifndef SERVER_H
#define SERVER_H

#include <stddef.h>
#include <stdint.h>

#define SERVER_VERIFIER 8
#define SERVER_MAX_REQUEST 65536
#define SERVER_MIN_REPLY 32768
#define SERVER_NOWHERE 4294967295u

#ifdef __cplusplus
extern "C" {
#endif

/* Zeroes every table and the block memory. Answers 0, 1 or 2. */
uint32_t store_make_empty(uint64_t files, uint64_t slots, uint64_t blocks, uint64_t block_size,
    uint64_t *sizes, size_t sizes_len, uint32_t *words, size_t words_len, uint8_t *mem, size_t mem_len);

/* Whether the store is sound. Sets counts to the used and the owed blocks, zero on a refusal. Answers 0 to 3. */
uint32_t store_survey(uint64_t files, uint64_t slots, uint64_t blocks, uint64_t block_size,
    const uint64_t *sizes, size_t sizes_len, const uint32_t *words, size_t words_len, const uint8_t *mem, size_t mem_len,
    uint64_t counts[2]);

/* Shows a slot of a file, both numbered from 0, without copying it: block_size bytes of mem, or for a hole the zero page, which is
   block_size bytes that are all zero. Sets shown to the slice that has the bytes, where they start in it and how many they are:

     {0, start, block_size}  in mem, from start on
     {1, 0, block_size}      in the page: a hole
     {1, 0, 0}               on a refusal

   Answers 0 to 3, or 8. */
uint32_t store_slot_view(uint64_t files, uint64_t slots, uint64_t blocks, uint64_t block_size,
    const uint64_t *sizes, size_t sizes_len, const uint32_t *words, size_t words_len, const uint8_t *mem, size_t mem_len,
    const uint8_t *page, size_t page_len, uint64_t file, uint64_t slot, uint64_t shown[3]);

/* Runs the COMPOUND of the request on the store and writes the reply; the reply's other bytes stay as they are. verifier has
   SERVER_VERIFIER bytes and is what WRITE and COPY answer. Sets told:

     told[0]  the bytes read of the request; 0 on a refusal
     told[1]  the bytes written of the reply; 0 on a refusal
     told[2]  where the request went wrong, counted from 0 at its first byte: the first missing byte, a pad byte that is not zero, or the
              first byte of a value out of range, whichever is met first. Told where the last result's status is BADXDR (10036), and
              with refusal 6; else SERVER_NOWHERE

   Answers 0 to 6. */
uint32_t compound_serve(uint64_t files, uint64_t slots, uint64_t blocks, uint64_t block_size,
    uint64_t *sizes, size_t sizes_len, uint32_t *words, size_t words_len, uint8_t *mem, size_t mem_len,
    const uint8_t *verifier, size_t verifier_len, const uint8_t *request, size_t request_len,
    uint8_t *reply, size_t reply_len, uint64_t told[3]);

#ifdef __cplusplus
}
#endif

#endif
