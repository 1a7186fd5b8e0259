/* Calls the client's archive and the server's as the two ends of a link do: compounds are written, served and their replies read; then each
   refusal. Prints 'ok', or what differs. */
#include "../server/server.h"
#include "client.h"

#include <pthread.h>
#include <stdio.h>
#include <string.h>

#define FILES 4
#define SLOTS 16
#define BLOCKS 32
#define BLOCK_SIZE 512
#define STACK (512 * 1024)
#define UNTOUCHED 0xa5

/* What is lent with every request: two handles, two stateids, a bitmap of four attributes, data. */
static const struct client_span handle_1 = {0, 4}, handle_2 = {4, 4}, zeros = {8, 16}, ones = {24, 16}, asked = {40, 12},
    hello = {52, 5};
static uint8_t data[CLIENT_MAX_REQUEST] = "\0\0\0\1\0\0\0\2\0\0\0\0\0\0\0\0\0\0\0\0\0\0\0\0"
    "\377\377\377\377\377\377\377\377\377\377\377\377\377\377\377\377\0\0\0\20\0\0\40\0\0\0\140\0hello";

static uint64_t sizes[FILES];
static uint32_t words[FILES * SLOTS];
static uint8_t mem[BLOCKS * BLOCK_SIZE];
static const uint8_t verifier[SERVER_VERIFIER] = {'v', 'e', 'r', 'i', 'f', 'i', 'e', 'r'}, tag[CLIENT_MAX_TAG + 1] = "tag";

/* The compound in the making, and what becomes of it. */
static struct client_operation list[CLIENT_MAX_OPERATIONS + 1];
static uint32_t numbers[CLIENT_MAX_OPERATIONS + 1];
static size_t operations, tag_len = 3;
static uint8_t request[CLIENT_MAX_REQUEST], reply[SERVER_MIN_REPLY + 4];
static uint64_t request_len, reply_len, at, told[10];
static int differences;

static void expect(int same, const char *what)
{
    if (!same) {
        printf("differs: %s\n", what);
        differences++;
    }
}

static struct client_operation *add(uint32_t number, struct client_span first, uint64_t a, uint64_t b)
{
    struct client_operation *one = &list[operations];
    memset(one, UNTOUCHED, sizeof *one);
    one->number = number;
    one->first = first;
    one->numbers[0] = a;
    one->numbers[1] = b;
    numbers[operations++] = number;
    return one;
}

static void add_write(struct client_span what, uint64_t offset, uint64_t stable_how)
{
    add(38, zeros, offset, stable_how)->second = what;
}

/* COPY or CLONE of a whole file to another's start. */
static void add_transfer(uint32_t number)
{
    struct client_operation *one = add(number, ones, 0, 0);
    one->second = zeros;
    one->numbers[2] = 0;
    one->numbers[3] = one->numbers[4] = 1;
}

static uint32_t write_to(size_t length)
{
    memset(request, UNTOUCHED, sizeof request);
    return client_write_request(tag, tag_len, (const uint64_t *)list, operations * CLIENT_OPERATION, data, sizeof data, request, length,
        &request_len);
}

static int untouched_from(size_t place)
{
    while (place < sizeof request && request[place] == UNTOUCHED)
        place++;
    return place == sizeof request;
}

static uint32_t opens(size_t length)
{
    return client_open_reply(tag, tag_len, numbers, operations, reply, length, told);
}

/* Writes the compound, serves it and opens the reply. */
static void serves(uint32_t status, const char *what)
{
    uint64_t counts[3];
    expect(write_to(sizeof request) == 0 && untouched_from(request_len), what);
    expect(compound_serve(FILES, SLOTS, BLOCKS, BLOCK_SIZE, sizes, FILES, words, FILES * SLOTS, mem, sizeof mem, verifier, sizeof verifier,
        request, request_len, reply, SERVER_MIN_REPLY, counts) == 0, what);
    expect(counts[2] == SERVER_NOWHERE && (status != 0 || counts[0] == request_len), what);
    reply_len = counts[1];
    expect(opens(reply_len) == 0 && told[0] == status, what);
    at = told[1];
}

/* The next result. */
static void answers(uint32_t number, uint32_t status, const char *what)
{
    memset(told, UNTOUCHED, sizeof told);
    expect(client_next_result(reply, reply_len, at, told) == 0 && told[0] == number && told[1] == status && told[2] > at, what);
    at = told[2];
}

/* The rest of what is told of it. */
static void tells(uint64_t a, uint64_t b, uint64_t c, const char *what)
{
    expect(told[3] == a && told[4] == b && told[5] == c && told[6] == 0 && told[7] == 0 && told[8] == 0 && told[9] == 0, what);
}

static int bytes_are(uint64_t start, uint64_t length, const char *bytes, size_t count)
{
    return length == count && start <= reply_len && length <= reply_len - start && memcmp(reply + start, bytes, count) == 0;
}

/* The piece at a place. */
static void piece(uint64_t place, uint64_t kind, uint64_t offset, uint64_t length, const char *what)
{
    expect(client_next_piece(reply, reply_len, place, told) == 0, what);
    expect(told[0] == kind && told[1] == offset && told[2] == length && (told[3] == 0) == (kind == 1) && told[4] > place, what);
}

static void done(const char *what)
{
    expect(at == reply_len && client_next_result(reply, reply_len, at, told) == CLIENT_DONE && told[0] == 0, what);
    tells(0, 0, 0, what);
}

/* Twelve operations: file 1 has 1,024 reserved bytes, five of them written, and is copied to file 2. */
static void twelve(void)
{
    struct client_span none = {UINT64_MAX, UINT64_MAX};
    operations = 0;
    add(22, handle_1, 0, 0);
    add(59, zeros, 0, 2 * BLOCK_SIZE);
    add_write(hello, 600, 2);
    add(25, ones, 598, 16);
    add(68, zeros, 0, UINT32_MAX);
    add(69, zeros, 0, 0);
    add(9, asked, 0, 0);
    add(10, none, 0, 0);
    add(32, none, 0, 0);
    add(22, handle_2, 0, 0);
    add_transfer(60);
    add(31, none, 0, 0);
    serves(0, "twelve operations");
}

static void twelve_read(void)
{
    uint64_t first;
    answers(22, 0, "PUTFH");
    answers(59, 0, "ALLOCATE");
    tells(0, 0, 0, "ALLOCATE's body");
    answers(38, 0, "WRITE");
    expect(told[3] == 5 && told[4] == 2 && bytes_are(told[5], told[6], "verifier", 8), "WRITE's body");
    answers(25, 0, "READ");
    expect(told[3] == 0 && bytes_are(told[4], told[5], "\0\0hello\0\0\0\0\0\0\0\0\0", 16), "READ's body");
    answers(68, 0, "READ_PLUS");
    expect(told[3] == 1 && told[4] == 2, "READ_PLUS's body");
    first = told[5];
    piece(first, 1, 0, BLOCK_SIZE, "READ_PLUS's hole");
    piece(told[4], 0, BLOCK_SIZE, BLOCK_SIZE, "READ_PLUS's data");
    expect(bytes_are(told[3] + 88, 5, "hello", 5) && told[4] == at, "READ_PLUS's bytes");
    answers(69, 0, "SEEK");
    tells(0, BLOCK_SIZE, 0, "SEEK's body");
    answers(9, 0, "GETATTR");
    expect(bytes_are(told[3], told[4], "\0\0\0\20\0\0\40\0\0\0\140\0", 12), "GETATTR's bitmap");
    expect(bytes_are(told[5], told[6], "\0\0\0\0\0\0\4\0\0\0\0\0\0\0\4\0\0\0\2\0\0\0\0\0\0\0\4\0", 28), "GETATTR's values");
    answers(10, 0, "GETFH");
    expect(bytes_are(told[3], told[4], "\0\0\0\1", 4), "GETFH's handle");
    answers(32, 0, "SAVEFH");
    answers(22, 0, "the second PUTFH");
    answers(60, 0, "COPY");
    expect(told[3] == 2 * BLOCK_SIZE && told[4] == 2 && told[7] == 1 && told[8] == 1, "COPY's body");
    expect(bytes_are(told[5], told[6], "verifier", 8), "COPY's verifier");
    answers(31, 0, "RESTOREFH");
    done("twelve operations' end");
}

/* CLONE and DEALLOCATE, a READ that fails, and an operation that is not run. */
static void failing(void)
{
    struct client_span none = {UINT64_MAX, UINT64_MAX};
    operations = 0;
    add(22, handle_1, 0, 0);
    add(32, none, 0, 0);
    add(22, handle_2, 0, 0);
    add_transfer(71);
    add(62, zeros, 0, 4 * BLOCK_SIZE);
    add(68, zeros, 2 * BLOCK_SIZE, 1);
    add(25, asked, 0, 1);
    list[operations - 1].first.len = 16;
    add(10, none, 0, 0);
    serves(10025, "a compound that fails");
    answers(22, 0, "PUTFH of a source");
    answers(32, 0, "SAVEFH of a source");
    answers(22, 0, "PUTFH of a target");
    answers(71, 0, "CLONE");
    answers(62, 0, "DEALLOCATE");
    tells(0, 0, 0, "DEALLOCATE's body");
    answers(68, 0, "READ_PLUS at the size");
    tells(1, 0, at, "READ_PLUS of no pieces");
    answers(25, 10025, "READ with a bad stateid");
    tells(0, 0, 0, "a failed READ's body");
    done("a failed compound's end");
}

static void not_opened(uint32_t answer, size_t length, const char *what)
{
    expect(answer == 10 && told[0] == CLIENT_NO_STATUS && told[1] == length, what);
}

/* The reply to twelve operations, changed or as one to another request. */
static void refused_10(void)
{
    size_t length;
    twelve();
    for (length = 0; length < reply_len; length++)
        not_opened(opens(length), length, "refusal 10: a reply cut off");
    reply[reply_len] = 0;
    not_opened(opens(reply_len + 1), reply_len + 1, "refusal 10: a byte too many");
    tag_len = 2;
    not_opened(opens(reply_len), reply_len, "refusal 10: another tag");
    tag_len = 3;
    numbers[5]++;
    not_opened(opens(reply_len), reply_len, "refusal 10: another operation");
    numbers[5]--;
    operations--;
    not_opened(opens(reply_len), reply_len, "refusal 10: fewer operations");
    operations += 2;
    not_opened(opens(reply_len), reply_len, "refusal 10: more operations");
    operations--;
    reply[3] = 28;
    not_opened(opens(reply_len), reply_len, "refusal 10: another status");
    reply[3] = 0;
    reply[11] = 1;
    not_opened(opens(reply_len), reply_len, "refusal 10: the tag's pad");
    reply[11] = 0;
    expect(opens(reply_len) == 0, "the reply as it was");
}

/* Places that were not told. */
static void refused_places(void)
{
    expect(client_next_result(reply, reply_len, reply_len - 3, told) == 10 && told[0] == 0 && told[2] == 0, "no result at a place");
    tells(0, 0, 0, "what is told of no result");
    expect(client_next_result(reply, reply_len, UINT64_MAX, told) == CLIENT_DONE, "no result at the last place");
    expect(client_next_piece(reply, reply_len, reply_len, told) == 10, "no piece at the end");
    expect(told[0] == 0 && told[1] == 0 && told[2] == 0 && told[3] == 0 && told[4] == 0, "what is told of no piece");
    expect(client_next_piece(reply, reply_len, UINT64_MAX, told) == 10, "no piece at the last place");
}

/* The compound can't be written, whatever the buffer's length. */
static void not_written(const char *what)
{
    expect(write_to(sizeof request) == 11 && request_len == 0 && untouched_from(0), what);
    expect(write_to(0) == 11 && request_len == 0 && untouched_from(0), what);
}

static void refused_9(void)
{
    size_t length, exact = request_len;
    for (length = 0; length < exact; length++)
        expect(write_to(length) == 9 && request_len == 0 && untouched_from(0), "refusal 9");
    expect(write_to(exact) == 0 && request_len == exact && untouched_from(exact), "a buffer of the exact length");
}

/* One operation that can't be written. */
static void wrong(uint32_t number, struct client_span first, struct client_span second, uint64_t b, const char *what)
{
    operations = 0;
    add(number, first, 0, b)->second = second;
    list[0].numbers[3] = b;
    list[0].numbers[4] = 0;
    not_written(what);
}

static void refused_11(void)
{
    struct client_span outside = {sizeof data - 15, 16}, wrapped = {UINT64_MAX - 14, 16}, wide = {16, UINT64_MAX - 7};
    struct client_span handle = {0, 129}, bitmap = {0, 20}, uneven = {0, 6}, whole = {0, sizeof data - 40};
    wrong(53, zeros, zeros, 0, "refusal 11: an operation that is not served");
    wrong(25, outside, zeros, 0, "refusal 11: a span outside the data");
    wrong(25, wrapped, zeros, 0, "refusal 11: a start that wraps");
    wrong(38, zeros, wide, 0, "refusal 11: a length that wraps");
    wrong(71, zeros, outside, 0, "refusal 11: a second span outside the data");
    wrong(25, hello, zeros, 0, "refusal 11: a stateid");
    wrong(22, handle, zeros, 0, "refusal 11: a handle");
    wrong(9, bitmap, zeros, 0, "refusal 11: a bitmap");
    wrong(9, uneven, zeros, 0, "refusal 11: a bitmap's last word");
    wrong(38, zeros, hello, 3, "refusal 11: stable_how");
    wrong(60, zeros, zeros, 2, "refusal 11: consecutive");
    list[0].numbers[3] = 0;
    list[0].numbers[4] = 2;
    not_written("refusal 11: synchronous");
    wrong(68, zeros, zeros, (uint64_t)UINT32_MAX + 1, "refusal 11: a count");
    wrong(38, zeros, whole, 2, "refusal 11: a long request");
    tag_len = CLIENT_MAX_TAG + 1;
    operations = 0;
    not_written("refusal 11: a long tag");
    tag_len = 3;
    while (operations <= CLIENT_MAX_OPERATIONS)
        add(10, zeros, 0, 0);
    not_written("refusal 11: too many operations");
    expect(client_write_request(tag, tag_len, (const uint64_t *)list, CLIENT_OPERATION + 1, data, sizeof data, request, sizeof request,
        &request_len) == 11 && request_len == 0, "refusal 11: a rest of numbers");
}

/* The longest request has 16 bytes of header and tag, and 36 of a WRITE beside its data. */
static void longest(void)
{
    struct client_span most = {0, CLIENT_MAX_REQUEST - 16 - 36};
    operations = 0;
    add_write(most, 0, 0);
    expect(write_to(sizeof request) == 0 && request_len == CLIENT_MAX_REQUEST, "the longest request");
    list[0].second.len++;
    not_written("refusal 11: one byte more");
}

static void *run(void *nothing)
{
    expect(store_make_empty(FILES, SLOTS, BLOCKS, BLOCK_SIZE, sizes, FILES, words, FILES * SLOTS, mem, sizeof mem) == 0, "an empty store");
    twelve();
    twelve_read();
    failing();
    refused_10();
    refused_places();
    refused_9();
    refused_11();
    longest();
    return nothing;
}

int main(void)
{
    pthread_attr_t attributes;
    pthread_t thread;
    if (pthread_attr_init(&attributes) != 0 || pthread_attr_setstacksize(&attributes, STACK) != 0
        || pthread_create(&thread, &attributes, run, NULL) != 0 || pthread_join(thread, NULL) != 0) {
        puts("no thread");
        return 2;
    }
    if (differences == 0)
        puts("ok");
    return differences != 0;
}
