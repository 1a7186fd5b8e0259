/* Calls the archive as a front end does: each call served, and each refusal. Prints 'ok', or what differs. */
#include "server.h"

#include <pthread.h>
#include <stdio.h>
#include <string.h>

#define FILES 4
#define SLOTS 16
#define BLOCKS 32
#define BLOCK_SIZE 512
#define STACK (512 * 1024)
#define UNTOUCHED 0xa5

struct tables {
    uint64_t sizes[FILES];
    uint32_t words[FILES * SLOTS];
    uint8_t mem[BLOCKS * BLOCK_SIZE];
};

/* The arguments of a call to serve that one may want to spoil. */
struct lent {
    uint64_t files;
    size_t mem_len, verifier_len, request_len, reply_len;
};

static struct tables store;
static uint8_t verifier[SERVER_VERIFIER], request[SERVER_MAX_REQUEST + 1], reply[SERVER_MIN_REPLY];
static uint8_t page[BLOCK_SIZE + 1];
static uint64_t counts[2], told[3], shown[3];
static int differences;

static void expect(int same, const char *what)
{
    if (!same) {
        printf("differs: %s\n", what);
        differences++;
    }
}

static int counts_are(uint64_t first, uint64_t second)
{
    return counts[0] == first && counts[1] == second;
}

static int told_is(uint64_t read, uint64_t written, uint64_t place)
{
    return told[0] == read && told[1] == written && told[2] == place;
}

static int shown_is(uint64_t which, uint64_t start, uint64_t length)
{
    return shown[0] == which && shown[1] == start && shown[2] == length;
}

static uint32_t make_empty(uint64_t files, size_t mem_len)
{
    return store_make_empty(files, SLOTS, BLOCKS, BLOCK_SIZE, store.sizes, FILES, store.words, FILES * SLOTS, store.mem, mem_len);
}

static uint32_t survey(uint64_t files, size_t mem_len)
{
    memset(counts, UNTOUCHED, sizeof counts);
    return store_survey(files, SLOTS, BLOCKS, BLOCK_SIZE, store.sizes, FILES, store.words, FILES * SLOTS, store.mem, mem_len,
        counts);
}

static uint32_t slot_view(uint64_t files, size_t mem_len, size_t page_len, uint64_t file, uint64_t slot)
{
    memset(shown, UNTOUCHED, sizeof shown);
    return store_slot_view(files, SLOTS, BLOCKS, BLOCK_SIZE, store.sizes, FILES, store.words, FILES * SLOTS, store.mem, mem_len,
        page, page_len, file, slot, shown);
}

static uint32_t serve(struct lent a)
{
    memset(reply, UNTOUCHED, sizeof reply);
    memset(told, UNTOUCHED, sizeof told);
    return compound_serve(a.files, SLOTS, BLOCKS, BLOCK_SIZE, store.sizes, FILES, store.words, FILES * SLOTS, store.mem, a.mem_len,
        verifier, a.verifier_len, request, a.request_len, reply, a.reply_len, told);
}

static struct lent whole(size_t request_len)
{
    struct lent a = {FILES, sizeof store.mem, sizeof verifier, request_len, sizeof reply};
    return a;
}

static int untouched_from(size_t at)
{
    while (at < sizeof reply && reply[at] == UNTOUCHED)
        at++;
    return at == sizeof reply;
}

/* Writes the bytes of a line of hexadecimal, and says how many. */
static size_t bytes_of(const char *line, uint8_t *to)
{
    size_t n = 0;
    unsigned byte;
    for (; sscanf(line, "%2x", &byte) == 1; line += 2)
        to[n++] = (uint8_t)byte;
    return n;
}

/* A frame of document 01, "A day's frames": the request is read whole, and the reply is the document's. */
static void frame(const char *in, const char *out, const char *what)
{
    uint8_t want[128];
    size_t n = bytes_of(in, request), m = bytes_of(out, want);
    expect(serve(whole(n)) == 0, what);
    expect(told_is(n, m, SERVER_NOWHERE), what);
    expect(memcmp(reply, want, m) == 0 && untouched_from(m), what);
}

static void served(void)
{
    static const struct tables zero;
    memset(&store, UNTOUCHED, sizeof store);
    expect(make_empty(FILES, sizeof store.mem) == 0, "make_empty");
    expect(memcmp(&store, &zero, sizeof store) == 0, "make_empty's tables");
    expect(survey(FILES, sizeof store.mem) == 0 && counts_are(0, 0), "survey of an empty store");
    frame("000000000000000200000002000000160000000400000001"
          "0000003b0000000000000000000000000000000000000000000000000000000000000200",
        "00000000000000000000000200000016000000000000003b00000000", "frame 1");
    expect(store.sizes[1] == BLOCK_SIZE && store.words[SLOTS] == 1, "frame 1's tables");
    expect(survey(FILES, sizeof store.mem) == 0 && counts_are(0, 1), "survey after frame 1");
    frame("000000000000000200000002000000160000000400000001"
          "0000004400000000000000000000000000000000000000000000000000000010",
        "00000000000000000000000200000016000000000000004400000000000000000000000100000001"
        "00000000000000000000000000000010", "frame 2");
}

/* On the store after frame 2, with one byte written to slot 2 of file 3. */
static void showed(void)
{
    size_t length = sizeof store.mem;
    expect(slot_view(FILES, length, BLOCK_SIZE, 1, 0) == 0 && shown_is(1, 0, BLOCK_SIZE), "a reserved hole shown");
    expect(slot_view(FILES, length, BLOCK_SIZE, 3, 15) == 0 && shown_is(1, 0, BLOCK_SIZE), "a slot past the size shown");
    frame("000000000000000200000002000000160000000400000003"
          "00000026000000000000000000000000000000000000000000000401000000020000000177000000",
        "0000000000000000000000020000001600000000000000260000000000000001000000020000000000000000", "a byte written");
    expect(slot_view(FILES, length, BLOCK_SIZE, 3, 1) == 0 && shown_is(1, 0, BLOCK_SIZE), "a hole shown");
    expect(slot_view(FILES, length, BLOCK_SIZE, 3, 2) == 0 && shown_is(0, 0, BLOCK_SIZE), "a block shown");
    expect(store.mem[shown[1]] == 0 && store.mem[shown[1] + 1] == 0x77, "a block's bytes");
    store.words[3 * SLOTS + 2] = 2 * 5;
    expect(slot_view(FILES, length, BLOCK_SIZE, 3, 2) == 0 && shown_is(0, 4 * BLOCK_SIZE, BLOCK_SIZE), "block 4 shown");
    store.words[3 * SLOTS + 2] = 2;
}

/* A PUTFH whose handle has one byte and a pad with a wrong byte at place 22, cut after each byte. Up to there the first missing byte
   is told: of the header, with refusal 6, of the operation behind it. */
static void misread(void)
{
    size_t length, n = bytes_of("000000000000000200000001000000160000000161000100", request);
    for (length = 0; length <= n; length++) {
        size_t place = length < 22 ? length : 22;
        if (length < 12)
            expect(serve(whole(length)) == 6 && told_is(0, 0, place), "a header cut off");
        else
            expect(serve(whole(length)) == 0 && told_is(12, 20, place), "an operation that does not decode");
    }
}

/* A refused view of a slot shows the page's empty start. */
static void hides(uint32_t number, uint32_t answer, const char *what)
{
    expect(answer == number && shown_is(1, 0, 0), what);
}

static void hidden(void)
{
    size_t length = sizeof store.mem;
    hides(1, slot_view(FILES + 64, length, BLOCK_SIZE, 3, 2), "view refused: 1");
    hides(2, slot_view(FILES, length - 1, BLOCK_SIZE, 3, 2), "view refused: 2, block memory");
    hides(2, slot_view(FILES, length, BLOCK_SIZE - 1, 3, 2), "view refused: 2, page short");
    hides(2, slot_view(FILES, length, BLOCK_SIZE + 1, 3, 2), "view refused: 2, page long");
    hides(2, slot_view(FILES, length, 0, 3, 2), "view refused: 2, page empty");
    hides(8, slot_view(FILES, length, BLOCK_SIZE, FILES, 2), "view refused: 8, file");
    hides(8, slot_view(FILES, length, BLOCK_SIZE, 3, SLOTS), "view refused: 8, slot");
    hides(8, slot_view(FILES, length, BLOCK_SIZE, UINT64_MAX, UINT64_MAX), "view refused: 8, largest");
    page[BLOCK_SIZE - 1] = 1;
    hides(3, slot_view(FILES, length, BLOCK_SIZE, FILES, 2), "view refused: 3, page");
    page[BLOCK_SIZE - 1] = 0;
}

/* A refused call to serve answers its number, zero counts and the place, and changes nothing. */
static void refuses(uint32_t number, struct lent a, uint64_t place, const char *what)
{
    struct tables before = store;
    expect(serve(a) == number && told_is(0, 0, place), what);
    expect(untouched_from(0) && memcmp(&store, &before, sizeof store) == 0, what);
}

/* On the same store, with the last request. */
static void refused(void)
{
    struct tables before = store;
    size_t length = sizeof store.mem;
    struct lent good = whole(64), a = good, b = good, c = good, d = good;
    expect(make_empty(0, length) == 1 && make_empty(FILES, length - 1) == 2, "make_empty refused");
    expect(memcmp(&store, &before, sizeof store) == 0, "make_empty refused: tables");
    expect(survey(65, length) == 1 && survey(FILES, length - 1) == 2, "survey refused");
    expect(survey(UINT64_MAX, length) == 1 && counts_are(0, 0), "survey refused: 1");
    expect(survey(FILES, 0) == 2 && counts_are(0, 0), "survey refused: 2");
    a.files = FILES + 64;
    refuses(1, a, SERVER_NOWHERE, "refusal 1");
    b.mem_len--;
    refuses(2, b, SERVER_NOWHERE, "refusal 2: block memory");
    c.verifier_len--;
    refuses(2, c, SERVER_NOWHERE, "refusal 2: verifier");
    refuses(4, whole(SERVER_MAX_REQUEST + 1), SERVER_NOWHERE, "refusal 4");
    d.reply_len--;
    refuses(5, d, SERVER_NOWHERE, "refusal 5");
    refuses(6, whole(11), 11, "refusal 6");
    store.words[0] = 2 * (BLOCKS + 1);
    expect(survey(FILES, length) == 3 && counts_are(0, 0), "survey refused: 3");
    hides(3, slot_view(FILES, length, BLOCK_SIZE, 3, 2), "view refused: 3, store");
    refuses(3, good, SERVER_NOWHERE, "refusal 3");
}

static void *run(void *nothing)
{
    served();
    showed();
    misread();
    hidden();
    refused();
    return nothing;
}

int main(void)
{
    pthread_attr_t attributes;
    pthread_t thread;
    if (pthread_attr_init(&attributes) != 0 || pthread_attr_setstacksize(&attributes, STACK) != 0
        || pthread_create(&thread, &attributes, run, NULL) != 0 || pthread_join(thread, NULL) != 0) {
        puts("no thread");
        return 2;
    }
    if (differences == 0)
        puts("ok");
    return differences != 0;
}
