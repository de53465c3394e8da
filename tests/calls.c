/*
 * The exported calls and the calls on structs above them, as C sees them.
 *
 * Every call is made on buffers of its own with filled bytes around them (or, with the argument `exact`, on blocks of exactly
 * their length, so that valgrind sees what is read or written past them). After every call these fills, the masks and the
 * path must be as they were; after every refusal the tables too, with ZAN_NO_ACTION, 0 and 0 in the out-parameters.
 */
#include <stdio.h>
#include <stdlib.h>
#include <string.h>
#include <time.h>

#include "zanthupra.h"

#define FILL 0xA5

static size_t fill_bytes = 64; /* on each side of a buffer */
static unsigned long checks, failures;

#define CHECK(what) check((what) ? 1 : 0, #what, __LINE__)
#define SAME(expected, value) same((expected), (value), #value, __LINE__)

static void check(int holds, const char *what, int line)
{
    checks++;
    if (!holds) {
        failures++;
        printf("tests/calls.c:%d: %s\n", line, what);
    }
}

static void same(unsigned long long expected, unsigned long long value, const char *what, int line)
{
    checks++;
    if (expected != value) {
        failures++;
        printf("tests/calls.c:%d: %s is %llX, expected %llX\n", line, what, value, expected);
    }
}

/* A block that is lent to a call: fill, a few bytes more if it shall stand at an odd address, the bytes, fill. */
struct block {
    uint8_t *whole;
    uint8_t *bytes;
    size_t length, before;
};

static struct block block_at(size_t length, size_t offset)
{
    struct block b;
    b.length = length;
    b.before = fill_bytes + offset;
    b.whole = (uint8_t *)malloc(b.before + length + fill_bytes + (length + b.before + fill_bytes == 0));
    if (b.whole == NULL) {
        puts("no memory");
        exit(EXIT_FAILURE);
    }
    b.bytes = b.whole + b.before;
    memset(b.whole, FILL, b.before);
    memset(b.bytes + length, FILL, fill_bytes);
    return b;
}

static struct block block(size_t length)
{
    return block_at(length, 0);
}

static struct block copy_of(const void *bytes, size_t length)
{
    struct block b = block(length);
    if (length != 0) {
        memcpy(b.bytes, bytes, length);
    }
    return b;
}

/* Checks the fill and frees the block. */
static void done(struct block b, int line)
{
    size_t i, changed = 0;
    for (i = 0; i < b.before; i++) {
        changed += b.whole[i] != FILL;
    }
    for (i = 0; i < fill_bytes; i++) {
        changed += b.bytes[b.length + i] != FILL;
    }
    same(0, changed, "bytes changed around a buffer", line);
    free(b.whole);
}

/* Checks that the block has these bytes still, then its fill, and frees it. */
static void done_unchanged(struct block b, const void *bytes, int line)
{
    check(b.length == 0 || memcmp(b.bytes, bytes, b.length) == 0, "a lent buffer is unchanged", line);
    done(b, line);
}

/* Little-endian numbers in the tables. */
static void put(uint8_t *bytes, size_t width, uint64_t number)
{
    size_t i;
    for (i = 0; i < width; i++) {
        bytes[i] = (uint8_t)(number >> (8 * i));
    }
}

static uint64_t get(const uint8_t *bytes, size_t width)
{
    uint64_t number = 0;
    while (width-- > 0) {
        number = number << 8 | bytes[width];
    }
    return number;
}

/* Places in the tables (docs/LAYOUT.md). */
enum {
    MARK_AT = 0, NEXT_AT = 2, FILES_AT = 10, LINKS_AT = 5130, STREAMS_AT = 18186, OPENS_AT = 39690,
    FILE_BYTES = 40, STREAM_BYTES = 84, OPEN_BYTES = 22, COUNTS_IN = 68,
    FILE_PENDING_IN = 38, STREAM_PENDING_IN = 82, ON_CLOSE_IN = 20
};

/* The tables of one volume, and the bytes around them. */
struct volume {
    struct block tables;
    struct block before; /* the tables before the last call */
};

static void remember(struct volume *v)
{
    memcpy(v->before.bytes, v->tables.bytes, v->tables.length);
}

static int unchanged(const struct volume *v)
{
    return v->tables.length == 0 || memcmp(v->before.bytes, v->tables.bytes, v->tables.length) == 0;
}

static struct volume volume_of(size_t length, size_t offset)
{
    struct volume v;
    v.tables = block_at(length, offset);
    v.before = block(length);
    if (length != 0) {
        memset(v.tables.bytes, 0x5A, length);
        remember(&v);
    }
    return v;
}

static void volume_done(struct volume v, int line)
{
    done(v.tables, line);
    done(v.before, line);
}

#define DONE(v) volume_done((v), __LINE__)

/* The calls, with what holds of each checked. */
static uint32_t do_format(struct volume *v, const uint8_t *masks, size_t masks_len, uint32_t read_only, int line)
{
    struct block lent = copy_of(masks, masks_len);
    uint32_t status;
    if (v->tables.length != 0) {
        remember(v);
    }
    status = zan_format(v->tables.bytes, v->tables.length, lent.bytes, lent.length, read_only);
    if (status != ZAN_STATUS_SUCCESS) {
        check(unchanged(v), "a refused format leaves the tables", line);
    }
    done_unchanged(lent, masks, line);
    return status;
}

static struct zan_reply do_open(struct volume *v, const struct zan_request *r, const uint8_t *path, size_t path_len, int line)
{
    struct block lent = copy_of(path, path_len);
    struct block action = block(sizeof(uint32_t)), granted = block(sizeof(uint32_t)), handle = block(sizeof(uint64_t));
    struct zan_reply reply;
    memset(action.bytes, 0x5A, action.length);
    memset(granted.bytes, 0x5A, granted.length);
    memset(handle.bytes, 0x5A, handle.length);
    if (v->tables.length != 0) {
        remember(v);
    }
    reply.status = zan_open(v->tables.bytes, v->tables.length, r->account, r->access, r->share, r->disposition, r->options,
                            r->attributes, r->fold, lent.bytes, lent.length, (uint32_t *)(void *)action.bytes,
                            (uint32_t *)(void *)granted.bytes, (uint64_t *)(void *)handle.bytes);
    memcpy(&reply.action, action.bytes, action.length);
    memcpy(&reply.granted, granted.bytes, granted.length);
    memcpy(&reply.handle, handle.bytes, handle.length);
    if (reply.status != ZAN_STATUS_SUCCESS) {
        check(unchanged(v), "a refused open leaves the tables", line);
        same(ZAN_NO_ACTION, reply.action, "action of a refused open", line);
        same(0, reply.granted, "granted of a refused open", line);
        same(0, reply.handle, "handle of a refused open", line);
    } else {
        check(reply.action <= ZAN_FILE_OVERWRITTEN, "an action of 0 to 3", line);
        check(reply.handle != 0 && reply.granted != 0, "a handle and granted access", line);
        check(zan_audit(v->tables.bytes, v->tables.length) == 1, "sound after an open", line);
    }
    done_unchanged(lent, path, line);
    done(action, line);
    done(granted, line);
    done(handle, line);
    return reply;
}

static uint32_t do_close(struct volume *v, uint64_t handle, int line)
{
    uint32_t status;
    if (v->tables.length != 0) {
        remember(v);
    }
    status = zan_close(v->tables.bytes, v->tables.length, handle);
    if (status != ZAN_STATUS_SUCCESS) {
        check(unchanged(v), "a refused close leaves the tables", line);
    } else {
        check(zan_audit(v->tables.bytes, v->tables.length) == 1, "sound after a close", line);
    }
    return status;
}

static uint32_t do_set_read_only(struct volume *v, uint32_t read_only, int line)
{
    uint32_t status;
    if (v->tables.length != 0) {
        remember(v);
    }
    status = zan_set_read_only(v->tables.bytes, v->tables.length, read_only);
    if (status != ZAN_STATUS_SUCCESS) {
        check(unchanged(v), "a refused set_read_only leaves the tables", line);
    }
    return status;
}

static uint32_t do_audit(struct volume *v, int line)
{
    uint32_t sound;
    if (v->tables.length != 0) {
        remember(v);
    }
    sound = zan_audit(v->tables.bytes, v->tables.length);
    check(unchanged(v), "an audit leaves the tables", line);
    return sound;
}

#define FORMAT(v, masks, len, mark) do_format(&(v), (masks), (len), (mark), __LINE__)
#define OPEN(v, r, path, len) do_open(&(v), &(r), (path), (len), __LINE__)
#define CLOSE(v, handle) do_close(&(v), (handle), __LINE__)
#define SET_READ_ONLY(v, mark) do_set_read_only(&(v), (mark), __LINE__)
#define AUDIT(v) do_audit(&(v), __LINE__)

/* An open of account 0 by an ASCII path. */
#define ASK(v, access, share, disposition, options, text)                                                              \
    ask(&(v), (access), (share), (disposition), (options), (text), __LINE__)

static struct zan_request request_of(uint32_t access, uint32_t share, uint32_t disposition, uint32_t options)
{
    struct zan_request r = ZAN_ZERO;
    r.access = access;
    r.share = share;
    r.disposition = disposition;
    r.options = options;
    return r;
}

static struct zan_reply ask(struct volume *v, uint32_t access, uint32_t share, uint32_t disposition, uint32_t options,
                            const char *text, int line)
{
    struct zan_request r = request_of(access, share, disposition, options);
    uint8_t path[ZAN_PATH_BUFFER];
    size_t length = zan_ascii_path(path, text);
    return do_open(v, &r, path, length, line);
}

#define REFUSED(status_, reply_) same((status_), (reply_).status, #reply_, __LINE__)
#define ACCEPTED(action_, handle_, granted_, reply_)                                                                   \
    accepted((action_), (handle_), (granted_), (reply_), #reply_, __LINE__)

static void accepted(uint32_t action, uint64_t handle, uint32_t granted, struct zan_reply reply, const char *what, int line)
{
    same(ZAN_STATUS_SUCCESS, reply.status, what, line);
    same(action, reply.action, what, line);
    same(handle, reply.handle, what, line);
    same(granted, reply.granted, what, line);
}

static const uint8_t full_masks[ZAN_MASKS_SIZE] = {
    0xFF, 0x01, 0x1F, 0, 0xFF, 0x01, 0x1F, 0, 0xFF, 0x01, 0x1F, 0, 0xFF, 0x01, 0x1F, 0,
    0xFF, 0x01, 0x1F, 0, 0xFF, 0x01, 0x1F, 0, 0xFF, 0x01, 0x1F, 0, 0xFF, 0x01, 0x1F, 0,
};

static struct volume fresh(void)
{
    struct volume v = volume_of(ZAN_TABLES_SIZE, 0);
    SAME(ZAN_STATUS_SUCCESS, FORMAT(v, full_masks, ZAN_MASKS_SIZE, 0));
    return v;
}

/* The volume after worked case 5: `a` made and open, handle 1. */
static struct volume with_a(void)
{
    struct volume v = fresh();
    ACCEPTED(ZAN_FILE_CREATED, 1, 2, ASK(v, 2, 1, ZAN_FILE_CREATE, 0, "a"));
    return v;
}

/* The bytes of fresh tables, and of with_a's, as docs/LAYOUT.md dumps them. */
static void fresh_bytes(uint8_t *bytes)
{
    memset(bytes, 0, ZAN_TABLES_SIZE);
    bytes[NEXT_AT] = 1;
    bytes[FILES_AT] = 2;
    bytes[FILES_AT + 2] = 0x10;
    memcpy(bytes + FILES_AT + 6, full_masks, ZAN_MASKS_SIZE);
    bytes[STREAMS_AT] = 2;
}

static void bytes_with_a(uint8_t *bytes)
{
    fresh_bytes(bytes);
    bytes[NEXT_AT] = 2;
    bytes[50] = 1;
    bytes[52] = 0x20;
    memcpy(bytes + 56, full_masks, ZAN_MASKS_SIZE);
    bytes[5132] = 1;
    bytes[5134] = 'a';
    bytes[18270] = 1;
    bytes[18272] = 1;
    bytes[18338] = 1;
    bytes[18342] = 1;
    bytes[18346] = 1;
    bytes[39690] = 1;
    bytes[39698] = 1;
    bytes[39700] = 1;
    bytes[39702] = 2;
    bytes[39706] = 1;
}

static uint8_t expected[ZAN_TABLES_SIZE];

#define HAS_BYTES(v) check(memcmp(expected, (v).tables.bytes, ZAN_TABLES_SIZE) == 0, "the tables have the expected bytes", __LINE__)

/* The worked cases of document 01. */
static void worked_cases(void)
{
    struct volume v = fresh();
    REFUSED(ZAN_STATUS_ACCESS_DENIED, ASK(v, 0, 0, 1, 0, "a"));
    REFUSED(ZAN_STATUS_INVALID_PARAMETER, ASK(v, 1, 8, 1, 0, "a"));
    REFUSED(ZAN_STATUS_OBJECT_NAME_NOT_FOUND, ASK(v, 1, 0, 1, 0, "a"));
    REFUSED(ZAN_STATUS_OBJECT_PATH_NOT_FOUND, ASK(v, 1, 0, 2, 0, "a\\b"));
    ACCEPTED(ZAN_FILE_CREATED, 1, 2, ASK(v, 2, 1, 2, 0, "a"));
    SAME(0x20, get(v.tables.bytes + FILES_AT + FILE_BYTES + 2, 4));
    DONE(v);

    v = with_a();
    ACCEPTED(ZAN_FILE_OPENED, 2, 1, ASK(v, 1, 3, 1, 0, "a"));
    DONE(v);

    v = with_a();
    REFUSED(ZAN_STATUS_SHARING_VIOLATION, ASK(v, 1, 1, 1, 0, "a"));
    DONE(v);

    v = with_a();
    ACCEPTED(ZAN_FILE_OPENED, 2, 0x80, ASK(v, 0x80, 0, 1, 0, "a"));
    CHECK(memcmp(v.before.bytes + STREAMS_AT, v.tables.bytes + STREAMS_AT, OPENS_AT - STREAMS_AT) == 0);
    DONE(v);

    v = with_a();
    REFUSED(ZAN_STATUS_SHARING_VIOLATION, ASK(v, 0x80, 7, 5, 0, "a"));
    DONE(v);

    v = with_a();
    ACCEPTED(ZAN_FILE_CREATED, 2, 3, ASK(v, 1, 0, 3, 0, "a:log"));
    DONE(v);

    v = with_a();
    SAME(ZAN_STATUS_SUCCESS, CLOSE(v, 1));
    SAME(ZAN_STATUS_INVALID_HANDLE, CLOSE(v, 1));
    DONE(v);
}

/* Every byte of the tables after a format, an open, a switch and a close. */
static void every_byte(void)
{
    struct volume v = fresh();
    fresh_bytes(expected);
    HAS_BYTES(v);
    SAME(1, AUDIT(v));
    DONE(v);

    v = with_a();
    bytes_with_a(expected);
    HAS_BYTES(v);
    SAME(1, AUDIT(v));
    SAME(ZAN_STATUS_SUCCESS, SET_READ_ONLY(v, 1));
    expected[MARK_AT] = 1;
    HAS_BYTES(v);
    SAME(ZAN_STATUS_SUCCESS, CLOSE(v, 1));
    memset(expected + OPENS_AT, 0, OPEN_BYTES);
    memset(expected + 18338, 0, 14);
    HAS_BYTES(v);
    SAME(ZAN_STATUS_SUCCESS, SET_READ_ONLY(v, 0));
    expected[MARK_AT] = 0;
    HAS_BYTES(v);
    DONE(v);
}

/* Formats: masks of each account and each bit, masks of other lengths, marks. */
static void formats(void)
{
    static const uint32_t lengths[] = {0, 1, 4, 28, 31, 33, 36, 64};
    static const uint32_t marks[] = {0, 1, 2, 0x100, 0x10000, 0x80000000u, 0xFFFFFFFFu};
    uint8_t masks[64];
    struct volume v = volume_of(ZAN_TABLES_SIZE, 0);
    size_t i;

    memset(masks, 0, sizeof masks);
    for (i = 0; i < sizeof lengths / sizeof lengths[0]; i++) {
        SAME(ZAN_STATUS_INVALID_PARAMETER, FORMAT(v, masks, lengths[i], 0));
    }
    SAME(0, AUDIT(v));
    for (i = 0; i < 8 * ZAN_MASKS_SIZE; i++) {
        uint32_t bit = (uint32_t)1 << i % 32;
        uint32_t wanted = bit & ZAN_FILE_ALL_ACCESS ? ZAN_STATUS_SUCCESS : ZAN_STATUS_INVALID_PARAMETER;
        memset(masks, 0, sizeof masks);
        put(masks + i / 32 * 4, 4, bit);
        SAME(wanted, FORMAT(v, masks, ZAN_MASKS_SIZE, 0));
        if (wanted == ZAN_STATUS_SUCCESS) {
            CHECK(memcmp(masks, v.tables.bytes + FILES_AT + 6, ZAN_MASKS_SIZE) == 0);
        }
    }
    for (i = 0; i < sizeof marks / sizeof marks[0]; i++) {
        SAME(ZAN_STATUS_SUCCESS, FORMAT(v, full_masks, ZAN_MASKS_SIZE, marks[i]));
        fresh_bytes(expected);
        expected[MARK_AT] = marks[i] != 0;
        HAS_BYTES(v);
        SAME(ZAN_STATUS_SUCCESS, SET_READ_ONLY(v, 0));
        expected[MARK_AT] = 0;
        HAS_BYTES(v);
        SAME(ZAN_STATUS_SUCCESS, SET_READ_ONLY(v, marks[i]));
        expected[MARK_AT] = marks[i] != 0;
        HAS_BYTES(v);
        REFUSED(marks[i] != 0 ? ZAN_STATUS_MEDIA_WRITE_PROTECTED : ZAN_STATUS_OBJECT_PATH_NOT_FOUND,
                ASK(v, 1, 0, ZAN_FILE_CREATE, 0, "a\\b"));
    }
    DONE(v);
}

/* Tables of a wrong length: all calls refuse them, and before they look at anything else. */
static void wrong_lengths(void)
{
    static const size_t lengths[] = {0, 1, 2, 10, OPENS_AT, ZAN_TABLES_SIZE - 1, ZAN_TABLES_SIZE + 1, 2 * ZAN_TABLES_SIZE};
    struct zan_request bad = request_of(0, 8, 6, 0xFFFFFFFFu);
    size_t i;
    for (i = 0; i < sizeof lengths / sizeof lengths[0]; i++) {
        struct volume v = volume_of(lengths[i], 0);
        if (lengths[i] != 0) {
            bytes_with_a(expected);
            memset(v.tables.bytes, 0, lengths[i]);
            memcpy(v.tables.bytes, expected, lengths[i] < ZAN_TABLES_SIZE ? lengths[i] : ZAN_TABLES_SIZE);
        }
        SAME(0, AUDIT(v));
        SAME(ZAN_STATUS_FILE_CORRUPT_ERROR, FORMAT(v, full_masks, ZAN_MASKS_SIZE, 0));
        SAME(ZAN_STATUS_FILE_CORRUPT_ERROR, FORMAT(v, full_masks, 5, 0));
        REFUSED(ZAN_STATUS_FILE_CORRUPT_ERROR, ASK(v, 1, 3, 1, 0, "a"));
        REFUSED(ZAN_STATUS_FILE_CORRUPT_ERROR, OPEN(v, bad, full_masks, 3));
        SAME(ZAN_STATUS_FILE_CORRUPT_ERROR, CLOSE(v, 1));
        SAME(ZAN_STATUS_FILE_CORRUPT_ERROR, SET_READ_ONLY(v, 1));
        DONE(v);
    }
}

/* Bytes that stand for no tables, and tables that contradict themselves: refused by all but a format. */
static void unsound(void)
{
    static const struct {
        size_t at;
        uint8_t byte;
    } damages[] = {
        {MARK_AT, 2}, {MARK_AT, 0xFF}, {MARK_AT + 1, 1},           /* marks 2, 255, 256 */
        {FILES_AT, 3}, {FILES_AT + 1, 1},                          /* the root's kind: 3, 258 */
        {FILES_AT + FILE_BYTES, 3}, {FILES_AT + FILE_BYTES, 2},    /* that of `a`: 3, a directory with a data stream */
        {FILES_AT + 127 * FILE_BYTES, 3},                          /* that of the last file, which is free */
        {STREAMS_AT, 3}, {STREAMS_AT + STREAM_BYTES, 3},           /* kinds of streams */
        {STREAMS_AT + STREAM_BYTES + 1, 1}, {STREAMS_AT + 255 * STREAM_BYTES, 3},
        {NEXT_AT, 1},                                              /* next handle 1, and an open has it */
        {FILES_AT + 6 + 1, 2},                                     /* a mask outside 0x1F01FF */
        {LINKS_AT + 4, '?'}, {LINKS_AT, 5},                        /* a link's name, its parent */
        {STREAMS_AT + STREAM_BYTES + COUNTS_IN, 2},                /* counts that aren't true */
        {OPENS_AT + 16, 8}, {OPENS_AT, 0}, {OPENS_AT + 12, 0},     /* an open's sharing mode, handle, granted access */
        {ZAN_TABLES_SIZE - 1, 1},                                  /* a free slot that isn't zero */
        {FILES_AT + FILE_PENDING_IN, 1},                           /* the root marked for deletion */
        {FILES_AT + FILE_BYTES + FILE_PENDING_IN, 2},              /* the mark of `a`: 2, 256 */
        {FILES_AT + FILE_BYTES + FILE_PENDING_IN + 1, 1},
        {STREAMS_AT + STREAM_BYTES + STREAM_PENDING_IN, 1},        /* its unnamed stream marked: 1, 2, 256 */
        {STREAMS_AT + STREAM_BYTES + STREAM_PENDING_IN, 2}, {STREAMS_AT + STREAM_BYTES + STREAM_PENDING_IN + 1, 1},
        {OPENS_AT + ON_CLOSE_IN, 2}, {OPENS_AT + ON_CLOSE_IN + 1, 1},        /* delete on close of the open: 2, 256 */
        {FILES_AT + 127 * FILE_BYTES + FILE_PENDING_IN, 1},        /* marks in free slots */
        {STREAMS_AT + 255 * STREAM_BYTES + STREAM_PENDING_IN, 1}, {OPENS_AT + OPEN_BYTES + ON_CLOSE_IN, 1},
    };
    struct zan_request bad = request_of(0, 8, 6, 0xFFFFFFFFu);
    size_t i;
    for (i = 0; i < sizeof damages / sizeof damages[0]; i++) {
        struct volume v = with_a();
        v.tables.bytes[damages[i].at] = damages[i].byte;
        SAME(0, AUDIT(v));
        REFUSED(ZAN_STATUS_FILE_CORRUPT_ERROR, ASK(v, 1, 3, 1, 0, "a"));
        REFUSED(ZAN_STATUS_FILE_CORRUPT_ERROR, OPEN(v, bad, full_masks, 3));
        SAME(ZAN_STATUS_FILE_CORRUPT_ERROR, CLOSE(v, 1));
        SAME(ZAN_STATUS_FILE_CORRUPT_ERROR, CLOSE(v, 99));
        SAME(ZAN_STATUS_FILE_CORRUPT_ERROR, SET_READ_ONLY(v, 1));
        SAME(ZAN_STATUS_INVALID_PARAMETER, FORMAT(v, full_masks, 5, 0));
        SAME(ZAN_STATUS_SUCCESS, FORMAT(v, full_masks, ZAN_MASKS_SIZE, 0));
        SAME(1, AUDIT(v));
        DONE(v);
    }
}

/* Marks of deletion that are 0 or 1 and contradict the other tables. */
static void unsound_marks(void)
{
    const size_t root = FILES_AT, d = FILES_AT + FILE_BYTES, b = FILES_AT + 2 * FILE_BYTES;
    struct volume v = fresh();

    /* directory `d` with `d\\b:s`; opens on `d`, on `d\\b:s` and on the root, none of which is counted */
    ACCEPTED(ZAN_FILE_CREATED, 1, 0x80, ASK(v, 0x80, 7, ZAN_FILE_CREATE, ZAN_FILE_DIRECTORY_FILE, "d"));
    ACCEPTED(ZAN_FILE_CREATED, 2, 0x80, ASK(v, 0x80, 7, ZAN_FILE_CREATE, 0, "d\\b:s"));
    ACCEPTED(ZAN_FILE_OPENED, 3, 0x80, ASK(v, 0x80, 7, ZAN_FILE_OPEN, 0, ""));
    SAME(1, AUDIT(v));

    v.tables.bytes[d + FILE_PENDING_IN] = 1; /* a directory with a child */
    SAME(0, AUDIT(v));
    REFUSED(ZAN_STATUS_FILE_CORRUPT_ERROR, ASK(v, 0x80, 7, ZAN_FILE_OPEN, 0, "d"));
    v.tables.bytes[d + FILE_PENDING_IN] = 0;
    v.tables.bytes[root + FILE_PENDING_IN] = 1; /* the root, which has an open */
    SAME(0, AUDIT(v));
    v.tables.bytes[root + FILE_PENDING_IN] = 0;
    v.tables.bytes[OPENS_AT + 2 * OPEN_BYTES + ON_CLOSE_IN] = 1; /* delete on close of the root */
    SAME(0, AUDIT(v));
    SAME(ZAN_STATUS_FILE_CORRUPT_ERROR, CLOSE(v, 3));
    v.tables.bytes[OPENS_AT + 2 * OPEN_BYTES + ON_CLOSE_IN] = 0;
    v.tables.bytes[OPENS_AT + ON_CLOSE_IN] = 1; /* of `d` */
    SAME(1, AUDIT(v));
    v.tables.bytes[b + FILE_PENDING_IN] = 1; /* a file and a named stream, while they have an open */
    SAME(1, AUDIT(v));
    v.tables.bytes[STREAMS_AT + 3 * STREAM_BYTES + STREAM_PENDING_IN] = 1;
    SAME(1, AUDIT(v));
    memset(v.tables.bytes + OPENS_AT + OPEN_BYTES, 0, OPEN_BYTES); /* and when they have none */
    SAME(0, AUDIT(v));
    v.tables.bytes[b + FILE_PENDING_IN] = 0;
    SAME(0, AUDIT(v));
    v.tables.bytes[STREAMS_AT + 3 * STREAM_BYTES + STREAM_PENDING_IN] = 0;
    SAME(1, AUDIT(v));
    DONE(v);
}

/* A delete-on-close open that shares all, and an open for attributes, which is not counted. */
#define SCRATCH(v, disposition, options, text)                                                                         \
    ASK((v), ZAN_DELETE, 7, (disposition), (options) | ZAN_FILE_DELETE_ON_CLOSE, (text))
#define LOOK(v, text) ASK((v), ZAN_FILE_READ_ATTRIBUTES, 0, ZAN_FILE_OPEN, 0, (text))

/* Delete on close: the file goes with the close, every byte of it, and its name and numbers are free. */
static void deletes_on_close(void)
{
    struct volume v = fresh();
    REFUSED(ZAN_STATUS_INVALID_PARAMETER, ASK(v, 1, 7, ZAN_FILE_CREATE, ZAN_FILE_DELETE_ON_CLOSE, "a"));
    REFUSED(ZAN_STATUS_INVALID_PARAMETER, ASK(v, ZAN_MAXIMUM_ALLOWED, 7, ZAN_FILE_CREATE, ZAN_FILE_DELETE_ON_CLOSE, "a"));
    ACCEPTED(ZAN_FILE_CREATED, 1, ZAN_DELETE, SCRATCH(v, ZAN_FILE_CREATE, 0, "a"));
    SAME(1, get(v.tables.bytes + OPENS_AT + ON_CLOSE_IN, 2));
    SAME(0, get(v.tables.bytes + FILES_AT + FILE_BYTES + FILE_PENDING_IN, 2));
    SAME(ZAN_STATUS_SUCCESS, CLOSE(v, 1));
    fresh_bytes(expected);
    expected[NEXT_AT] = 2;
    HAS_BYTES(v);
    SAME(ZAN_STATUS_INVALID_HANDLE, CLOSE(v, 1));
    REFUSED(ZAN_STATUS_OBJECT_NAME_NOT_FOUND, LOOK(v, "a"));

    ACCEPTED(ZAN_FILE_CREATED, 2, 2, ASK(v, 2, 1, ZAN_FILE_CREATE, 0, "a"));
    bytes_with_a(expected);
    put(expected + NEXT_AT, 8, 3);
    put(expected + OPENS_AT, 8, 2);
    HAS_BYTES(v);
    SAME(ZAN_STATUS_SUCCESS, CLOSE(v, 2));

    /* a file that was there, with its streams */
    ACCEPTED(ZAN_FILE_CREATED, 3, 3, ASK(v, 1, 7, ZAN_FILE_CREATE, 0, "a:s"));
    SAME(ZAN_STATUS_SUCCESS, CLOSE(v, 3));
    SAME(1, zan_stream_in(v.tables.bytes, 1));
    SAME(1, zan_stream_in(v.tables.bytes, 2));
    ACCEPTED(ZAN_FILE_OPENED, 4, ZAN_DELETE, SCRATCH(v, ZAN_FILE_OPEN, 0, "a"));
    SAME(ZAN_STATUS_SUCCESS, CLOSE(v, 4));
    fresh_bytes(expected);
    expected[NEXT_AT] = 5;
    HAS_BYTES(v);
    SAME(1, zan_stream_in(v.tables.bytes, 0));
    SAME(0, zan_stream_in(v.tables.bytes, 1));
    SAME(0, zan_stream_in(v.tables.bytes, 2));
    DONE(v);
}

/* What is marked stays for those who have it open, and nobody else gets in. */
static void pending(void)
{
    struct volume v = fresh();
    ACCEPTED(ZAN_FILE_CREATED, 1, ZAN_DELETE, SCRATCH(v, ZAN_FILE_CREATE, 0, "a"));
    ACCEPTED(ZAN_FILE_CREATED, 2, ZAN_DELETE, SCRATCH(v, ZAN_FILE_CREATE, ZAN_FILE_DIRECTORY_FILE, "d"));
    ACCEPTED(ZAN_FILE_OPENED, 3, 0x80, LOOK(v, "a"));
    ACCEPTED(ZAN_FILE_OPENED, 4, 0x80, LOOK(v, "d"));
    ACCEPTED(ZAN_FILE_CREATED, 5, 3, ASK(v, 1, 7, ZAN_FILE_CREATE, 0, "a:s"));
    SAME(ZAN_STATUS_SUCCESS, CLOSE(v, 1));
    SAME(ZAN_STATUS_SUCCESS, CLOSE(v, 2));
    SAME(1, get(v.tables.bytes + FILES_AT + FILE_BYTES + FILE_PENDING_IN, 2));
    SAME(1, get(v.tables.bytes + FILES_AT + 2 * FILE_BYTES + FILE_PENDING_IN, 2));

    REFUSED(ZAN_STATUS_DELETE_PENDING, LOOK(v, "a"));
    REFUSED(ZAN_STATUS_DELETE_PENDING, LOOK(v, "a:s"));
    REFUSED(ZAN_STATUS_DELETE_PENDING, LOOK(v, "a:t"));
    REFUSED(ZAN_STATUS_DELETE_PENDING, LOOK(v, "a\\b"));
    REFUSED(ZAN_STATUS_DELETE_PENDING, LOOK(v, "d"));
    REFUSED(ZAN_STATUS_DELETE_PENDING, ASK(v, 1, 7, ZAN_FILE_CREATE, 0, "a"));
    REFUSED(ZAN_STATUS_DELETE_PENDING, ASK(v, 1, 7, ZAN_FILE_CREATE, 0, "d\\b"));
    REFUSED(ZAN_STATUS_DELETE_PENDING, ASK(v, 1, 7, ZAN_FILE_OPEN, ZAN_FILE_DIRECTORY_FILE, "a"));
    REFUSED(ZAN_STATUS_DELETE_PENDING, ASK(v, 1, 7, ZAN_FILE_OPEN, ZAN_FILE_NON_DIRECTORY_FILE, "d"));

    /* the last open of `a` is one that was not delete-on-close, on another stream; that of `d` isn't counted */
    SAME(ZAN_STATUS_SUCCESS, CLOSE(v, 3));
    REFUSED(ZAN_STATUS_DELETE_PENDING, LOOK(v, "a"));
    SAME(ZAN_STATUS_SUCCESS, CLOSE(v, 5));
    SAME(ZAN_STATUS_SUCCESS, CLOSE(v, 4));
    fresh_bytes(expected);
    expected[NEXT_AT] = 6;
    HAS_BYTES(v);
    ACCEPTED(ZAN_FILE_CREATED, 6, 1, ASK(v, 1, 7, ZAN_FILE_CREATE, ZAN_FILE_DIRECTORY_FILE, "a"));
    DONE(v);
}

/* A named stream goes alone, a directory that has something in it stays. */
static void deletes_parts(void)
{
    struct volume v = fresh();
    ACCEPTED(ZAN_FILE_CREATED, 1, ZAN_DELETE, SCRATCH(v, ZAN_FILE_CREATE, 0, "a:s"));
    ACCEPTED(ZAN_FILE_OPENED, 2, 0x80, LOOK(v, "a:s"));
    SAME(ZAN_STATUS_SUCCESS, CLOSE(v, 1));
    SAME(1, get(v.tables.bytes + STREAMS_AT + 2 * STREAM_BYTES + STREAM_PENDING_IN, 2));
    REFUSED(ZAN_STATUS_DELETE_PENDING, LOOK(v, "a:s"));
    REFUSED(ZAN_STATUS_DELETE_PENDING, ASK(v, 1, 7, ZAN_FILE_CREATE, 0, "a:s"));
    ACCEPTED(ZAN_FILE_OPENED, 3, 0x80, LOOK(v, "a"));
    SAME(ZAN_STATUS_SUCCESS, CLOSE(v, 2));
    REFUSED(ZAN_STATUS_OBJECT_NAME_NOT_FOUND, LOOK(v, "a:s"));
    SAME(1, zan_stream_in(v.tables.bytes, 1));
    SAME(0, zan_stream_in(v.tables.bytes, 2));
    SAME(ZAN_STATUS_SUCCESS, CLOSE(v, 3));
    ACCEPTED(ZAN_FILE_OPENED, 4, 0x80, LOOK(v, "a"));

    ACCEPTED(ZAN_FILE_CREATED, 5, ZAN_DELETE, SCRATCH(v, ZAN_FILE_CREATE, ZAN_FILE_DIRECTORY_FILE, "d"));
    ACCEPTED(ZAN_FILE_CREATED, 6, ZAN_DELETE, SCRATCH(v, ZAN_FILE_CREATE, 0, "d\\b"));
    SAME(ZAN_STATUS_SUCCESS, CLOSE(v, 5));
    ACCEPTED(ZAN_FILE_OPENED, 7, ZAN_DELETE, SCRATCH(v, ZAN_FILE_OPEN, 0, "d"));
    SAME(ZAN_STATUS_SUCCESS, CLOSE(v, 6));
    SAME(ZAN_STATUS_SUCCESS, CLOSE(v, 7));
    REFUSED(ZAN_STATUS_OBJECT_NAME_NOT_FOUND, LOOK(v, "d"));
    DONE(v);
}

/* What delete on close may not be on, and that a read-only volume doesn't stop it. */
static void deletes_refused(void)
{
    struct volume v = fresh();
    struct zan_request r = request_of(ZAN_DELETE, 7, ZAN_FILE_CREATE, ZAN_FILE_DELETE_ON_CLOSE);
    uint8_t path[ZAN_PATH_BUFFER];
    size_t length = zan_ascii_path(path, "a");

    REFUSED(ZAN_STATUS_CANNOT_DELETE, SCRATCH(v, ZAN_FILE_OPEN, 0, ""));
    r.attributes = ZAN_FILE_ATTRIBUTE_READONLY;
    REFUSED(ZAN_STATUS_CANNOT_DELETE, OPEN(v, r, path, length));
    r.options = 0;
    ACCEPTED(ZAN_FILE_CREATED, 1, ZAN_DELETE, OPEN(v, r, path, length));
    REFUSED(ZAN_STATUS_CANNOT_DELETE, SCRATCH(v, ZAN_FILE_OPEN, 0, "a"));
    SAME(ZAN_STATUS_SUCCESS, CLOSE(v, 1));

    ACCEPTED(ZAN_FILE_CREATED, 2, 1, ASK(v, 1, 3, ZAN_FILE_CREATE, 0, "b"));
    REFUSED(ZAN_STATUS_SHARING_VIOLATION, SCRATCH(v, ZAN_FILE_OPEN, 0, "b"));
    SAME(ZAN_STATUS_SUCCESS, CLOSE(v, 2));
    SAME(ZAN_STATUS_SUCCESS, SET_READ_ONLY(v, 1));
    REFUSED(ZAN_STATUS_MEDIA_WRITE_PROTECTED, SCRATCH(v, ZAN_FILE_OPEN_IF, 0, "c"));
    ACCEPTED(ZAN_FILE_OPENED, 3, ZAN_DELETE, SCRATCH(v, ZAN_FILE_OPEN, 0, "b"));
    SAME(ZAN_STATUS_SUCCESS, CLOSE(v, 3));
    REFUSED(ZAN_STATUS_OBJECT_NAME_NOT_FOUND, LOOK(v, "b"));
    ACCEPTED(ZAN_FILE_OPENED, 4, 0x80, LOOK(v, "a"));
    DONE(v);
}

/* Each number of a request arrives where it belongs. */
static void request_numbers(void)
{
    struct volume v = volume_of(ZAN_TABLES_SIZE, 0);
    uint8_t masks[ZAN_MASKS_SIZE], path[ZAN_PATH_BUFFER];
    size_t length = zan_ascii_path(path, "a");
    struct zan_request r;
    uint32_t account;

    for (account = 0; account < ZAN_ACCOUNTS; account++) {
        put(masks + 4 * account, 4, ZAN_FILE_ADD_FILE | (uint32_t)8 << account % 6);
    }
    SAME(ZAN_STATUS_SUCCESS, FORMAT(v, masks, ZAN_MASKS_SIZE, 0));

    /* account: what it may do at most is its mask */
    for (account = 0; account < ZAN_ACCOUNTS; account++) {
        r = request_of(ZAN_MAXIMUM_ALLOWED, 7, ZAN_FILE_OPEN, 0);
        r.account = account;
        ACCEPTED(ZAN_FILE_OPENED, account + 1, ZAN_FILE_ADD_FILE | (uint32_t)8 << account % 6, OPEN(v, r, path, 0));
        SAME(ZAN_STATUS_SUCCESS, CLOSE(v, account + 1));
    }
    r.account = 8;
    REFUSED(ZAN_STATUS_INVALID_PARAMETER, OPEN(v, r, path, 0));
    r.account = 0x100;
    REFUSED(ZAN_STATUS_INVALID_PARAMETER, OPEN(v, r, path, 0));
    DONE(v);

    /* access, share, attributes, options: as stored, or refused */
    v = fresh();
    r = request_of(0x1A0185, 6, ZAN_FILE_CREATE, ZAN_FILE_NON_DIRECTORY_FILE);
    r.attributes = 0x1087;
    ACCEPTED(ZAN_FILE_CREATED, 1, 0x1A0185, OPEN(v, r, path, length));
    SAME(0x1A0185, get(v.tables.bytes + OPENS_AT + 12, 4));
    SAME(6, get(v.tables.bytes + OPENS_AT + 16, 4));
    SAME(0x1027, get(v.tables.bytes + FILES_AT + FILE_BYTES + 2, 4));
    r.disposition = 6;
    REFUSED(ZAN_STATUS_INVALID_PARAMETER, OPEN(v, r, path, length));
    r.disposition = ZAN_FILE_OPEN;
    r.options = 0x10;
    REFUSED(ZAN_STATUS_INVALID_PARAMETER, OPEN(v, r, path, length));
    r.options = 0;
    r.attributes = ZAN_FILE_ATTRIBUTE_DIRECTORY;
    REFUSED(ZAN_STATUS_INVALID_PARAMETER, OPEN(v, r, path, length));
    r.attributes = 0;
    r.access = ZAN_GENERIC_READ;
    REFUSED(ZAN_STATUS_INVALID_PARAMETER, OPEN(v, r, path, length));
    r.access = ZAN_ACCESS_SYSTEM_SECURITY;
    REFUSED(ZAN_STATUS_ACCESS_DENIED, OPEN(v, r, path, length));
    SAME(ZAN_STATUS_SUCCESS, CLOSE(v, 1));

    /* dispositions and their actions */
    ACCEPTED(ZAN_FILE_OPENED, 2, 1, ASK(v, 1, 7, ZAN_FILE_OPEN_IF, 0, "a"));
    REFUSED(ZAN_STATUS_OBJECT_NAME_COLLISION, ASK(v, 1, 7, ZAN_FILE_CREATE, 0, "a"));
    REFUSED(ZAN_STATUS_ACCESS_DENIED, ASK(v, 1, 7, ZAN_FILE_OVERWRITE, 0, "a")); /* hidden, and not so asked */
    ACCEPTED(ZAN_FILE_CREATED, 3, 1, ASK(v, 1, 7, ZAN_FILE_OVERWRITE_IF, 0, "b"));
    ACCEPTED(ZAN_FILE_OVERWRITTEN, 4, 0x113, ASK(v, 1, 7, ZAN_FILE_OVERWRITE, 0, "b"));
    ACCEPTED(ZAN_FILE_SUPERSEDED, 5, 0x10111, ASK(v, 1, 7, ZAN_FILE_SUPERSEDE, 0, "b"));
    REFUSED(ZAN_STATUS_OBJECT_NAME_NOT_FOUND, ASK(v, 1, 7, ZAN_FILE_OVERWRITE, 0, "c"));

    /* directories */
    ACCEPTED(ZAN_FILE_CREATED, 6, 1, ASK(v, 1, 7, ZAN_FILE_CREATE, ZAN_FILE_DIRECTORY_FILE, "d"));
    REFUSED(ZAN_STATUS_FILE_IS_A_DIRECTORY, ASK(v, 1, 7, ZAN_FILE_OPEN, ZAN_FILE_NON_DIRECTORY_FILE, "d"));
    REFUSED(ZAN_STATUS_NOT_A_DIRECTORY, ASK(v, 1, 7, ZAN_FILE_OPEN, ZAN_FILE_DIRECTORY_FILE, "b"));
    REFUSED(ZAN_STATUS_INVALID_PARAMETER,
            ASK(v, 1, 7, ZAN_FILE_OPEN, ZAN_FILE_DIRECTORY_FILE | ZAN_FILE_NON_DIRECTORY_FILE, "d"));
    ACCEPTED(ZAN_FILE_CREATED, 7, 1, ASK(v, 1, 7, ZAN_FILE_CREATE, 0, "d\\a:s:$data"));
    DONE(v);
}

/* Fold: 0 is no, all else yes. */
static void folds(void)
{
    static const uint32_t yes[] = {1, 2, 0x100, 0x10000, 0x80000000u, 0xFFFFFFFFu};
    struct volume v = with_a();
    struct zan_request r = request_of(0x80, 7, ZAN_FILE_OPEN, 0);
    uint8_t path[ZAN_PATH_BUFFER];
    size_t i, length = zan_ascii_path(path, "A");
    REFUSED(ZAN_STATUS_OBJECT_NAME_NOT_FOUND, OPEN(v, r, path, length));
    for (i = 0; i < sizeof yes / sizeof yes[0]; i++) {
        r.fold = yes[i];
        ACCEPTED(ZAN_FILE_OPENED, i + 2, 0x80, OPEN(v, r, path, length));
    }
    DONE(v);
}

/* Paths of odd length are refused in step 4: after the numbers of steps 1 to 3, before step 5 and all that follows. */
static void odd_paths(void)
{
    struct volume v = with_a();
    struct zan_request r = request_of(1, 3, ZAN_FILE_OPEN, 0);
    uint8_t path[ZAN_PATH_BUFFER + 1];
    size_t length;

    memset(path, 0, sizeof path);
    for (length = 0; length < sizeof path; length += 2) {
        path[length] = 'a';
    }
    for (length = 1; length <= sizeof path; length += 2) {
        REFUSED(ZAN_STATUS_OBJECT_NAME_INVALID, OPEN(v, r, path, length));
    }
    r.share = 8; /* step 1 */
    REFUSED(ZAN_STATUS_INVALID_PARAMETER, OPEN(v, r, path, 1));
    r.share = 3;
    r.access = 0; /* step 2 */
    REFUSED(ZAN_STATUS_ACCESS_DENIED, OPEN(v, r, path, 1));
    r.access = 1;
    r.options = ZAN_FILE_DIRECTORY_FILE | ZAN_FILE_NON_DIRECTORY_FILE; /* step 3 */
    REFUSED(ZAN_STATUS_INVALID_PARAMETER, OPEN(v, r, path, 1));
    r.options = 0;
    SAME(ZAN_STATUS_SUCCESS, SET_READ_ONLY(v, 1));
    r.disposition = ZAN_FILE_CREATE; /* before step 5 */
    REFUSED(ZAN_STATUS_OBJECT_NAME_INVALID, OPEN(v, r, path, 3));
    REFUSED(ZAN_STATUS_MEDIA_WRITE_PROTECTED, OPEN(v, r, path, 2));
    DONE(v);
}

static uint32_t open_once(struct volume *v, const struct zan_request *r, const uint8_t *path, size_t length)
{
    uint32_t action, granted;
    uint64_t handle;
    return zan_open(v->tables.bytes, v->tables.length, r->account, r->access, r->share, r->disposition, r->options,
                    r->attributes, r->fold, path, length, &action, &granted, &handle);
}

static double seconds(struct volume *v, const struct zan_request *r, const uint8_t *path, size_t length)
{
    clock_t start = clock();
    int i;
    for (i = 0; i < 100; i++) {
        SAME(ZAN_STATUS_OBJECT_NAME_INVALID, open_once(v, r, path, length));
    }
    return (double)(clock() - start) / CLOCKS_PER_SEC;
}

/* Paths at their limits, and far past them: these are refused like one of 256 units, in no more time. */
static void long_paths(void)
{
    const size_t far = (size_t)64 << 20;
    struct volume v = fresh();
    struct zan_request r = request_of(1, 7, ZAN_FILE_OPEN, 0);
    uint8_t *path = (uint8_t *)malloc(far);
    double near_time, far_time;
    size_t i;
    if (path == NULL) {
        puts("no memory");
        exit(EXIT_FAILURE);
    }
    for (i = 0; i < ZAN_PATH_BUFFER; i += 2) { /* backslashes: empty components vanish, this is the root */
        path[i] = '\\';
        path[i + 1] = 0;
    }
    ACCEPTED(ZAN_FILE_OPENED, 1, 1, OPEN(v, r, path, 2 * ZAN_PATH_UNITS));
    REFUSED(ZAN_STATUS_OBJECT_NAME_INVALID, OPEN(v, r, path, 2 * ZAN_PATH_UNITS + 1));
    REFUSED(ZAN_STATUS_OBJECT_NAME_INVALID, OPEN(v, r, path, 2 * ZAN_PATH_UNITS + 2));

    near_time = seconds(&v, &r, path, ZAN_PATH_BUFFER); /* what stands past it is not even set */
    far_time = seconds(&v, &r, path, far);
    far_time += seconds(&v, &r, path, far - 1);
    CHECK(far_time < 8 * near_time + 0.1);
    free(path);
    DONE(v);
}

/* Names at their limits. */
static void long_names(void)
{
    struct volume v = fresh();
    char name[] = "12345678901234567890123456789012";
    char text[80];
    ACCEPTED(ZAN_FILE_CREATED, 1, 1, ASK(v, 1, 7, ZAN_FILE_CREATE, 0, name));
    sprintf(text, "%s3", name);
    REFUSED(ZAN_STATUS_OBJECT_NAME_INVALID, ASK(v, 1, 7, ZAN_FILE_CREATE, 0, text));
    sprintf(text, "%s:%s", name, name);
    ACCEPTED(ZAN_FILE_CREATED, 2, 3, ASK(v, 1, 7, ZAN_FILE_OPEN_IF, 0, text));
    sprintf(text, "%s:%s3", name, name);
    REFUSED(ZAN_STATUS_OBJECT_NAME_INVALID, ASK(v, 1, 7, ZAN_FILE_OPEN_IF, 0, text));
    REFUSED(ZAN_STATUS_OBJECT_NAME_INVALID, ASK(v, 1, 7, ZAN_FILE_OPEN_IF, 0, "a?"));
    DONE(v);
}

/* Control units, 1 to 31: in stream names alone. Calls after the one that made such a stream take its tables. */
static void control_units(void)
{
    struct volume v = fresh();
    char text[16];
    uint8_t path[] = {'a', 0, ':', 0, 1, 0, 0, 0};
    struct zan_request r = request_of(1, 7, ZAN_FILE_OPEN_IF, 0);
    uint32_t unit;
    ACCEPTED(ZAN_FILE_CREATED, 1, 1, ASK(v, 1, 7, ZAN_FILE_CREATE, 0, "a"));
    for (unit = 1; unit < 0x20; unit++) {
        sprintf(text, "b%c", (int)unit);
        REFUSED(ZAN_STATUS_OBJECT_NAME_INVALID, ASK(v, 1, 7, ZAN_FILE_OPEN_IF, 0, text));
        sprintf(text, "%c\\b", (int)unit);
        REFUSED(ZAN_STATUS_OBJECT_NAME_INVALID, ASK(v, 1, 7, ZAN_FILE_OPEN_IF, 0, text));
        sprintf(text, "a%c:s", (int)unit);
        REFUSED(ZAN_STATUS_OBJECT_NAME_INVALID, ASK(v, 1, 7, ZAN_FILE_OPEN_IF, 0, text));
        sprintf(text, "a:s:$DATA%c", (int)unit);
        REFUSED(ZAN_STATUS_OBJECT_NAME_INVALID, ASK(v, 1, 7, ZAN_FILE_OPEN_IF, 0, text));
        sprintf(text, "a:s%c:$DATA", (int)unit);
        ACCEPTED(ZAN_FILE_CREATED, 2 * unit, 3, ASK(v, 1, 7, ZAN_FILE_CREATE, 0, text));
        sprintf(text, "a:s%c", (int)unit);
        ACCEPTED(ZAN_FILE_OPENED, 2 * unit + 1, 1, ASK(v, 1, 7, ZAN_FILE_OPEN, 0, text));
        SAME(unit, v.tables.bytes[STREAMS_AT + (unit + 1) * STREAM_BYTES + 4 + 2]);
        SAME(1, AUDIT(v));
    }
    REFUSED(ZAN_STATUS_OBJECT_NAME_NOT_FOUND, ASK(v, 1, 7, ZAN_FILE_OPEN, 0, "a:s"));
    ACCEPTED(ZAN_FILE_CREATED, 64, 3, OPEN(v, r, path, 6));
    REFUSED(ZAN_STATUS_OBJECT_NAME_INVALID, OPEN(v, r, path, sizeof path));
    path[4] = 0;
    REFUSED(ZAN_STATUS_OBJECT_NAME_INVALID, OPEN(v, r, path, 6));
    SAME(ZAN_STATUS_SUCCESS, CLOSE(v, 64));
    v.tables.bytes[LINKS_AT + 4] = 0x1F;
    SAME(0, AUDIT(v));
    DONE(v);
}

/* Tables that are full, and handles that are used up. */
static void full_tables(void)
{
    struct volume v = with_a();
    char text[16];
    uint32_t i;
    for (i = 2; i <= ZAN_OPENS; i++) {
        ACCEPTED(ZAN_FILE_OPENED, i, 0x80, ASK(v, 0x80, 0, ZAN_FILE_OPEN, 0, "a"));
    }
    REFUSED(ZAN_STATUS_TOO_MANY_OPENED_FILES, ASK(v, 0x80, 0, ZAN_FILE_OPEN, 0, "a"));
    SAME(ZAN_STATUS_SUCCESS, CLOSE(v, 100));
    ACCEPTED(ZAN_FILE_OPENED, ZAN_OPENS + 1, 0x80, ASK(v, 0x80, 0, ZAN_FILE_OPEN, 0, "a"));
    SAME(ZAN_OPENS + 1, get(v.tables.bytes + OPENS_AT + 99 * OPEN_BYTES, 8));
    DONE(v);

    v = fresh();
    for (i = 1; i < ZAN_FILES; i++) {
        sprintf(text, "f%u", (unsigned)i);
        ACCEPTED(ZAN_FILE_CREATED, i, 1, ASK(v, 1, 0, ZAN_FILE_CREATE, 0, text));
    }
    REFUSED(ZAN_STATUS_DISK_FULL, ASK(v, 1, 0, ZAN_FILE_CREATE, 0, "g"));
    DONE(v);
}

/* Handles have all of 64 bits. */
static void wide_handles(void)
{
    struct volume v = fresh();
    const uint64_t last = 0xFFFFFFFFFFFFFFFEu;
    put(v.tables.bytes + NEXT_AT, 8, last);
    ACCEPTED(ZAN_FILE_CREATED, last, 1, ASK(v, 1, 7, ZAN_FILE_CREATE, 0, "a"));
    REFUSED(ZAN_STATUS_INSUFFICIENT_RESOURCES, ASK(v, 1, 7, ZAN_FILE_OPEN, 0, "a"));
    SAME(last, zan_handle_in(v.tables.bytes, 0));
    SAME(0, zan_handle_in(v.tables.bytes, 1));
    SAME(ZAN_STATUS_INVALID_HANDLE, CLOSE(v, 0));
    SAME(ZAN_STATUS_INVALID_HANDLE, CLOSE(v, last & 0xFFFFFFFFu));
    SAME(ZAN_STATUS_INVALID_HANDLE, CLOSE(v, last + 1));
    SAME(ZAN_STATUS_SUCCESS, CLOSE(v, last));
    SAME(ZAN_STATUS_INVALID_HANDLE, CLOSE(v, last));
    DONE(v);
}

/* Tables at every address: the worked cases' open and close at eight neighbouring ones. */
static void unaligned_tables(void)
{
    size_t offset;
    for (offset = 0; offset < 8; offset++) {
        struct volume v = volume_of(ZAN_TABLES_SIZE, offset);
        SAME(ZAN_STATUS_SUCCESS, FORMAT(v, full_masks, ZAN_MASKS_SIZE, 0));
        ACCEPTED(ZAN_FILE_CREATED, 1, 2, ASK(v, 2, 1, ZAN_FILE_CREATE, 0, "a"));
        bytes_with_a(expected);
        HAS_BYTES(v);
        SAME(ZAN_STATUS_SUCCESS, SET_READ_ONLY(v, 1));
        SAME(ZAN_STATUS_SUCCESS, CLOSE(v, 1));
        SAME(1, AUDIT(v));
        DONE(v);
    }
}

/* The calls on structs do what the calls below them do. */
static void struct_calls(void)
{
    struct volume v = volume_of(ZAN_TABLES_SIZE, 0);
    struct zan_volume volume = ZAN_ZERO;
    struct zan_request request = ZAN_ZERO;
    struct zan_reply reply;
    uint8_t path[ZAN_PATH_BUFFER];
    uint8_t *tables = v.tables.bytes;
    uint32_t i;

    SAME(0, zan_audit_volume(tables));
    SAME(ZAN_STATUS_SUCCESS, zan_format_volume(tables, &volume)); /* nobody may do anything */
    SAME(1, zan_audit_volume(tables));
    memset(&reply, 0x5A, sizeof reply);
    SAME(ZAN_STATUS_ACCESS_DENIED, zan_open_file(tables, &request, NULL, 0, &reply));
    SAME(ZAN_STATUS_ACCESS_DENIED, reply.status);
    SAME(ZAN_NO_ACTION, reply.action);
    SAME(0, reply.granted);
    SAME(0, reply.handle);

    for (i = 0; i < ZAN_ACCOUNTS; i++) {
        volume.masks[i] = ZAN_FILE_ALL_ACCESS;
    }
    volume.masks[3] = 0x00120089;
    volume.read_only = 0x100;
    SAME(ZAN_STATUS_SUCCESS, zan_format_volume(tables, &volume));
    fresh_bytes(expected);
    put(expected + FILES_AT + 6 + 3 * 4, 4, 0x00120089);
    expected[MARK_AT] = 1;
    HAS_BYTES(v);
    volume.masks[7] = 0x200000;
    SAME(ZAN_STATUS_INVALID_PARAMETER, zan_format_volume(tables, &volume));
    HAS_BYTES(v);
    SAME(ZAN_STATUS_SUCCESS, zan_protect_volume(tables, 0));
    expected[MARK_AT] = 0;
    HAS_BYTES(v);

    request.account = 1;
    request.access = ZAN_FILE_READ_DATA | ZAN_MAXIMUM_ALLOWED;
    request.share = ZAN_FILE_SHARE_READ | ZAN_FILE_SHARE_WRITE | ZAN_FILE_SHARE_DELETE;
    request.disposition = ZAN_FILE_OPEN;
    memset(&reply, 0x5A, sizeof reply);
    SAME(ZAN_STATUS_SUCCESS, zan_open_file(tables, &request, NULL, 0, &reply));
    ACCEPTED(ZAN_FILE_OPENED, 1, ZAN_FILE_ALL_ACCESS, reply);
    request.account = 3;
    request.access = ZAN_MAXIMUM_ALLOWED;
    SAME(ZAN_STATUS_SUCCESS, zan_open_file(tables, &request, path, 0, &reply));
    ACCEPTED(ZAN_FILE_OPENED, 2, 0x00120089, reply);

    /* every field of the request */
    request.account = 2;
    request.access = ZAN_FILE_WRITE_DATA;
    request.share = ZAN_FILE_SHARE_READ;
    request.disposition = ZAN_FILE_CREATE;
    request.options = ZAN_FILE_NON_DIRECTORY_FILE;
    request.attributes = ZAN_FILE_ATTRIBUTE_SYSTEM;
    SAME(ZAN_STATUS_SUCCESS, zan_open_file(tables, &request, path, zan_ascii_path(path, "a"), &reply));
    ACCEPTED(ZAN_FILE_CREATED, 3, ZAN_FILE_WRITE_DATA, reply);
    SAME(ZAN_FILE_ATTRIBUTE_SYSTEM | ZAN_FILE_ATTRIBUTE_ARCHIVE, get(tables + FILES_AT + FILE_BYTES + 2, 4));
    SAME(ZAN_FILE_SHARE_READ, get(tables + OPENS_AT + 2 * OPEN_BYTES + 16, 4));
    request.disposition = ZAN_FILE_OPEN;
    request.access = ZAN_FILE_READ_ATTRIBUTES;
    SAME(ZAN_STATUS_OBJECT_NAME_NOT_FOUND, zan_open_file(tables, &request, path, zan_ascii_path(path, "A"), &reply));
    request.fold = 0x100;
    SAME(ZAN_STATUS_SUCCESS, zan_open_file(tables, &request, path, zan_ascii_path(path, "A"), &reply));
    SAME(4, reply.handle);

    for (i = 0; i < 4; i++) {
        SAME(i + 1, zan_handle_in(tables, i));
        SAME(ZAN_STATUS_SUCCESS, zan_close_file(tables, i + 1));
        SAME(ZAN_STATUS_INVALID_HANDLE, zan_close_file(tables, i + 1));
        SAME(0, zan_handle_in(tables, i));
    }
    SAME(1, zan_audit_volume(tables));
    tables[0] = 2;
    SAME(0, zan_audit_volume(tables));
    SAME(ZAN_STATUS_FILE_CORRUPT_ERROR, zan_protect_volume(tables, 0));
    SAME(ZAN_STATUS_FILE_CORRUPT_ERROR, zan_close_file(tables, 1));
    DONE(v);
}

/* ASCII text as a path. */
static void ascii_paths(void)
{
    struct volume v = fresh();
    struct block path = block(ZAN_PATH_BUFFER);
    char text[ZAN_PATH_BUFFER];
    size_t i;
    memset(path.bytes, 0x5A, path.length);
    SAME(0, zan_ascii_path(path.bytes, ""));
    SAME(0x5A, path.bytes[0]);
    SAME(6, zan_ascii_path(path.bytes, "a\\~"));
    CHECK(memcmp(path.bytes, "a\0\\\0~\0\x5A", 7) == 0);
    for (i = ZAN_PATH_UNITS - 1; i < sizeof text; i++) {
        memset(text, 'a', i);
        text[i] = '\0';
        SAME(i <= ZAN_PATH_UNITS ? 2 * i : ZAN_PATH_BUFFER, zan_ascii_path(path.bytes, text));
    }
    text[0] = (char)0x80;
    text[1] = (char)0xFF;
    text[2] = '\0';
    SAME(4, zan_ascii_path(path.bytes, text));
    CHECK(memcmp(path.bytes, "\0\0\0\0", 4) == 0);
    REFUSED(ZAN_STATUS_OBJECT_NAME_INVALID, ASK(v, 1, 7, ZAN_FILE_CREATE, 0, text));
    done(path, __LINE__);
    DONE(v);
}

int main(int argc, char **argv)
{
    if (argc > 1 && strcmp(argv[1], "exact") == 0) {
        fill_bytes = 0;
    }
    worked_cases();
    every_byte();
    formats();
    wrong_lengths();
    unsound();
    unsound_marks();
    deletes_on_close();
    pending();
    deletes_parts();
    deletes_refused();
    request_numbers();
    folds();
    odd_paths();
    long_paths();
    long_names();
    control_units();
    full_tables();
    wide_handles();
    unaligned_tables();
    struct_calls();
    ascii_paths();
    printf("calls: %lu checks, %lu failed\n", checks, failures);
    return failures == 0 ? EXIT_SUCCESS : EXIT_FAILURE;
}
