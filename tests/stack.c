/*
 * How much stack each call takes at most, over many calls of every kind on volumes from empty to full, sound and damaged: each
 * is made on a stack of its own that was filled before. Fails over the 16 kB that the header speaks of.
 */
#define _XOPEN_SOURCE 700
#include <stdio.h>
#include <stdlib.h>
#include <string.h>
#include <ucontext.h>

#include "zanthupra.h"

#define LIMIT 16384u
#define STACK 65536u
#define FILL 0xA5

enum { NOTHING, FORMAT, OPEN, CLOSE, SET_READ_ONLY, AUDIT, KINDS };

static const char *const names[KINDS] = {"nothing", "zan_format", "zan_open", "zan_close", "zan_set_read_only", "zan_audit"};

static uint8_t stack[STACK];
static size_t highest[KINDS];
static unsigned long accepted[KINDS], refused[KINDS];
static ucontext_t here, there;

/* the call to make, and its answer */
static uint8_t tables[ZAN_TABLES_SIZE], masks[ZAN_MASKS_SIZE], path[ZAN_PATH_BUFFER];
static size_t path_len;
static struct zan_request request;
static struct zan_reply reply;
static uint64_t handle;
static uint32_t mark, answer;
static int kind;

static void make_call(void)
{
    switch (kind) {
    case FORMAT:
        answer = zan_format(tables, sizeof tables, masks, sizeof masks, mark);
        break;
    case OPEN:
        answer = zan_open(tables, sizeof tables, request.account, request.access, request.share, request.disposition,
                          request.options, request.attributes, request.fold, path, path_len, &reply.action,
                          &reply.granted, &reply.handle);
        break;
    case CLOSE:
        answer = zan_close(tables, sizeof tables, handle);
        break;
    case SET_READ_ONLY:
        answer = zan_set_read_only(tables, sizeof tables, mark);
        break;
    case AUDIT:
        answer = !zan_audit(tables, sizeof tables);
        break;
    default:
        answer = 0;
    }
}

/* Makes a call of this kind on the filled stack and keeps how far down it went. */
static void call(int this_kind)
{
    size_t untouched = 0;
    kind = this_kind;
    memset(stack, FILL, sizeof stack);
    getcontext(&there);
    there.uc_stack.ss_sp = stack;
    there.uc_stack.ss_size = sizeof stack;
    there.uc_link = &here;
    makecontext(&there, make_call, 0);
    swapcontext(&here, &there);
    while (untouched < sizeof stack && stack[untouched] == FILL) {
        untouched++;
    }
    if (sizeof stack - untouched > highest[kind]) {
        highest[kind] = sizeof stack - untouched;
    }
    if (answer == 0) {
        accepted[kind]++;
    } else {
        refused[kind]++;
    }
}

static uint32_t below(uint32_t limit)
{
    static uint32_t state = 12345;
    state = state * 1664525u + 1013904223u;
    return (state >> 8) % limit;
}

/* A path of one to three names, some with a stream. */
static void some_path(void)
{
    static const char *const directories[] = {"", "", "d\\", "d\\e\\", "d\\", "D\\", "", "missing\\"};
    static const char *const streams[] = {"", "", "", ":s", ":log:$DATA", "::$data", ":?"};
    char text[80];
    sprintf(text, "%s%c%u%s", directories[below(8)], below(4) != 0 ? 'f' : 'F', (unsigned)below(30), streams[below(7)]);
    path_len = zan_ascii_path(path, text);
}

static void some_open(void)
{
    static const uint32_t access[] = {1, 2, 1, 0x80, 0x80, 0x10001, ZAN_MAXIMUM_ALLOWED, 0x120089, 0};
    static const uint32_t attributes[] = {0, 0, 0, 1, 2, 0x80, 0x100};
    request.account = below(8);
    request.access = access[below(9)];
    request.share = below(8) != 0 ? 7 : below(9);
    request.disposition = below(6);
    request.options = below(8) != 0 ? 0 : below(0x80);
    if (below(8) == 0) {
        request.options |= ZAN_FILE_DELETE_ON_CLOSE;
        request.access |= ZAN_DELETE;
    }
    request.attributes = attributes[below(7)];
    request.fold = below(2);
    some_path();
    call(OPEN);
}

/* Closes the first open from some slot on, now and then a handle that no open has. */
static void some_close(void)
{
    uint32_t slot = below(ZAN_OPENS), tried;
    handle = 0;
    for (tried = below(20) != 0 ? 0 : ZAN_OPENS; handle == 0 && tried < ZAN_OPENS; tried++) {
        handle = zan_handle_in(tables, (slot + tried) % ZAN_OPENS);
    }
    call(CLOSE);
}

/* One bit of the tables changed, every call refused or not; then as before. */
static void some_damage(void)
{
    static uint8_t kept[ZAN_TABLES_SIZE];
    uint32_t at = below(ZAN_TABLES_SIZE);
    memcpy(kept, tables, sizeof tables);
    tables[at] ^= (uint8_t)(1u << below(8));
    call(AUDIT);
    some_open();
    some_close();
    call(SET_READ_ONLY);
    memcpy(tables, kept, sizeof tables);
}

static void directory(const char *text)
{
    memset(&request, 0, sizeof request);
    request.access = ZAN_FILE_READ_DATA;
    request.share = 7;
    request.disposition = ZAN_FILE_CREATE;
    request.options = ZAN_FILE_DIRECTORY_FILE;
    path_len = zan_ascii_path(path, text);
    call(OPEN);
}

/* A volume that fills up, with more and more closes. */
static void fill_volume(void)
{
    uint32_t i;
    for (i = 0; i < ZAN_ACCOUNTS; i++) {
        masks[4 * i] = i < 6 ? 0xFF : 0x89;
        masks[4 * i + 1] = i < 6 ? 0x01 : 0;
        masks[4 * i + 2] = i < 6 ? 0x1F : 0x12;
    }
    mark = 0;
    call(FORMAT);
    directory("d");
    directory("d\\e");
    for (i = 0; i < 1500; i++) {
        some_open();
        if (below(4000) < i) {
            some_close();
        }
        if (i % 10 == 0) {
            some_damage();
            mark = below(10) == 0;
            call(SET_READ_ONLY);
            call(AUDIT);
        }
    }
    masks[3] = 1;
    call(FORMAT);
    masks[3] = 0;
}

int main(void)
{
    int failed = 0;
    int i;
    call(NOTHING);
    for (i = 0; i < 4; i++) {
        fill_volume();
    }
    for (i = FORMAT; i < KINDS; i++) {
        size_t used = highest[i] - highest[NOTHING];
        int good = used > 0 && used <= LIMIT && accepted[i] > 0 && refused[i] > 0;
        printf("%-18s %5lu bytes of stack at most, %lu calls accepted, %lu refused%s\n", names[i], (unsigned long)used,
               accepted[i], refused[i], good ? "" : " FAILED");
        failed += !good;
    }
    return failed == 0 ? EXIT_SUCCESS : EXIT_FAILURE;
}
