/*
 * A host that shares a memory card between its own player and two PCs.
 *
 *     cc examples/host.c -Iinclude -Lbuild -lzanthupra -o host
 *
 * first_open is all that it takes to open a file. The rest is what a real host does: take over the tables that are there or
 * make new ones, open for the player and for PCs, meet a sharing violation, close, drop what a close has deleted, protect the
 * card, start again.
 * Each line printed is a call and its answer; the program fails at the first answer that isn't the one it expects.
 */
#include <stdio.h>
#include <stdlib.h>
#include <string.h>

#include "zanthupra.h"

/* The tables: as long as a handle is in use, and nobody but the library writes them. */
static uint8_t tables[ZAN_TABLES_SIZE];

static uint32_t first_open(void)
{
    struct zan_volume volume = ZAN_ZERO;
    struct zan_request request = ZAN_ZERO;
    struct zan_reply reply;
    uint8_t path[ZAN_PATH_BUFFER];
    volume.masks[0] = ZAN_FILE_ALL_ACCESS;
    zan_format_volume(tables, &volume);
    request.access = ZAN_FILE_READ_DATA | ZAN_FILE_WRITE_DATA;
    request.disposition = ZAN_FILE_OPEN_IF;
    return zan_open_file(tables, &request, path, zan_ascii_path(path, "tones"), &reply);
}

/* Who asks. The host knows it from the connection that a request comes by; the library believes it. */
enum { PLAYER = 0, PC1 = 1, PC2 = 2, VISITOR = 3 };

static const char *const who[] = {"player", "PC 1", "PC 2", "visitor"};

#define SHARE_READ ZAN_FILE_SHARE_READ
#define SHARE_BOTH (ZAN_FILE_SHARE_READ | ZAN_FILE_SHARE_WRITE)
#define SHARE_ALL (SHARE_BOTH | ZAN_FILE_SHARE_DELETE)
#define READ ZAN_FILE_READ_DATA
#define READ_WRITE (ZAN_FILE_READ_DATA | ZAN_FILE_WRITE_DATA)

static const char *status_text(uint32_t status)
{
    switch (status) {
    case ZAN_STATUS_SUCCESS: return "done";
    case ZAN_STATUS_INVALID_HANDLE: return "INVALID_HANDLE";
    case ZAN_STATUS_ACCESS_DENIED: return "ACCESS_DENIED";
    case ZAN_STATUS_SHARING_VIOLATION: return "SHARING_VIOLATION";
    case ZAN_STATUS_DELETE_PENDING: return "DELETE_PENDING";
    case ZAN_STATUS_MEDIA_WRITE_PROTECTED: return "MEDIA_WRITE_PROTECTED";
    case ZAN_STATUS_FILE_CORRUPT_ERROR: return "FILE_CORRUPT_ERROR";
    default: return "another status";
    }
}

static const char *action_text(uint32_t action)
{
    switch (action) {
    case ZAN_FILE_SUPERSEDED: return "superseded";
    case ZAN_FILE_OPENED: return "opened";
    case ZAN_FILE_CREATED: return "created";
    case ZAN_FILE_OVERWRITTEN: return "overwritten";
    default: return "no action";
    }
}

/* A real host answers the PC with the status. Here it must be the one that we expect. */
static void expect(uint32_t expected, uint32_t status)
{
    if (status != expected) {
        printf("expected %08lX, not %08lX\n", (unsigned long)expected, (unsigned long)status);
        exit(EXIT_FAILURE);
    }
}

/* Contents are the host's, kept by the number of their stream. Here it keeps no more than that there are some. */
static uint8_t contents[ZAN_STREAMS];

/* The stream's number stands in the record of the open (docs/LAYOUT.md). */
static void keep_contents(uint64_t handle)
{
    uint32_t slot;
    for (slot = 0; slot < ZAN_OPENS; slot++) {
        if (zan_handle_in(tables, slot) == handle) {
            const uint8_t *open = tables + ZAN_OPENS_AT + slot * ZAN_OPEN_SIZE;
            contents[open[10] + 256u * open[11]] = 1;
        }
    }
}

/* A close may have deleted a stream, or a file with all of its streams: their contents go before the next open. */
static void drop_contents(void)
{
    uint32_t stream;
    for (stream = 0; stream < ZAN_STREAMS; stream++) {
        if (contents[stream] && !zan_stream_in(tables, stream)) {
            contents[stream] = 0;
            printf("host     contents of stream %lu dropped\n", (unsigned long)stream);
        }
    }
}

/* An open as the host's server would make it of a PC's request. The answer is the handle, 0 of a refusal. */
static uint64_t open_path(uint32_t account, const char *text, uint32_t access, uint32_t share, uint32_t disposition,
                          uint32_t options, uint32_t expected)
{
    struct zan_request request = ZAN_ZERO;
    struct zan_reply reply;
    uint8_t path[ZAN_PATH_BUFFER];
    size_t length = zan_ascii_path(path, text);

    request.account = account;
    request.access = access;
    request.share = share;
    request.disposition = disposition;
    request.options = options;
    request.fold = 1; /* PCs don't care about case */
    zan_open_file(tables, &request, path, length, &reply);

    if (reply.status == ZAN_STATUS_SUCCESS) {
        keep_contents(reply.handle);
        printf("%-8s open %-18s %s, handle %llu, granted %06lX\n", who[account], text, action_text(reply.action),
               (unsigned long long)reply.handle, (unsigned long)reply.granted);
    } else {
        printf("%-8s open %-18s %s\n", who[account], text, status_text(reply.status));
    }
    expect(expected, reply.status);
    return reply.handle;
}

static void close_handle(uint32_t account, uint64_t handle, uint32_t expected)
{
    uint32_t status = zan_close_file(tables, handle);
    printf("%-8s close %-17llu %s\n", who[account], (unsigned long long)handle, status_text(status));
    expect(expected, status);
    drop_contents();
}

static void protect(uint32_t read_only)
{
    uint32_t status = zan_protect_volume(tables, read_only);
    printf("host     %-23s %s\n", read_only ? "protect" : "unprotect", status_text(status));
    expect(ZAN_STATUS_SUCCESS, status);
}

/* New tables: player and PCs may do everything, a visitor may read, nobody else has an account. */
static void format(void)
{
    struct zan_volume volume = ZAN_ZERO;
    uint32_t status;
    volume.masks[PLAYER] = ZAN_FILE_ALL_ACCESS;
    volume.masks[PC1] = ZAN_FILE_ALL_ACCESS;
    volume.masks[PC2] = ZAN_FILE_ALL_ACCESS;
    volume.masks[VISITOR] = ZAN_FILE_GENERIC_READ;
    status = zan_format_volume(tables, &volume);
    printf("host     format                  %s\n", status_text(status));
    expect(ZAN_STATUS_SUCCESS, status);
    memset(contents, 0, sizeof contents);
}

/* Opens that are left from before a restart belong to nobody: close them. */
static void close_left_opens(void)
{
    uint32_t slot;
    for (slot = 0; slot < ZAN_OPENS; slot++) {
        uint64_t handle = zan_handle_in(tables, slot);
        if (handle != 0) {
            uint32_t status = zan_close_file(tables, handle);
            printf("host     close left %-12llu %s\n", (unsigned long long)handle, status_text(status));
            expect(ZAN_STATUS_SUCCESS, status);
            drop_contents();
        }
    }
}

/* At start: tables that are sound are taken over, anything else is formatted. */
static void start(void)
{
    int sound = zan_audit_volume(tables) == 1;
    printf("host     audit                   %s\n", sound ? "sound" : "not sound");
    if (sound) {
        close_left_opens();
    } else {
        format();
    }
}

/* Two PCs and the player share a list. */
static void lesson(void)
{
    uint64_t player, pc1, pc2, scratch;

    close_handle(PLAYER,
                 open_path(PLAYER, "lists", READ, SHARE_BOTH, ZAN_FILE_CREATE, ZAN_FILE_DIRECTORY_FILE, ZAN_STATUS_SUCCESS),
                 ZAN_STATUS_SUCCESS);

    /* The player makes a list and writes it, and lets others read. */
    player = open_path(PLAYER, "lists\\tones", READ_WRITE, SHARE_READ, ZAN_FILE_CREATE, 0, ZAN_STATUS_SUCCESS);

    /* PC 1 reads along: it lets others read and write, so the player may. PC 2 wants to write, which the player excludes. */
    pc1 = open_path(PC1, "Lists\\Tones", READ, SHARE_BOTH, ZAN_FILE_OPEN, 0, ZAN_STATUS_SUCCESS);
    open_path(PC2, "lists\\tones", READ_WRITE, SHARE_BOTH, ZAN_FILE_OPEN, 0, ZAN_STATUS_SHARING_VIOLATION);

    /* Once the player has closed, PC 2 may write, and the player has to wait: it doesn't want others to write. */
    close_handle(PLAYER, player, ZAN_STATUS_SUCCESS);
    pc2 = open_path(PC2, "lists\\tones", READ_WRITE, SHARE_BOTH, ZAN_FILE_OPEN, 0, ZAN_STATUS_SUCCESS);
    open_path(PLAYER, "lists\\tones", READ, SHARE_READ, ZAN_FILE_OPEN, 0, ZAN_STATUS_SHARING_VIOLATION);
    close_handle(PC2, pc2, ZAN_STATUS_SUCCESS);
    close_handle(PC2, pc2, ZAN_STATUS_INVALID_HANDLE);
    open_path(PLAYER, "lists\\tones", READ, SHARE_READ, ZAN_FILE_OPEN, 0, ZAN_STATUS_SUCCESS);

    /* A stream beside the list's contents has opens of its own. */
    open_path(PC2, "lists\\tones:notes", READ_WRITE, 0, ZAN_FILE_OPEN_IF, 0, ZAN_STATUS_SUCCESS);

    /* A visitor may read and not write. */
    open_path(VISITOR, "lists\\tones", READ_WRITE, SHARE_BOTH, ZAN_FILE_OPEN, 0, ZAN_STATUS_ACCESS_DENIED);
    open_path(VISITOR, "lists\\tones", ZAN_MAXIMUM_ALLOWED, SHARE_BOTH, ZAN_FILE_OPEN, 0, ZAN_STATUS_SUCCESS);

    /* PC 1 makes a scratch list, which its close deletes. PC 2 reads along and shares deleting: it keeps the list until it
       closes, while nobody else gets in. Then the name is free. */
    scratch = open_path(PC1, "lists\\scratch", READ_WRITE | ZAN_DELETE, SHARE_ALL, ZAN_FILE_CREATE, ZAN_FILE_DELETE_ON_CLOSE,
                        ZAN_STATUS_SUCCESS);
    pc2 = open_path(PC2, "lists\\scratch", READ, SHARE_ALL, ZAN_FILE_OPEN, 0, ZAN_STATUS_SUCCESS);
    close_handle(PC1, scratch, ZAN_STATUS_SUCCESS);
    open_path(PC1, "lists\\scratch", READ, SHARE_ALL, ZAN_FILE_OPEN_IF, 0, ZAN_STATUS_DELETE_PENDING);
    close_handle(PC2, pc2, ZAN_STATUS_SUCCESS);
    scratch = open_path(PC1, "lists\\scratch", READ_WRITE | ZAN_DELETE, SHARE_ALL, ZAN_FILE_CREATE, ZAN_FILE_DELETE_ON_CLOSE,
                        ZAN_STATUS_SUCCESS);

    /* The card is locked for an exam: what is there can be opened, nothing is made or replaced. A close still deletes. */
    protect(1);
    open_path(PC1, "lists\\mine", READ_WRITE, 0, ZAN_FILE_CREATE, 0, ZAN_STATUS_MEDIA_WRITE_PROTECTED);
    close_handle(PC1, scratch, ZAN_STATUS_SUCCESS);
    close_handle(PC1, pc1, ZAN_STATUS_SUCCESS);
    open_path(PC1, "lists\\tones", READ, SHARE_BOTH, ZAN_FILE_OPEN, 0, ZAN_STATUS_SUCCESS);
    protect(0);
}

/* Damaged tables are refused by every call, and left as they are. */
static void damage(void)
{
    tables[0] = 2; /* the read-only mark is 0 or 1 */
    open_path(PC1, "lists\\tones", READ, SHARE_BOTH, ZAN_FILE_OPEN, 0, ZAN_STATUS_FILE_CORRUPT_ERROR);
    start();
}

int main(void)
{
    expect(ZAN_STATUS_SUCCESS, first_open());
    memset(tables, 0, sizeof tables);

    start();  /* empty memory: formatted */
    lesson();
    start();  /* the host starts again: taken over */
    damage(); /* no tables any more: formatted */
    return EXIT_SUCCESS;
}
