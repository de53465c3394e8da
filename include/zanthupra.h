/*
 * Who may open and close what on a shared memory card: the calls of libzanthupra.a, for C99 and C++.
 *
 * The host lends the tables, ZAN_TABLES_SIZE bytes, and each call reads and writes them in place. Five calls do all:
 * zan_format, zan_open, zan_close, zan_set_read_only, zan_audit. On top of them stand inline calls on structs, at the end
 * of this file: use those, and a field that comes later won't break your calls.
 *
 * What every call needs
 * - One caller at a time: from its start to its return a call has its tables to itself. Nothing here locks. Calls on
 *   different tables don't meet.
 * - The bytes that the last call left. Between calls the host changes none of them.
 * - Pointers that aren't null, not even with length 0, each to as many bytes as the length beside it says (at most
 *   PTRDIFF_MAX). Tables, masks and paths may stand at any address; out-parameters are aligned as their types are.
 * - Buffers and out-parameters of one call that don't overlap.
 * - 16 kB of stack.
 *
 * What every call promises
 * - It returns, touches no memory but its own stack and what it was lent, and uses no heap and no globals.
 * - Any numbers and any bytes get their answer: there is no argument to keep away from it.
 * - A refusal leaves every byte of the tables as it was.
 * - Before all else it refuses tables of another length and, except for zan_format, tables that contradict themselves:
 *   ZAN_STATUS_FILE_CORRUPT_ERROR (zan_audit answers 0).
 *
 * docs/INTEGRATION.md says what a host has to do, docs/LAYOUT.md what the bytes of the tables are.
 */
#ifndef ZANTHUPRA_H
#define ZANTHUPRA_H

#include <stddef.h>
#include <stdint.h>

#ifdef __cplusplus
extern "C" {
#endif

/* Sizes. */
#define ZAN_TABLES_SIZE 45322u /* bytes of the tables */
#define ZAN_FILES 128u         /* files and directories, the root among them */
#define ZAN_LINKS 192u
#define ZAN_STREAMS 256u
#define ZAN_OPENS 256u
#define ZAN_ACCOUNTS 8u
#define ZAN_FILE_NAME_UNITS 32u /* UTF-16 units */
#define ZAN_STREAM_NAME_UNITS 32u
#define ZAN_PATH_UNITS 255u
#define ZAN_MASKS_SIZE (4u * ZAN_ACCOUNTS)           /* bytes of the masks that zan_format takes */
#define ZAN_PATH_BUFFER (2u * (ZAN_PATH_UNITS + 1u)) /* bytes of a path of one unit more, which is refused as too long */

/* Where streams and opens stand in the tables. */
#define ZAN_STREAMS_AT 18186u
#define ZAN_STREAM_SIZE 84u
#define ZAN_OPENS_AT 39690u
#define ZAN_OPEN_SIZE 22u

/* Statuses. */
#define ZAN_STATUS_SUCCESS 0x00000000u
#define ZAN_STATUS_INVALID_HANDLE 0xC0000008u          /* close: no open has this handle */
#define ZAN_STATUS_INVALID_PARAMETER 0xC000000Du       /* numbers out of range or that exclude each other */
#define ZAN_STATUS_ACCESS_DENIED 0xC0000022u           /* the account's mask, or the file's attributes, don't allow it */
#define ZAN_STATUS_OBJECT_NAME_INVALID 0xC0000033u     /* no valid path, or a path of half units */
#define ZAN_STATUS_OBJECT_NAME_NOT_FOUND 0xC0000034u   /* the last part of the path isn't there */
#define ZAN_STATUS_OBJECT_NAME_COLLISION 0xC0000035u   /* it is there, and should have been made */
#define ZAN_STATUS_OBJECT_PATH_NOT_FOUND 0xC000003Au   /* an earlier part of the path isn't there, or is no directory */
#define ZAN_STATUS_SHARING_VIOLATION 0xC0000043u       /* it conflicts with an open on the same stream */
#define ZAN_STATUS_DELETE_PENDING 0xC0000056u          /* it, or an earlier part of the path, is being deleted */
#define ZAN_STATUS_DISK_FULL 0xC000007Fu               /* no slot for a new file, link or stream */
#define ZAN_STATUS_INSUFFICIENT_RESOURCES 0xC000009Au  /* handles are used up */
#define ZAN_STATUS_MEDIA_WRITE_PROTECTED 0xC00000A2u   /* the volume is read-only */
#define ZAN_STATUS_FILE_IS_A_DIRECTORY 0xC00000BAu     /* a file was asked for */
#define ZAN_STATUS_FILE_CORRUPT_ERROR 0xC0000102u      /* the tables contradict themselves, or have a wrong length */
#define ZAN_STATUS_NOT_A_DIRECTORY 0xC0000103u         /* a directory was asked for */
#define ZAN_STATUS_TOO_MANY_OPENED_FILES 0xC000011Fu   /* all opens are in use */
#define ZAN_STATUS_CANNOT_DELETE 0xC0000121u           /* delete on close of the root or of what is read-only */

/* Access bits. Some have one name for files and one for directories. */
#define ZAN_FILE_READ_DATA 0x00000001u
#define ZAN_FILE_LIST_DIRECTORY 0x00000001u
#define ZAN_FILE_WRITE_DATA 0x00000002u
#define ZAN_FILE_ADD_FILE 0x00000002u
#define ZAN_FILE_APPEND_DATA 0x00000004u
#define ZAN_FILE_ADD_SUBDIRECTORY 0x00000004u
#define ZAN_FILE_READ_EA 0x00000008u
#define ZAN_FILE_WRITE_EA 0x00000010u
#define ZAN_FILE_EXECUTE 0x00000020u
#define ZAN_FILE_TRAVERSE 0x00000020u
#define ZAN_FILE_DELETE_CHILD 0x00000040u
#define ZAN_FILE_READ_ATTRIBUTES 0x00000080u
#define ZAN_FILE_WRITE_ATTRIBUTES 0x00000100u
#define ZAN_DELETE 0x00010000u
#define ZAN_READ_CONTROL 0x00020000u
#define ZAN_WRITE_DAC 0x00040000u
#define ZAN_WRITE_OWNER 0x00080000u
#define ZAN_SYNCHRONIZE 0x00100000u
#define ZAN_MAXIMUM_ALLOWED 0x02000000u /* in a request: all that the account has; never in a mask */

/* The same in groups; a mask has bits of ZAN_FILE_ALL_ACCESS only. */
#define ZAN_FILE_ALL_ACCESS                                                                                            \
    (ZAN_FILE_READ_DATA | ZAN_FILE_WRITE_DATA | ZAN_FILE_APPEND_DATA | ZAN_FILE_READ_EA | ZAN_FILE_WRITE_EA |          \
     ZAN_FILE_EXECUTE | ZAN_FILE_DELETE_CHILD | ZAN_FILE_READ_ATTRIBUTES | ZAN_FILE_WRITE_ATTRIBUTES | ZAN_DELETE |    \
     ZAN_READ_CONTROL | ZAN_WRITE_DAC | ZAN_WRITE_OWNER | ZAN_SYNCHRONIZE)
#define ZAN_FILE_GENERIC_READ                                                                                          \
    (ZAN_FILE_READ_DATA | ZAN_FILE_READ_EA | ZAN_FILE_READ_ATTRIBUTES | ZAN_READ_CONTROL | ZAN_SYNCHRONIZE)
#define ZAN_FILE_GENERIC_WRITE                                                                                         \
    (ZAN_FILE_WRITE_DATA | ZAN_FILE_APPEND_DATA | ZAN_FILE_WRITE_EA | ZAN_FILE_WRITE_ATTRIBUTES | ZAN_READ_CONTROL |   \
     ZAN_SYNCHRONIZE)
#define ZAN_FILE_GENERIC_EXECUTE (ZAN_FILE_EXECUTE | ZAN_FILE_READ_ATTRIBUTES | ZAN_READ_CONTROL | ZAN_SYNCHRONIZE)

/*
 * Refused: the generic bits are INVALID_PARAMETER (the host maps them to the groups above first), ACCESS_SYSTEM_SECURITY
 * and every bit without a name here ACCESS_DENIED.
 */
#define ZAN_ACCESS_SYSTEM_SECURITY 0x01000000u
#define ZAN_GENERIC_ALL 0x10000000u
#define ZAN_GENERIC_EXECUTE 0x20000000u
#define ZAN_GENERIC_WRITE 0x40000000u
#define ZAN_GENERIC_READ 0x80000000u

/* Sharing mode: what others may do meanwhile. */
#define ZAN_FILE_SHARE_READ 0x00000001u
#define ZAN_FILE_SHARE_WRITE 0x00000002u
#define ZAN_FILE_SHARE_DELETE 0x00000004u

/* Dispositions: what to do if it is there, and if it isn't. */
#define ZAN_FILE_SUPERSEDE 0u    /* replace, else make */
#define ZAN_FILE_OPEN 1u         /* open, else refuse */
#define ZAN_FILE_CREATE 2u       /* refuse, else make */
#define ZAN_FILE_OPEN_IF 3u      /* open, else make */
#define ZAN_FILE_OVERWRITE 4u    /* overwrite, else refuse */
#define ZAN_FILE_OVERWRITE_IF 5u /* overwrite, else make */

/* Create actions: what an open has done. */
#define ZAN_FILE_SUPERSEDED 0u
#define ZAN_FILE_OPENED 1u
#define ZAN_FILE_CREATED 2u
#define ZAN_FILE_OVERWRITTEN 3u
#define ZAN_NO_ACTION 0xFFFFFFFFu /* of a refused open */

/* Options that are accepted. */
#define ZAN_FILE_DIRECTORY_FILE 0x00000001u            /* a directory is asked for */
#define ZAN_FILE_WRITE_THROUGH 0x00000002u             /* no effect here */
#define ZAN_FILE_SEQUENTIAL_ONLY 0x00000004u           /* no effect; not with DIRECTORY_FILE */
#define ZAN_FILE_NO_INTERMEDIATE_BUFFERING 0x00000008u /* no effect; not with DIRECTORY_FILE, nor access APPEND_DATA */
#define ZAN_FILE_NON_DIRECTORY_FILE 0x00000040u        /* a file is asked for; not with DIRECTORY_FILE */
#define ZAN_FILE_DELETE_ON_CLOSE 0x00001000u           /* its close deletes what it opened; only with access DELETE */
#define ZAN_FILE_DISALLOW_EXCLUSIVE 0x00020000u        /* ACCESS_DENIED, where else the open of a directory would be made to
                                                          share reading; not with DIRECTORY_FILE */
#define ZAN_OPTIONS_ACCEPTED                                                                                           \
    (ZAN_FILE_DIRECTORY_FILE | ZAN_FILE_WRITE_THROUGH | ZAN_FILE_SEQUENTIAL_ONLY | ZAN_FILE_NO_INTERMEDIATE_BUFFERING | \
     ZAN_FILE_NON_DIRECTORY_FILE | ZAN_FILE_DELETE_ON_CLOSE | ZAN_FILE_DISALLOW_EXCLUSIVE)

/* Options that are refused (INVALID_PARAMETER), as is every other bit. A host takes out those that it sees to itself. */
#define ZAN_FILE_SYNCHRONOUS_IO_ALERT 0x00000010u
#define ZAN_FILE_SYNCHRONOUS_IO_NONALERT 0x00000020u
#define ZAN_FILE_COMPLETE_IF_OPLOCKED 0x00000100u
#define ZAN_FILE_NO_EA_KNOWLEDGE 0x00000200u
#define ZAN_FILE_RANDOM_ACCESS 0x00000800u
#define ZAN_FILE_OPEN_BY_FILE_ID 0x00002000u
#define ZAN_FILE_OPEN_FOR_BACKUP_INTENT 0x00004000u
#define ZAN_FILE_NO_COMPRESSION 0x00008000u
#define ZAN_FILE_OPEN_REQUIRING_OPLOCK 0x00010000u
#define ZAN_FILE_RESERVE_OPFILTER 0x00100000u
#define ZAN_FILE_OPEN_REPARSE_POINT 0x00200000u
#define ZAN_FILE_OPEN_NO_RECALL 0x00400000u
#define ZAN_FILE_OPEN_FOR_FREE_SPACE_QUERY 0x00800000u

/* Attributes that a request may ask for. */
#define ZAN_FILE_ATTRIBUTE_READONLY 0x00000001u
#define ZAN_FILE_ATTRIBUTE_HIDDEN 0x00000002u
#define ZAN_FILE_ATTRIBUTE_SYSTEM 0x00000004u
#define ZAN_FILE_ATTRIBUTE_ARCHIVE 0x00000020u
#define ZAN_FILE_ATTRIBUTE_NORMAL 0x00000080u    /* no effect */
#define ZAN_FILE_ATTRIBUTE_TEMPORARY 0x00000100u /* not for a new directory */
#define ZAN_FILE_ATTRIBUTE_OFFLINE 0x00001000u
#define ZAN_FILE_ATTRIBUTE_NOT_CONTENT_INDEXED 0x00002000u /* no effect: a new file has it if its directory has */
#define ZAN_ATTRIBUTES_ACCEPTED                                                                                        \
    (ZAN_FILE_ATTRIBUTE_READONLY | ZAN_FILE_ATTRIBUTE_HIDDEN | ZAN_FILE_ATTRIBUTE_SYSTEM | ZAN_FILE_ATTRIBUTE_ARCHIVE | \
     ZAN_FILE_ATTRIBUTE_NORMAL | ZAN_FILE_ATTRIBUTE_TEMPORARY | ZAN_FILE_ATTRIBUTE_OFFLINE |                           \
     ZAN_FILE_ATTRIBUTE_NOT_CONTENT_INDEXED)

/*
 * Attributes that a request may not ask for (INVALID_PARAMETER), as is every other bit. The tables have DIRECTORY on
 * directories; a directory is asked for by its option.
 */
#define ZAN_FILE_ATTRIBUTE_DIRECTORY 0x00000010u
#define ZAN_FILE_ATTRIBUTE_SPARSE_FILE 0x00000200u
#define ZAN_FILE_ATTRIBUTE_REPARSE_POINT 0x00000400u
#define ZAN_FILE_ATTRIBUTE_COMPRESSED 0x00000800u
#define ZAN_FILE_ATTRIBUTE_ENCRYPTED 0x00004000u

/* The calls. The result is a status; that of zan_audit is 1 or 0. */

/*
 * Makes fresh tables of whatever bytes are there: a root, no file, no open, handles from 1. The masks are the root's, for
 * accounts 0 to 7, each 4 bytes, least significant first; a new file takes those of its directory. read_only: 0 is no,
 * all else yes.
 * Refuses a wrong tables_len (FILE_CORRUPT_ERROR), then a masks_len other than 32 or a mask with a bit outside
 * ZAN_FILE_ALL_ACCESS (INVALID_PARAMETER).
 */
uint32_t zan_format(uint8_t *tables, size_t tables_len, const uint8_t *masks, size_t masks_len, uint32_t read_only);

/*
 * Opens, and makes or replaces where the disposition says so. The path is UTF-16 units of 2 bytes, least significant first,
 * without an end mark; path_len counts bytes, and an odd one is OBJECT_NAME_INVALID. A path that is too long takes no more
 * time than one of 256 units. Backslashes separate names, a colon leads to a stream's name, the empty path is the root.
 * No name has unit 0 or one of " * / < > ? |. Control units, 1 to 31, may stand in a stream's name, and in no file's.
 * fold: 0 compares names exactly, all else without the case of a to z.
 * Success writes the create action, the access granted and the handle, never 0 and never issued before since the format.
 * A refusal writes ZAN_NO_ACTION, 0 and 0.
 */
uint32_t zan_open(uint8_t *tables, size_t tables_len, uint32_t account, uint32_t access, uint32_t share,
                  uint32_t disposition, uint32_t options, uint32_t attributes, uint32_t fold, const uint8_t *path,
                  size_t path_len, uint32_t *action, uint32_t *granted, uint64_t *handle);

/*
 * Ends an open. Refuses a handle that no open has (INVALID_HANDLE), so also one that is closed already.
 * If the open was made with ZAN_FILE_DELETE_ON_CLOSE, its close marks what it was on for deletion: a named stream by
 * itself, else the file with all its streams, but not a directory that has something in it. What is marked can't be
 * opened or walked through any more (DELETE_PENDING). It goes when its last open closes, in the same call if this is
 * that one: its records are cleared, its name is free, and its numbers may be given to others. A read-only volume
 * doesn't stop this.
 */
uint32_t zan_close(uint8_t *tables, size_t tables_len, uint64_t handle);

/* Makes the volume read-only (all but 0) or writable (0). Opens that are there stay as they are. */
uint32_t zan_set_read_only(uint8_t *tables, size_t tables_len, uint32_t read_only);

/* 1 if these are tables that don't contradict themselves, so that the other calls take them; else 0. Writes nothing. */
uint32_t zan_audit(const uint8_t *tables, size_t tables_len);

/*
 * The calls on structs. Set a struct to zero first (= ZAN_ZERO, or memset), then its fields: a field that comes later
 * means, when zero, what is done today. The tables have ZAN_TABLES_SIZE bytes.
 */
#ifdef __cplusplus
#define ZAN_ZERO {}
#else
#define ZAN_ZERO {0}
#endif

/* What a format asks for. All zero: a writable volume on which nobody may do anything. */
struct zan_volume {
    uint32_t masks[ZAN_ACCOUNTS]; /* of the root, by account */
    uint32_t read_only;           /* 0 no, else yes */
};

/* What an open asks for. All zero is refused: access 0 opens nothing. Note that disposition 0 is ZAN_FILE_SUPERSEDE. */
struct zan_request {
    uint32_t account; /* 0 to 7: who asks; the host knows */
    uint32_t access;
    uint32_t share;
    uint32_t disposition;
    uint32_t options;
    uint32_t attributes; /* of a file that is made or replaced */
    uint32_t fold;       /* 0: names are compared exactly, else without the case of a to z */
};

/* What an open answers. */
struct zan_reply {
    uint64_t handle;  /* 0 of a refusal */
    uint32_t status;
    uint32_t action;  /* ZAN_NO_ACTION of a refusal */
    uint32_t granted; /* 0 of a refusal */
};

/* zan_format with the masks as numbers. */
static inline uint32_t zan_format_volume(uint8_t *tables, const struct zan_volume *volume)
{
    uint8_t masks[ZAN_MASKS_SIZE];
    uint32_t i;
    for (i = 0; i < ZAN_MASKS_SIZE; i++) {
        masks[i] = volume->masks[i / 4] >> (8 * (i % 4)) & 0xFFu;
    }
    return zan_format(tables, ZAN_TABLES_SIZE, masks, ZAN_MASKS_SIZE, volume->read_only);
}

/* zan_open. The path may be null if path_len is 0. The result is the reply's status; the reply is written whole. */
static inline uint32_t zan_open_file(uint8_t *tables, const struct zan_request *request, const uint8_t *path,
                                     size_t path_len, struct zan_reply *reply)
{
    const uint8_t root = 0;
    reply->status = zan_open(tables, ZAN_TABLES_SIZE, request->account, request->access, request->share,
                             request->disposition, request->options, request->attributes, request->fold,
                             path_len == 0 ? &root : path, path_len, &reply->action, &reply->granted, &reply->handle);
    return reply->status;
}

/* zan_close. */
static inline uint32_t zan_close_file(uint8_t *tables, uint64_t handle)
{
    return zan_close(tables, ZAN_TABLES_SIZE, handle);
}

/* zan_set_read_only. */
static inline uint32_t zan_protect_volume(uint8_t *tables, uint32_t read_only)
{
    return zan_set_read_only(tables, ZAN_TABLES_SIZE, read_only);
}

/* zan_audit. */
static inline uint32_t zan_audit_volume(const uint8_t *tables)
{
    return zan_audit(tables, ZAN_TABLES_SIZE);
}

/*
 * ASCII text as a path, in a buffer of ZAN_PATH_BUFFER bytes; the result is the path's length in bytes. Text that is too
 * long is cut to a path that is too long still, and a character that isn't ASCII becomes a zero: zan_open refuses both.
 * Characters 1 to 31 go in as they are, a line end too: they are valid in a stream's name.
 */
static inline size_t zan_ascii_path(uint8_t *path, const char *text)
{
    size_t length = 0;
    while (length < ZAN_PATH_BUFFER && text[length / 2] != '\0') {
        path[length] = text[length / 2] & 0x80 ? 0 : text[length / 2] & 0x7F;
        path[length + 1] = 0;
        length += 2;
    }
    return length;
}

/*
 * The handle of the open in a slot, 0 to ZAN_OPENS - 1, or 0 if the slot is free. For a host that takes tables over and
 * closes the opens whose owners are gone.
 */
static inline uint64_t zan_handle_in(const uint8_t *tables, uint32_t slot)
{
    uint64_t handle = 0;
    uint32_t i;
    for (i = 8; i-- > 0;) {
        handle = handle << 8 | tables[ZAN_OPENS_AT + slot * ZAN_OPEN_SIZE + i];
    }
    return handle;
}

/*
 * 1 if there is a stream in a slot, 0 to ZAN_STREAMS - 1, or 0 if the slot is free. For a host that keeps contents by the
 * stream's number: after a close, those of a slot that is free are to go.
 */
static inline uint32_t zan_stream_in(const uint8_t *tables, uint32_t slot)
{
    return tables[ZAN_STREAMS_AT + slot * ZAN_STREAM_SIZE] != 0;
}

#ifdef __cplusplus
}
#endif

#endif
