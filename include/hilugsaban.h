/*
 * hilugsaban.h: Atari DOS 2 disk images in memory.
 *
 * The calls of libcapi.a, which `tools/archive.sh` proves and writes to
 * target/staticlib/. Link the archive behind the sources that use it:
 *
 *     cc -Iinclude program.c target/staticlib/libcapi.a
 *
 * The library allocates nothing, keeps nothing between two calls and does no
 * input or output. All that a call reads or changes is lent to it:
 *
 *   image    the disk: a raw image or an ATR file, see "Images".
 *   table    the eight channels: 40 words, see "The channel table".
 *   channel  one channel by itself (thin calls): its five words.
 *   name     a file name with its device and its ending byte, see "Names".
 *   buffer   the bytes to write, or the place for those read.
 *
 * Each is a pointer and a length in elements. What is lent must be there for
 * the whole length, and initialised; parts lent to one call must not overlap;
 * words must be aligned as uint16_t is; nobody else may write to what is lent,
 * or read what the call may change, until the call returns. With length 0 the
 * pointer is not followed and may be NULL. A call needs 4 KiB of stack. No call
 * asks for more than that: every content of image, table, name and buffer is
 * legal and has a defined answer. A refused call changes nothing, except where
 * its comment says so.
 *
 * The calls that can change the image are told its write-protect notch too, see
 * "The notch".
 */
#ifndef HILUGSABAN_H
#define HILUGSABAN_H

#include <stddef.h>
#include <stdint.h>

#ifdef __cplusplus
extern "C" {
#endif

/*
 * Images. The length of an image tells what it is: sectors 1 to 720 in order,
 * in an ATR file behind a header of 16 bytes.
 *
 *   image                     bytes    header  sectors 1 to 3  4 to 720  data
 *   raw                       92,160   -       128 bytes       128       125
 *   ATR file, single density  92,176   16      128             128       125
 *   ATR file, double density  183,952  16      128             256       253
 *
 * data is the number of a file's bytes that one sector holds. Any other length
 * is refused with 203, an ATR file whose header does not agree with its length
 * with 205 (dos_show answers a no to both). A header is, low byte first:
 *
 *   bytes 0, 1     $96, $02
 *   bytes 2, 3, 6  the bytes behind the header, in units of 16: 5,760 or 11,496
 *   bytes 4, 5     the size of sector 4: 128 or 256
 *   bytes 7 to 15  not looked at; dos_header writes zeros
 */
enum {
    DOS_IMAGE_BYTES = 92160,       /* a raw image */
    DOS_ATR_SINGLE_BYTES = 92176,  /* an ATR file of single density */
    DOS_ATR_DOUBLE_BYTES = 183952  /* an ATR file of double density */
};

/*
 * The notch. An image is served with its write-protect notch open or closed. With
 * it closed everything that could change the image is refused with 144, before
 * names are read:
 *
 *   of dos_cio     DOS_OPEN with DOS_WRITE, DOS_PUT, DOS_PUT_RECORD, DOS_RENAME,
 *                  DOS_DELETE, DOS_LOCK, DOS_UNLOCK, DOS_FORMAT, and DOS_CLOSE of a
 *                  writing channel, which then stays open
 *   of dos_sector  DOS_SECTOR_PUT and DOS_SECTOR_WRITE
 *   and            dos_recover, dos_thin_put, dos_header
 *
 * They are refused also where nothing would change: a put of no bytes, a close of
 * a writing channel whose slot is not open for output. All else is served as with
 * the notch open.
 */
enum {
    DOS_NOTCH_OPEN = 0,
    DOS_NOTCH_CLOSED = 1  /* as is any other value but 0 */
};

/* Sizes. */
enum {
    DOS_HEADER_BYTES = 16,          /* the header of an ATR file */
    DOS_SECTOR_BYTES = 128,         /* a sector, and the buffer of dos_sector */
    DOS_DOUBLE_SECTOR_BYTES = 256,  /* the same for sectors 4 to 720 of double density */
    DOS_SECTORS = 720,              /* sectors count from 1 */
    DOS_SLOTS = 64,                 /* directory slots count from 0 */
    DOS_CHANNELS = 8,               /* channels count from 0 */
    DOS_CHANNEL_WORDS = 5,          /* words of one channel */
    DOS_TABLE_WORDS = 40,           /* words of the channel table */
    DOS_NAME_BYTES = 11             /* a name in the directory, blank padded */
};

/*
 * The channel table: 40 words, channel c in words 5 * c to 5 * c + 4. A table of
 * zeros has all eight channels closed.
 *
 *   word          closed  reading                        writing
 *   +0  kind      0       1                              2
 *   +1  slot      -       the file's directory slot      the file's directory slot
 *   +2  sector    -       last sector entered,           the file's last sector
 *                         0 before the first
 *   +3  offset    -       bytes of it handed out         -
 *   +4  left      -       sectors yet to enter           -
 *
 * A word marked - is not looked at. A channel that a call does not change keeps
 * all its five words; one that it changes has 0 in the words marked -, so a
 * channel that it closes is five zeros. Another kind in any of the eight
 * channels, or another length than 40, is refused with 255. A caller may keep,
 * copy or change the words between two calls: every get and put, of a record
 * too, tests its channel against the disk again.
 */
enum {
    DOS_WORD_KIND = 0,
    DOS_WORD_SLOT = 1,
    DOS_WORD_SECTOR = 2,
    DOS_WORD_OFFSET = 3,
    DOS_WORD_LEFT = 4
};
enum {
    DOS_KIND_CLOSED = 0,
    DOS_KIND_READING = 1,
    DOS_KIND_WRITING = 2
};

/* Commands of dos_cio. */
enum {
    DOS_OPEN = 3,        /* name; direction DOS_READ or DOS_WRITE; closed channel */
    DOS_GET_RECORD = 5,  /* fills the buffer with a line; reading channel */
    DOS_GET = 7,         /* fills the buffer; reading channel */
    DOS_PUT_RECORD = 9,  /* adds a line to the file's end; writing channel */
    DOS_PUT = 11,        /* adds the buffer to the file's end; writing channel */
    DOS_CLOSE = 12,      /* any channel */
    DOS_STATUS = 13,     /* name; 1, 167 or 170; closed channel */
    DOS_RENAME = 32,     /* name `D:OLD,NEW`; closed channel */
    DOS_DELETE = 33,     /* name; closed channel */
    DOS_LOCK = 35,       /* name; closed channel */
    DOS_UNLOCK = 36,     /* name; closed channel */
    DOS_FORMAT = 254     /* name `D:` alone; closed channel; an ATR file's header stays */
};

/*
 * Lines of text. A line is what stands before an end of line, and that byte.
 *
 * DOS_GET_RECORD fills the buffer through the first end of line, and count is
 * the line's length. The answer is 1, or 3 for a line that the file ends with, see
 * "The file's end". A buffer that is full before that answers 137 with the
 * buffer full: the rest of the line was read and dropped, through its end of line
 * or to the file's end, also where the next byte is the end of line or the file
 * ends there. An empty buffer answers 1, and nothing is read.
 *
 * DOS_PUT_RECORD writes the buffer through its first end of line, or all of it
 * and then one. count has the caller's bytes only; an empty buffer writes the end
 * of line alone, with count 0. Where all of the caller's bytes fit and its own
 * end of line does not, the answer is 162 with the buffer's length.
 */
enum {
    DOS_END_OF_LINE = 0x9B
};

/*
 * The file's end. A DOS_GET, a DOS_GET_RECORD or a thin get of at least one byte
 * that succeeds answers 3 in place of 1 where it leaves its channel at the end of a
 * sector whose next sector is 0. The next one then finds the file ended: 136 with
 * count 0. Nothing but that sector's link is looked at; where a sector follows the
 * answer is 1, also if it is empty and the last. With 137 the file's end is not
 * told, and no put answers 3. All else is as with 1, and dos_succeeded says yes to
 * both.
 */

/* Directions of DOS_OPEN. Other commands do not look at the direction. */
enum {
    DOS_READ = 4,   /* a standing file, from its first byte */
    DOS_WRITE = 8   /* a new file, or a standing one emptied */
};

/* Device, unit and commands of dos_sector. */
enum {
    DOS_SECTOR_DEVICE = 0x31,
    DOS_SECTOR_UNIT = 1,
    DOS_SECTOR_READ = 0x52,
    DOS_SECTOR_PUT = 0x50,    /* write */
    DOS_SECTOR_WRITE = 0x57   /* write, with the same effect here */
};

/*
 * Status numbers. The comment says when a call gives each. Where several apply,
 * dos_cio answers the first in this order: 255, 203, 205, 134, 132 or 168
 * (command), 129, 133, 131 or 135, 168 (direction), 144, 130, 160, 165, 163, 170,
 * 167, 200, 164, 201, 169, 162. 136 and 137 come while bytes are read. 1 and 3 are
 * successes, all others are refusals.
 */
enum {
    DOS_SUCCESS = 1,           /* done */
    DOS_END_REACHED = 3,       /* get or get record: done, and the file's end was reached */
    DOS_CHANNEL_OPEN = 129,    /* the command needs a closed channel, this one is open */
    DOS_BAD_DEVICE = 130,      /* the name does not begin with `D:` or `D` digit `:` */
    DOS_WRITE_ONLY = 131,      /* get or get record on a writing channel */
    DOS_BAD_COMMAND = 132,     /* command 0 to 2 */
    DOS_CHANNEL_CLOSED = 133,  /* get or put, or one of a record, on a closed channel */
    DOS_BAD_CHANNEL = 134,     /* channel above 7 */
    DOS_READ_ONLY = 135,       /* put or put record on a reading channel */
    DOS_END_OF_FILE = 136,     /* the file ended before the buffer was full, or the line was
                                  whole; count bytes came */
    DOS_TRUNCATED = 137,       /* get record: the line did not end within the buffer, which is
                                  full; the line's rest was dropped */
    DOS_NO_DEVICE = 138,       /* sector call: device not $31 or unit not 1 */
    DOS_BAD_REQUEST = 139,     /* sector call: another command, or sector not 1 to 720 */
    DOS_WRITE_PROTECTED = 144, /* the call could change the image and the notch is closed */
    DOS_BAD_UNIT = 160,        /* the name's device digit is not 1 */
    DOS_DISK_FULL = 162,       /* no free sector; of a put or put record, count bytes were
                                  written */
    DOS_BAD_TABLE = 163,       /* the disk's volume table is not good */
    DOS_BAD_CHAIN = 164,       /* the file's sectors or its channel do not fit together;
                                  of a get or get record, count bytes came */
    DOS_BAD_NAME = 165,        /* the name is malformed or has no ending byte;
                                  recovery: the name in the slot is not legal */
    DOS_FILE_LOCKED = 167,     /* the file is locked */
    DOS_NOT_SERVED = 168,      /* a command or an open direction that is not served */
    DOS_NO_SLOT = 169,         /* the directory is full */
    DOS_NOT_FOUND = 170,       /* no standing file has the name; recovery: no deleted slot */
    DOS_FILE_HELD = 200,       /* the file is held by a channel or marked open for output;
                                  format: a channel is open */
    DOS_NAME_TAKEN = 201,      /* another standing file has the name (rename, recovery) */
    DOS_LOST_CHAIN = 202,      /* recovery: the deleted file's sectors are not all its own any more */
    DOS_BAD_IMAGE = 203,       /* the image has none of the three lengths;
                                  dos_header: it is no ATR file's */
    DOS_BAD_LENGTH = 204,      /* sector call: the buffer is not as long as the sector */
    DOS_BAD_HEADER = 205,      /* the header of an ATR file does not agree with its length */
    DOS_BAD_ARGUMENT = 255     /* a table, channel or eleven of another length, or a channel
                                  of another kind; this test comes first */
};

/*
 * Names. `D:` or `D1:`, then a letter and up to seven letters or digits, then
 * optionally a point and up to three letters or digits; capitals only. The
 * ending byte, 0, $9B or a blank, is part of the length; bytes behind it are not
 * looked at, so a name may be padded with blanks. Rename takes `D:OLD,NEW`: the
 * first name ends at the comma only, the second has no device and ends as names
 * do. `D:` or `D1:` alone, as format takes it, ends so too.
 */

/*
 * A CIO command on one channel. The answer is status + 256 * count.
 *
 * count is the number of bytes that a get or get record delivered, or of the
 * caller's bytes that a put or put record wrote, and 0 for every other command.
 * Name and buffer are looked at only by the commands that use them. Only a get or
 * a get record changes the buffer. Four refusals change something: a get or get
 * record with 136 or 164 has delivered count bytes and left the rest of the
 * buffer, and its channel stands at the end of the last sector entered, also
 * where the count is 0 (one whose channel does not fit the disk answers 164
 * before it enters anything, and leaves the channel as it was); a get record with
 * 137 has filled the buffer, and its channel stands behind what was dropped; a put
 * or put record with 162 has written the count bytes that fitted; a close with 164
 * has closed its channel. A close with 144 has not.
 */
uint64_t dos_cio(uint8_t *image, size_t image_length,
                 uint16_t *table, size_t table_length, uint8_t notch,
                 uint8_t channel, uint8_t command, uint8_t direction,
                 const uint8_t *name, size_t name_length,
                 uint8_t *buffer, size_t buffer_length);

/*
 * Takes the deleted file in a directory slot back. The answer is status +
 * 256 * count, count being the number of sectors taken back. Refusals in order:
 * 203, 205, 144, 170, 163, 165, 201, 202. Recovery knows no channels.
 */
uint64_t dos_recover(uint8_t *image, size_t image_length, uint8_t notch, uint8_t slot);

/*
 * Reads a sector into the buffer or writes the buffer to it. The buffer is as
 * long as the sector: 128 bytes, or 256 for sectors 4 to 720 of double density.
 * The answer is status + 256 * count, count being that length on success.
 * Refusals in order: 203, 205, 138, 139, 144 (of a write), 204. A write is not
 * held to any rule of the file system.
 */
uint64_t dos_sector(uint8_t *image, size_t image_length, uint8_t notch,
                    uint8_t device, uint8_t unit, uint8_t command, uint16_t sector,
                    uint8_t *buffer, size_t buffer_length);

/*
 * Where the data of one file sector stand in the image: a yes when the image is
 * served (neither 203 nor 205) and a get for that slot could enter the sector,
 * else a no. Take the answer apart with dos_shown, dos_shown_offset and
 * dos_shown_length: 1 for a yes and 0 for a no in the low eight bits, above them
 * offset * 1024 + length. The offset counts from the image's first byte, an ATR
 * file's header included. A no has both 0.
 */
uint64_t dos_show(const uint8_t *image, size_t image_length, uint8_t slot, uint16_t sector);

/*
 * Thin calls: get and put on one channel that is not in a table. channel has
 * five words. The answer is as for DOS_GET, 3 at the file's end too, and DOS_PUT of
 * dos_cio; 255 where the length is not 5 or the kind is none, then 203, 205, 133,
 * 131 or 135, 144 (of a put), and so on.
 */
uint64_t dos_thin_get(const uint8_t *image, size_t image_length,
                      uint16_t *channel, size_t channel_length,
                      uint8_t *buffer, size_t buffer_length);
uint64_t dos_thin_put(uint8_t *image, size_t image_length, uint8_t notch,
                      uint16_t *channel, size_t channel_length,
                      const uint8_t *buffer, size_t buffer_length);

/*
 * Takes a name apart: 1, and its eleven blank-padded bytes in eleven; or 130,
 * 160 or 165, and eleven as it was. 255 where eleven_length is not 11. The answer
 * is status + 256 * count, count being the place of the name's ending byte on
 * success, from 0 at the `D`, else 0.
 */
uint64_t dos_name(const uint8_t *name, size_t name_length,
                  uint8_t *eleven, size_t eleven_length);

/*
 * Writes the header of an ATR file into the first 16 bytes of an image of either
 * ATR length, whatever stands there. The answer is 1; or 203 for any other
 * length, a raw image's too; or 144.
 */
uint64_t dos_header(uint8_t *image, size_t image_length, uint8_t notch);

/* The status of an answer. */
static inline uint8_t dos_answer_status(uint64_t answer)
{
    return (uint8_t)(answer & 255);
}

/* The count of an answer. */
static inline size_t dos_answer_count(uint64_t answer)
{
    return (size_t)(answer >> 8);
}

/* Whether a call did all that it was asked for; dos_show has answers of its own. */
static inline int dos_succeeded(uint64_t answer)
{
    uint8_t status = dos_answer_status(answer);

    return status == DOS_SUCCESS || status == DOS_END_REACHED;
}

/* Whether dos_show answered yes. */
static inline int dos_shown(uint64_t answer)
{
    return (answer & 255) == 1;
}

/* The place in the image of the part that dos_show found. */
static inline size_t dos_shown_offset(uint64_t answer)
{
    return (size_t)(answer >> 18);
}

/* The length of that part. */
static inline size_t dos_shown_length(uint64_t answer)
{
    return (size_t)(answer >> 8 & 1023);
}

#ifdef __cplusplus
}
#endif

#endif
