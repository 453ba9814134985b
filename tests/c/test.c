/*
 * The bench examples and every call of the library, through the header, on each kind of image.
 * Compiles as C99 and as C++. Prints what differs; exit status 0 when nothing does.
 */
#include "hilugsaban.h"

#include <stdio.h>
#include <string.h>

/* What an image can be. */
struct kind {
    const char *name;
    size_t length;  /* of the image */
    size_t header;  /* bytes of it in front of the sectors */
    size_t size;    /* of sectors 4 to 720 */
    size_t data;    /* a file's bytes in one sector */
};
static const struct kind kinds[] = {
    {"raw", DOS_IMAGE_BYTES, 0, DOS_SECTOR_BYTES, 125},
    {"ATR, single density", DOS_ATR_SINGLE_BYTES, DOS_HEADER_BYTES, DOS_SECTOR_BYTES, 125},
    {"ATR, double density", DOS_ATR_DOUBLE_BYTES, DOS_HEADER_BYTES, DOS_DOUBLE_SECTOR_BYTES, 253},
};

/* The kind that is tested. */
static const struct kind *kind = &kinds[0];

/* The notch that by_name, by_buffer, recover and on_sector call with. */
static uint8_t notch = DOS_NOTCH_OPEN;

static uint8_t image[DOS_ATR_DOUBLE_BYTES + 1];
static uint8_t before[DOS_ATR_DOUBLE_BYTES + 1];
static uint16_t table[DOS_TABLE_WORDS + 1];
static uint8_t buffer[DOS_ATR_DOUBLE_BYTES];
static int failures;

/* Reports an answer that is not the expected status and count. */
static void expect(int line, uint64_t answer, unsigned status, size_t count)
{
    if (dos_answer_status(answer) != status || dos_answer_count(answer) != count) {
        printf("line %d, %s: status %u count %lu, expected %u and %lu\n", line, kind->name, (unsigned)dos_answer_status(answer),
               (unsigned long)dos_answer_count(answer), status, (unsigned long)count);
        failures++;
    }
}

static void expect_true(int line, int holds)
{
    if (!holds) {
        printf("line %d, %s: does not hold\n", line, kind->name);
        failures++;
    }
}

#define EXPECT(answer, status, count) expect(__LINE__, answer, status, count)
#define HOLDS(condition) expect_true(__LINE__, condition)

/* A call with a name, which is lent with its ending 0. */
static uint64_t by_name(uint8_t channel, uint8_t command, uint8_t direction, const char *name)
{
    return dos_cio(image, kind->length, table, DOS_TABLE_WORDS, notch, channel, command, direction,
                   (const uint8_t *)name, strlen(name) + 1, NULL, 0);
}

/* A call with a buffer. */
static uint64_t by_buffer(uint8_t channel, uint8_t command, uint8_t *bytes, size_t length)
{
    return dos_cio(image, kind->length, table, DOS_TABLE_WORDS, notch, channel, command, 0, NULL, 0, bytes, length);
}

/* A fresh disk with all channels closed. */
static void fresh(void)
{
    memset(table, 0, sizeof table);
    memset(image, 0xA5, sizeof image);
    if (kind->header)
        EXPECT(dos_header(image, kind->length, DOS_NOTCH_OPEN), DOS_SUCCESS, 0);
    EXPECT(by_name(0, DOS_FORMAT, 0, "D:"), DOS_SUCCESS, 0);
}

/* Makes a file of the given length with the buffer's first bytes. */
static void make(const char *name, size_t length)
{
    EXPECT(by_name(0, DOS_OPEN, DOS_WRITE, name), DOS_SUCCESS, 0);
    EXPECT(by_buffer(0, DOS_PUT, buffer, length), DOS_SUCCESS, length);
    EXPECT(by_buffer(0, DOS_CLOSE, NULL, 0), DOS_SUCCESS, 0);
}

static uint64_t recover(uint8_t slot)
{
    return dos_recover(image, kind->length, notch, slot);
}

static uint8_t *sector(unsigned number)
{
    uint8_t *first = image + kind->header;

    return number < 4 ? first + (number - 1) * DOS_SECTOR_BYTES : first + 3 * DOS_SECTOR_BYTES + (number - 4) * kind->size;
}

/* The last three bytes of a file sector are these. */
static int ends(unsigned number, unsigned link, unsigned next, size_t count)
{
    const uint8_t *tail = sector(number) + kind->data;

    return tail[0] == link && tail[1] == next && tail[2] == count;
}

static void remember(void)
{
    memcpy(before, image, sizeof image);
}

static int unchanged(void)
{
    return memcmp(before, image, sizeof image) == 0;
}

/* Examples 1, 5, 6 and 7: format, put and get. */
static void files(void)
{
    uint8_t out[5] = {9, 9, 9, 9, 9};

    fresh();
    HOLDS(sector(360)[10] == 0x0F && sector(360)[55] == 0x00 && sector(360)[56] == 0x7F);
    HOLDS(sector(360)[3] == 707 % 256 && sector(360)[4] == 707 / 256);
    make("D:A", kind->data + 1);
    HOLDS(ends(4, 0, 5, kind->data) && ends(5, 0, 0, 1));
    make("D:B", kind->data);
    HOLDS(ends(6, 4, 0, kind->data));

    fresh();
    make("D:A", 3);
    EXPECT(by_name(7, DOS_OPEN, DOS_READ, "D:A"), DOS_SUCCESS, 0);
    EXPECT(by_buffer(7, DOS_GET, out, 5), DOS_END_OF_FILE, 3);
    HOLDS(memcmp(out, buffer, 3) == 0 && out[3] == 9 && out[4] == 9);
    EXPECT(by_buffer(7, DOS_CLOSE, NULL, 0), DOS_SUCCESS, 0);
    EXPECT(by_name(7, DOS_OPEN, DOS_READ, "D1:A"), DOS_SUCCESS, 0);
    EXPECT(by_buffer(7, DOS_GET, out, 3), DOS_END_REACHED, 3);
    EXPECT(by_buffer(7, DOS_GET, out, 1), DOS_END_OF_FILE, 0);

    fresh();
    EXPECT(by_name(0, DOS_OPEN, DOS_WRITE, "D:A"), DOS_SUCCESS, 0);
    EXPECT(by_buffer(0, DOS_PUT, buffer, 707 * kind->data), DOS_SUCCESS, 707 * kind->data);
    EXPECT(by_buffer(0, DOS_PUT, buffer, 1), DOS_DISK_FULL, 0);
}

/* Examples 7 (a 65th file), 8, 9 and 10: slots and recovery. */
static void recovery(void)
{
    char name[] = "D:A0";
    int i;

    fresh();
    for (i = 0; i < DOS_SLOTS; i++) {
        name[2] = (char)('A' + i / 10);
        name[3] = (char)('0' + i % 10);
        make(name, 1);
    }
    EXPECT(by_name(0, DOS_OPEN, DOS_WRITE, "D:Z"), DOS_NO_SLOT, 0);

    fresh();
    make("D:A", 1);
    make("D:B", 1);
    EXPECT(by_name(0, DOS_DELETE, 0, "D:A"), DOS_SUCCESS, 0);
    EXPECT(recover(0), DOS_SUCCESS, 1);
    EXPECT(by_name(0, DOS_DELETE, 0, "D:A"), DOS_SUCCESS, 0);
    make("D:C", 1);
    EXPECT(recover(0), DOS_NOT_FOUND, 0);

    fresh();
    make("D:A", 1);
    make("D:B", 1);
    EXPECT(by_name(0, DOS_DELETE, 0, "D:A"), DOS_SUCCESS, 0);
    EXPECT(by_name(0, DOS_DELETE, 0, "D:B"), DOS_SUCCESS, 0);
    make("D:C", kind->data + 1);
    EXPECT(by_name(0, DOS_DELETE, 0, "D:C"), DOS_SUCCESS, 0);
    EXPECT(recover(1), DOS_LOST_CHAIN, 0);
    EXPECT(recover(0), DOS_SUCCESS, 2);

    fresh();
    make("D:A", 1);
    make("D:B", 1);
    EXPECT(by_name(0, DOS_DELETE, 0, "D:B"), DOS_SUCCESS, 0);
    EXPECT(by_name(0, DOS_RENAME, 0, "D:A,B"), DOS_SUCCESS, 0);
    EXPECT(recover(1), DOS_NAME_TAKEN, 0);
    EXPECT(recover(64), DOS_NOT_FOUND, 0);
    EXPECT(dos_recover(image, kind->length - 1, 0, 1), DOS_BAD_IMAGE, 0);
}

/* Examples 2 and 3: names, the places of their ending bytes, and what a refused one leaves. */
static void names(void)
{
    static const struct {
        const char *text;
        size_t length;
        unsigned status;
        size_t place;
        const char *eleven;
    } rows[] = {
        {"D:A\x9B", 4, DOS_SUCCESS, 3, "A          "},
        {"D1:ENDS.DAT", 12, DOS_SUCCESS, 11, "ENDS    DAT"},
        {"D:ABCDEFGH.TXT", 15, DOS_SUCCESS, 14, "ABCDEFGHTXT"},
        {"D:ABCDEFGHI", 12, DOS_BAD_NAME, 0, NULL},
        {"D:1A", 5, DOS_BAD_NAME, 0, NULL},
        {"D:A", 3, DOS_BAD_NAME, 0, NULL},
        {"D2:A", 5, DOS_BAD_UNIT, 0, NULL},
        {"E:A", 4, DOS_BAD_DEVICE, 0, NULL},
        {"D", 1, DOS_BAD_DEVICE, 0, NULL},
        {"D:A ", 4, DOS_SUCCESS, 3, "A          "},
        {"D:A   ", 7, DOS_SUCCESS, 3, "A          "},
        {"D:A B\x9B", 6, DOS_SUCCESS, 3, "A          "},
        {"D:A. ", 5, DOS_SUCCESS, 4, "A          "},
        {"D1:A.TXT\x9B", 9, DOS_SUCCESS, 8, "A       TXT"},
        {"D:ENDS.DAT    \x9B", 15, DOS_SUCCESS, 10, "ENDS    DAT"},
        {"D1:ABCDEFGH.TXT ", 16, DOS_SUCCESS, 15, "ABCDEFGHTXT"},
        {"D: ", 3, DOS_BAD_NAME, 0, NULL},
        {"D: A\x9B", 5, DOS_BAD_NAME, 0, NULL},
        {"D:A,B ", 6, DOS_BAD_NAME, 0, NULL},
        {"D2:A ", 5, DOS_BAD_UNIT, 0, NULL},
        {"D :A ", 5, DOS_BAD_DEVICE, 0, NULL},
    };
    uint8_t eleven[12];
    size_t i;

    for (i = 0; i < sizeof rows / sizeof rows[0]; i++) {
        memset(eleven, '#', sizeof eleven);
        expect((int)i, dos_name((const uint8_t *)rows[i].text, rows[i].length, eleven, DOS_NAME_BYTES), rows[i].status, rows[i].place);
        expect_true((int)i, memcmp(eleven, rows[i].eleven ? rows[i].eleven : "###########", 11) == 0 && eleven[11] == '#');
    }
    EXPECT(dos_name((const uint8_t *)"D:A", 4, eleven, 12), DOS_BAD_ARGUMENT, 0);
    EXPECT(dos_name((const uint8_t *)"D:A", 4, eleven, 10), DOS_BAD_ARGUMENT, 0);
    EXPECT(dos_name((const uint8_t *)"D:A ", 4, eleven, 10), DOS_BAD_ARGUMENT, 0);
}

/* A blank ends a name and a device alone; of rename's names it ends the second only. */
static void blanks(void)
{
    static const char *const first_padded[] = {"D:A ,B", "D:A   ,B ", "D: A,B", "D: ,B", "D:A B"};
    size_t i;

    fresh();
    make("D:A   ", 3);
    EXPECT(by_name(0, DOS_STATUS, 0, "D:A"), DOS_SUCCESS, 0);
    EXPECT(by_name(1, DOS_OPEN, DOS_READ, "D1:A B"), DOS_SUCCESS, 0);
    EXPECT(by_buffer(1, DOS_CLOSE, NULL, 0), DOS_SUCCESS, 0);
    EXPECT(by_name(0, DOS_LOCK, 0, "D:A "), DOS_SUCCESS, 0);
    EXPECT(by_name(0, DOS_STATUS, 0, "D:A "), DOS_FILE_LOCKED, 0);
    EXPECT(by_name(0, DOS_UNLOCK, 0, "D:A. "), DOS_SUCCESS, 0);
    remember();
    for (i = 0; i < sizeof first_padded / sizeof first_padded[0]; i++)
        EXPECT(by_name(0, DOS_RENAME, 0, first_padded[i]), DOS_BAD_NAME, 0);
    EXPECT(by_name(0, DOS_RENAME, 0, "D:A, B"), DOS_BAD_NAME, 0);
    EXPECT(by_name(0, DOS_STATUS, 0, "D: "), DOS_BAD_NAME, 0);
    HOLDS(unchanged());
    EXPECT(by_name(0, DOS_RENAME, 0, "D:A,B  "), DOS_SUCCESS, 0);
    EXPECT(by_name(0, DOS_DELETE, 0, "D:B "), DOS_SUCCESS, 0);
    EXPECT(by_name(0, DOS_STATUS, 0, "D:B "), DOS_NOT_FOUND, 0);
    EXPECT(recover(0), DOS_SUCCESS, 1);
    EXPECT(by_name(0, DOS_FORMAT, 0, "D:B "), DOS_BAD_NAME, 0);
    EXPECT(by_name(0, DOS_FORMAT, 0, "D: "), DOS_SUCCESS, 0);
    EXPECT(by_name(0, DOS_FORMAT, 0, "D1:  A"), DOS_SUCCESS, 0);
    EXPECT(by_name(0, DOS_STATUS, 0, "D:B"), DOS_NOT_FOUND, 0);
}

/* Refusals of dos_cio in the order of its checks, none of which changes anything. */
static void refusals(void)
{
    static const char name[] = "D:A";
    const uint8_t *text = (const uint8_t *)name;
    uint16_t words[DOS_TABLE_WORDS];

    fresh();
    make("D:A", 3);
    EXPECT(by_name(1, DOS_OPEN, DOS_READ, "D:A"), DOS_SUCCESS, 0);
    EXPECT(by_name(2, DOS_OPEN, DOS_WRITE, "D:B"), DOS_SUCCESS, 0);
    remember();
    memcpy(words, table, sizeof words);
    EXPECT(dos_cio(image, kind->length, table, 39, 0, 0, 13, 0, text, 4, NULL, 0), DOS_BAD_ARGUMENT, 0);
    EXPECT(dos_cio(image, kind->length, table, 41, 0, 0, 13, 0, text, 4, NULL, 0), DOS_BAD_ARGUMENT, 0);
    EXPECT(dos_cio(image, kind->length + 1, table, 40, 0, 0, 13, 0, text, 4, NULL, 0), DOS_BAD_IMAGE, 0);
    EXPECT(by_name(8, DOS_STATUS, 0, "D:A"), DOS_BAD_CHANNEL, 0);
    EXPECT(by_name(0, 2, 0, "D:A"), DOS_BAD_COMMAND, 0);
    EXPECT(by_name(0, 99, 0, "D:A"), DOS_NOT_SERVED, 0);
    EXPECT(by_name(1, DOS_STATUS, 0, "D:A"), DOS_CHANNEL_OPEN, 0);
    EXPECT(by_buffer(0, DOS_GET, buffer, 1), DOS_CHANNEL_CLOSED, 0);
    EXPECT(by_buffer(2, DOS_GET, buffer, 1), DOS_WRITE_ONLY, 0);
    EXPECT(by_buffer(1, DOS_PUT, buffer, 1), DOS_READ_ONLY, 0);
    EXPECT(by_buffer(0, DOS_GET_RECORD, buffer, 1), DOS_CHANNEL_CLOSED, 0);
    EXPECT(by_buffer(0, DOS_PUT_RECORD, buffer, 1), DOS_CHANNEL_CLOSED, 0);
    EXPECT(by_buffer(2, DOS_GET_RECORD, buffer, 1), DOS_WRITE_ONLY, 0);
    EXPECT(by_buffer(1, DOS_PUT_RECORD, buffer, 1), DOS_READ_ONLY, 0);
    EXPECT(by_name(0, DOS_OPEN, 5, "D:A"), DOS_NOT_SERVED, 0);
    EXPECT(by_name(0, DOS_OPEN, DOS_READ, "D:C"), DOS_NOT_FOUND, 0);
    EXPECT(by_name(0, DOS_DELETE, 0, "D:A"), DOS_FILE_HELD, 0);
    EXPECT(by_name(0, DOS_FORMAT, 0, "D:"), DOS_FILE_HELD, 0);
    HOLDS(unchanged() && memcmp(words, table, sizeof words) == 0);

    table[35] = 3;
    EXPECT(by_name(0, DOS_STATUS, 0, "D:A"), DOS_BAD_ARGUMENT, 0);
    table[35] = DOS_KIND_CLOSED;
    EXPECT(by_buffer(1, DOS_CLOSE, NULL, 0), DOS_SUCCESS, 0);
    EXPECT(by_name(1, DOS_LOCK, 0, "D:A"), DOS_SUCCESS, 0);
    EXPECT(by_name(1, DOS_STATUS, 0, "D:A"), DOS_FILE_LOCKED, 0);
    EXPECT(by_name(1, DOS_DELETE, 0, "D:A"), DOS_FILE_LOCKED, 0);
    EXPECT(by_name(1, DOS_UNLOCK, 0, "D:A"), DOS_SUCCESS, 0);
    EXPECT(by_name(1, DOS_STATUS, 0, "D:A"), DOS_SUCCESS, 0);
    sector(360)[3] ^= 1;
    EXPECT(by_name(1, DOS_DELETE, 0, "D:A"), DOS_BAD_TABLE, 0);
}

/* With all eight channels open, the one that an open names is open too. */
static void all_open(void)
{
    uint8_t channel;

    fresh();
    make("D:A", 3);
    for (channel = 0; channel < DOS_CHANNELS; channel++)
        EXPECT(by_name(channel, DOS_OPEN, DOS_READ, "D:A"), DOS_SUCCESS, 0);
    remember();
    for (channel = 0; channel < DOS_CHANNELS; channel++) {
        EXPECT(by_name(channel, DOS_OPEN, DOS_READ, "D:A"), DOS_CHANNEL_OPEN, 0);
        EXPECT(by_name(channel, DOS_OPEN, DOS_WRITE, "D:B"), DOS_CHANNEL_OPEN, 0);
        EXPECT(by_name(channel, DOS_OPEN, 5, "D:B"), DOS_CHANNEL_OPEN, 0);
    }
    HOLDS(unchanged());
}

/* A file whose link leads to a sector of another one: its bytes before that are read, and it is not deleted. */
static void damage(void)
{
    uint8_t out[DOS_DOUBLE_SECTOR_BYTES];

    fresh();
    make("D:A", kind->data + 1);
    make("D:B", 1);
    sector(4)[kind->data + 1] = 6;
    remember();
    EXPECT(by_name(0, DOS_DELETE, 0, "D:A"), DOS_BAD_CHAIN, 0);
    EXPECT(by_name(0, DOS_OPEN, DOS_WRITE, "D:A"), DOS_BAD_CHAIN, 0);
    EXPECT(by_name(0, DOS_OPEN, DOS_READ, "D:A"), DOS_SUCCESS, 0);
    EXPECT(by_buffer(0, DOS_GET, out, sizeof out), DOS_BAD_CHAIN, kind->data);
    HOLDS(unchanged() && memcmp(out, buffer, kind->data) == 0);
}

/* A put record of a text, without the 0 that ends it. */
static uint64_t put_line(const char *text)
{
    uint8_t bytes[16];
    size_t length = strlen(text);

    memcpy(bytes, text, length);
    return by_buffer(0, DOS_PUT_RECORD, bytes, length);
}

/* The file A, which channel 0 wrote, is closed and read from its beginning. */
static void read_again(void)
{
    EXPECT(by_buffer(0, DOS_CLOSE, NULL, 0), DOS_SUCCESS, 0);
    EXPECT(by_name(0, DOS_OPEN, DOS_READ, "D:A"), DOS_SUCCESS, 0);
}

/* Lines put and got, one longer than the buffer, and a last one without its end. */
static void records(void)
{
    uint8_t out[4];

    fresh();
    EXPECT(by_name(0, DOS_OPEN, DOS_WRITE, "D:A"), DOS_SUCCESS, 0);
    EXPECT(put_line("one"), DOS_SUCCESS, 3);
    EXPECT(put_line("two\x9Bnot written"), DOS_SUCCESS, 4);
    EXPECT(put_line(""), DOS_SUCCESS, 0);
    EXPECT(put_line("longer"), DOS_SUCCESS, 6);
    EXPECT(put_line("four"), DOS_SUCCESS, 4);
    memcpy(out, "end", 3);
    EXPECT(by_buffer(0, DOS_PUT, out, 3), DOS_SUCCESS, 3);
    HOLDS(memcmp(sector(4), "one\x9Btwo\x9B\x9Blonger\x9B" "four\x9B" "end", 24) == 0 && ends(4, 0, 0, 24));
    EXPECT(by_buffer(0, DOS_GET_RECORD, out, 4), DOS_WRITE_ONLY, 0);

    read_again();
    remember();
    EXPECT(by_buffer(0, DOS_GET_RECORD, NULL, 0), DOS_SUCCESS, 0);
    EXPECT(by_buffer(0, DOS_GET_RECORD, out, 4), DOS_SUCCESS, 4);
    HOLDS(memcmp(out, "one\x9B", 4) == 0);
    EXPECT(by_buffer(0, DOS_GET_RECORD, out, 4), DOS_SUCCESS, 4);
    EXPECT(by_buffer(0, DOS_GET_RECORD, out, 4), DOS_SUCCESS, 1);
    HOLDS(out[0] == DOS_END_OF_LINE && memcmp(out + 1, "wo\x9B", 3) == 0);
    EXPECT(by_buffer(0, DOS_GET_RECORD, out, 4), DOS_TRUNCATED, 4);
    HOLDS(memcmp(out, "long", 4) == 0);
    EXPECT(by_buffer(0, DOS_GET_RECORD, out, 4), DOS_TRUNCATED, 4);
    HOLDS(memcmp(out, "four", 4) == 0 && table[DOS_WORD_OFFSET] == 21);
    EXPECT(by_buffer(0, DOS_GET_RECORD, out, 4), DOS_END_OF_FILE, 3);
    HOLDS(memcmp(out, "endr", 4) == 0);
    EXPECT(by_buffer(0, DOS_GET_RECORD, out, 4), DOS_END_OF_FILE, 0);
    EXPECT(put_line(""), DOS_READ_ONLY, 0);
    HOLDS(unchanged());
}

/* While a line is dropped the file ends, then its chain is damaged. */
static void records_dropped(void)
{
    uint8_t line[3 * DOS_DOUBLE_SECTOR_BYTES];
    uint8_t out[2] = {0, 0};

    memset(line, 'x', sizeof line);
    fresh();
    EXPECT(by_name(0, DOS_OPEN, DOS_WRITE, "D:A"), DOS_SUCCESS, 0);
    EXPECT(by_buffer(0, DOS_PUT, line, 2 * kind->data + 1), DOS_SUCCESS, 2 * kind->data + 1);
    read_again();
    EXPECT(by_buffer(0, DOS_GET_RECORD, out, 2), DOS_TRUNCATED, 2);
    HOLDS(memcmp(out, "xx", 2) == 0 && table[DOS_WORD_SECTOR] == 6 && table[DOS_WORD_OFFSET] == 1);
    EXPECT(by_buffer(0, DOS_GET_RECORD, out, 2), DOS_END_OF_FILE, 0);

    read_again();
    sector(5)[kind->data] = 1;
    sector(5)[kind->data + 1] = 360 - 256;
    memset(out, 0, sizeof out);
    EXPECT(by_buffer(0, DOS_GET_RECORD, out, 2), DOS_BAD_CHAIN, 2);
    HOLDS(memcmp(out, "xx", 2) == 0 && table[DOS_WORD_SECTOR] == 5 && table[DOS_WORD_OFFSET] == kind->data);
}

/* A disk that is full before a put record's own end of line. */
static void records_full(void)
{
    size_t most = 707 * kind->data - 3;

    fresh();
    EXPECT(by_name(0, DOS_OPEN, DOS_WRITE, "D:A"), DOS_SUCCESS, 0);
    EXPECT(by_buffer(0, DOS_PUT, buffer, most), DOS_SUCCESS, most);
    EXPECT(put_line("abc"), DOS_DISK_FULL, 3);
    HOLDS(memcmp(sector(719) + kind->data - 3, "abc", 3) == 0 && ends(719, 0, 0, kind->data));
    EXPECT(put_line(""), DOS_DISK_FULL, 0);
    EXPECT(put_line("\x9B"), DOS_DISK_FULL, 0);
}

/* A loader that stops on 3, and what comes behind it. */
static void loader(void)
{
    uint8_t out[2 * DOS_DOUBLE_SECTOR_BYTES];
    size_t length = kind->data + 3;
    size_t got = 0;
    uint64_t answer;

    fresh();
    make("D:A", length);
    EXPECT(by_name(0, DOS_OPEN, DOS_READ, "D:A"), DOS_SUCCESS, 0);
    do {
        answer = by_buffer(0, DOS_GET, out + got, 1);
        got += dos_answer_count(answer);
    } while (dos_succeeded(answer) && dos_answer_status(answer) != DOS_END_REACHED);
    HOLDS(dos_succeeded(answer) && got == length && memcmp(out, buffer, length) == 0);
    EXPECT(by_buffer(0, DOS_GET, NULL, 0), DOS_SUCCESS, 0);
    EXPECT(by_buffer(0, DOS_GET_RECORD, NULL, 0), DOS_SUCCESS, 0);
    answer = by_buffer(0, DOS_GET, out, 1);
    EXPECT(answer, DOS_END_OF_FILE, 0);
    HOLDS(!dos_succeeded(answer) && !dos_succeeded(by_name(0, DOS_STATUS, 0, "D:A")));
}

/* The file's end as lines tell it: 3 with the last one, but not with 137. */
static void records_end(void)
{
    uint8_t out[3];

    fresh();
    EXPECT(by_name(0, DOS_OPEN, DOS_WRITE, "D:A"), DOS_SUCCESS, 0);
    EXPECT(put_line("ab"), DOS_SUCCESS, 2);
    EXPECT(put_line("cde"), DOS_SUCCESS, 3);
    EXPECT(put_line("f"), DOS_SUCCESS, 1);
    read_again();
    EXPECT(by_buffer(0, DOS_GET_RECORD, out, 3), DOS_SUCCESS, 3);
    EXPECT(by_buffer(0, DOS_GET_RECORD, out, 3), DOS_TRUNCATED, 3);
    EXPECT(by_buffer(0, DOS_GET_RECORD, out, 3), DOS_END_REACHED, 2);
    HOLDS(memcmp(out, "f\x9B" "e", 3) == 0);
    EXPECT(by_buffer(0, DOS_GET_RECORD, out, 3), DOS_END_OF_FILE, 0);
    read_again();
    EXPECT(by_buffer(0, DOS_GET, out, 3), DOS_SUCCESS, 3);
    EXPECT(by_buffer(0, DOS_GET_RECORD, out, 3), DOS_TRUNCATED, 3);
    EXPECT(by_buffer(0, DOS_GET_RECORD, out, 1), DOS_TRUNCATED, 1);
    EXPECT(by_buffer(0, DOS_GET_RECORD, out, 1), DOS_END_OF_FILE, 0);
}

/* The file's end goes by the link of the sector that a get ends at, whatever is left to enter. */
static void end_by_link(void)
{
    uint16_t reader[DOS_CHANNEL_WORDS] = {DOS_KIND_READING, 0, 0, 0, 9};
    uint16_t short_of_one[DOS_CHANNEL_WORDS] = {DOS_KIND_READING, 0, 0, 0, 1};
    uint8_t out[DOS_DOUBLE_SECTOR_BYTES];
    size_t length = kind->length;

    fresh();
    make("D:A", kind->data + 3);
    EXPECT(dos_thin_get(image, length, short_of_one, 5, out, kind->data), DOS_SUCCESS, kind->data);
    EXPECT(dos_thin_get(image, length, short_of_one, 5, out, 1), DOS_BAD_CHAIN, 0);
    EXPECT(dos_thin_get(image, length, reader, 5, out, kind->data), DOS_SUCCESS, kind->data);
    EXPECT(dos_thin_get(image, length, reader, 5, out, 3), DOS_END_REACHED, 3);
    HOLDS(reader[DOS_WORD_SECTOR] == 5 && reader[DOS_WORD_OFFSET] == 3 && reader[DOS_WORD_LEFT] == 7);
    EXPECT(dos_thin_get(image, length, reader, 5, out, 1), DOS_END_OF_FILE, 0);
    EXPECT(dos_thin_get(image, length, reader, 5, NULL, 0), DOS_SUCCESS, 0);

    sector(5)[kind->data + 2] = 0;
    EXPECT(by_name(0, DOS_OPEN, DOS_READ, "D:A"), DOS_SUCCESS, 0);
    EXPECT(by_buffer(0, DOS_GET, out, kind->data), DOS_SUCCESS, kind->data);
    EXPECT(by_buffer(0, DOS_GET, out, 1), DOS_END_OF_FILE, 0);
}

/* A sector call to the device that answers, with a buffer of that length. */
static uint64_t on_sector(uint8_t command, uint16_t number, uint8_t *block, size_t length)
{
    return dos_sector(image, kind->length, notch, DOS_SECTOR_DEVICE, DOS_SECTOR_UNIT, command, number, block, length);
}

/* Sector calls and showing. */
static void sectors(void)
{
    uint8_t block[DOS_DOUBLE_SECTOR_BYTES];
    size_t size = kind->size;
    uint64_t shown;

    fresh();
    make("D:A", kind->data + 1);
    EXPECT(on_sector(DOS_SECTOR_READ, 4, block, size), DOS_SUCCESS, size);
    HOLDS(memcmp(block, sector(4), size) == 0);
    EXPECT(on_sector(DOS_SECTOR_WRITE, 720, block, size), DOS_SUCCESS, size);
    HOLDS(memcmp(block, sector(720), size) == 0 && sector(720) + size == image + kind->length);
    EXPECT(on_sector(DOS_SECTOR_PUT, 1, block, 128), DOS_SUCCESS, 128);
    HOLDS(memcmp(block, sector(1), 128) == 0 && sector(2)[0] == 0);
    EXPECT(on_sector(DOS_SECTOR_WRITE, 3, block, 128), DOS_SUCCESS, 128);
    HOLDS(memcmp(block, sector(3), 128) == 0 && sector(3) + 128 == sector(4));
    remember();
    EXPECT(dos_sector(image, 0, 0, DOS_SECTOR_DEVICE, DOS_SECTOR_UNIT, DOS_SECTOR_READ, 4, block, size), DOS_BAD_IMAGE, 0);
    EXPECT(dos_sector(image, kind->length, 0, 0x32, DOS_SECTOR_UNIT, DOS_SECTOR_READ, 4, block, size), DOS_NO_DEVICE, 0);
    EXPECT(dos_sector(image, kind->length, 0, DOS_SECTOR_DEVICE, 2, DOS_SECTOR_READ, 4, block, size), DOS_NO_DEVICE, 0);
    EXPECT(on_sector(0x53, 4, block, size), DOS_BAD_REQUEST, 0);
    EXPECT(on_sector(DOS_SECTOR_READ, 0, block, size), DOS_BAD_REQUEST, 0);
    EXPECT(on_sector(DOS_SECTOR_WRITE, 721, block, size), DOS_BAD_REQUEST, 0);
    EXPECT(on_sector(DOS_SECTOR_WRITE, 4, block, size - 1), DOS_BAD_LENGTH, 0);
    EXPECT(on_sector(DOS_SECTOR_WRITE, 4, block, 128 + 256 - size), DOS_BAD_LENGTH, 0);
    EXPECT(on_sector(DOS_SECTOR_WRITE, 3, block, 256), DOS_BAD_LENGTH, 0);
    HOLDS(unchanged());

    shown = dos_show(image, kind->length, 0, 5);
    HOLDS(dos_shown(shown) && image + dos_shown_offset(shown) == sector(5) && dos_shown_length(shown) == 1);
    shown = dos_show(image, kind->length, 0, 4);
    HOLDS(dos_shown(shown) && image + dos_shown_offset(shown) == sector(4) && dos_shown_length(shown) == kind->data);
    shown = dos_show(image, kind->length, 0, 719);
    HOLDS(dos_shown(shown) && image + dos_shown_offset(shown) == sector(719) && dos_shown_length(shown) == 0);
    HOLDS(dos_show(image, kind->length, 1, 5) == 0 && dos_show(image, kind->length, 64, 5) == 0);
    HOLDS(dos_show(image, kind->length, 0, 360) == 0 && dos_show(image, kind->length - 1, 0, 5) == 0);
}

/* The thin calls on one channel's five words. */
static void thin(void)
{
    uint16_t reader[DOS_CHANNEL_WORDS] = {DOS_KIND_READING, 0, 0, 0, 3};
    uint16_t writer[DOS_CHANNEL_WORDS];
    uint16_t closed[DOS_CHANNEL_WORDS] = {DOS_KIND_CLOSED, 0, 0, 0, 0};
    uint8_t out[3 * DOS_DOUBLE_SECTOR_BYTES];
    size_t length = 2 * kind->data + 50;

    fresh();
    EXPECT(by_name(0, DOS_OPEN, DOS_WRITE, "D:A"), DOS_SUCCESS, 0);
    memcpy(writer, table, sizeof writer);
    EXPECT(dos_thin_put(image, kind->length, 0, writer, 5, buffer, length), DOS_SUCCESS, length);
    HOLDS(writer[DOS_WORD_KIND] == DOS_KIND_WRITING && writer[DOS_WORD_SECTOR] == 6);
    EXPECT(dos_thin_get(image, kind->length, reader, 5, out, 10), DOS_SUCCESS, 10);
    EXPECT(dos_thin_get(image, kind->length, reader, 5, out + 10, length - 10), DOS_END_REACHED, length - 10);
    HOLDS(memcmp(out, buffer, length) == 0);
    HOLDS(reader[DOS_WORD_SECTOR] == 6 && reader[DOS_WORD_OFFSET] == 50 && reader[DOS_WORD_LEFT] == 0);
    EXPECT(dos_thin_get(image, kind->length, reader, 5, out, 1), DOS_END_OF_FILE, 0);
    EXPECT(dos_thin_get(image, kind->length, writer, 5, out, 1), DOS_WRITE_ONLY, 0);
    EXPECT(dos_thin_put(image, kind->length, 0, reader, 5, buffer, 1), DOS_READ_ONLY, 0);
    EXPECT(dos_thin_get(image, kind->length, closed, 5, out, 1), DOS_CHANNEL_CLOSED, 0);
    EXPECT(dos_thin_put(image, kind->length, 0, closed, 5, buffer, 1), DOS_CHANNEL_CLOSED, 0);
    EXPECT(dos_thin_get(image, kind->length - 1, reader, 5, out, 1), DOS_BAD_IMAGE, 0);
    EXPECT(dos_thin_put(image, kind->length - 1, 0, writer, 5, buffer, 1), DOS_BAD_IMAGE, 0);
    EXPECT(dos_thin_get(image, kind->length, reader, 4, out, 1), DOS_BAD_ARGUMENT, 0);
    EXPECT(dos_thin_put(image, kind->length, 0, writer, 6, buffer, 1), DOS_BAD_ARGUMENT, 0);
    closed[DOS_WORD_KIND] = 3;
    EXPECT(dos_thin_get(image, kind->length, closed, 5, out, 1), DOS_BAD_ARGUMENT, 0);
}

/* NULL with length 0, in every place that takes a pointer. */
static void nothing_lent(void)
{
    uint16_t channel[DOS_CHANNEL_WORDS] = {DOS_KIND_READING, 0, 0, 0, 1};

    fresh();
    make("D:A", 1);
    EXPECT(by_name(1, DOS_OPEN, DOS_READ, "D:A"), DOS_SUCCESS, 0);
    EXPECT(by_buffer(1, DOS_GET, NULL, 0), DOS_SUCCESS, 0);
    EXPECT(by_name(2, DOS_OPEN, DOS_WRITE, "D:B"), DOS_SUCCESS, 0);
    EXPECT(by_buffer(2, DOS_PUT, NULL, 0), DOS_SUCCESS, 0);
    EXPECT(by_buffer(1, DOS_GET_RECORD, NULL, 0), DOS_SUCCESS, 0);
    EXPECT(by_buffer(2, DOS_PUT_RECORD, NULL, 0), DOS_SUCCESS, 0);
    EXPECT(by_buffer(0, DOS_STATUS, NULL, 0), DOS_BAD_DEVICE, 0);
    EXPECT(by_buffer(0, DOS_RENAME, NULL, 0), DOS_BAD_DEVICE, 0);
    EXPECT(by_buffer(0, DOS_FORMAT, NULL, 0), DOS_BAD_DEVICE, 0);
    EXPECT(dos_cio(image, kind->length, NULL, 0, 0, 0, DOS_GET, 0, NULL, 0, NULL, 0), DOS_BAD_ARGUMENT, 0);
    EXPECT(dos_cio(NULL, 0, table, DOS_TABLE_WORDS, 0, 0, DOS_GET, 0, NULL, 0, NULL, 0), DOS_BAD_IMAGE, 0);
    EXPECT(dos_recover(NULL, 0, 0, 0), DOS_BAD_IMAGE, 0);
    EXPECT(dos_sector(NULL, 0, 0, DOS_SECTOR_DEVICE, 1, DOS_SECTOR_READ, 1, NULL, 0), DOS_BAD_IMAGE, 0);
    EXPECT(dos_sector(image, kind->length, 0, DOS_SECTOR_DEVICE, 1, DOS_SECTOR_READ, 1, NULL, 0), DOS_BAD_LENGTH, 0);
    HOLDS(dos_show(NULL, 0, 0, 4) == 0);
    EXPECT(dos_thin_get(image, kind->length, channel, 5, NULL, 0), DOS_SUCCESS, 0);
    EXPECT(dos_thin_get(NULL, 0, channel, 5, NULL, 0), DOS_BAD_IMAGE, 0);
    EXPECT(dos_thin_get(image, kind->length, NULL, 0, NULL, 0), DOS_BAD_ARGUMENT, 0);
    EXPECT(dos_thin_put(image, kind->length, 0, table + 10, 5, NULL, 0), DOS_SUCCESS, 0);
    EXPECT(dos_thin_put(NULL, 0, 0, NULL, 0, NULL, 0), DOS_BAD_ARGUMENT, 0);
    EXPECT(dos_name(NULL, 0, buffer, DOS_NAME_BYTES), DOS_BAD_DEVICE, 0);
    EXPECT(dos_name(NULL, 0, NULL, 0), DOS_BAD_ARGUMENT, 0);
    EXPECT(dos_header(NULL, 0, 0), DOS_BAD_IMAGE, 0);
}

/* The header of an ATR file: what is written, what has to agree, and where 205 stands. */
static void headers(void)
{
    static const uint8_t single_header[7] = {0x96, 0x02, 0x80, 0x16, 0x80, 0x00, 0x00};
    static const uint8_t double_header[7] = {0x96, 0x02, 0xE8, 0x2C, 0x00, 0x01, 0x00};
    uint16_t closed[DOS_CHANNEL_WORDS] = {DOS_KIND_CLOSED, 0, 0, 0, 0};
    size_t i;

    memset(image, 0xA5, sizeof image);
    remember();
    if (!kind->header) {
        EXPECT(dos_header(image, kind->length, 0), DOS_BAD_IMAGE, 0);
        HOLDS(unchanged());
        return;
    }
    EXPECT(dos_header(image, kind->length - 1, 0), DOS_BAD_IMAGE, 0);
    EXPECT(dos_header(image, kind->length + 1, 0), DOS_BAD_IMAGE, 0);
    HOLDS(unchanged());
    EXPECT(dos_header(image, kind->length, 0), DOS_SUCCESS, 0);
    HOLDS(memcmp(image, kind->size == DOS_SECTOR_BYTES ? single_header : double_header, 7) == 0);
    for (i = 7; i < DOS_HEADER_BYTES; i++)
        HOLDS(image[i] == 0);
    HOLDS(memcmp(image + DOS_HEADER_BYTES, before + DOS_HEADER_BYTES, sizeof image - DOS_HEADER_BYTES) == 0);

    fresh();
    make("D:A", 1);
    for (i = 0; i < 7; i++) {
        image[i] ^= 1;
        remember();
        EXPECT(by_name(8, DOS_STATUS, 0, "D:A"), DOS_BAD_HEADER, 0);
        EXPECT(dos_cio(image, kind->length - 1, table, 40, 0, 8, 0, 0, NULL, 0, NULL, 0), DOS_BAD_IMAGE, 0);
        EXPECT(dos_cio(image, kind->length, table, 39, 0, 8, 0, 0, NULL, 0, NULL, 0), DOS_BAD_ARGUMENT, 0);
        EXPECT(recover(64), DOS_BAD_HEADER, 0);
        EXPECT(dos_sector(image, kind->length, 0, 0, 0, 0, 0, NULL, 0), DOS_BAD_HEADER, 0);
        EXPECT(dos_thin_get(image, kind->length, closed, 5, NULL, 0), DOS_BAD_HEADER, 0);
        EXPECT(dos_thin_put(image, kind->length, 0, closed, 5, NULL, 0), DOS_BAD_HEADER, 0);
        HOLDS(dos_show(image, kind->length, 0, 4) == 0);
        HOLDS(unchanged());
        image[i] ^= 1;
    }
    memset(image + 7, 0xA5, DOS_HEADER_BYTES - 7);
    EXPECT(by_name(0, DOS_STATUS, 0, "D:A"), DOS_SUCCESS, 0);
    remember();
    EXPECT(by_name(0, DOS_FORMAT, 0, "D:"), DOS_SUCCESS, 0);
    HOLDS(memcmp(image, before, DOS_HEADER_BYTES) == 0);
}

/* The file A in slot 0, which channel 1 reads; a deleted file in slot 1; the file C in slot 2, which channel 2 writes. */
static void busy_disk(void)
{
    fresh();
    make("D:A", 3);
    make("D:B", kind->data + 1);
    EXPECT(by_name(1, DOS_OPEN, DOS_READ, "D:A"), DOS_SUCCESS, 0);
    EXPECT(by_name(2, DOS_OPEN, DOS_WRITE, "D:C"), DOS_SUCCESS, 0);
    EXPECT(by_name(0, DOS_DELETE, 0, "D:B"), DOS_SUCCESS, 0);
}

/* With the notch closed every call that could change the image answers 144 and changes nothing; with it open they are served. */
static void notch_refuses(void)
{
    static const uint8_t closed_notches[] = {DOS_NOTCH_CLOSED, 2, 255};
    uint16_t words[DOS_TABLE_WORDS];
    uint16_t writer[DOS_CHANNEL_WORDS];
    uint8_t block[DOS_DOUBLE_SECTOR_BYTES];
    size_t size = kind->size;
    size_t i;

    busy_disk();
    remember();
    memcpy(words, table, sizeof words);
    memcpy(writer, table + 10, sizeof writer);
    memcpy(block, buffer, sizeof block);
    for (i = 0; i < sizeof closed_notches; i++) {
        notch = closed_notches[i];
        EXPECT(by_name(0, DOS_OPEN, DOS_WRITE, "D:A"), DOS_WRITE_PROTECTED, 0);
        EXPECT(by_name(0, DOS_OPEN, DOS_WRITE, "D:D"), DOS_WRITE_PROTECTED, 0);
        EXPECT(by_buffer(2, DOS_PUT, block, size), DOS_WRITE_PROTECTED, 0);
        EXPECT(by_buffer(2, DOS_PUT, NULL, 0), DOS_WRITE_PROTECTED, 0);
        EXPECT(by_buffer(2, DOS_PUT_RECORD, block, size), DOS_WRITE_PROTECTED, 0);
        EXPECT(by_buffer(2, DOS_PUT_RECORD, NULL, 0), DOS_WRITE_PROTECTED, 0);
        EXPECT(by_buffer(2, DOS_CLOSE, NULL, 0), DOS_WRITE_PROTECTED, 0);
        EXPECT(by_name(0, DOS_RENAME, 0, "D:A,D"), DOS_WRITE_PROTECTED, 0);
        EXPECT(by_name(0, DOS_DELETE, 0, "D:A"), DOS_WRITE_PROTECTED, 0);
        EXPECT(by_name(0, DOS_LOCK, 0, "D:A"), DOS_WRITE_PROTECTED, 0);
        EXPECT(by_name(0, DOS_UNLOCK, 0, "D:A"), DOS_WRITE_PROTECTED, 0);
        EXPECT(by_name(0, DOS_FORMAT, 0, "D:"), DOS_WRITE_PROTECTED, 0);
        EXPECT(recover(1), DOS_WRITE_PROTECTED, 0);
        EXPECT(on_sector(DOS_SECTOR_PUT, 4, block, size), DOS_WRITE_PROTECTED, 0);
        EXPECT(on_sector(DOS_SECTOR_WRITE, 4, block, size), DOS_WRITE_PROTECTED, 0);
        EXPECT(dos_thin_put(image, kind->length, notch, writer, 5, block, size), DOS_WRITE_PROTECTED, 0);
        EXPECT(dos_thin_put(image, kind->length, notch, writer, 5, NULL, 0), DOS_WRITE_PROTECTED, 0);
        if (kind->header)
            EXPECT(dos_header(image, kind->length, notch), DOS_WRITE_PROTECTED, 0);
    }
    notch = DOS_NOTCH_OPEN;
    HOLDS(unchanged() && memcmp(words, table, sizeof words) == 0);
    HOLDS(memcmp(writer, table + 10, sizeof writer) == 0 && memcmp(block, buffer, sizeof block) == 0);

    EXPECT(dos_thin_put(image, kind->length, 0, writer, 5, block, size), DOS_SUCCESS, size);
    EXPECT(by_buffer(2, DOS_CLOSE, NULL, 0), DOS_SUCCESS, 0);
    EXPECT(by_buffer(1, DOS_CLOSE, NULL, 0), DOS_SUCCESS, 0);
    EXPECT(by_name(0, DOS_LOCK, 0, "D:A"), DOS_SUCCESS, 0);
    EXPECT(by_name(0, DOS_UNLOCK, 0, "D:A"), DOS_SUCCESS, 0);
    EXPECT(by_name(0, DOS_RENAME, 0, "D:A,D"), DOS_SUCCESS, 0);
    EXPECT(by_name(0, DOS_DELETE, 0, "D:D"), DOS_SUCCESS, 0);
    EXPECT(recover(0), DOS_SUCCESS, 1);
    EXPECT(on_sector(DOS_SECTOR_PUT, 4, block, size), DOS_SUCCESS, size);
    EXPECT(on_sector(DOS_SECTOR_WRITE, 4, block, size), DOS_SUCCESS, size);
    if (kind->header)
        EXPECT(dos_header(image, kind->length, 0), DOS_SUCCESS, 0);
    EXPECT(by_name(0, DOS_FORMAT, 0, "D:"), DOS_SUCCESS, 0);
}

/* What only reads is served with the notch closed. */
static void notch_reads(void)
{
    uint16_t reader[DOS_CHANNEL_WORDS] = {DOS_KIND_READING, 0, 0, 0, 1};
    uint8_t out[DOS_DOUBLE_SECTOR_BYTES];

    busy_disk();
    remember();
    notch = DOS_NOTCH_CLOSED;
    EXPECT(by_buffer(1, DOS_GET, out, 3), DOS_END_REACHED, 3);
    EXPECT(by_buffer(1, DOS_GET_RECORD, out, 3), DOS_END_OF_FILE, 0);
    EXPECT(by_buffer(1, DOS_CLOSE, NULL, 0), DOS_SUCCESS, 0);
    EXPECT(by_buffer(1, DOS_CLOSE, NULL, 0), DOS_SUCCESS, 0);
    EXPECT(by_name(1, DOS_OPEN, DOS_READ, "D:A"), DOS_SUCCESS, 0);
    EXPECT(by_name(0, DOS_STATUS, 0, "D:A"), DOS_SUCCESS, 0);
    EXPECT(by_name(0, DOS_STATUS, 0, "E:A"), DOS_BAD_DEVICE, 0);
    EXPECT(on_sector(DOS_SECTOR_READ, 4, out, kind->size), DOS_SUCCESS, kind->size);
    EXPECT(on_sector(DOS_SECTOR_READ, 4, out, kind->size - 1), DOS_BAD_LENGTH, 0);
    EXPECT(dos_thin_get(image, kind->length, reader, 5, out, 3), DOS_END_REACHED, 3);
    notch = DOS_NOTCH_OPEN;
    HOLDS(unchanged() && memcmp(out, buffer, 3) == 0);
}

/* A writing channel stays open where its close answers 144, also one whose slot is not open for output. */
static void notch_close(void)
{
    uint16_t words[DOS_TABLE_WORDS];

    busy_disk();
    remember();
    table[10 + DOS_WORD_OFFSET] = 7;
    memcpy(words, table, sizeof words);
    EXPECT(dos_cio(image, kind->length, table, 40, 1, 2, DOS_CLOSE, 0, NULL, 0, NULL, 0), DOS_WRITE_PROTECTED, 0);
    EXPECT(dos_cio(image, kind->length, table, 40, 255, 2, DOS_CLOSE, 0, NULL, 0, NULL, 0), DOS_WRITE_PROTECTED, 0);
    HOLDS(unchanged() && memcmp(words, table, sizeof words) == 0);
    EXPECT(dos_cio(image, kind->length, table, 40, 0, 2, DOS_CLOSE, 0, NULL, 0, NULL, 0), DOS_SUCCESS, 0);
    HOLDS(table[10] == DOS_KIND_CLOSED && !unchanged());

    table[10] = DOS_KIND_WRITING;
    remember();
    memcpy(words, table, sizeof words);
    EXPECT(dos_cio(image, kind->length, table, 40, 1, 2, DOS_CLOSE, 0, NULL, 0, NULL, 0), DOS_WRITE_PROTECTED, 0);
    HOLDS(memcmp(words, table, sizeof words) == 0);
    EXPECT(dos_cio(image, kind->length, table, 40, 0, 2, DOS_CLOSE, 0, NULL, 0, NULL, 0), DOS_BAD_CHAIN, 0);
    HOLDS(table[10] == DOS_KIND_CLOSED && unchanged());
}

/* What is refused before 144. */
static void before_notch(void)
{
    uint16_t writer[DOS_CHANNEL_WORDS];
    uint16_t closed[DOS_CHANNEL_WORDS] = {DOS_KIND_CLOSED, 0, 0, 0, 0};
    uint8_t block[DOS_DOUBLE_SECTOR_BYTES];
    size_t length = kind->length;

    busy_disk();
    memcpy(writer, table + 10, sizeof writer);
    memset(block, 0, sizeof block);
    remember();
    notch = 255;
    EXPECT(dos_cio(image, length - 1, table, 39, notch, 0, DOS_DELETE, 0, NULL, 0, NULL, 0), DOS_BAD_ARGUMENT, 0);
    EXPECT(dos_thin_put(image, length - 1, notch, writer, 6, NULL, 0), DOS_BAD_ARGUMENT, 0);
    EXPECT(dos_cio(image, length - 1, table, 40, notch, 0, DOS_DELETE, 0, NULL, 0, NULL, 0), DOS_BAD_IMAGE, 0);
    EXPECT(dos_recover(image, length - 1, notch, 1), DOS_BAD_IMAGE, 0);
    EXPECT(dos_sector(image, length - 1, notch, 0x31, 1, DOS_SECTOR_PUT, 4, block, kind->size), DOS_BAD_IMAGE, 0);
    EXPECT(dos_thin_put(image, length - 1, notch, writer, 5, NULL, 0), DOS_BAD_IMAGE, 0);
    EXPECT(dos_header(image, length - 1, notch), DOS_BAD_IMAGE, 0);
    EXPECT(dos_header(image, DOS_IMAGE_BYTES, notch), DOS_BAD_IMAGE, 0);
    EXPECT(by_name(8, DOS_DELETE, 0, "D:A"), DOS_BAD_CHANNEL, 0);
    EXPECT(by_name(0, 2, 0, "D:A"), DOS_BAD_COMMAND, 0);
    EXPECT(by_buffer(2, 10, block, 1), DOS_NOT_SERVED, 0);
    EXPECT(by_name(1, DOS_OPEN, DOS_WRITE, "D:D"), DOS_CHANNEL_OPEN, 0);
    EXPECT(by_name(1, DOS_DELETE, 0, "D:A"), DOS_CHANNEL_OPEN, 0);
    EXPECT(by_name(2, DOS_FORMAT, 0, "D:"), DOS_CHANNEL_OPEN, 0);
    EXPECT(by_buffer(0, DOS_PUT, block, 1), DOS_CHANNEL_CLOSED, 0);
    EXPECT(by_buffer(0, DOS_PUT, NULL, 0), DOS_CHANNEL_CLOSED, 0);
    EXPECT(by_buffer(1, DOS_PUT, block, 1), DOS_READ_ONLY, 0);
    EXPECT(by_buffer(1, DOS_PUT, NULL, 0), DOS_READ_ONLY, 0);
    EXPECT(by_buffer(0, DOS_PUT_RECORD, NULL, 0), DOS_CHANNEL_CLOSED, 0);
    EXPECT(by_buffer(1, DOS_PUT_RECORD, NULL, 0), DOS_READ_ONLY, 0);
    EXPECT(by_buffer(2, DOS_GET, block, 1), DOS_WRITE_ONLY, 0);
    EXPECT(by_name(0, DOS_OPEN, 5, "E:A"), DOS_NOT_SERVED, 0);
    EXPECT(dos_thin_put(image, length, notch, closed, 5, NULL, 0), DOS_CHANNEL_CLOSED, 0);
    EXPECT(dos_thin_put(image, length, notch, table + 5, 5, NULL, 0), DOS_READ_ONLY, 0);
    EXPECT(dos_sector(image, length, notch, 0x32, 1, DOS_SECTOR_PUT, 4, block, kind->size), DOS_NO_DEVICE, 0);
    EXPECT(on_sector(DOS_SECTOR_WRITE, 0, block, kind->size), DOS_BAD_REQUEST, 0);
    EXPECT(on_sector(DOS_SECTOR_PUT, 721, block, kind->size), DOS_BAD_REQUEST, 0);
    EXPECT(on_sector(0x53, 4, block, kind->size), DOS_BAD_REQUEST, 0);
    HOLDS(unchanged());
    if (kind->header) {
        image[0] ^= 1;
        EXPECT(by_name(0, DOS_DELETE, 0, "D:A"), DOS_BAD_HEADER, 0);
        EXPECT(recover(1), DOS_BAD_HEADER, 0);
        EXPECT(on_sector(DOS_SECTOR_PUT, 4, block, kind->size), DOS_BAD_HEADER, 0);
        EXPECT(dos_thin_put(image, length, notch, writer, 5, NULL, 0), DOS_BAD_HEADER, 0);
        EXPECT(dos_header(image, length, notch), DOS_WRITE_PROTECTED, 0);
        image[0] ^= 1;
    }
    notch = DOS_NOTCH_OPEN;
    HOLDS(unchanged());
}

/* What would be refused behind 144: names, the volume table, the slot, the buffer's length. */
static void behind_notch(void)
{
    static const char *const names[] = {"", "E:A", "D2:A", "D:1A", "D:", "D:NONE"};
    uint16_t writer[DOS_CHANNEL_WORDS] = {DOS_KIND_WRITING, 99, 0, 0, 0};
    uint8_t block[DOS_DOUBLE_SECTOR_BYTES + 1];
    size_t i;

    busy_disk();
    memset(block, 0, sizeof block);
    notch = DOS_NOTCH_CLOSED;
    for (i = 0; i < sizeof names / sizeof names[0]; i++) {
        EXPECT(by_name(0, DOS_OPEN, DOS_WRITE, names[i]), DOS_WRITE_PROTECTED, 0);
        EXPECT(by_name(0, DOS_RENAME, 0, names[i]), DOS_WRITE_PROTECTED, 0);
        EXPECT(by_name(0, DOS_DELETE, 0, names[i]), DOS_WRITE_PROTECTED, 0);
        EXPECT(by_name(0, DOS_LOCK, 0, names[i]), DOS_WRITE_PROTECTED, 0);
        EXPECT(by_name(0, DOS_UNLOCK, 0, names[i]), DOS_WRITE_PROTECTED, 0);
        EXPECT(by_name(0, DOS_FORMAT, 0, names[i]), DOS_WRITE_PROTECTED, 0);
    }
    EXPECT(recover(0), DOS_WRITE_PROTECTED, 0);
    EXPECT(recover(64), DOS_WRITE_PROTECTED, 0);
    EXPECT(on_sector(DOS_SECTOR_PUT, 4, block, kind->size - 1), DOS_WRITE_PROTECTED, 0);
    EXPECT(on_sector(DOS_SECTOR_WRITE, 4, block, kind->size + 1), DOS_WRITE_PROTECTED, 0);
    EXPECT(dos_thin_put(image, kind->length, notch, writer, 5, block, 1), DOS_WRITE_PROTECTED, 0);
    sector(360)[3] ^= 1;
    EXPECT(by_buffer(2, DOS_PUT, block, 1), DOS_WRITE_PROTECTED, 0);
    EXPECT(by_buffer(2, DOS_PUT_RECORD, block, 1), DOS_WRITE_PROTECTED, 0);
    EXPECT(by_name(0, DOS_DELETE, 0, "D:A"), DOS_WRITE_PROTECTED, 0);
    EXPECT(recover(1), DOS_WRITE_PROTECTED, 0);
    notch = DOS_NOTCH_OPEN;
    EXPECT(by_name(0, DOS_DELETE, 0, "D:A"), DOS_BAD_TABLE, 0);
}

int main(void)
{
    size_t i;

    for (i = 0; i < sizeof buffer; i++)
        buffer[i] = (uint8_t)(i * 7 + i / 251);
    names();
    for (i = 0; i < sizeof kinds / sizeof kinds[0]; i++) {
        kind = &kinds[i];
        files();
        recovery();
        blanks();
        refusals();
        all_open();
        damage();
        records();
        records_dropped();
        records_full();
        loader();
        records_end();
        end_by_link();
        sectors();
        thin();
        nothing_lent();
        headers();
        notch_refuses();
        notch_reads();
        notch_close();
        before_notch();
        behind_notch();
    }
    puts(failures ? "failed" : "ok");
    return failures != 0;
}
