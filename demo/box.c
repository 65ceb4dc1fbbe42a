/*
 * A station box that keeps fixes of birds in its unit, and the unit's memory in a file: box FOLDER
 *
 * It makes the memory fresh, writes fixes, starts again from the file, reads the fixes back, trims and prunes, tells its edges,
 * seals, shows each refusal by its name, and keeps a mast record in a second box. It prints an account of all this, and ends
 * with 1 where something is not as it should be.
 */
#define _POSIX_C_SOURCE 200809L
#include <fcntl.h>
#include <inttypes.h>
#include <stdio.h>
#include <stdlib.h>
#include <string.h>
#include <time.h>
#include <unistd.h>

#include "station.h"

/* ---- the box: the memory, and the file that keeps it */

struct box {
    uint8_t mem[STATION_MEMORY];
    const char *folder;
    char file[1024], second[1024];
};

static void stop(const char *why)
{
    fflush(stdout);
    fprintf(stderr, "box: %s\n", why);
    exit(1);
}

/* Has the system write a folder's new names to the disk; O_RDONLY is the one flag that is the same everywhere. */
static int sync_folder(const char *folder)
{
    int fd = open(folder, O_RDONLY);
    int done = fd >= 0 && fsync(fd) == 0;
    if (fd >= 0)
        close(fd);
    return done;
}

/* Makes the memory durable as a whole or not at all: into a second file, and that in the first one's place. A box that
   cannot stops without an answer, and when it starts again it has the memory from before. */
static void keep(const struct box *box)
{
    FILE *f = fopen(box->second, "wb");
    if (!f)
        stop("cannot open the second file");
    int done = fwrite(box->mem, 1, STATION_MEMORY, f) == STATION_MEMORY && fflush(f) == 0 && fsync(fileno(f)) == 0;
    if (fclose(f) != 0 || !done)
        stop("cannot write the second file");
    if (rename(box->second, box->file) != 0 || !sync_folder(box->folder))
        stop("cannot put the second file in its place");
}

/* What a box does when it starts: its memory is what the file has, and nothing else. */
static void restart(struct box *box)
{
    memset(box->mem, 0xAA, STATION_MEMORY); /* nothing of what the memory held before is left */
    FILE *f = fopen(box->file, "rb");
    if (!f)
        stop("cannot open the file");
    size_t got = fread(box->mem, 1, STATION_MEMORY, f);
    int more = fgetc(f) != EOF;
    fclose(f);
    if (got != STATION_MEMORY || more)
        stop("the file has not the size of a unit's memory");
    printf("\nThe box starts again from its file.\n");
}

/* ---- fixes of birds: what a page of the log holds here */

struct fix {
    uint16_t study;
    uint32_t bird;
    int32_t latitude, longitude; /* in millionths of a degree, north and east */
    uint64_t time;               /* seconds since 1970, UTC */
    const char *note;            /* at most FIX_NOTE bytes */
};

enum { FIX_BYTES = 22, FIX_NOTE = STATION_SMALL_PAGE - FIX_BYTES };

static uint8_t *put(uint8_t *at, uint64_t number, int bytes)
{
    for (int i = 0; i < bytes; i++)
        *at++ = (uint8_t)(number >> (8 * i));
    return at;
}

static uint64_t get(const uint8_t *at, int bytes)
{
    uint64_t number = 0;
    for (int i = 0; i < bytes; i++)
        number |= (uint64_t)at[i] << (8 * i);
    return number;
}

/* The bytes of a fix, little-endian: study (2), bird (4), latitude (4), longitude (4), time (8), note. */
static size_t fix_bytes(const struct fix *fix, uint8_t *page)
{
    uint8_t *at = put(page, fix->study, 2);
    at = put(at, fix->bird, 4);
    at = put(at, (uint32_t)fix->latitude, 4);
    at = put(at, (uint32_t)fix->longitude, 4);
    at = put(at, fix->time, 8);
    size_t note = strlen(fix->note);
    memcpy(at, fix->note, note);
    return FIX_BYTES + note;
}

static void print_degrees(uint32_t bytes, char plus, char minus)
{
    int64_t millionths = bytes < UINT32_C(0x80000000) ? (int64_t)bytes : (int64_t)bytes - INT64_C(0x100000000);
    int64_t size = millionths < 0 ? -millionths : millionths;
    printf("%" PRId64 ".%06" PRId64 " %c", size / 1000000, size % 1000000, millionths < 0 ? minus : plus);
}

/* What a page of data says; a page of no bytes is no fix. */
static void print_fix(const uint8_t *page, uint64_t length)
{
    if (length < FIX_BYTES) {
        printf("a page of %" PRIu64 " bytes, no fix", length);
        return;
    }
    time_t seconds = (time_t)get(page + 14, 8);
    char when[32] = "";
    strftime(when, sizeof when, "%Y-%m-%d %H:%M", gmtime(&seconds));
    printf("study %u, bird %u, ", (unsigned)get(page, 2), (unsigned)get(page + 2, 4));
    print_degrees((uint32_t)get(page + 6, 4), 'N', 'S');
    printf(", ");
    print_degrees((uint32_t)get(page + 10, 4), 'E', 'W');
    printf(", %s%s%.*s", when, length > FIX_BYTES ? ", " : "", (int)(length - FIX_BYTES), (const char *)page + FIX_BYTES);
}

/* ---- the account */

static const char *name_of(uint8_t answer)
{
    switch (answer) {
    case UNIT_ANSWER_FINE: return "fine";
    case UNIT_ANSWER_MEMORY: return "memory";
    case UNIT_ANSWER_POSITION: return "position";
    case UNIT_ANSWER_PAGE: return "page";
    case UNIT_ANSWER_SEALED: return "sealed";
    case UNIT_ANSWER_TRIMMED: return "trimmed";
    case UNIT_ANSWER_WRITTEN: return "written";
    case UNIT_ANSWER_UNWRITTEN: return "unwritten";
    case UNIT_ANSWER_FULL: return "full";
    case UNIT_ANSWER_LAYOUT: return "layout";
    case UNIT_ANSWER_NOBODY: return "nobody";
    default: return "a number that no unit answers";
    }
}

static void tell(const char *what, uint8_t answer)
{
    printf("  %-48s %2u %s\n", what, (unsigned)answer, name_of(answer));
}

/* A change is told only once it is durable: what the box has answered, it still knows after a restart. */
static void changed(const struct box *box, const char *what, uint8_t answer)
{
    if (answer == UNIT_ANSWER_FINE)
        keep(box);
    tell(what, answer);
}

static void write_fix(struct box *box, const char *what, uint32_t epoch, uint64_t position, const struct fix *fix)
{
    uint8_t page[64];
    size_t length = fix_bytes(fix, page);
    changed(box, what, unit_write(box->mem, STATION_MEMORY, epoch, position, UNIT_KIND_DATA, page, length));
}

static void write_text(struct box *box, const char *what, uint32_t epoch, uint64_t position, const char *text)
{
    const uint8_t *data = (const uint8_t *)text;
    changed(box, what, unit_write(box->mem, STATION_MEMORY, epoch, position, UNIT_KIND_DATA, data, strlen(text)));
}

static void write_junk(struct box *box, const char *what, uint32_t epoch, uint64_t position)
{
    static const uint8_t nothing[1] = {0};
    changed(box, what, unit_write(box->mem, STATION_MEMORY, epoch, position, UNIT_KIND_JUNK, nothing, 0));
}

/* Asks for a position. Where the answer is fine, its kind, and its payload as a part of the memory. */
static uint8_t ask(const struct box *box, uint32_t epoch, uint64_t position, uint8_t *kind, const uint8_t **page, uint64_t *length)
{
    char what[64];
    uint64_t start = 99;
    *kind = 99;
    *length = 99;
    uint8_t answer = unit_read(box->mem, STATION_MEMORY, epoch, position, kind, &start, length);
    snprintf(what, sizeof what, "read %" PRIu64 " in epoch %" PRIu32, position, epoch);
    tell(what, answer);
    if (answer != UNIT_ANSWER_FINE && (*kind != 99 || start != 99 || *length != 99))
        stop("a refused read changed its outputs");
    *page = answer == UNIT_ANSWER_FINE ? box->mem + start : box->mem;
    return answer;
}

/* A filler is shown as junk: it has no bytes, and what is not there is never shown as zeros. */
static void show(uint8_t kind, const uint8_t *page, uint64_t length)
{
    printf("      ");
    if (kind == UNIT_KIND_JUNK)
        printf("junk: a filler, no fix");
    else
        print_fix(page, length);
    printf("\n");
}

/* Reads a position where nothing can be read: the answer tells why. */
static void read_none(const struct box *box, uint32_t epoch, uint64_t position)
{
    uint8_t kind;
    const uint8_t *page;
    uint64_t length;
    if (ask(box, epoch, position, &kind, &page, &length) == UNIT_ANSWER_FINE)
        stop("there is a page where none was expected");
}

/* Reads a position, and holds the page to the kind and the bytes that are expected there. */
static void read_page(const struct box *box, uint32_t epoch, uint64_t position, uint8_t kind_there, const uint8_t *bytes, size_t count)
{
    uint8_t kind;
    const uint8_t *page;
    uint64_t length;
    if (ask(box, epoch, position, &kind, &page, &length) != UNIT_ANSWER_FINE)
        stop("the page is not there");
    if (kind != kind_there || length != count || memcmp(page, bytes, count) != 0)
        stop("the page is not the one that was written");
    if (kind == UNIT_KIND_DATA && length > STATION_SMALL_PAGE)
        printf("      %.*s\n", (int)length, (const char *)page);
    else
        show(kind, page, length);
}

static void read_fix(const struct box *box, uint32_t epoch, uint64_t position, const struct fix *fix)
{
    uint8_t page[64];
    size_t length = fix_bytes(fix, page);
    read_page(box, epoch, position, UNIT_KIND_DATA, page, length);
}

static void read_empty(const struct box *box, uint32_t epoch, uint64_t position, uint8_t kind)
{
    read_page(box, epoch, position, kind, box->mem, 0);
}

static void seal(struct box *box, uint32_t epoch)
{
    uint64_t edge = 99, written = 99;
    char what[64];
    uint8_t answer = unit_seal(box->mem, STATION_MEMORY, epoch, &edge, &written);
    snprintf(what, sizeof what, "seal epoch %" PRIu32, epoch);
    changed(box, what, answer);
    if (answer != UNIT_ANSWER_FINE && (edge != 99 || written != 99))
        stop("a refused seal changed an edge");
}

/* Asks for the edges: a good memory tells them, sealed or not, and stays as it is. */
static void edges(const struct box *box)
{
    uint64_t edge, written;
    uint8_t answer = unit_edges(box->mem, STATION_MEMORY, &edge, &written);
    tell("ask for the edges", answer);
    if (answer != UNIT_ANSWER_FINE)
        stop("a good memory told no edges");
    printf("      the edge is %" PRIu64 ", the written edge %" PRIu64 "\n", edge, written);
}

/* ---- the parts of the account */

/* A vulture, a stork whose note fills the page, and one whose note is one byte too long. */
static const struct fix vulture = {7, 1204, -18351200, 31472100, 1773470400, ""};
static const struct fix stork = {12, 88, -17925300, 25856700, 1773474000, "nest 14, 3"};
static const struct fix too_long = {12, 88, -17925300, 25856700, 1773474000, "nest 14, 33"};
/* 80 bytes, all that a page of the large shape holds; and one byte more */
static const char mast_record[] = "mast 2, 06:40: wind 7 m/s from NW, gust 11, rain 0.2 mm, 14.5 C, 3.71 V, tag 815";
static const char mast_too_long[] = "mast 2, 06:40: wind 7 m/s from NW, gust 11, rain 0.2 mm, 14.5 C, 3.71 V, tag 0815";

static void pages(struct box *box)
{
    printf("A new box is unit 3. Its memory, %d bytes, is kept in the file unit-3.memory.\n", STATION_MEMORY);
    changed(box, "make the memory of unit 3", unit_fresh(box->mem, STATION_MEMORY, 3, UNIT_SHAPE_SMALL));
    read_none(box, 1, 0);
    write_fix(box, "write 0, a vulture's fix, 22 bytes", 1, 0, &vulture);
    write_fix(box, "write 1, a stork's with a note, 32 bytes", 1, 1, &stork);
    write_text(box, "write 2, data of no bytes", 1, 2, "");
    write_junk(box, "write 3, a filler: junk", 1, 3);
    restart(box);
    read_fix(box, 1, 0, &vulture);
    read_fix(box, 1, 1, &stork);
    printf("  Data of no bytes, junk and an unwritten position are three different things:\n");
    read_empty(box, 1, 2, UNIT_KIND_DATA);
    read_empty(box, 1, 3, UNIT_KIND_JUNK);
    read_none(box, 1, 4);
}

static void trim_and_prune(struct box *box)
{
    printf("\nFixes that nobody needs any more are given up.\n");
    changed(box, "trim 1", unit_trim(box->mem, STATION_MEMORY, 1, 1));
    read_none(box, 1, 1);
    changed(box, "trim 6, where nothing was written", unit_trim(box->mem, STATION_MEMORY, 1, 6));
    write_fix(box, "write 6", 1, 6, &vulture);
    changed(box, "trim 6 once more", unit_trim(box->mem, STATION_MEMORY, 1, 6));
    changed(box, "prune to 2", unit_prune(box->mem, STATION_MEMORY, 1, 2));
    read_none(box, 1, 0);
    read_empty(box, 1, 2, UNIT_KIND_DATA);
    changed(box, "prune to 1, below the floor", unit_prune(box->mem, STATION_MEMORY, 1, 1));
}

/* The box is asked while it works: the epoch goes on. */
static void watching(struct box *box)
{
    printf("\nThe night watch asks for the edges, and stops no writer.\n");
    edges(box);
    write_fix(box, "write 4 in epoch 1", 1, 4, &stork);
    edges(box);
}

static void sealing(struct box *box)
{
    printf("\nThe layout changes, and epoch 1 is over.\n");
    seal(box, 1);
    write_fix(box, "write 7 in epoch 1", 1, 7, &vulture);
    write_fix(box, "write 7 in epoch 2", 2, 7, &vulture);
    seal(box, 1);
    seal(box, 0);
    edges(box);
    restart(box);
    read_none(box, 1, 7);
    read_fix(box, 2, 7, &vulture);
}

/* Memories that are not good: one byte short, and one with a byte that no unit wrote. */
static void bad_memories(const struct box *box)
{
    struct box bad = *box;
    uint64_t edge = 99, written = 99;
    tell("seal 6167 of the bytes", unit_seal(bad.mem, STATION_MEMORY - 1, 2, &edge, &written));
    bad.mem[STATION_MEMORY - 1] = 1;
    tell("the edges with a stray byte in an unused slot", unit_edges(bad.mem, STATION_MEMORY, &edge, &written));
    bad.mem[STATION_MEMORY - 1] = 0;
    if (edge != 99 || written != 99 || memcmp(bad.mem, box->mem, STATION_MEMORY) != 0)
        stop("a bad memory was changed");
}

static void refusals(struct box *box)
{
    struct box before = *box;
    static const uint8_t bytes[4] = {1, 2, 3, 4};
    printf("\nEach refusal by its name; none of them changes a byte.\n");
    bad_memories(box);
    write_fix(box, "write 2^40", 2, STATION_POSITIONS, &vulture);
    tell("prune to 2^40 + 1", unit_prune(box->mem, STATION_MEMORY, 2, STATION_POSITIONS + 1));
    write_fix(box, "write 8, a note too long, 33 bytes", 2, 8, &too_long);
    tell("write 8, junk with 4 bytes", unit_write(box->mem, STATION_MEMORY, 2, 8, UNIT_KIND_JUNK, bytes, 4));
    tell("write 8, of kind 3", unit_write(box->mem, STATION_MEMORY, 2, 8, 3, bytes, 0));
    write_fix(box, "write 8 in epoch 1", 1, 8, &vulture);
    write_fix(box, "write 6, which is trimmed", 2, 6, &vulture);
    write_fix(box, "write 1, below the floor", 2, 1, &vulture);
    write_junk(box, "write 2, which is written", 2, 2);
    read_none(box, 2, 8);
    tell("make the memory of unit 3 in shape 2", unit_fresh(box->mem, STATION_MEMORY, 3, 2));
    tell("make the memory of unit 9", unit_fresh(box->mem, STATION_MEMORY, 9, UNIT_SHAPE_SMALL));
    if (memcmp(box->mem, before.mem, STATION_MEMORY) != 0)
        stop("a refusal changed the memory");
}

static void filling(struct box *box)
{
    uint64_t p = 8;
    printf("\nThe box fills up, with fillers from position 8 on.\n");
    while (unit_write(box->mem, STATION_MEMORY, 2, p, UNIT_KIND_JUNK, (const uint8_t *)"", 0) == UNIT_ANSWER_FINE)
        p++;
    keep(box);
    printf("  the last one written is %" PRIu64 "\n", p - 1);
    write_junk(box, "write the next", 2, p);
    tell("trim the next", unit_trim(box->mem, STATION_MEMORY, 2, p));
    changed(box, "prune to 4", unit_prune(box->mem, STATION_MEMORY, 2, 4));
    write_junk(box, "write the next", 2, p);
    restart(box);
    read_empty(box, 2, p, UNIT_KIND_JUNK);
    edges(box);
}

static void mast(struct box *box)
{
    printf("\nA mast's box is unit 4, of the large shape: a page holds a whole mast record.\n");
    changed(box, "make the memory of unit 4, large", unit_fresh(box->mem, STATION_MEMORY, 4, UNIT_SHAPE_LARGE));
    write_text(box, "write 0, a mast record of 80 bytes", 1, 0, mast_record);
    write_text(box, "write 1, 81 bytes", 1, 1, mast_too_long);
    restart(box);
    read_page(box, 1, 0, UNIT_KIND_DATA, (const uint8_t *)mast_record, strlen(mast_record));
}

/* Where a box keeps its memory. */
static void settle(struct box *box, const char *folder, int unit)
{
    box->folder = folder;
    int a = snprintf(box->file, sizeof box->file, "%s/unit-%d.memory", folder, unit);
    int b = snprintf(box->second, sizeof box->second, "%s/unit-%d.memory.next", folder, unit);
    if (a < 0 || b < 0 || (size_t)b >= sizeof box->second)
        stop("the folder's name is too long");
}

int main(int argc, char **argv)
{
    static struct box box, mast_box;
    if (argc != 2)
        stop("usage: box FOLDER");
    settle(&box, argv[1], 3);
    settle(&mast_box, argv[1], 4);
    pages(&box);
    trim_and_prune(&box);
    watching(&box);
    sealing(&box);
    refusals(&box);
    filling(&box);
    mast(&mast_box);
    return 0;
}
