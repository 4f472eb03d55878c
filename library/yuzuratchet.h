/*
 * Yuzuratchet as a library: a script of recorded Direct3D 11 calls goes in, answer lines and a Truevision TGA image
 * come out.
 *
 * A script is the text that docs/SCRIPT.md describes. Its answer lines and its image are the bytes that the program
 * tiledraw prints and writes for it.
 *
 * Memory. The caller owns all four areas that a call names: script, lines, image and report. They lie apart, and stay
 * where they are until the call returns. The script is read and never written. Beyond an area's told size nothing is
 * read or written. What else a call needs it takes from malloc, or from the functions that yuzuratchet_use_memory
 * names, and gives it back before it returns. Where memory is refused, the call says so and never ends the process.
 *
 * Threads. A call starts none and shares nothing with others: calls on different areas may run side by side. It takes
 * less than 64 KB of its thread's stack.
 *
 * An area that doesn't fit is refused by its name, as enum yuzuratchet_status has them, before anything is read or
 * written.
 *
 * Processors. The library wants x86-64-v2 (SSE4.2, POPCNT). On others the loader refuses the shared object in a
 * sentence, where it is glibc's from 2.33 on; a program with the archive in it may end there by an illegal instruction.
 *
 * What stays. A script that one version takes has the same lines and the same image in all later ones. While the name
 * of the shared object ends in .so.0, a program that was built with an earlier version runs with a later one: no call,
 * status or part of the report goes or changes its number or place. A later version may have more calls, and more
 * statuses behind the last: take a status that you don't know as one that wrote nothing.
 */
#ifndef YUZURATCHET_H
#define YUZURATCHET_H

#include <stddef.h>
#include <stdint.h>

/* The version of this header. That of the library with which a program runs is told by yuzuratchet_version. */
#define YUZURATCHET_VERSION_MAJOR 0
#define YUZURATCHET_VERSION_MINOR 4
#define YUZURATCHET_VERSION_PATCH 0
#define YUZURATCHET_VERSION \
    (10000 * YUZURATCHET_VERSION_MAJOR + 100 * YUZURATCHET_VERSION_MINOR + YUZURATCHET_VERSION_PATCH)

#ifdef __cplusplus
extern "C" {
#endif

/* How a call ended. */
enum yuzuratchet_status {
    /* All lines of the script were taken. The answer lines and the image stand in their areas. */
    YUZURATCHET_DONE = 0,
    /* A line of the script was refused or has a fault, or memory was refused while it was taken: the answers of the
     * lines before it and its `refused` line stand in the area for lines. There is no image, and that area is as it
     * was. */
    YUZURATCHET_REFUSED = 1,
    /* The area for lines is too small. The report tells both sizes. Both areas are as they were. */
    YUZURATCHET_LINES_TOO_SMALL = 2,
    /* The area for the image is too small. The report tells both sizes. Both areas are as they were. */
    YUZURATCHET_IMAGE_TOO_SMALL = 3,
    /* Memory for the answer lines or the image was refused. Both areas are as they were. */
    YUZURATCHET_NO_MEMORY = 4,
    /* A pointer is null. This and what follows leaves all areas as they were, the report too. */
    YUZURATCHET_NULL_POINTER = 5,
    /* A size is 0. */
    YUZURATCHET_EMPTY_AREA = 6,
    /* A size is 2^63 or more, or an area runs past the last address. */
    YUZURATCHET_SIZE_TOO_LARGE = 7,
    /* Two areas overlap. */
    YUZURATCHET_OVERLAP = 8,
    /* The address of a report, or of events, is none of such a struct: no multiple of 8. */
    YUZURATCHET_MISALIGNED = 9,
    /* Of yuzuratchet_history alone: the area for events is too small. The report tells how many there are. The area is
     * as it was. */
    YUZURATCHET_EVENTS_TOO_SMALL = 10,
    /* Of yuzuratchet_history alone: the target has no such pixel. The area is as it was. */
    YUZURATCHET_PIXEL_RANGE = 11
};

/* What a call tells: 32 bytes, with no gaps. */
struct yuzuratchet_report {
    /* Bytes of all answer lines. 0 with YUZURATCHET_NO_MEMORY. */
    uint64_t lines_size;
    /* Bytes of the image, 0 where there is none. */
    uint64_t image_size;
    /* With a refused script the refused line, counted from 1, or 0 where memory was refused before the first was read.
     * Else 0. */
    uint64_t refused_line;
    /* With a refused script the number of the refusal, as docs/SCRIPT.md has them. Else 0. */
    uint32_t refusal;
    /* One of enum yuzuratchet_status: the value that the call returned. */
    uint32_t status;
};

/*
 * Draws a script: its answer lines go to the front of `lines`, its image to the front of `image`. The report tells
 * their sizes; what lies behind them in either area is as it was. Returns the status. From YUZURATCHET_NULL_POINTER on
 * nothing was written, the report included.
 */
uint32_t yuzuratchet_draw(const uint8_t *script, size_t script_size, uint8_t *lines, size_t lines_size, uint8_t *image,
                          size_t image_size, struct yuzuratchet_report *report);

/*
 * How many bytes the answer lines and the image of a script have at most: areas of these sizes hold whatever
 * yuzuratchet_draw writes of it. Nothing is drawn. The lines are bounded by the questions of the script, and the image
 * by its first line, whose size it has where the script is drawn. Neither is 0, for no script. Of `script` all
 * `script_size` bytes are read.
 */
uint64_t yuzuratchet_lines_bound(const uint8_t *script, size_t script_size);
uint64_t yuzuratchet_image_bound(const uint8_t *script, size_t script_size);

/*
 * Tells how a script ends and how many bytes its answer lines and its image have, to the byte, and writes the report
 * alone. It draws the script as yuzuratchet_draw does and so takes as long: for areas that are large enough ask for the
 * bounds above. Returns the status: done, refused or no memory, or why an area doesn't fit.
 */
uint32_t yuzuratchet_sizes(const uint8_t *script, size_t script_size, struct yuzuratchet_report *report);

/* What an item of a script, a clear or a triangle, did to a pixel that it touched: 48 bytes, with no gaps. A flag is 1
 * or 0; a clear has no test to fail. Colours are red, green, blue, alpha. */
struct yuzuratchet_event {
    /* Its number among the items of the script in the order in which they run, from 0 on. */
    uint64_t item;
    /* The line of the script that recorded or executed it on the immediate context, counted from 1. */
    uint64_t line;
    /* The number of its command in the list that the line executes, from 0 on, or 0 where the line is the command. */
    uint32_t command;
    /* The number of the triangle in its draw, from 0 on, as the draw assembles them; 0 for a clear. */
    uint32_t triangle;
    uint32_t depth_before, depth_after;
    uint8_t color_before[4], color_after[4];
    uint8_t stencil_before, stencil_after;
    uint8_t stencil_passed, depth_passed;
    /* Whether both tests passed. */
    uint32_t passed;
};

/* What yuzuratchet_history tells: 24 bytes, with no gaps. */
struct yuzuratchet_history_report {
    /* How many events the pixel has; 0 where there is no history. */
    uint64_t count;
    /* As in struct yuzuratchet_report. */
    uint64_t refused_line;
    uint32_t refusal;
    /* One of enum yuzuratchet_status: the value that the call returned. */
    uint32_t status;
};

/*
 * Tells the history of a pixel of a script: of the items that the immediate context draws and clears those that touch
 * the pixel, in their order, each with what it found and left there. They go to the front of `events`, which has room
 * for so many; what lies behind them is as it was. Where a line is refused or has a fault, as yuzuratchet_draw takes
 * the script, there is no history. For the history up to a line give as `script_size` the size of the script up to
 * that line's end, its line feed included, where no query is open. Returns the status: done, refused, events too small,
 * pixel range, or why an area doesn't fit, and then nothing was written, the report included.
 */
uint32_t yuzuratchet_history(const uint8_t *script, size_t script_size, uint32_t x, uint32_t y,
                             struct yuzuratchet_event *events, size_t room, struct yuzuratchet_history_report *report);

/*
 * What a status means, when a line is refused with a number, and what to do about that: texts for people, in English,
 * with no full stop at the end. They stay where they are, and are never null: a number without a meaning has a text
 * that says so.
 */
const char *yuzuratchet_status_text(uint32_t status);
const char *yuzuratchet_refusal_text(uint32_t refusal);
const char *yuzuratchet_refusal_advice(uint32_t refusal);

/* Three functions over one store of memory, which keep to what C says of malloc, realloc and free. */
struct yuzuratchet_memory {
    void *(*take)(size_t size);
    void *(*resize)(void *block, size_t size);
    void (*give)(void *block);
};

/*
 * From now on calls take memory by these functions, or, where `memory` is null, by malloc, realloc and free again. It
 * counts for all threads: call it while no other call of this library runs.
 */
void yuzuratchet_use_memory(const struct yuzuratchet_memory *memory);

/* The version of the library that runs, spelled as YUZURATCHET_VERSION is: 400 is 0.4.0. */
uint32_t yuzuratchet_version(void);

#ifdef __cplusplus
}
#endif

#endif
