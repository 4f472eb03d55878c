/*
 * Plays scripts by calls, and by lines on a device that stays, and holds answers and image against yuzuratchet_draw
 * byte for byte: `by_calls SCRIPT..`. Of a script whose text has a fault nothing is played by calls. Before each line
 * stand calls or lines that no script has, which are refused and leave all as it was. It prints how many are the same,
 * differ, or have a fault.
 */
#include "check.h"
#include "yuzuratchet_device.h"

enum { CONTEXTS = 8, LISTS = 4096, LAST_REFUSAL = 20, LAST_LINE = 80 };

static struct {
    yz_device *device;
    yz_context *contexts[CONTEXTS];
    yz_list *lists[CONTEXTS][LISTS];
    size_t list_count[CONTEXTS];
    uint32_t width, height;
    char *answers;
    size_t answers_size;
} play;

/* The numbers of a line behind its words. */
struct numbers {
    const int64_t *all;
    size_t count;
};

static bool is(const char *word, const char *other) { return strcmp(word, other) == 0; }

/* The room of a line's numbers, which the next line takes again; main frees it. */
static int64_t *held;
static size_t room_held;

static struct numbers numbers_of(char *text) {
    size_t count = 0;
    for (char *end; *text != '\0'; text = end) {
        if (count == room_held) CHECK((held = realloc(held, (room_held = 2 * room_held + 64) * sizeof *held)) != NULL);
        held[count++] = strtoll(text, &end, 10);
        CHECK(end != text);
    }
    return (struct numbers){held, count};
}

/* An answer; their room is that of the script's answers and of one more. */
static void answer(const char *line) {
    memcpy(play.answers + play.answers_size, line, strlen(line));
    play.answers_size += strlen(line);
}

#define OBJECT yz_device
#define CALL(name) yz_device_##name
#define NAMED(name) device_##name
#include "record_line.inc"
#undef OBJECT
#undef CALL
#undef NAMED
#define OBJECT yz_context
#define CALL(name) yz_context_##name
#define NAMED(name) context_##name
#include "record_line.inc"

/* Questions that no script has, whose answers have nowhere to go. */
static void disturb(void) {
    const yz_rect corner = {0, 0, 1, 1};
    uint8_t byte = 99;
    device_disturb(play.device);
    CHECK(yz_device_execute(play.device, NULL, 1) == YZ_NULL_POINTER);
    CHECK(yz_device_get_data(play.device, 0, NULL) == YZ_NULL_POINTER);
    CHECK(yz_device_pixel(play.device, 0, 0, NULL) == YZ_NULL_POINTER);
    CHECK(yz_device_read(play.device, YZ_PLANE_RGBA8, &corner, &byte, 1, 4) == YZ_BAD_AREA && byte == 99);
}

static yz_result query_line(uint32_t query) {
    uint64_t told = 0;
    char line[80];
    const yz_result result = yz_device_get_data(play.device, query, &told);
    snprintf(line, sizeof line, "query %" PRIu32 " %" PRIu64 "\n", query, told);
    if (result == YZ_OK) answer(line);
    return result;
}

static yz_result pixel_line(uint32_t x, uint32_t y) {
    yz_pixel p = {0};
    char line[120];
    const yz_result result = yz_device_pixel(play.device, x, y, &p);
    snprintf(line, sizeof line, "pixel %" PRIu32 " %" PRIu32 " %u %u %u %u %" PRIu32 " %u\n", x, y, p.red, p.green,
             p.blue, p.alpha, p.depth, p.stencil);
    if (result == YZ_OK) answer(line);
    return result;
}

static yz_result immediate_line(const char *word, struct numbers of) {
    const int64_t *const n = of.all;
    disturb();
    if (is(word, "flush")) return yz_device_flush(play.device);
    if (is(word, "exec")) return yz_device_execute(play.device, play.lists[n[0]][n[1]], (int)n[2]);
    if (is(word, "query")) return query_line((uint32_t)n[0]);
    if (is(word, "pixel")) return pixel_line((uint32_t)n[0], (uint32_t)n[1]);
    return device_line(play.device, word, of);
}

static yz_result deferred_line(size_t which, const char *word, struct numbers of) {
    if (play.contexts[which] == NULL) CHECK(yz_context_create(&play.contexts[which]) == YZ_OK);
    context_disturb(play.contexts[which]);
    CHECK(yz_context_finish(play.contexts[which], 1, NULL) == YZ_NULL_POINTER);
    if (!is(word, "finish")) return context_line(play.contexts[which], word, of);
    size_t *const count = &play.list_count[which];
    CHECK(*count < LISTS);
    const yz_result result = yz_context_finish(play.contexts[which], (int)of.all[0], &play.lists[which][*count]);
    *count += result == YZ_OK;
    return result;
}

/* A line of a script: an actor, a word and numbers, where an `exec` names a context; or the target. */
static yz_result play_line(char *text) {
    char actor[8], word[16];
    int read = 0;
    if (sscanf(text, "%7s %15[a-z]%n", actor, word, &read) < 2) {
        const struct numbers sides = numbers_of(text + strlen("target"));
        play.width = (uint32_t)sides.all[0], play.height = (uint32_t)sides.all[1];
        return yz_device_create(&(yz_device_desc)YZ_DEVICE_DESC(play.width, play.height), &play.device);
    }
    if (is(word, "exec")) *strchr(text + read, 'd') = ' ';
    const struct numbers of = numbers_of(text + read);
    return actor[0] == 'i' ? immediate_line(word, of) : deferred_line((size_t)(actor[1] - '0'), word, of);
}

static void end_play(void) {
    yz_device_destroy(play.device);
    for (size_t c = 0; c < CONTEXTS; c++) {
        yz_context_destroy(play.contexts[c]);
        for (size_t l = 0; l < play.list_count[c]; l++) yz_list_destroy(play.lists[c][l]);
    }
    free(play.answers);
    memset(&play, 0, sizeof play);
}

/* What yuzuratchet_draw makes of a script. */
struct drawn {
    uint8_t *lines, *image;
    struct yuzuratchet_report report;
};

static struct drawn drawn_of(const char *script, size_t size) {
    struct drawn drawn;
    const size_t lines_size = yuzuratchet_lines_bound(bytes_of(script), size);
    const size_t image_size = yuzuratchet_image_bound(bytes_of(script), size);
    drawn.lines = taken(lines_size), drawn.image = taken(image_size);
    CHECK(yuzuratchet_draw(bytes_of(script), size, drawn.lines, lines_size, drawn.image, image_size, &drawn.report) <=
          YUZURATCHET_REFUSED);
    return drawn;
}

/* Plays all lines; gives the result of the last, and its number. The end of a script is the line behind its last. */
static yz_result played(char *script, uint64_t *number) {
    *number = 0;
    for (char *line = script, *end; *line != '\0'; line = end + 1) {
        end = strchr(line, '\n');
        *end = '\0';
        ++*number;
        const yz_result result = play_line(line);
        if (result != YZ_OK) return result;
    }
    ++*number;
    return yz_device_flush(play.device);
}

static bool is_same_image(const struct drawn *drawn) {
    const size_t row = 4 * (size_t)play.width, size = row * play.height;
    uint8_t *const bytes = taken(size);
    const yz_rect all = {0, 0, play.width, play.height};
    CHECK(yz_device_read(play.device, YZ_PLANE_BGRA8, &all, bytes, size, row) == YZ_OK);
    const bool same = drawn->report.image_size == 18 + size && memcmp(drawn->image + 18, bytes, size) == 0;
    free(bytes);
    return same;
}

/* Ends a play, and tells whether it ended as what was drawn did: with its answers, and its image or its refused line. */
static bool ends_as_drawn(const struct drawn *drawn, yz_result result, uint64_t number) {
    char last[LAST_LINE];
    bool same = drawn->report.status == (result == YZ_OK ? YUZURATCHET_DONE : YUZURATCHET_REFUSED);
    if (same && result == YZ_OK) same = is_same_image(drawn);
    snprintf(last, sizeof last, "refused %" PRIu64 " %" PRIu32 "\n", number, result);
    if (result != YZ_OK) answer(last);
    same = same && play.answers_size == drawn->report.lines_size;
    same = same && memcmp(play.answers, drawn->lines, play.answers_size) == 0;
    end_play();
    return same;
}

/* Whether a script says by calls what it says to yuzuratchet_draw. */
static bool is_same(char *script, const struct drawn *drawn) {
    uint64_t number;
    play.answers = taken(drawn->report.lines_size + LAST_LINE + 200);
    const yz_result result = played(script, &number);
    return ends_as_drawn(drawn, result, number);
}

/* ---- by lines */

/* Lines that are refused, and calls of nothing. */
static void disturb_lines(void) {
    static const char *const refused[] = {"", "i finish 1\n", "d8 draw 3 0\n", "d0 vb 1 2 3\n", "i exec d0 65535 0\n",
                                          "i draw 1 2 3\n", "target 1 1\n", "d7  draw 3 0\n", "i flush", "d3 end 64\n"};
    static const yz_result why[] = {YZ_OK, YZ_COMMAND, YZ_ACTOR, YZ_ARGUMENT_COUNT, YZ_NO_SUCH_LIST,
                                    YZ_ARGUMENT_COUNT, YZ_ACTOR, YZ_LINE_FORM, YZ_LINE_FORM, YZ_QUERY_NUMBER};
    yz_played played;
    for (size_t i = 0; i < sizeof why / sizeof *why; i++) {
        CHECK(yz_play(play.device, refused[i], strlen(refused[i]), &played) == why[i]);
        CHECK(played.size == 0 && played.lines == 0 && played.answer_size == 0);
    }
}

/* Plays the lines behind the first, one or as many in a call as answer nothing; gives the result of the last. */
static yz_result played_by_lines(const char *lines, bool one_by_one, uint64_t *number) {
    yz_result result = YZ_OK;
    for (*number = 2; result == YZ_OK && *lines != '\0';) {
        yz_played played;
        const size_t end = strcspn(lines, "\n"), size = one_by_one && lines[end] != '\0' ? end + 1 : strlen(lines);
        if (one_by_one) disturb_lines();
        result = yz_play(play.device, lines, size, &played);
        memcpy(play.answers + play.answers_size, played.answer, played.answer_size);
        lines += played.size, *number += played.lines, play.answers_size += played.answer_size;
    }
    return result == YZ_OK ? yz_device_flush(play.device) : result;
}

/* Whether a script says by lines what it says to yuzuratchet_draw. One with a fault says there nothing else. */
static bool is_same_by_lines(const char *script, const struct drawn *drawn, bool one_by_one) {
    uint64_t number;
    if (sscanf(script, "target %" PRIu32 " %" PRIu32, &play.width, &play.height) != 2) return true;
    const yz_device_desc desc = YZ_DEVICE_DESC(play.width, play.height);
    if (drawn->report.refused_line == 1 || yz_device_create(&desc, &play.device) != YZ_OK) return true;
    play.answers = taken(strlen(script) * 16 + 1000);
    const yz_result result = played_by_lines(strchr(script, '\n') + 1, one_by_one, &number);
    if (drawn->report.refusal > LAST_REFUSAL) play.answers_size = 0;
    return ends_as_drawn(drawn, result, number);
}

static char *script_of(const char *name, size_t *size) {
    FILE *const file = fopen(name, "rb");
    CHECK(file != NULL && fseek(file, 0, SEEK_END) == 0);
    *size = (size_t)ftell(file);
    rewind(file);
    char *const script = taken(*size + 1);
    CHECK(fread(script, 1, *size, file) == *size && fclose(file) == 0);
    script[*size] = '\0';
    return script;
}

int main(int count, char **names) {
    int same = 0, other = 0, faults = 0;
    for (int i = 1; i < count; i++) {
        size_t size;
        char *const script = script_of(names[i], &size);
        struct drawn drawn = drawn_of(script, size);
        if (!is_same_by_lines(script, &drawn, true) || !is_same_by_lines(script, &drawn, false)) {
            other++;
            printf("differs by lines: %s\n", names[i]);
        } else if (drawn.report.refusal > LAST_REFUSAL) {
            faults++;
        } else if (is_same(script, &drawn)) {
            same++;
        } else {
            other++;
            printf("differs: %s\n", names[i]);
        }
        free(script), free(drawn.lines), free(drawn.image);
    }
    free(held);
    printf("%d the same, %d differ, %d with a fault\n", same, other, faults);
    return other != 0;
}
