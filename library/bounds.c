/*
 * How large answer lines and image can be, by the text of a script. docs/SCRIPT.md has the forms of the answers; the
 * longest of each are spelled here. Numbers beyond these are refused, so that their lines have no answer.
 */
#include "yuzuratchet.h"

enum {
    PIXEL_ANSWER = sizeof "pixel 4095 4095 255 255 255 255 16777215 255\n" - 1,
    QUERY_ANSWER = sizeof "query 63 18446744073709551615\n" - 1,
    REFUSED_ANSWER = sizeof "refused 18446744073709551615 107\n" - 1
};

enum { HEADER = 18, PIXEL = 4, GREATEST_SIDE = 4096 };

/* What is left of a text that is being read. */
struct rest {
    const uint8_t *at, *end;
};

/* Whether a text goes on with these letters, which are then taken. */
static int takes(struct rest *text, const char *letters) {
    const uint8_t *at = text->at;
    for (; *letters != '\0'; at++, letters++)
        if (at == text->end || *at != (uint8_t)*letters) return 0;
    text->at = at;
    return 1;
}

/* Takes a whole number. Where it isn't there, or is more than a side of a target can be, it is 0. */
static uint64_t side_of(struct rest *text) {
    uint64_t number = 0;
    for (; text->at != text->end && *text->at >= '0' && *text->at <= '9'; text->at++)
        if (number <= GREATEST_SIDE) number = 10 * number + (uint64_t)(*text->at - '0');
    return number <= GREATEST_SIDE ? number : 0;
}

uint64_t yuzuratchet_image_bound(const uint8_t *script, size_t script_size) {
    if (script_size == 0) return HEADER;
    struct rest text = {script, script + script_size};
    if (!takes(&text, "target ")) return HEADER;
    const uint64_t width = side_of(&text);
    if (!takes(&text, " ")) return HEADER;
    return HEADER + PIXEL * width * side_of(&text);
}

uint64_t yuzuratchet_lines_bound(const uint8_t *script, size_t script_size) {
    uint64_t bound = REFUSED_ANSWER;
    if (script_size == 0) return bound;
    struct rest text = {script, script + script_size};
    while (text.at != text.end) {
        if (takes(&text, "i pixel "))
            bound += PIXEL_ANSWER;
        else if (takes(&text, "i query "))
            bound += QUERY_ANSWER;
        while (text.at != text.end && *text.at != '\n') text.at++;
        takes(&text, "\n");
    }
    return bound;
}
