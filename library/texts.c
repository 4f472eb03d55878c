/*
 * What statuses and the numbers of refused lines mean, for people. texts.inc is written from the Python package's
 * device.json where the library is built: STATUS(number, text) and REFUSAL(number, when, advice) for each.
 */
#include "yuzuratchet.h"

struct refusal {
    uint32_t number;
    const char *when, *advice;
};

#define STATUS(number, text)
#define REFUSAL(number, when, advice) {number, when, advice},
static const struct refusal refusals[] = {
#include "texts.inc"
};
#undef STATUS
#undef REFUSAL

#define STATUS(number, text) [number] = text,
#define REFUSAL(number, when, advice)
static const char *const statuses[] = {
#include "texts.inc"
};

static const struct refusal unknown = {0, "no line is refused with this number", "look into docs/SCRIPT.md"};

static const struct refusal *refusal_of(uint32_t number) {
    for (size_t i = 0; i < sizeof refusals / sizeof *refusals; i++)
        if (refusals[i].number == number) return &refusals[i];
    return &unknown;
}

const char *yuzuratchet_refusal_text(uint32_t refusal) { return refusal_of(refusal)->when; }

const char *yuzuratchet_refusal_advice(uint32_t refusal) { return refusal_of(refusal)->advice; }

const char *yuzuratchet_status_text(uint32_t status) {
    return status < sizeof statuses / sizeof *statuses ? statuses[status] : "no call ends with this status";
}
