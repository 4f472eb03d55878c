/* Prints the text of each status, and text and advice of each refusal, a line for each number. */
#include "check.h"

enum { STATUSES = 12, REFUSALS = 120 };

int main(void) {
    for (uint32_t status = 0; status < STATUSES; status++)
        printf("status %" PRIu32 " %s\n", status, yuzuratchet_status_text(status));
    for (uint32_t number = 0; number < REFUSALS; number++) {
        printf("refusal %" PRIu32 " %s\n", number, yuzuratchet_refusal_text(number));
        printf("advice %" PRIu32 " %s\n", number, yuzuratchet_refusal_advice(number));
    }
    CHECK(yuzuratchet_status_text(UINT32_MAX) != NULL && yuzuratchet_refusal_text(UINT32_MAX) != NULL);
    printf("header %d library %" PRIu32 "\n", YUZURATCHET_VERSION, yuzuratchet_version());
    return 0;
}
