/* Which objects there are: a list of them, which calls take one after the other. Nothing of it is there otherwise. */
#ifdef YZ_CHECKED
#include "live_objects.h"

#include <stdatomic.h>
#include <stdio.h>
#include <stdlib.h>

static struct object *first;
static atomic_flag busy = ATOMIC_FLAG_INIT;

static void begin(void) {
    while (atomic_flag_test_and_set(&busy)) continue;
}

static void end(void) { atomic_flag_clear(&busy); }

/* Where an object stands in the list, which is never read through an address that isn't there. */
static struct object **place_of(const void *object) {
    struct object **at = &first;
    while (*at != NULL && *at != object) at = &(*at)->next;
    return at;
}

static void must_be(const struct object *found, enum kind kind, const char *call) {
    static const char *const names[] = {"device", "context", "list"};
    if (found != NULL && found->kind == kind) return;
    fprintf(stderr, "yuzuratchet: %s: this is no %s, or it was destroyed\n", call, names[kind]);
    abort();
}

void yz_note(struct object *object, enum kind kind) {
    begin();
    object->kind = kind, object->next = first;
    first = object;
    end();
}

void yz_forget(struct object *object, enum kind kind, const char *call) {
    begin();
    struct object **const at = place_of(object);
    must_be(*at, kind, call);
    *at = (*at)->next;
    end();
}

void yz_want(const void *object, enum kind kind, const char *call) {
    begin();
    must_be(*place_of(object), kind, call);
    end();
}
#else
/* (a file of C has to have something in it) */
enum { NOTHING_IS_CHECKED };
#endif
