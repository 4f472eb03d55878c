/*
 * The objects of C. Where the library is compiled with YZ_CHECKED each call looks whether what it is handed is one, and
 * ends the process by abort() where it isn't; else nothing is looked for.
 */
#ifndef LIVE_OBJECTS_H
#define LIVE_OBJECTS_H

#include "device_calls.h"

enum kind { DEVICE, CONTEXT, LIST };

#ifdef YZ_CHECKED
struct object {
    struct handle handle;
    enum kind kind;
    struct object *next;
};
#define OBJECT_PART struct object object
#define HANDLE(it) (&(it)->object.handle)

/* Notes an object that was made; forgets one that is given back; wants one of a kind, for a call of a name. */
void yz_note(struct object *object, enum kind kind);
void yz_forget(struct object *object, enum kind kind, const char *call);
void yz_want(const void *object, enum kind kind, const char *call);
#define NOTE(it, kind) yz_note(&(it)->object, kind)
#define FORGET(it, kind) yz_forget((struct object *)(void *)(it), kind, __func__)
#define WANT(it, kind) yz_want(it, kind, __func__)
#else
#define OBJECT_PART struct handle handle
#define HANDLE(it) (&(it)->handle)
#define NOTE(it, kind) ((void)0)
#define FORGET(it, kind) ((void)0)
#define WANT(it, kind) ((void)0)
#endif

/* A device has a player of scripts once it was asked to play a line; before, that handle holds nothing. */
struct yz_device {
    OBJECT_PART;
    struct handle player;
};
struct yz_context {
    OBJECT_PART;
};
struct yz_list {
    OBJECT_PART;
};

/* A call with an object: null is its result. */
#define ENTER(it, kind)                              \
    do {                                             \
        if ((it) == NULL) return YZ_NULL_POINTER;    \
        WANT(it, kind);                              \
    } while (0)

#endif
