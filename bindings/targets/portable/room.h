/* What the calls of pe_portable.c share: the instance of this thread, and the arguments of a call in its memory. */
#ifndef ROOM_H
#define ROOM_H
#include "module.h"
#include "pe_portable.h"

/* The arguments of a call. */
struct room {
    Z_pe_c_instance_t *instance;
    uint64_t end;               /* of what stands in the memory of the instance */
    uint32_t is_full;           /* 1 where an argument did not fit */
};

/* Room for the arguments of a call. */
struct room room_of_call(void);

/* Puts a copy of these bytes into the memory, aligned to 16 bytes, and returns where it is. */
uint64_t put(struct room *room, const void *from, uint64_t length);

/* The same of bytes that may be lent: those are in the memory already. */
uint64_t put_bytes(struct room *room, const uint8_t *from, uint64_t length);

/* The same of views and modules, with what they lead to. */
uint64_t put_view(struct room *room, const pe_c_view *from);
uint64_t put_modules(struct room *room, const pe_c_module *from, uint64_t count);

/* Copies out what a call wrote, if it was made. */
void take(const struct room *room, void *to, uint64_t at, uint64_t length);

#endif
