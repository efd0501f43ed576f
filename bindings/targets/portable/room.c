#include "room.h"

#include <string.h>

_Static_assert(sizeof(size_t) == 8 && sizeof(void *) == 8, "pointers and lengths have 64 bits");
_Static_assert(__BYTE_ORDER__ == __ORDER_LITTLE_ENDIAN__, "records are little-endian, as in the module");

enum { PAGE = 65536, MOST_LENT = 8 };

struct lent {
    const uint8_t *bytes;
    uint64_t length;
    uint64_t at;
};

/* Of a thread: the instance, what is lent, and where its copies end. */
static _Thread_local struct {
    Z_pe_c_instance_t instance;
    struct lent lent[MOST_LENT];
    uint32_t count;
    uint64_t end;
} own;

/* The run-time keeps numbers of function types for all instances, of which the module has none, and nothing else of a process. */
__attribute__((constructor)) static void start(void)
{
    wasm_rt_init();
    Z_pe_c_init_module();
}

static uint64_t aligned(uint64_t at)
{
    return (at + 15) & ~(uint64_t)15;
}

struct room room_of_call(void)
{
    if (!own.end) {
        Z_pe_c_instantiate(&own.instance);
        own.end = aligned(*Z_pe_cZ___heap_base(&own.instance));
    }
    return (struct room){&own.instance, own.end, 0};
}

/* Whether the memory has bytes up to an end, after it grew. */
static int has(Z_pe_c_instance_t *instance, uint64_t end)
{
    wasm_rt_memory_t *memory = Z_pe_cZ_memory(instance);
    if (end <= memory->size)
        return 1;
    uint64_t pages = (end - memory->size + PAGE - 1) / PAGE;
    return pages <= UINT32_MAX && wasm_rt_grow_memory(memory, (uint32_t)pages) != UINT32_MAX;
}

/* A null pointer, which an array of 0 entries may be, stays one. */
uint64_t put(struct room *room, const void *from, uint64_t length)
{
    uint64_t at = room->end;
    if (!from)
        return 0;
    room->is_full |= length > UINT32_MAX || !has(room->instance, aligned(at + length));
    if (room->is_full)
        return 0;
    if (length)
        memcpy(Z_pe_cZ_memory(room->instance)->data + at, from, length);
    room->end = aligned(at + length);
    return at;
}

uint64_t put_bytes(struct room *room, const uint8_t *from, uint64_t length)
{
    for (uint32_t i = 0; i < own.count; i++) {
        const struct lent *it = &own.lent[i];
        uint64_t offset = (uint64_t)((uintptr_t)from - (uintptr_t)it->bytes);
        if (offset <= it->length && length <= it->length - offset)
            return it->at + offset;
    }
    return put(room, from, length);
}

uint64_t put_view(struct room *room, const pe_c_view *from)
{
    const uint64_t words[] = {
        put_bytes(room, from->bytes, from->length), from->length, put(room, from->image, sizeof *from->image),
        put(room, from->sections, from->count * sizeof *from->sections), from->count,
        put(room, from->index, from->entries * sizeof *from->index), from->entries,
    };
    _Static_assert(sizeof words == sizeof *from, "a view has these seven fields");
    return put(room, words, sizeof words);
}

uint64_t put_modules(struct room *room, const pe_c_module *from, uint64_t count)
{
    uint64_t at = put(room, from, count * sizeof *from);
    for (uint64_t i = 0; i < count; i++) {
        uint64_t view = put_view(room, &from[i].image);
        uint8_t *data = Z_pe_cZ_memory(room->instance)->data;
        if (!room->is_full)
            memcpy(data + at + i * sizeof *from, data + view, sizeof from->image);
    }
    return at;
}

void take(const struct room *room, void *to, uint64_t at, uint64_t length)
{
    if (!room->is_full && length)
        memcpy(to, Z_pe_cZ_memory(room->instance)->data + at, length);
}

uint32_t pe_portable_lend(const uint8_t *bytes, size_t length)
{
    if (own.count == MOST_LENT)
        return PE_C_ROOM;
    struct room room = room_of_call();
    uint64_t at = put(&room, bytes, length);
    if (room.is_full)
        return PE_C_MEMORY;
    own.lent[own.count++] = (struct lent){bytes, length, at};
    own.end = room.end;
    return PE_C_DONE;
}

void pe_portable_end(void)
{
    if (own.end)
        Z_pe_c_free(&own.instance);
    memset(&own, 0, sizeof own);
}
