/* What an instance of a module as C takes of whoever runs it, as wasm2c asks it in wasm-rt.h, for the command (module.c) and for the
 * library (portable.c): how memory is given out, and three functions that do nothing of note. Included once in a program. */
#ifndef PSLINK_INSTANCE_H
#define PSLINK_INSTANCE_H

#include <stdbool.h>
#include <stdint.h>
#include <stdlib.h>

#define PAGE 65536u
#define ALIGNED 16u

bool wasm_rt_is_initialized(void)
{
    return true;
}

/* (no function is called through a table) */
uint32_t wasm_rt_register_func_type(uint32_t params, uint32_t results, ...)
{
    (void)params, (void)results;
    return 0;
}

void wasm_rt_free_memory(wasm_rt_memory_t *memory)
{
    free(memory->data);
}

/* Makes a memory of this block of so many pages; false where there is no block. */
static bool take_block(wasm_rt_memory_t *memory, void *block, uint64_t pages, uint32_t most)
{
    if (block == NULL)
        return false;
    memory->data = block;
    memory->pages = (uint32_t)pages;
    memory->max_pages = most;
    memory->size = (uint32_t)(pages * PAGE);
    return true;
}

/* Makes a memory so many pages long, and half of what it has longer, so that many small requests copy little. */
static bool grow(wasm_rt_memory_t *memory, uint64_t needed)
{
    const uint64_t wanted = needed + memory->pages / 2, pages = wanted < memory->max_pages ? wanted : memory->max_pages;

    return take_block(memory, realloc(memory->data, (size_t)(pages * PAGE)), pages, memory->max_pages);
}

/* The place of so many bytes that nothing else has, from `next` on; 0 where there is no memory. Nothing is given out twice, and what is
 * there is not cleared, as malloc does not clear it. */
static uint64_t place_of(wasm_rt_memory_t *memory, uint64_t *next, uint64_t size)
{
    const uint64_t most = (uint64_t)memory->max_pages * PAGE;
    const uint64_t place = (*next + ALIGNED - 1) / ALIGNED * ALIGNED, end = place + (size == 0 ? 1 : size);

    if (size > most || end > most || (end > memory->size && !grow(memory, (end + PAGE - 1) / PAGE)))
        return 0;
    *next = end;
    return place;
}

/* Puts a number of so many bytes, the lowest first. */
static void set(uint8_t *at, unsigned bytes, uint64_t value)
{
    for (; bytes-- > 0; value >>= 8)
        *at++ = (uint8_t)value;
}

/* Gives out so many bytes, and puts what a heap answers: whether there is memory, and 8 bytes on its place; 0 where there is none. */
static uint64_t give(wasm_rt_memory_t *memory, uint64_t *next, uint64_t at, uint64_t size)
{
    const uint64_t place = place_of(memory, next, size);

    set(memory->data + at, 8, place != 0);
    set(memory->data + at + 8, 8, place == 0 ? ALIGNED : place);
    return place;
}

#endif
