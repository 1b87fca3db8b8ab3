/* The command line by the module as C, which wasm2c wrote: its memory, and its imports over host.c. One command, and then the process
 * ends, so nothing is given back. A trap, which only a fault of the compilers or of this file can make, ends it with status 70. */
#include "host.h"
#include "pslink_command.h"

#include "instance.h"

#include <stdio.h>
#include <string.h>

#define PAGES_MAX 32768u /* two gibibytes */
#define NO_MEMORY 4
#define TRAPPED 70

#define HEAP(name) Z_envZ_rattle_##name
#define HOST(name) Z_envZ_##name

static Z_pslink_command_instance_t module;
static uint64_t next;

void wasm_rt_trap(wasm_rt_trap_t code)
{
    fprintf(stderr, "pslink: the module trapped (%d)\n", (int)code);
    exit(TRAPPED);
}

void wasm_rt_allocate_memory(wasm_rt_memory_t *memory, uint32_t pages, uint32_t most)
{
    (void)most;
    if (!take_block(memory, calloc(pages, PAGE), pages, PAGES_MAX))
        exit(NO_MEMORY);
}

/* The heap -------------------------------------------------------------------------------------------------------------------------- */

void HEAP(alloc)(struct Z_env_instance_t *env, u64 at, u64 size, u64 alignment)
{
    (void)env, (void)alignment;
    give(&module.w2c_memory, &next, at, size);
}

void HEAP(realloc)(struct Z_env_instance_t *env, u64 at, u64 block, u64 kept, u64 size, u64 alignment)
{
    const uint64_t place = give(&module.w2c_memory, &next, at, size);

    (void)env, (void)alignment;
    if (place != 0)
        memcpy(module.w2c_memory.data + place, module.w2c_memory.data + block, kept);
}

void HEAP(dealloc)(struct Z_env_instance_t *env, u64 place)
{
    (void)env, (void)place;
}

/* The host -------------------------------------------------------------------------------------------------------------------------- */

static void *bytes(u64 place, u64 length)
{
    if (place > module.w2c_memory.size || length > module.w2c_memory.size - place)
        wasm_rt_trap(WASM_RT_TRAP_OOB);
    return module.w2c_memory.data + place;
}

u64 HOST(host_arg)(struct Z_env_instance_t *env, u64 number, u64 room, u64 size)
{
    (void)env;
    return (u64)host_arg((size_t)number, bytes(room, size), (size_t)size);
}

u64 HOST(host_open)(struct Z_env_instance_t *env, u64 path, u64 length)
{
    (void)env;
    return (u64)host_open(bytes(path, length), (size_t)length);
}

u64 HOST(host_create)(struct Z_env_instance_t *env, u64 path, u64 length)
{
    (void)env;
    return (u64)host_create(bytes(path, length), (size_t)length);
}

u64 HOST(host_length)(struct Z_env_instance_t *env, u64 file)
{
    (void)env;
    return host_length((int64_t)file);
}

u64 HOST(host_read)(struct Z_env_instance_t *env, u64 file, u64 room, u64 size)
{
    (void)env;
    return (u64)host_read((int64_t)file, bytes(room, size), (size_t)size);
}

u64 HOST(host_write)(struct Z_env_instance_t *env, u64 file, u64 from, u64 size)
{
    (void)env;
    return (u64)host_write((int64_t)file, bytes(from, size), (size_t)size);
}

u64 HOST(host_close)(struct Z_env_instance_t *env, u64 file)
{
    (void)env;
    return (u64)host_close((int64_t)file);
}

u32 HOST(host_are_one)(struct Z_env_instance_t *env, u64 path, u64 length, u64 other, u64 other_length)
{
    (void)env;
    return host_are_one(bytes(path, length), (size_t)length, bytes(other, other_length), (size_t)other_length);
}

u32 HOST(host_leads_to_output)(struct Z_env_instance_t *env, u64 path, u64 length)
{
    (void)env;
    return host_leads_to_output(bytes(path, length), (size_t)length);
}

int main(int argc, char **argv)
{
    if (!host_begin(argc, argv))
        return NO_MEMORY;
    Z_pslink_command_init_module();
    Z_pslink_command_instantiate(&module, NULL);
    next = *Z_pslink_commandZ___heap_base(&module);
    return (int)Z_pslink_commandZ_pslink_command(&module);
}
