/* Lua's collector through its C interface, as it is set by default: an object is a userdata, its places are user values,
 * its words the block; the slots are the stack. The allocator refuses what goes beyond the limit. */
#ifndef MANAGER_H
#define MANAGER_H

#include "../contest.h"

#include <lua5.4/lua.h>
#include <stdlib.h>
#include <string.h>

#define MANAGER_FREES false

/* What the C interface pushes besides the slots. */
enum { SCRATCH = 16 };

static lua_State *lua;
static size_t lua_bytes;

/* Lua hands a kind of object in place of the old size where there is no block yet. */
static void *limited_alloc(void *user, void *block, size_t before, size_t after)
{
    (void)user;
    if (block == NULL)
        before = 0;
    if (after == 0) {
        free(block);
        lua_bytes -= before;
        return NULL;
    }
    if (after > before && lua_bytes + (after - before) > HEAP_BYTES)
        return NULL;
    void *made = realloc(block, after);
    if (made != NULL)
        lua_bytes = lua_bytes - before + after;
    return made;
}

static int on_panic(lua_State *state)
{
    (void)state;
    out_of_room();
}

static inline void manager_start(void)
{
    lua = lua_newstate(limited_alloc, NULL);
    if (lua == NULL)
        out_of_room();
    lua_atpanic(lua, on_panic);
    if (!lua_checkstack(lua, SLOTS + SCRATCH))
        out_of_room();
    lua_settop(lua, SLOTS);
}

/* Slots count from 0, the stack and user values from 1. */
static inline int index_of(unsigned i) { return (int)i + 1; }

static inline void manager_new(unsigned s, unsigned places, unsigned words)
{
    void *block = lua_newuserdatauv(lua, words * sizeof(uint64_t), (int)places);

    memset(block, 0, words * sizeof(uint64_t));
    lua_replace(lua, index_of(s));
}

static inline void manager_get(unsigned t, unsigned s, unsigned i)
{
    lua_getiuservalue(lua, index_of(s), index_of(i));
    lua_replace(lua, index_of(t));
}

static inline void manager_set(unsigned s, unsigned i, unsigned t)
{
    lua_pushvalue(lua, index_of(t));
    lua_setiuservalue(lua, index_of(s), index_of(i));
}

static inline uint64_t manager_read(unsigned s, unsigned places, unsigned i)
{
    (void)places;
    return ((uint64_t *)lua_touserdata(lua, index_of(s)))[i];
}

static inline void manager_write(unsigned s, unsigned places, unsigned i, uint64_t x)
{
    (void)places;
    ((uint64_t *)lua_touserdata(lua, index_of(s)))[i] = x;
}

static inline void manager_copy(unsigned t, unsigned s) { lua_copy(lua, index_of(s), index_of(t)); }

static inline void manager_clear(unsigned t)
{
    lua_pushnil(lua);
    lua_replace(lua, index_of(t));
}

static inline bool manager_is_none(unsigned s) { return lua_type(lua, index_of(s)) == LUA_TNIL; }

static inline void manager_free(unsigned s) { (void)s; }

#endif
