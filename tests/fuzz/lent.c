/* Slices as they are lent to the library: pages that are mapped twice, to write and to read, each between two that are closed. */
#include "lent.h"

#include <stdlib.h>
#include <string.h>
#include <sys/mman.h>
#include <unistd.h>

#include "check.h"

struct room {
    uint8_t *to_write, *to_read;
    size_t size;
    enum place place;
    uint8_t guard;
    uint8_t *slice;
    size_t len;
};

static struct room rooms[LENT];
static int heap;

/* The pages of the file between two closed ones. */
static uint8_t *view(int file, size_t page, size_t size, int access) {
    uint8_t *all = mmap(NULL, size + 2 * page, PROT_NONE, MAP_PRIVATE | MAP_ANONYMOUS, -1, 0);
    must(all != MAP_FAILED, "no room to lend slices in");
    must(mmap(all + page, size, access, MAP_SHARED | MAP_FIXED, file, 0) == all + page, "no page to lend slices in");
    return all + page;
}

void lent_setup(int only_heap) {
    static const size_t most[LENT] = {MOST_SESSION, MOST_LINE, MOST_TOKENS};
    size_t page = (size_t)sysconf(_SC_PAGESIZE);
    heap = only_heap;
    for (int i = 0; i < LENT; i++) {
        int file = memfd_create("lent", 0);
        rooms[i].size = (most[i] + 256 + page - 1) / page * page;
        must(file >= 0 && ftruncate(file, (off_t)rooms[i].size) == 0, "no file to lend slices from");
        rooms[i].to_write = view(file, page, rooms[i].size, PROT_READ | PROT_WRITE);
        rooms[i].to_read = view(file, page, rooms[i].size, PROT_READ);
        close(file);
    }
}

static size_t offset(const struct room *r, unsigned where) {
    return r->place == AT_END ? r->size - r->len : r->place == AT_START ? 0 : 128 + where / PLACES % 64;
}

uint8_t *lend(enum lent which, unsigned where, const struct bytes *from) {
    struct room *r = &rooms[which];
    r->place = heap ? ON_HEAP : (enum place)(where % PLACES);
    r->guard = (uint8_t)(0x5A + 37 * where);
    r->len = from->len;
    if (r->place == ON_HEAP) {
        r->slice = malloc(r->len);
        must(r->slice != NULL, "no memory for a slice");
    } else {
        memset(r->to_write, r->guard, r->size);
        r->slice = r->to_write + offset(r, where);
    }
    memcpy(r->slice, from->at, r->len);
    return r->slice;
}

const uint8_t *lend_const(enum lent which, unsigned where, const struct bytes *from) {
    struct room *r = &rooms[which];
    uint8_t *slice = lend(which, where, from);
    return r->place == ON_HEAP ? slice : r->to_read + (slice - r->to_write);
}

/* So many bytes, all of them guard bytes. */
static int guarded(const struct room *r, const uint8_t *from, size_t len) {
    return len == 0 || (from[0] == r->guard && memcmp(from, from + 1, len - 1) == 0);
}

void take_back(enum lent which, struct bytes *now) {
    struct room *r = &rooms[which];
    now->len = r->len;
    memcpy(now->at, r->slice, r->len);
    if (r->place == ON_HEAP) {
        free(r->slice);
        return;
    }
    const uint8_t *behind = r->slice + r->len;
    must(guarded(r, r->to_write, (size_t)(r->slice - r->to_write)), "a byte before a slice was written");
    must(guarded(r, behind, (size_t)(r->to_write + r->size - behind)), "a byte behind a slice was written");
}
