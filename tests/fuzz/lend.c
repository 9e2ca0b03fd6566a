#define _GNU_SOURCE
#include "lend.h"

#include <stdio.h>
#include <sys/mman.h>
#include <unistd.h>

enum { PAGE = 4096 };

static void *mapped(void *at)
{
    if (at == MAP_FAILED) {
        perror("mmap");
        exit(2);
    }
    return at;
}

static struct arena open_pages(int protection)
{
    struct arena arena;
    const int file = memfd_create("lent", 0);
    if (file < 0 || ftruncate(file, ROOM) != 0) {
        perror("memfd_create");
        exit(2);
    }
    arena.written = mapped(mmap(NULL, ROOM, PROT_READ | PROT_WRITE, MAP_SHARED, file, 0));
    arena.lent = mapped(mmap(NULL, ROOM + 2 * PAGE, PROT_NONE, MAP_PRIVATE | MAP_ANONYMOUS, -1, 0));
    arena.lent += PAGE;
    mapped(mmap(arena.lent, ROOM, protection, MAP_SHARED | MAP_FIXED, file, 0));
    close(file);
    return arena;
}

struct arena open_input(void)
{
    return open_pages(PROT_READ);
}

struct arena open_output(void)
{
    return open_pages(PROT_READ | PROT_WRITE);
}

size_t place_in(size_t len, int upper)
{
    return upper ? ROOM - len : 0;
}

struct lent lend_from(struct arena arena, struct lent string, int upper)
{
    const size_t place = place_in(string.len, upper);
    struct lent lent = { arena.lent + place, string.len };
    memcpy(arena.written + place, string.at, string.len);
    if (string.len == 0 && !upper)
        lent.at = NULL;
    return lent;
}
