/* Stands before the C library's heap. Of the calls of malloc and realloc it refuses one: that whose number REFUSED tells; with
   REFUSED=0 it refuses none. It knows which blocks are live, and where one is freed or made larger that isn't, it says so and
   aborts. The file COUNTED has two numbers of eight bytes, however the process ends: how many calls of the two there were, and
   how many blocks are live. */
#define _GNU_SOURCE
#include <dlfcn.h>
#include <errno.h>
#include <fcntl.h>
#include <stdint.h>
#include <stdlib.h>
#include <sys/mman.h>
#include <unistd.h>

/* What the file COUNTED has. */
struct counts {
    uint64_t asked, live;
};

static uint64_t refused;
static struct counts before, *counted = &before;
static void *(*whole_malloc)(size_t), *(*whole_calloc)(size_t, size_t), *(*whole_realloc)(void *, size_t);
static void *(*whole_memalign)(size_t, size_t);
static void (*whole_free)(void *);

/* The addresses of live blocks: a table of places that is searched from an address's own place on. A place is 0 where it never
   was taken, and GONE where it was. */
#define GONE 1
static uintptr_t *places;
static size_t size, used;
static char locked;

static void fail(const char *says, size_t length)
{
    if (write(2, says, length) < 0)
        _exit(98);
    abort();
}

static void lock(void)
{
    while (__atomic_test_and_set(&locked, __ATOMIC_ACQUIRE)) {
    }
}

static void unlock(void)
{
    __atomic_clear(&locked, __ATOMIC_RELEASE);
}

/* Where the address stands, or else the place that was never taken at which the search ends. */
static uintptr_t *find_place(uintptr_t block)
{
    size_t at = (block >> 4) * 0x9e3779b97f4a7c15u >> 20;
    while (places[at & (size - 1)] && places[at & (size - 1)] != block)
        at++;
    return &places[at & (size - 1)];
}

static void make_room(void)
{
    uintptr_t *old = places;
    size_t old_size = size;
    if (2 * (used + 1) <= size)
        return;
    size = counted->live * 4 < 65536 ? 65536 : size * 2;
    places = mmap(NULL, size * sizeof *places, PROT_READ | PROT_WRITE, MAP_PRIVATE | MAP_ANONYMOUS, -1, 0);
    if (places == MAP_FAILED)
        fail("no room to note blocks\n", 23);
    used = 0;
    for (size_t i = 0; i < old_size; i++)
        if (old[i] > GONE) {
            *find_place(old[i]) = old[i];
            used++;
        }
    if (old)
        munmap(old, old_size * sizeof *old);
}

static void *come(void *block)
{
    if (block) {
        make_room();
        *find_place((uintptr_t)block) = (uintptr_t)block;
        used++;
        counted->live++;
    }
    return block;
}

static void go(void *block)
{
    uintptr_t *place = size ? find_place((uintptr_t)block) : NULL;
    if (!place || !*place)
        fail("a block is freed that isn't live\n", 33);
    *place = GONE;
    counted->live--;
}

static void find(void)
{
    if (!whole_malloc) {
        whole_free = (void (*)(void *))dlsym(RTLD_NEXT, "free");
        whole_calloc = (void *(*)(size_t, size_t))dlsym(RTLD_NEXT, "calloc");
        whole_realloc = (void *(*)(void *, size_t))dlsym(RTLD_NEXT, "realloc");
        whole_memalign = (void *(*)(size_t, size_t))dlsym(RTLD_NEXT, "memalign");
        whole_malloc = (void *(*)(size_t))dlsym(RTLD_NEXT, "malloc");
    }
}

__attribute__((constructor)) static void begin(void)
{
    const char *told = getenv("REFUSED"), *name = getenv("COUNTED");
    int file = name ? open(name, O_RDWR | O_CREAT, 0600) : -1;
    struct counts *shared;
    find();
    if (file < 0 || ftruncate(file, sizeof *shared))
        _exit(99);
    shared = mmap(NULL, sizeof *shared, PROT_READ | PROT_WRITE, MAP_SHARED, file, 0);
    if (shared == MAP_FAILED)
        _exit(99);
    close(file);
    shared->live = before.live;
    counted = shared;
    refused = told ? strtoull(told, NULL, 10) : 0;
}

static int is_refused(void)
{
    if (counted == &before || ++counted->asked != refused)
        return 0;
    errno = ENOMEM;
    return 1;
}

void *malloc(size_t bytes)
{
    void *block;
    find();
    lock();
    block = is_refused() ? NULL : come(whole_malloc(bytes));
    unlock();
    return block;
}

void *realloc(void *block, size_t bytes)
{
    void *moved;
    find();
    lock();
    if (block && (!size || !*find_place((uintptr_t)block)))
        fail("a block is made larger that isn't live\n", 39);
    if (is_refused()) {
        unlock();
        return NULL;
    }
    moved = whole_realloc(block, bytes);
    if (block && (moved || !bytes))
        go(block);
    come(moved);
    unlock();
    return moved;
}

void *calloc(size_t count, size_t bytes)
{
    void *block;
    find();
    lock();
    block = come(whole_calloc(count, bytes));
    unlock();
    return block;
}

void *memalign(size_t align, size_t bytes)
{
    void *block;
    find();
    lock();
    block = come(whole_memalign(align, bytes));
    unlock();
    return block;
}

void *aligned_alloc(size_t align, size_t bytes)
{
    return memalign(align, bytes);
}

int posix_memalign(void **block, size_t align, size_t bytes)
{
    void *made = memalign(align, bytes);
    if (made)
        *block = made;
    return made ? 0 : ENOMEM;
}

void free(void *block)
{
    find();
    if (!block)
        return;
    lock();
    go(block);
    whole_free(block);
    unlock();
}
