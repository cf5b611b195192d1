/* A heap that refuses when it is told to, for a library whose malloc, realloc and free are renamed to those of this file. Link it with
 * -Wl,--wrap=aligned_alloc,--wrap=free, by which a binding gets memory for handles. All counts go over both. */
#include <pthread.h>
#include <stddef.h>
#include <stdlib.h>

enum { MOST = 256 };

void *__real_aligned_alloc(size_t, size_t);
void __real_free(void *);

static pthread_mutex_t lock = PTHREAD_MUTEX_INITIALIZER;
static long asked, refused, refused_at, blocks;
static int all_later;
static const void *aligned[MOST]; /* the blocks of aligned_alloc, or none */

/* The allocation with this number from now on is refused, and all later ones too; or none any more, of 0. */
void refusing_at(long at, int later) {
    pthread_mutex_lock(&lock);
    if (at)
        asked = refused = 0;
    refused_at = at, all_later = later;
    pthread_mutex_unlock(&lock);
}

static long of(const long *count) {
    pthread_mutex_lock(&lock);
    long is = *count;
    pthread_mutex_unlock(&lock);
    return is;
}

/* How many allocations were asked for since one was named, and how many of these were refused; and how many blocks are not given back. */
long refusing_asked(void) { return of(&asked); }
long refusing_refused(void) { return of(&refused); }
long refusing_blocks(void) { return of(&blocks); }

static int is_refused(void) {
    pthread_mutex_lock(&lock);
    asked++;
    int is = refused_at && (asked == refused_at || (all_later && asked > refused_at));
    refused += is;
    pthread_mutex_unlock(&lock);
    return is;
}

static void count(long more) {
    pthread_mutex_lock(&lock);
    blocks += more;
    pthread_mutex_unlock(&lock);
}

void *refusing_malloc(size_t bytes) {
    void *block = is_refused() ? NULL : malloc(bytes);
    count(block != NULL);
    return block;
}

void *refusing_realloc(void *block, size_t bytes) {
    void *moved = is_refused() ? NULL : realloc(block, bytes);
    count(moved && !block);
    return moved;
}

void refusing_free(void *block) {
    count(-(block != NULL));
    __real_free(block);
}

/* Puts a block in the place of another one among those of aligned_alloc, and says whether that was there. */
static int replace(const void *was, void *is) {
    size_t at = 0;
    pthread_mutex_lock(&lock);
    while (at < MOST && aligned[at] != was)
        at++;
    if (at < MOST) {
        aligned[at] = is;
        blocks += is ? 1 : -1;
    }
    pthread_mutex_unlock(&lock);
    return at < MOST;
}

void *__wrap_aligned_alloc(size_t alignment, size_t bytes) {
    void *block = is_refused() ? NULL : __real_aligned_alloc(alignment, bytes);
    if (block && !replace(NULL, block))
        abort();
    return block;
}

void __wrap_free(void *block) {
    if (block)
        replace(block, NULL);
    __real_free(block);
}
