/* Refuses allocations of the program that this library is preloaded to, and counts all of them.

   The count stands in the file COUNTED, which has room for it. The allocation of the number REFUSED is refused, and if
   LATER is 1 each one after it too; with REFUSED 0 none is. Allocations of the C library count like the program's. */
#include <errno.h>
#include <fcntl.h>
#include <stdatomic.h>
#include <stdlib.h>
#include <sys/mman.h>

void *__libc_malloc(size_t size);
void *__libc_calloc(size_t count, size_t size);
void *__libc_realloc(void *old, size_t size);

static _Atomic long *counted;
static long refused;
static int later;

__attribute__((constructor)) static void begin(void) {
    int file = open(getenv("COUNTED"), O_RDWR);
    void *room = mmap(NULL, sizeof *counted, PROT_READ | PROT_WRITE, MAP_SHARED, file, 0);
    if (file < 0 || room == MAP_FAILED)
        abort();
    refused = atol(getenv("REFUSED"));
    later = atoi(getenv("LATER"));
    counted = room;
}

static int is_refused(void) {
    if (counted == NULL)
        return 0;
    long number = atomic_fetch_add(counted, 1) + 1;
    int found = refused != 0 && (later ? number >= refused : number == refused);
    if (found)
        errno = ENOMEM;
    return found;
}

void *malloc(size_t size) { return is_refused() ? NULL : __libc_malloc(size); }
void *calloc(size_t count, size_t size) { return is_refused() ? NULL : __libc_calloc(count, size); }
void *realloc(void *old, size_t size) { return is_refused() ? NULL : __libc_realloc(old, size); }
