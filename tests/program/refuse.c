/* Refuses one request for memory: the one whose number REFUSE names, counted from 1 over all threads. The number of requests so
   far stands in the first bytes of the file that COUNT names, as a machine word, so that it is there however the program ends.
   Preloaded into a program that takes its memory by `malloc`. */
#include <errno.h>
#include <fcntl.h>
#include <stdatomic.h>
#include <stdlib.h>
#include <sys/mman.h>
#include <unistd.h>

void *__libc_malloc(size_t);

static atomic_ulong unseen;
static atomic_ulong *requests = &unseen;
static unsigned long refused;

__attribute__((constructor)) static void start(void)
{
    const char *number = getenv("REFUSE"), *name = getenv("COUNT");
    int file = name ? open(name, O_RDWR | O_CREAT | O_TRUNC, 0600) : -1;
    if (file >= 0 && ftruncate(file, sizeof *requests) == 0) {
        void *place = mmap(NULL, sizeof *requests, PROT_READ | PROT_WRITE, MAP_SHARED, file, 0);
        if (place != MAP_FAILED)
            requests = place;
    }
    refused = number ? strtoul(number, NULL, 10) : 0;
    atomic_store(requests, 0);
}

void *malloc(size_t size)
{
    if (atomic_fetch_add(requests, 1) + 1 == refused) {
        errno = ENOMEM;
        return NULL;
    }
    return __libc_malloc(size);
}
