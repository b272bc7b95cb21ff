/* Loaded into a program by LD_PRELOAD, refuses one of its allocations: the one whose number, from
   1, the variable REFUSE has. It then writes an octet to the descriptor whose number the variable
   REFUSED_TO has. */

#include <stdlib.h>
#include <unistd.h>

void *__libc_malloc(size_t size);
void *__libc_calloc(size_t count, size_t size);
void *__libc_realloc(void *block, size_t size);

static long left;
static int to;

static int number(const char *name) {
    const char *text = getenv(name);
    return text == NULL ? 0 : atoi(text);
}

__attribute__((constructor)) static void begin(void) {
    left = number("REFUSE");
    to = number("REFUSED_TO");
}

static int is_refused(void) {
    if (left == 0 || --left != 0) {
        return 0;
    }
    return write(to, "", 1) == 1;
}

void *malloc(size_t size) {
    return is_refused() ? NULL : __libc_malloc(size);
}

void *calloc(size_t count, size_t size) {
    return is_refused() ? NULL : __libc_calloc(count, size);
}

void *realloc(void *block, size_t size) {
    return is_refused() ? NULL : __libc_realloc(block, size);
}
