/* Preloaded before the C library by LD_PRELOAD. Refuses the request for memory with the number in the variable
   REFUSED_REQUEST, counted from 1 in each process, and reports it by a line on standard error. It needs no header, so
   any C compiler builds it. */

typedef __SIZE_TYPE__ size_t;

extern char **environ;
void *dlsym(void *handle, const char *name);
long write(int file, const void *bytes, size_t count);
void *malloc(size_t size);
void *realloc(void *block, size_t size);

/* From the C library's <dlfcn.h>: the next function of that name, after this one. */
#define BEHIND ((void *)-1L)

static const char variable[] = "REFUSED_REQUEST=", line[] = "refused a request\n";

/* The variable's number; 0: no request is refused. */
static unsigned long number(void) {
    for (char **it = environ; it && *it; it++) {
        size_t same = 0;
        while (variable[same] && (*it)[same] == variable[same]) same++;
        if (variable[same]) continue;
        unsigned long value = 0;
        for (const char *digit = *it + same; *digit; digit++) value = 10 * value + (unsigned long)(*digit - '0');
        return value;
    }
    return 0;
}

static int is_refused(void) {
    static unsigned long requests;
    if (++requests != number()) return 0;
    write(2, line, sizeof line - 1);
    return 1;
}

void *malloc(size_t size) {
    static void *(*next)(size_t);
    if (!next) next = (void *(*)(size_t))dlsym(BEHIND, "malloc");
    return is_refused() ? 0 : next(size);
}

void *realloc(void *block, size_t size) {
    static void *(*next)(void *, size_t);
    if (!next) next = (void *(*)(void *, size_t))dlsym(BEHIND, "realloc");
    return is_refused() ? 0 : next(block, size);
}
