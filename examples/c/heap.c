/* The three functions of allocation that the library calls, over malloc, realloc and free. No alignment is above 16. */
#include <stdbool.h>
#include <stdlib.h>

typedef struct {
    bool ok;
    void *p;
} tried;

static _Alignas(16) char nowhere;

static tried told(void *p) {
    tried answer = {p != NULL, p ? p : &nowhere};
    return answer;
}

tried rattle_alloc(size_t size, size_t align);
tried rattle_realloc(void *p, size_t kept, size_t size, size_t align);
void rattle_dealloc(void *p);

tried rattle_alloc(size_t size, size_t align) { return told(malloc(size ? size : align)); }

tried rattle_realloc(void *p, size_t kept, size_t size, size_t align) {
    (void)kept;
    return told(realloc(p, size ? size : align));
}

void rattle_dealloc(void *p) { free(p); }
