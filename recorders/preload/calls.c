/* The real calls, which those of this library stand in front of. */
#include "preload.h"

#include <dlfcn.h>

static __thread bool is_looking_up;

void *real_call(void *_Atomic *kept, const char *name)
{
    void *found = atomic_load(kept);
    if (found == NULL && !is_looking_up) {
        is_looking_up = true;
        found = dlsym(RTLD_NEXT, name);
        is_looking_up = false;
        atomic_store(kept, found);
    }
    return found;
}
