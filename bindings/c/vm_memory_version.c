/* The version of the library. */
#include "vm_memory.h"

const char *vmm_version(void) {
    return VMM_VERSION;
}
