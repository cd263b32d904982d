/* The library and the header have one version. */
#include "vm_memory.h"

#include <stdio.h>
#include <string.h>

int main(void) {
    printf("%s\n", vmm_version());
    return strcmp(vmm_version(), VMM_VERSION) == 0 ? 0 : 1;
}
