/* Bytes of a block that was given back are freed, and no call reads them; those of another are freed too early, and
 * AddressSanitizer sees the call that reads them. This ends with 0 then. */
#include "vm_memory.h"

#include <stdlib.h>
#include <string.h>

/* AddressSanitizer calls this before it reports. */
void __asan_on_error(void);

static volatile int is_freed;

void __asan_on_error(void) {
    _Exit(is_freed ? 0 : 2);
}

int main(void) {
    enum { SIZE = 0x2000 };
    static const uint8_t region[8] = {0};
    uint8_t read[64] = {0};
    vmm_session session = {0};
    vmm_place first = {malloc(SIZE), SIZE}, place = {malloc(SIZE), SIZE};
    if (!first.at || !place.at || vmm_open(&session) != VMM_DONE) {
        return 3;
    }
    memset(first.at, 5, SIZE);
    memset(place.at, 7, SIZE);
    vmm_block_at(&session, first, 0x1000);
    vmm_block_at(&session, place, 0x1000);
    vmm_region(&session, 0, 0x1000);
    vmm_layout(&session, region, sizeof region);
    vmm_plain(&session, 0);
    if (vmm_write(&session, 0, 0x1ffc, "given", 5).count != 5 || vmm_give_back(&session, 0) != VMM_IN_USE) {
        return 5;
    }
    vmm_forget_regions(&session);
    if (vmm_give_back(&session, 0) != VMM_DONE || memcmp(first.at + 0xffc, "given", 5) != 0) {
        return 6;
    }
    free(first.at);
    if (vmm_region(&session, 0, 0x1000).code != VMM_NO_SUCH || vmm_give_back(&session, 0) != VMM_NO_SUCH ||
        vmm_copy(&session, 0, 0, 1, 1, 0, 1).code != VMM_NO_SUCH ||
        vmm_copy(&session, 1, 0, 1, 0, 0, 1).code != VMM_NO_SUCH ||
        vmm_mark_block(&session, 0, 0, 1).code != VMM_NO_SUCH ||
        vmm_harvest_block(&session, 0, read, sizeof read).code != VMM_NO_SUCH ||
        vmm_read(&session, 0, 0x1000, read, 1).code != VMM_NO_SUCH) {
        return 7;
    }
    vmm_region(&session, 1, 0x1000);
    vmm_layout(&session, region, sizeof region);
    vmm_plain(&session, 0);
    if (vmm_read(&session, 0, 0x1100, read, sizeof read).count != sizeof read || read[63] != 7) {
        return 4;
    }
    free(place.at);
    is_freed = 1;
    vmm_read(&session, 0, 0x1100, read, sizeof read);
    return 1;
}
