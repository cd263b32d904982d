/* A first access, a mapping of an IOMMU, and a harvest of dirty pages. It ends with 0, or the number of what failed. */
#include "vm_memory.h"

#include <string.h>

static const uint8_t first_region[8] = {0};

int main(void) {
    vmm_session session = {0};
    if (vmm_open(&session) != VMM_DONE) {
        return 1;
    }
    /* A block of two pages, a region of it at 0x1000, and a memory. */
    vmm_block(&session, 0x2000, 0x1000);
    vmm_space(&session, 0x10000, 0x1000);
    vmm_table(&session);
    vmm_region(&session, 0, 0x1000);
    vmm_translator(&session, 0);
    vmm_layout(&session, first_region, sizeof first_region);
    size_t plain = (size_t)vmm_plain(&session, 0).value;
    if (vmm_write(&session, plain, 0x1ffe, "\x01\x02\x03", 3).count != 3) {
        return 2;
    }
    uint8_t bytes[4] = {0};
    vmm_answer answer = vmm_read(&session, plain, 0x1ffe, bytes, sizeof bytes);
    if (answer.code != VMM_DONE || answer.count != 4 || memcmp(bytes, "\x01\x02\x03\x00", 4) != 0) {
        return 3;
    }
    answer = vmm_read(&session, plain, 0x3000, bytes, 1);
    if (answer.code != VMM_INVALID_GUEST_ADDRESS || answer.address != 0x3000) {
        return 4;
    }

    /* A memory behind an IOMMU, which maps a page of I/O addresses. */
    size_t device = (size_t)vmm_memory(&session, 0, 0, 0, 1).value;
    answer = vmm_store(&session, device, 4, 0x8000, 0x01020304);
    if (answer.code != VMM_IOMMU_MISSING || answer.address != 0x8000 || answer.value != 4) {
        return 5;
    }
    if (answer.miss.access != VMM_W || answer.miss.address != 0x8000 || answer.miss.length != 4) {
        return 5;
    }
    vmm_set(&session, 0, 0x8000, 0x1000, 0x1000, VMM_RW);
    if (vmm_store(&session, device, 4, 0x8000, 0x01020304).code != VMM_DONE) {
        return 6;
    }
    if (vmm_load(&session, plain, 4, 0x1000).value != 0x01020304) {
        return 7;
    }
    uint8_t list[16];
    if (vmm_lookup(&session, 0, 0x8000, 16, VMM_R, list, sizeof list).count != 1 || vmm_number(list, 0) != 0x1000) {
        return 8;
    }

    /* Both pages of the block are dirty, and the page of the space that the device wrote to. A list that is too short
     * is refused, and the pages stay. */
    answer = vmm_harvest_block(&session, 0, list, 8);
    if (answer.code != VMM_SHORT || answer.count != 16) {
        return 9;
    }
    answer = vmm_harvest_block(&session, 0, list, sizeof list);
    if (answer.code != VMM_DONE || answer.count != 2 || vmm_number(list, 0) != 0 || vmm_number(list, 1) != 1) {
        return 10;
    }
    if (vmm_dirty_block(&session, 0, list, sizeof list).count != 0) {
        return 11;
    }
    if (vmm_harvest_space(&session, 0, list, sizeof list).count != 1 || vmm_number(list, 0) != 8) {
        return 12;
    }
    /* A block that comes later gets the next number. */
    answer = vmm_block(&session, 0x1000, 0x1000);
    if (answer.code != VMM_DONE || answer.value != 1) {
        return 13;
    }
    vmm_close(&session);
    return 0;
}
