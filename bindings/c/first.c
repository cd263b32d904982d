/* A first access by the proved machine. */
#include "vm_memory.h"

#include <stdio.h>

int main(void) {
    vmm_session session = {0};
    uint8_t region[8] = {0}, bytes[2];
    if (vmm_open(&session) != VMM_DONE) {
        return 1;
    }
    vmm_block(&session, 0x2000, 0x1000);
    vmm_region(&session, 0, 0x1000);
    vmm_layout(&session, region, sizeof region);
    vmm_plain(&session, 0);
    vmm_write(&session, 0, 0x1ffe, "\1\2\3", 3);
    vmm_answer answer = vmm_read(&session, 0, 0x1ffe, bytes, sizeof bytes);
    printf("read %zu bytes: %d %d\n", answer.count, bytes[0], bytes[1]);
    vmm_close(&session);
    return answer.code == VMM_DONE ? 0 : 1;
}
