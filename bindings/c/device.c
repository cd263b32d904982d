/* A device that answers each request with its text in capitals, and a driver that makes one. It ends with 0, or the number
 * of what failed. */
#include "vm_memory.h"

#include <ctype.h>
#include <stdio.h>
#include <string.h>

/* Answers a request, of which it reads 4,096 bytes at most, and returns how many bytes it wrote. */
static uint32_t answer_chain(vmm_session *session, size_t queue, size_t memory, size_t head) {
    uint8_t text[4096];
    vmm_answer read = vmm_read_chain(session, queue, memory, head, 0, text, sizeof text);
    size_t count = read.code == VMM_DONE ? read.count : 0;
    for (size_t i = 0; i < count; i++) {
        text[i] = (uint8_t)toupper(text[i]);
    }
    vmm_answer written = vmm_write_chain(session, queue, memory, head, 0, text, count);
    return written.code == VMM_DONE ? (uint32_t)written.count : 0;
}

/* Serves all that the driver has published. If the code is VMM_DONE, `value` is 1 to interrupt the driver. */
static vmm_answer process(vmm_session *session, size_t queue, size_t memory) {
    vmm_answer answer;
    do {
        answer = vmm_disable_notification(session, queue, memory);
        while (answer.code == VMM_DONE && (answer = vmm_pop(session, queue, memory)).code == VMM_DONE) {
            size_t head = (size_t)answer.value;
            uint32_t written = answer_chain(session, queue, memory, head);
            answer = vmm_add_used(session, queue, memory, head, written);
        }
        if (answer.code != VMM_NO_CHAIN) {
            return answer;
        }
        answer = vmm_enable_notification(session, queue, memory);
    } while (answer.code == VMM_DONE && answer.value == 1);
    return answer.code == VMM_DONE ? vmm_needs_notification(session, queue, memory) : answer;
}

/* Where the driver has its areas, and its request and the room for a reply. */
enum { TABLE = 0x1000, AVAIL = 0x2000, USED = 0x3000, REQUEST = 0x4000, REPLY = 0x5000 };

/* The driver publishes one chain: a segment that the device reads, and one that it writes. */
static void ask(vmm_session *session, const char *text) {
    uint8_t table[32] = {0}, ring[6] = {0, 0, 1, 0, 0, 0};
    table[1] = REQUEST >> 8;
    table[8] = (uint8_t)strlen(text);
    table[12] = 1;
    table[14] = 1;
    table[17] = REPLY >> 8;
    table[25] = 1;
    table[28] = 2;
    vmm_write(session, 0, REQUEST, text, strlen(text));
    vmm_write(session, 0, TABLE, table, sizeof table);
    vmm_write(session, 0, AVAIL, ring, sizeof ring);
}

int main(void) {
    vmm_session session = {0};
    uint8_t region[8] = {0}, reply[6] = {0};
    if (vmm_open(&session) != VMM_DONE) {
        return 1;
    }
    vmm_block(&session, 0x8000, 0x1000);
    vmm_region(&session, 0, 0);
    vmm_layout(&session, region, sizeof region);
    vmm_plain(&session, 0);
    /* The transport sets the queue up as the driver asks. All chains in flight have at most 64 descriptors. */
    vmm_queue(&session, 16, 64);
    vmm_set_desc_table(&session, 0, TABLE);
    vmm_set_avail_ring(&session, 0, AVAIL);
    vmm_set_used_ring(&session, 0, USED);
    vmm_set_queue_ready(&session, 0, 1);

    ask(&session, "hello");
    vmm_answer answer = process(&session, 0, 0);
    if (answer.code != VMM_DONE) {
        printf("%s\n", vmm_code_text(answer.code));
        return 2;
    }
    if (answer.value != 1 || vmm_load(&session, 0, 4, USED + 8).value != 5) {
        return 3;
    }
    vmm_read(&session, 0, REPLY, reply, 5);
    printf("the driver reads %s\n", (char *)reply);
    vmm_close(&session);
    return strcmp((char *)reply, "HELLO") == 0 ? 0 : 4;
}
