/* Each call of a queue and of its requests, messages on an I/O table, and the text of each code. It ends with 0, or the
 * number of what failed. */
#include "vm_memory.h"

#include <string.h>

enum { TABLE = 0x1000, AVAIL = 0x2000, USED = 0x3000, DATA = 0x4000 };

static vmm_session session;

/* Whether an answer is this. */
static int is(vmm_answer answer, uint32_t code, size_t count, uint64_t value, uint64_t address) {
    return answer.code == code && answer.count == count && answer.value == value && answer.address == address;
}

static int done(vmm_answer answer) {
    return answer.code == VMM_DONE;
}

/* A descriptor. */
static void put(size_t index, uint64_t address, uint32_t size, uint64_t flags, uint64_t next) {
    uint64_t place = TABLE + 16 * index;
    vmm_store(&session, 0, 8, place, address);
    vmm_store(&session, 0, 4, place + 8, size);
    vmm_store(&session, 0, 2, place + 12, flags);
    vmm_store(&session, 0, 2, place + 14, next);
}

/* The head that the driver publishes as its last one. */
static void publish(uint64_t index, uint64_t head) {
    vmm_store(&session, 0, 2, AVAIL + 4 + 2 * (index % 4), head);
    vmm_store(&session, 0, 2, AVAIL + 2, index + 1);
}

static int parts(void) {
    vmm_state state;
    if (!is(vmm_queue(&session, 3, 8), VMM_INVALID_MAX_SIZE, 0, 0, 0) ||
        !is(vmm_queue(&session, 16, 3), VMM_DONE, 0, 0, 0)) {
        return 10;
    }
    if (vmm_set_queue_size(&session, 0, 5).code != VMM_INVALID_QUEUE_SIZE ||
        !done(vmm_set_queue_size(&session, 0, 8))) {
        return 11;
    }
    if (vmm_set_desc_table(&session, 0, 8).code != VMM_INVALID_DESC_TABLE_ALIGN ||
        vmm_set_avail_ring(&session, 0, 1).code != VMM_INVALID_AVAIL_RING_ALIGN ||
        vmm_set_used_ring(&session, 0, 2).code != VMM_INVALID_USED_RING_ALIGN) {
        return 12;
    }
    if (!done(vmm_set_desc_table(&session, 0, 0x10)) || !done(vmm_set_avail_ring(&session, 0, 0x102)) ||
        !done(vmm_set_used_ring(&session, 0, 0x1004)) || !done(vmm_set_queue_ready(&session, 0, 1)) ||
        !done(vmm_set_event_idx(&session, 0, 7)) || !done(vmm_set_next_avail(&session, 0, 0xffff)) ||
        !done(vmm_set_next_used(&session, 0, 0xfffe))) {
        return 13;
    }
    if (!is(vmm_queue_state(&session, 0, &state), VMM_DONE, 9, 0, 0) || state.max_size != 16 || state.size != 8 ||
        state.ready != 1 || state.event_idx_enabled != 1 || state.desc_table != 0x10 || state.avail_ring != 0x102 ||
        state.used_ring != 0x1004 || state.next_avail != 0xffff || state.next_used != 0xfffe) {
        return 14;
    }
    if (vmm_set_queue(&session, 0, VMM_READY, 2).code != VMM_BAD_CALL || !done(vmm_reset_queue(&session, 0)) ||
        !done(vmm_queue_state(&session, 0, &state)) || state.size != 16 || state.ready != 0 || state.next_used != 0) {
        return 15;
    }
    memset(&state, 7, sizeof state);
    return vmm_queue_state(&session, 1, &state).code == VMM_NO_SUCH && state.size == 0x0707 ? 0 : 16;
}

static int chains(void) {
    if (vmm_pop(&session, 0, 0).code != VMM_QUEUE_NOT_READY) {
        return 20;
    }
    vmm_set_queue_size(&session, 0, 4);
    vmm_set_desc_table(&session, 0, TABLE);
    vmm_set_avail_ring(&session, 0, AVAIL);
    vmm_set_used_ring(&session, 0, USED);
    vmm_set_queue_ready(&session, 0, 1);
    put(0, DATA, 5, 1, 1);
    put(1, DATA + 0x100, 7, 2, 0);
    put(2, DATA + 5, 3, 1, 3);
    put(3, DATA + 8, 3, 0, 0);
    vmm_write(&session, 0, DATA, "askmore", 7);
    if (!is(vmm_queue_is_valid(&session, 0, 0), VMM_DONE, 0, 1, 0) || vmm_pop(&session, 0, 0).code != VMM_NO_CHAIN) {
        return 21;
    }
    publish(0, 0);
    publish(1, 0);
    publish(2, 2);
    if (vmm_avail_idx(&session, 0, 0).value != 3 || !is(vmm_pop(&session, 0, 0), VMM_DONE, 5, 0, 7)) {
        return 22;
    }
    return 0;
}

/* The first chain is in flight, and of three descriptors no two chains are at once. */
static int in_flight(void) {
    uint8_t bytes[8] = {0};
    if (vmm_pop(&session, 0, 0).code != VMM_IN_FLIGHT || !done(vmm_set_next_avail(&session, 0, 2)) ||
        vmm_pop(&session, 0, 0).code != VMM_TOO_MANY) {
        return 23;
    }
    if (!is(vmm_read_chain(&session, 0, 0, 0, 1, bytes, sizeof bytes), VMM_DONE, 4, 0, 0) ||
        memcmp(bytes, "skmo\0", 5) != 0) {
        return 24;
    }
    if (!is(vmm_write_chain(&session, 0, 0, 0, 3, "answer", 6), VMM_DONE, 4, 0, 0) ||
        vmm_read(&session, 0, DATA + 0x103, bytes, 5).count != 5 || memcmp(bytes, "answ\0", 5) != 0) {
        return 25;
    }
    if (vmm_add_used(&session, 0, 0, 1, 0).code != VMM_NOT_IN_FLIGHT ||
        !is(vmm_complete_chain(&session, 0, 0, 0, 3, "answer", 6, 9), VMM_PARTIAL_BUFFER, 4, 6, 0) ||
        vmm_used_idx(&session, 0, 0).value != 0 || !done(vmm_complete_chain(&session, 0, 0, 0, 3, "done", 4, 7)) ||
        vmm_read(&session, 0, DATA + 0x103, bytes, 5).count != 5 || memcmp(bytes, "done\0", 5) != 0) {
        return 26;
    }
    if (vmm_used_idx(&session, 0, 0).value != 1 || vmm_load(&session, 0, 4, USED + 4).value != 0 ||
        vmm_load(&session, 0, 4, USED + 8).value != 7) {
        return 27;
    }
    if (!is(vmm_pop(&session, 0, 0), VMM_DONE, 6, 2, 0) || !done(vmm_forget(&session, 0, 2)) ||
        vmm_forget(&session, 0, 2).code != VMM_NOT_IN_FLIGHT) {
        return 28;
    }
    return 0;
}

static int notifications(void) {
    if (!is(vmm_needs_notification(&session, 0, 0), VMM_DONE, 0, 1, 0) ||
        !is(vmm_enable_notification(&session, 0, 0), VMM_DONE, 0, 0, 0)) {
        return 30;
    }
    if (!done(vmm_disable_notification(&session, 0, 0)) || vmm_load(&session, 0, 2, USED).value != 1) {
        return 31;
    }
    publish(3, 0);
    vmm_store(&session, 0, 2, AVAIL, 1);
    if (vmm_enable_notification(&session, 0, 0).value != 1 || vmm_load(&session, 0, 2, USED).value != 0 ||
        vmm_needs_notification(&session, 0, 0).value != 0) {
        return 32;
    }
    vmm_set_event_idx(&session, 0, 1);
    if (vmm_enable_notification(&session, 0, 0).value != 1 || vmm_load(&session, 0, 2, USED + 4 + 32).value != 3) {
        return 33;
    }
    return 0;
}

/* A queue anew, with one chain in flight: a header and so many bytes after it are read, and so many bytes written. */
static void request(uint32_t kind, uint64_t sector, uint32_t given, uint32_t room) {
    vmm_reset_queue(&session, 0);
    vmm_set_queue_size(&session, 0, 4);
    vmm_set_desc_table(&session, 0, TABLE);
    vmm_set_avail_ring(&session, 0, AVAIL);
    vmm_set_used_ring(&session, 0, USED);
    vmm_set_queue_ready(&session, 0, 1);
    vmm_store(&session, 0, 2, AVAIL + 2, 0);
    vmm_store(&session, 0, 4, DATA, kind);
    vmm_store(&session, 0, 8, DATA + 8, sector);
    vmm_store(&session, 0, 1, DATA + 0x1000 + room - 1, 0xff);
    put(0, DATA, 16 + given, 1, 1);
    put(1, DATA + 0x1000, room, 2, 0);
    publish(0, 0);
    vmm_pop(&session, 0, 0);
}

/* What a device with a disk of four sectors has to do. */
static vmm_answer begin(int read_only, uint64_t features) {
    vmm_blk_limits limits = {4, 0, 0, 0, 0};
    limits.features = features;
    limits.read_only = read_only;
    return vmm_begin_request(&session, 0, 0, 0, limits);
}

/* Whether a status is written, and whether the length is this. */
static int finishes(uint8_t status, size_t moved, uint32_t room, uint64_t length) {
    vmm_answer answer = vmm_finish_request(&session, 0, 0, 0, status, moved);
    return is(answer, VMM_DONE, 0, length, 0) && vmm_load(&session, 0, 1, DATA + 0x1000 + room - 1).value == status;
}

static int requests(void) {
    request(0, 3, 0, 513);
    if (!is(begin(1, 0), VMM_DONE, 512, VMM_BLK_READ, 3) || !finishes(VMM_BLK_S_OK, 512, 513, 513)) {
        return 50;
    }
    request(1, 2, 1024, 1);
    if (!is(begin(0, 0), VMM_DONE, 1024, VMM_BLK_WRITE_STABLE, 2) ||
        !is(begin(0, 1 << 9), VMM_DONE, 1024, VMM_BLK_WRITE, 2) || !finishes(VMM_BLK_S_OK, 0, 1, 1)) {
        return 51;
    }
    if (!is(begin(1, 0), VMM_DONE, VMM_BLK_S_IOERR, VMM_BLK_REFUSED, 0) || !finishes(VMM_BLK_S_IOERR, 0, 1, 1)) {
        return 52;
    }
    request(1, 3, 1024, 1);
    if (!is(begin(0, 0), VMM_DONE, VMM_BLK_S_IOERR, VMM_BLK_REFUSED, 0)) {
        return 53;
    }
    request(4, 9, 0, 1);
    if (!is(begin(0, 0), VMM_DONE, 0, VMM_BLK_FLUSH, 0)) {
        return 54;
    }
    request(8, 9, 0, 31);
    if (!is(begin(0, 0), VMM_DONE, 20, VMM_BLK_GET_ID, 0) || !finishes(VMM_BLK_S_OK, 20, 31, 20)) {
        return 55;
    }
    request(2, 0, 0, 2);
    if (!is(begin(0, 0), VMM_DONE, VMM_BLK_S_UNSUPP, VMM_BLK_REFUSED, 0) || !finishes(VMM_BLK_S_UNSUPP, 0, 2, 0)) {
        return 56;
    }
    request(4, 0, 0, 0);
    return is(begin(0, 0), VMM_DONE, 0, VMM_BLK_UNSERVED, 0) &&
                   is(vmm_finish_request(&session, 0, 0, 0, 1, 5), VMM_DONE, 0, 0, 0)
               ? 0
               : 57;
}

/* Calls of requests that mean nothing. */
static int no_requests(void) {
    request(4, 0, 0, 1);
    vmm_blk_limits limits = {4, 0, 0, 0, 0};
    if (vmm_begin_request(&session, 0, 0, 1, limits).code != VMM_NOT_IN_FLIGHT ||
        vmm_finish_request(&session, 0, 0, 1, 0, 0).code != VMM_NOT_IN_FLIGHT) {
        return 60;
    }
    vmm_request call = vmm_on(VMM_BEGIN_REQUEST, 0, 0, 0);
    call.access = VMM_W;
    if (vmm_asked(&session, &call, NULL, 0, NULL, 0).code != VMM_BAD_CALL) {
        return 61;
    }
    call = vmm_on(VMM_FINISH_REQUEST, 0, 0, 0);
    call.value = 256;
    return vmm_asked(&session, &call, NULL, 0, NULL, 0).code == VMM_BAD_CALL ? 0 : 62;
}

/* What queue 1's chain asks for, if the driver keeps these limits. */
static vmm_answer begin_within(uint32_t seg_max, uint32_t size_max) {
    vmm_blk_limits limits = {4, 1 << 9, 0, 0, 0};
    limits.seg_max = seg_max;
    limits.size_max = size_max;
    return vmm_begin_request(&session, 1, 0, 0, limits);
}

/* A write of two sectors in two segments, in flight in a queue of its own. */
static int segments(void) {
    static const uint64_t wanted[] = {DATA, 16, DATA + 0x200, 512, DATA + 0x600, 512, DATA + 0x1000, 1};
    uint8_t list[64];
    vmm_store(&session, 0, 2, AVAIL + 2, 0);
    vmm_store(&session, 0, 4, DATA, 1);
    vmm_store(&session, 0, 8, DATA + 8, 2);
    for (size_t i = 0; i < 4; i++) {
        put(i, wanted[2 * i], (uint32_t)wanted[2 * i + 1], i == 3 ? 2 : 1, i + 1);
    }
    publish(0, 0);
    if (!is(vmm_queue(&session, 4, 4), VMM_DONE, 0, 1, 0)) {
        return 80;
    }
    vmm_set_desc_table(&session, 1, TABLE);
    vmm_set_avail_ring(&session, 1, AVAIL);
    vmm_set_used_ring(&session, 1, USED);
    vmm_set_queue_ready(&session, 1, 1);
    if (!is(vmm_pop(&session, 1, 0), VMM_DONE, 1040, 0, 1)) {
        return 81;
    }
    if (!is(begin_within(2, 512), VMM_DONE, 1024, VMM_BLK_WRITE, 2) ||
        !is(begin_within(1, 0), VMM_DONE, VMM_BLK_S_IOERR, VMM_BLK_REFUSED, 0) ||
        !is(begin_within(0, 511), VMM_DONE, VMM_BLK_S_IOERR, VMM_BLK_REFUSED, 0)) {
        return 82;
    }
    if (vmm_list_segments(&session, 1, 1, list, sizeof list).code != VMM_NOT_IN_FLIGHT ||
        !is(vmm_list_segments(&session, 1, 0, list, 63), VMM_SHORT, 64, 0, 0) ||
        !is(vmm_list_segments(&session, 1, 0, list, sizeof list), VMM_DONE, 4, 3, 0)) {
        return 83;
    }
    for (size_t i = 0; i < 8; i++) {
        if (vmm_number(list, i) != wanted[i]) {
            return 84;
        }
    }
    return 0;
}

/* A message of a front end, which announced the block's first half as its memory from USER on. */
enum { USER = 0x700000 };

typedef struct update {
    uint8_t message[32];
    vmm_user_region announced[1];
} update;

static update message(uint64_t iova, uint64_t size, uint64_t user, uint8_t permissions, uint8_t kind) {
    update made = {{0}, {{USER, 0, 0x4000}}};
    uint64_t numbers[3];
    numbers[0] = iova;
    numbers[1] = size;
    numbers[2] = user;
    for (size_t i = 0; i < 24; i++) {
        made.message[i] = (uint8_t)(numbers[i / 8] >> 8 * (i % 8));
    }
    made.message[24] = permissions;
    made.message[25] = kind;
    return made;
}

/* Memory 1 lies behind a table of one range. */
static int messages(void) {
    update map = message(0x100, 0x10, USER + 0x3000, VMM_RW, 2), other = message(0x110, 0x10, USER + 0x3100, VMM_RW, 2);
    update bad = message(0x100, 0x10, USER + 0x3ff8, VMM_RW, 2), none = message(0, 0, 0, 0, 3);
    vmm_answer answer;
    vmm_space(&session, 0x10000, 0x1000);
    vmm_limited_table(&session, 1);
    vmm_translator(&session, 0);
    if (!is(vmm_memory(&session, 0, 0, 0, 1), VMM_DONE, 0, 1, 0)) {
        return 70;
    }
    if (vmm_iotlb_message(&session, 0, &map, sizeof map).code != VMM_NO_IOTLB ||
        vmm_iotlb_message(&session, 9, &map, sizeof map).code != VMM_NO_SUCH ||
        vmm_iotlb_message(&session, 1, &map, 33).code != VMM_BAD_CALL ||
        vmm_iotlb_message(&session, 1, &map, 32).code != VMM_MESSAGE_USER_ADDRESS ||
        vmm_iotlb_message(&session, 1, &bad, sizeof bad).code != VMM_MESSAGE_USER_ADDRESS) {
        return 71;
    }
    answer = vmm_writex(&session, 1, 0x100, "ab", 2);
    if (answer.code != VMM_IOMMU_MISSING || answer.miss.access != VMM_W || answer.miss.address != 0x100 ||
        answer.miss.length != 2 || !done(vmm_iotlb_message(&session, 1, &map, sizeof map)) ||
        !done(vmm_writex(&session, 1, 0x100, "ab", 2)) ||
        !is(vmm_load(&session, 0, 2, 0x3000), VMM_DONE, 0, 0x6261, 0)) {
        return 72;
    }
    /* Two pages that are not mapped to neighbours need two ranges. */
    for (int i = 0; i < 2; i++) {
        answer = vmm_writex(&session, 1, 0x10f, "cd", 2);
        if (answer.code != VMM_IOMMU_MISSING ||
            !done(vmm_iotlb_message(&session, 1, answer.miss.address < 0x110 ? &map : &other, sizeof map))) {
            return 73;
        }
    }
    answer = vmm_writex(&session, 1, 0x10f, "cd", 2);
    if (answer.code != VMM_IOTLB_TOO_SMALL || answer.miss.access != VMM_W || answer.miss.length != 1) {
        return 74;
    }
    return done(vmm_iotlb_message(&session, 1, &none, 32)) &&
                   vmm_writex(&session, 1, 0x100, "ab", 2).code == VMM_IOMMU_MISSING
               ? 0
               : 75;
}

/* Each code has a text of its own. */
static int texts(void) {
    static const uint32_t ranges[][2] = {{0, 6},   {16, 16}, {18, 22},   {32, 54},  {57, 61},
                                         {64, 67}, {70, 86}, {100, 118}, {120, 125}};
    const char *none = vmm_code_text(1000);
    for (size_t i = 0; i < sizeof ranges / sizeof *ranges; i++) {
        for (uint32_t code = ranges[i][0]; code <= ranges[i][1]; code++) {
            if (strcmp(vmm_code_text(code), none) == 0) {
                return 40;
            }
            for (uint32_t other = 0; other < code; other++) {
                if (strcmp(vmm_code_text(other), vmm_code_text(code)) == 0) {
                    return 41;
                }
            }
        }
    }
    return strcmp(vmm_code_text(17), none) == 0 && strcmp(vmm_code_text(68), none) == 0 ? 0 : 42;
}

int main(void) {
    uint8_t region[8] = {0};
    if (vmm_open(&session) != VMM_DONE) {
        return 1;
    }
    vmm_block(&session, 0x8000, 0x1000);
    vmm_region(&session, 0, 0);
    vmm_layout(&session, region, sizeof region);
    vmm_plain(&session, 0);
    int (*const tests[])(void) = {parts,       chains,   in_flight, notifications, requests,
                                  no_requests, segments, messages,  texts};
    for (size_t i = 0; i < sizeof tests / sizeof *tests; i++) {
        int failed = tests[i]();
        if (failed) {
            return failed;
        }
    }
    vmm_close(&session);
    return 0;
}
