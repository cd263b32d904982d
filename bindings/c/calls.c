/* Each function of the header on a session, called with arguments of which no two are alike, and what is answered by
 * docs/BINDINGS.md and bindings/commands.txt. It ends with 0, or names the first line of which the answer is another
 * one.
 */
#include "vm_memory.h"

#include <stdio.h>
#include <string.h>

static vmm_session session, *const s = &session;
static uint8_t own[0x1800], bytes[0x200], list[64];
static int failed;

static void holds(int line, int it) {
    if (!it && !failed) {
        failed = line;
    }
}

static void is(int line, vmm_answer answer, uint32_t code, size_t count, uint64_t value, uint64_t address) {
    holds(line, answer.code == code && answer.count == count && answer.value == value && answer.address == address);
}

#define HOLDS(it) holds(__LINE__, it)
#define IS(answer, code, count, value, address) is(__LINE__, answer, code, count, value, address)
/* A call that returns a number or nothing. */
#define MAKES(answer, number) IS(answer, VMM_DONE, 0, number, 0)
#define DONE(answer) IS(answer, VMM_DONE, 0, 0, 0)
#define REFUSED(answer, code) IS(answer, code, 0, 0, 0)

/* The list of these numbers, and its size in bytes. */
static size_t numbers(const uint64_t *these, size_t count) {
    for (size_t i = 0; i < 8 * count; i++) {
        list[i] = (uint8_t)(these[i / 8] >> 8 * (i % 8));
    }
    return 8 * count;
}

static int are(uint64_t first, uint64_t second) {
    return vmm_number(list, 0) == first && vmm_number(list, 1) == second;
}

/* What has the number 0 is used by no call that could not do without it. Block 1 has pages of 0x1000 bytes, 2 of 0x800,
 * and 3 of 0x400; region 1 is at 0x10000, 2 at 0x20000, and 3 follows 1. */
static void setup(void) {
    vmm_place place = {own, sizeof own}, nowhere = {NULL, 1};
    MAKES(vmm_block(s, 0x400, 0x400), 0);
    MAKES(vmm_block(s, 0x3000, 0x1000), 1);
    MAKES(vmm_block(s, 0x2000, 0x800), 2);
    MAKES(vmm_block_at(s, place, 0x400), 3);
    REFUSED(vmm_block_at(s, nowhere, 0x400), VMM_INVALID_SIZE);
    REFUSED(vmm_block(s, 0, 0x400), VMM_INVALID_SIZE);
    REFUSED(vmm_block(s, 0x400, 0), VMM_BAD_CALL);
    MAKES(vmm_space(s, 0x1000, 0x1000), 0);
    MAKES(vmm_space(s, 0x100000, 0x1000), 1);
    MAKES(vmm_space(s, 0x200000, 0x2000), 2);
    MAKES(vmm_table(s), 0);
    MAKES(vmm_limited_table(s, 0x102), 1);
    REFUSED(vmm_limited_table(s, 0), VMM_BAD_CALL);
    MAKES(vmm_table(s), 2);
    MAKES(vmm_region(s, 0, 0x50000), 0);
    MAKES(vmm_region(s, 1, 0x10000), 1);
    MAKES(vmm_region(s, 2, 0x20000), 2);
    MAKES(vmm_region(s, 3, 0x13000), 3);
    MAKES(vmm_translator(s, 0), 0);
    MAKES(vmm_translator(s, 2), 1);
    MAKES(vmm_translator(s, 1), 2);
    REFUSED(vmm_translator(s, 3), VMM_NO_SUCH);
}

/* Memory 1 has the regions 1 and 2, memory 2 the same behind table 2, whose writes mark space 2. Memory 3 has the same,
 * and table 1 and space 1 with the switch off, and memory 4 of these all three regions. */
static void layouts(void) {
    const uint64_t regions[] = {0, 1, 3};
    size_t size = numbers(regions, 3);
    MAKES(vmm_layout(s, list, 8), 0);
    MAKES(vmm_layout(s, list + 8, size - 8), 1);
    REFUSED(vmm_layout(s, list, size - 1), VMM_BAD_CALL);
    MAKES(vmm_insert(s, 1, 2), 2);
    REFUSED(vmm_insert(s, 2, 1), VMM_MEMORY_REGION_OVERLAP);
    MAKES(vmm_remove(s, 2, 0x13000, 0x1800), 3);
    REFUSED(vmm_remove(s, 2, 0x13000, 0x1000), VMM_NO_MEMORY_REGION);
    MAKES(vmm_plain(s, 0), 0);
    MAKES(vmm_plain(s, 3), 1);
    MAKES(vmm_memory(s, 3, 1, 2, 4), 2);
    MAKES(vmm_memory(s, 3, 2, 1, 0), 3);
    MAKES(vmm_replace(s, 3, 2), 4);
    REFUSED(vmm_replace(s, 1, 2), VMM_NO_SUCH);
}

static void accesses(void) {
    IS(vmm_write(s, 1, 0x12ffd, "\1\2\3\4", 4), VMM_DONE, 3, 0, 0);
    memset(bytes, 9, sizeof bytes);
    IS(vmm_read(s, 1, 0x12efe, bytes, 0x104), VMM_DONE, 0x102, 0, 0);
    HOLDS(bytes[0] == 0 && memcmp(bytes + 0xff, "\1\2\3\11", 4) == 0);
    IS(vmm_readx(s, 1, 0x12efe, bytes, 0x104), VMM_PARTIAL_BUFFER, 0x102, 0x104, 0);
    memset(bytes, 9, sizeof bytes);
    IS(vmm_readx(s, 1, 0x12ffd, bytes, 3), VMM_DONE, 3, 0, 0);
    HOLDS(memcmp(bytes, "\1\2\3\11", 4) == 0);
    IS(vmm_writex(s, 1, 0x21ffe, "\5\6\7", 3), VMM_PARTIAL_BUFFER, 2, 3, 0);
    DONE(vmm_writex(s, 1, 0x20010, "\5\6\7", 3));
    DONE(vmm_store(s, 1, 2, 0x20010, 0x0904));
    MAKES(vmm_load(s, 1, 4, 0x20010), 0x070904);
    IS(vmm_load(s, 1, 2, 0x18000), VMM_INVALID_GUEST_ADDRESS, 0, 0, 0x18000);
    MAKES(vmm_check(s, 1, 0x20000, 0x2000, VMM_RW), 1);
    MAKES(vmm_check(s, 1, 0x20000, 0x2001, VMM_RW), 0);
    /* As many as both ranges have. */
    DONE(vmm_copy(s, 1, 0x2efe, 0x102, 2, 0x1d01, 0x101));
    MAKES(vmm_load(s, 1, 8, 0x21e00), 0x0201);
    REFUSED(vmm_copy(s, 1, 0x2efe, 0x103, 2, 0x1d01, 0x101), VMM_BAD_RANGE);
    REFUSED(vmm_copy(s, 1, 0x2efe, 0x102, 2, 0x1f00, 0x101), VMM_BAD_RANGE);
}

/* The first try of a source gives two bytes and the next one three, and a sink takes one and then the others. */
static void transfers(void) {
    const uint64_t gives[] = {5, 6, 7, VMM_GIVES, 8, 9, VMM_GIVES};
    const uint64_t takes[] = {VMM_TAKES, 1, VMM_TAKES, 0x200};
    size_t size = numbers(gives, 7);
    IS(vmm_from(s, 1, 0x20100, 0x102, list, size), VMM_DONE, 3, 0, 0);
    MAKES(vmm_load(s, 1, 4, 0x20100), 0x070605);
    DONE(vmm_fromx(s, 1, 0x20108, 4, list, size));
    MAKES(vmm_load(s, 1, 8, 0x20108), 0x08070605);
    IS(vmm_fromx(s, 1, 0x20108, 0x103, list, size), VMM_PARTIAL_BUFFER, 5, 0x103, 0);
    size = numbers(takes, 4);
    memset(bytes, 7, sizeof bytes);
    IS(vmm_tox(s, 1, 0x20108, 0x102, list, size, bytes), VMM_DONE, 0x102, 0, 0);
    HOLDS(memcmp(bytes, "\5\6\7\10\11\0", 6) == 0 && bytes[0x101] == 0 && bytes[0x102] == 7);
    IS(vmm_tox(s, 1, 0x21ffe, 0x104, list, size, bytes), VMM_PARTIAL_BUFFER, 2, 0x104, 0);
    memset(bytes, 7, sizeof bytes);
    IS(vmm_to(s, 1, 0x20108, 0x103, list, size, bytes), VMM_DONE, 0x103, 0, 0);
    IS(vmm_to(s, 1, 0x21ffe, 4, list, size, bytes), VMM_DONE, 2, 0, 0);
    HOLDS(memcmp(bytes, "\5\6\7", 3) == 0);
}

/* Table 2 leads 0x4000 to 0x11ff0, to be written alone, and table 1 has five ranges from 0x5000 on. */
static void tables(void) {
    vmm_answer answer;
    DONE(vmm_set(s, 2, 0x4000, 0x11ff0, 0x120, VMM_W));
    MAKES(vmm_check(s, 2, 0x4000, 0x120, VMM_W), 1);
    MAKES(vmm_check(s, 2, 0x4000, 0x120, VMM_R), 0);
    MAKES(vmm_check(s, 2, 0x4000, 0x121, VMM_W), 0);
    IS(vmm_lookup(s, 2, 0x4008, 0x110, VMM_W, list, 16), VMM_DONE, 1, 0, 0);
    HOLDS(are(0x11ff8, 0x110));
    IS(vmm_lookup(s, 2, 0x4008, 0x110, VMM_R, list, 16), VMM_FAILS, 0, 1, 0);
    HOLDS(are(0x4008, 0x110));
    answer = vmm_read(s, 2, 0x4002, bytes, 3);
    IS(answer, VMM_IOMMU_NOT_ALLOWED, 0, 3, 0x4002);
    HOLDS(answer.miss.access == VMM_R && answer.miss.address == 0x4002 && answer.miss.length == 3);
    DONE(vmm_store(s, 2, 4, 0x4004, 0x01020304));
    MAKES(vmm_load(s, 1, 4, 0x11ff4), 0x01020304);
    for (uint64_t at = 0; at < 5; at++) {
        DONE(vmm_set(s, 1, 0x5000 + 0x400 * at, 0x20000 + 0x300 * at, 0x100, VMM_RW));
    }
    IS(vmm_lookup(s, 1, 0x5010, 0x20, VMM_R, list, 16), VMM_DONE, 1, 0, 0);
    HOLDS(are(0x20010, 0x20));
}

/* The switch of memory 3 turns, and memory 4 was made of it while it was off. */
static void switches(void) {
    MAKES(vmm_check(s, 3, 0x20000, 2, VMM_R), 1);
    DONE(vmm_enable(s, 3, 4));
    MAKES(vmm_check(s, 3, 0x20000, 2, VMM_R), 0);
    MAKES(vmm_check(s, 3, 0x5000, 0x100, VMM_R), 1);
    DONE(vmm_enable(s, 3, 0));
    MAKES(vmm_check(s, 3, 0x20000, 2, VMM_R), 1);
    REFUSED(vmm_enable(s, 1, 5), VMM_NO_SUCH);
    MAKES(vmm_check(s, 4, 0x10000, 0x4800, VMM_R), 1);
    MAKES(vmm_check(s, 4, 0x20000, 1, VMM_R), 1);
    DONE(vmm_enable(s, 4, 1));
    MAKES(vmm_check(s, 4, 0x5000, 0x100, VMM_R), 1);
    DONE(vmm_enable(s, 4, 0));
}

/* The pages that the calls above wrote, and then marks of pages that none wrote. */
static void dirty_pages(void) {
    IS(vmm_dirty_space(s, 2, list, 8), VMM_DONE, 1, 0, 0);
    HOLDS(vmm_number(list, 0) == 2);
    IS(vmm_dirty_space(s, 1, list, 8), VMM_DONE, 0, 0, 0);
    IS(vmm_harvest_space(s, 2, list, 7), VMM_SHORT, 8, 0, 0);
    IS(vmm_harvest_space(s, 2, list, 8), VMM_DONE, 1, 0, 0);
    IS(vmm_dirty_space(s, 2, list, 8), VMM_DONE, 0, 0, 0);
    IS(vmm_dirty_block(s, 2, list, 16), VMM_DONE, 2, 0, 0);
    HOLDS(are(0, 3));
    IS(vmm_harvest_block(s, 2, list, 16), VMM_DONE, 2, 0, 0);
    HOLDS(are(0, 3));
    IS(vmm_dirty_block(s, 2, list, 16), VMM_DONE, 0, 0, 0);
    /* What went through an I/O table is marked in its space alone. */
    IS(vmm_harvest_block(s, 1, list, 16), VMM_DONE, 1, 0, 0);
    HOLDS(vmm_number(list, 0) == 2);
    DONE(vmm_mark_block(s, 2, 0xf00, 0x200));
    IS(vmm_dirty_block(s, 2, list, 16), VMM_DONE, 2, 0, 0);
    HOLDS(are(1, 2));
    IS(vmm_mark_reached(s, 2, 0x4000, 0x120), VMM_DONE, 0x120, 0, 0);
    IS(vmm_dirty_block(s, 1, list, 16), VMM_DONE, 2, 0, 0);
    HOLDS(are(1, 2));
    IS(vmm_dirty_space(s, 2, list, 8), VMM_DONE, 0, 0, 0);
    MAKES(vmm_load(s, 1, 4, 0x11ff4), 0x01020304);
}

/* Mappings are taken back, one comes by a message, and table 1 keeps its own. */
static void mappings(void) {
    struct {
        uint8_t message[32];
        vmm_user_region announced;
    } update = {{0}, {0x6ffff0, 0x20000, 0x1000}};
    DONE(vmm_invalidate(s, 2, 0x4008, 0x108));
    MAKES(vmm_check(s, 2, 0x4000, 8, VMM_W), 1);
    IS(vmm_lookup(s, 2, 0x4000, 0x118, VMM_W, list, 16), VMM_FAILS, 1, 0, 0);
    HOLDS(are(0x4008, 0x108));
    MAKES(vmm_check(s, 2, 0x4110, 0x10, VMM_W), 1);
    update.message[1] = 0x60;
    update.message[8] = 0x10;
    update.message[18] = 0x70;
    update.message[24] = VMM_R;
    update.message[25] = 2;
    REFUSED(vmm_iotlb_message(s, 1, &update, sizeof update), VMM_NO_IOTLB);
    DONE(vmm_iotlb_message(s, 2, &update, sizeof update));
    IS(vmm_lookup(s, 2, 0x6000, 0x10, VMM_R, list, 16), VMM_DONE, 1, 0, 0);
    HOLDS(are(0x20010, 0x10));
    DONE(vmm_clear(s, 2));
    MAKES(vmm_check(s, 2, 0x4000, 8, VMM_W), 0);
    IS(vmm_lookup(s, 1, 0x5000, 0x100, VMM_W, list, 16), VMM_DONE, 1, 0, 0);
    HOLDS(are(0x20000, 0x100));
    DONE(vmm_set(s, 2, 0x7000, 0x123456789abcde, 0x10, VMM_R));
    IS(vmm_lookup(s, 2, 0x7000, 0x10, VMM_R, list, 16), VMM_DONE, 1, 0, 0);
    HOLDS(are(0x123456789abcde, 0x10));
}

enum { TABLE = 0x10000, AVAIL = 0x10102, USED = 0x10204, RING = 0x10300, AREAS = 0x10400, DATA = 0x20400 };

/* A descriptor of the table or the ring at an address. */
static void put(uint64_t place, uint64_t address, uint32_t size, uint64_t third, uint64_t last) {
    DONE(vmm_store(s, 4, 8, place, address));
    DONE(vmm_store(s, 4, 4, place + 8, size));
    DONE(vmm_store(s, 4, 2, place + 12, third));
    DONE(vmm_store(s, 4, 2, place + 14, last));
}

/* Queue 1 is split and queue 2 packed. */
static void queues(void) {
    vmm_state state;
    MAKES(vmm_queue(s, 1, 1), 0);
    MAKES(vmm_queue(s, 0x200, 6), 1);
    MAKES(vmm_packed_queue(s, 0x105, 9), 2);
    REFUSED(vmm_queue(s, 0x105, 9), VMM_INVALID_MAX_SIZE);
    REFUSED(vmm_set_queue(s, 1, VMM_SIZE, 0x400), VMM_INVALID_QUEUE_SIZE);
    DONE(vmm_set_queue_size(s, 1, 0x100));
    DONE(vmm_set_desc_table(s, 1, TABLE));
    DONE(vmm_set_avail_ring(s, 1, AVAIL));
    DONE(vmm_set_used_ring(s, 1, USED));
    DONE(vmm_set_event_idx(s, 1, 6));
    DONE(vmm_set_next_avail(s, 1, 0xff05));
    DONE(vmm_set_next_used(s, 1, 0xfe07));
    REFUSED(vmm_set_vring_base(s, 1, 0), VMM_BAD_CALL);
    REFUSED(vmm_queue_is_valid(s, 1, 4), VMM_QUEUE_NOT_READY);
    DONE(vmm_set_queue_ready(s, 1, 8));
    MAKES(vmm_queue_is_valid(s, 1, 4), 1);
    MAKES(vmm_queue_is_valid(s, 1, 0), 0);
    IS(vmm_queue_state(s, 1, &state), VMM_DONE, 9, 0, 0);
    HOLDS(state.max_size == 0x200 && state.size == 0x100 && state.ready == 1 && state.event_idx_enabled == 1);
    HOLDS(state.desc_table == TABLE && state.avail_ring == AVAIL && state.used_ring == USED);
    HOLDS(state.next_avail == 0xff05 && state.next_used == 0xfe07);
    REFUSED(vmm_queue_state(s, 3, &state), VMM_NO_SUCH);
    HOLDS(state.size == 0x100);
    DONE(vmm_set_event_idx(s, 1, 0));
    DONE(vmm_set_queue_size(s, 1, 4));
    IS(vmm_queue_state(s, 1, &state), VMM_DONE, 9, 0, 0);
    HOLDS(state.event_idx_enabled == 0 && state.size == 4);
    DONE(vmm_store(s, 4, 2, USED + 2, 0xfe07));
}

/* The driver publishes the chain of descriptor 3, of which 0x140 bytes are read and 0x110 written, at an index. */
static void publish(uint64_t index) {
    put(TABLE + 16 * 3, DATA, 0x140, 1, 2);
    put(TABLE + 16 * 2, DATA + 0x200, 0x110, 2, 0);
    DONE(vmm_store(s, 4, 2, AVAIL + 4 + 2 * (index % 4), 3));
    DONE(vmm_store(s, 4, 2, AVAIL + 2, index + 1));
}

static void chains(void) {
    DONE(vmm_writex(s, 4, DATA + 0x104, "question", 8));
    REFUSED(vmm_pop(s, 3, 1), VMM_NO_SUCH);
    publish(0xff05);
    MAKES(vmm_avail_idx(s, 1, 4), 0xff06);
    MAKES(vmm_used_idx(s, 1, 4), 0xfe07);
    IS(vmm_pop(s, 1, 4), VMM_DONE, 0x140, 3, 0x110);
    IS(vmm_read_chain(s, 1, 4, 3, 5, bytes, 0x106), VMM_DONE, 0x106, 0, 0);
    HOLDS(memcmp(bytes + 0xff, "questio", 7) == 0);
    IS(vmm_write_chain(s, 1, 4, 3, 0x106, "answer", 6), VMM_DONE, 6, 0, 0);
    IS(vmm_write_chain(s, 1, 4, 3, 0x10c, "answer", 6), VMM_DONE, 4, 0, 0);
    MAKES(vmm_load(s, 4, 8, DATA + 0x308), 0x77736e6172657773);
    IS(vmm_list_segments(s, 1, 3, list, 32), VMM_DONE, 2, 1, 0);
    HOLDS(are(DATA, 0x140) && vmm_number(list, 2) == DATA + 0x200 && vmm_number(list, 3) == 0x110);
    DONE(vmm_add_used(s, 1, 4, 3, 0x10203));
    MAKES(vmm_load(s, 4, 8, USED + 4 + 8 * 3), 0x1020300000003);
    MAKES(vmm_used_idx(s, 1, 4), 0xfe08);
    MAKES(vmm_needs_notification(s, 1, 4), 1);
    publish(0xff06);
    IS(vmm_pop(s, 1, 4), VMM_DONE, 0x140, 3, 0x110);
    IS(vmm_complete_chain(s, 1, 4, 3, 0x104, "fourteen bytes", 14, 5), VMM_PARTIAL_BUFFER, 12, 14, 0);
    DONE(vmm_complete_chain(s, 1, 4, 3, 0x109, "done", 4, 0x20406));
    IS(vmm_readx(s, 4, DATA + 0x309, bytes, 4), VMM_DONE, 4, 0, 0);
    HOLDS(memcmp(bytes, "done", 4) == 0);
    MAKES(vmm_load(s, 4, 8, USED + 4), 0x2040600000003);
    publish(0xff07);
    IS(vmm_pop(s, 1, 4), VMM_DONE, 0x140, 3, 0x110);
    DONE(vmm_forget(s, 1, 3));
    REFUSED(vmm_forget(s, 1, 3), VMM_NOT_IN_FLIGHT);
}

static void notifications(void) {
    DONE(vmm_disable_notification(s, 1, 4));
    MAKES(vmm_load(s, 4, 2, USED), 1);
    DONE(vmm_enable_notification(s, 1, 4));
    MAKES(vmm_load(s, 4, 2, USED), 0);
    publish(0xff08);
    MAKES(vmm_enable_notification(s, 1, 4), 1);
    DONE(vmm_store(s, 4, 2, AVAIL, 1));
    MAKES(vmm_needs_notification(s, 1, 4), 0);
}

/* A write of sector 0x20005 whose chain has a header, a sector and room for a status. */
static void requests(void) {
    vmm_blk_limits limits = {0x20006, 1 << 9, 0, 3, 0x400}, few = {0x20006, 0, 0, 0, 0xff};
    vmm_blk_limits one = {0x20006, 0, 0, 1, 0}, read_only = {0x20006, 0, 1, 0, 0};
    DONE(vmm_store(s, 4, 4, DATA, 1));
    DONE(vmm_store(s, 4, 8, DATA + 8, 0x20005));
    put(TABLE + 16 * 3, DATA, 16, 1, 1);
    put(TABLE + 16 * 1, DATA + 0x400, 256, 1, 0);
    put(TABLE, DATA + 0x600, 256, 1, 2);
    IS(vmm_pop(s, 1, 4), VMM_DONE, 528, 3, 0x110);
    IS(vmm_begin_request(s, 1, 4, 3, limits), VMM_DONE, 512, VMM_BLK_WRITE, 0x20005);
    IS(vmm_begin_request(s, 1, 4, 3, few), VMM_DONE, VMM_BLK_S_IOERR, VMM_BLK_REFUSED, 0);
    IS(vmm_begin_request(s, 1, 4, 3, one), VMM_DONE, VMM_BLK_S_IOERR, VMM_BLK_REFUSED, 0);
    IS(vmm_begin_request(s, 1, 4, 3, read_only), VMM_DONE, VMM_BLK_S_IOERR, VMM_BLK_REFUSED, 0);
    limits.features = 0;
    IS(vmm_begin_request(s, 1, 4, 3, limits), VMM_DONE, 512, VMM_BLK_WRITE_STABLE, 0x20005);
    limits.sectors = 0x20005;
    IS(vmm_begin_request(s, 1, 4, 3, limits), VMM_DONE, VMM_BLK_S_IOERR, VMM_BLK_REFUSED, 0);
    /* The status lies after all bytes but one of those that can be written. */
    MAKES(vmm_finish_request(s, 1, 4, 3, VMM_BLK_S_UNSUPP, 0x10f), 0x110);
    MAKES(vmm_load(s, 4, 1, DATA + 0x30f), VMM_BLK_S_UNSUPP);
    MAKES(vmm_finish_request(s, 1, 4, 3, VMM_BLK_S_IOERR, 7), 7);
    DONE(vmm_forget(s, 1, 3));
}

/* The packed queue goes on at slot 4, with both wrap counters set. */
static void packed(void) {
    vmm_state state;
    REFUSED(vmm_set_next_avail(s, 2, 1), VMM_BAD_CALL);
    REFUSED(vmm_set_next_used(s, 2, 1), VMM_BAD_CALL);
    REFUSED(vmm_avail_idx(s, 2, 4), VMM_BAD_CALL);
    REFUSED(vmm_used_idx(s, 2, 4), VMM_BAD_CALL);
    DONE(vmm_set_queue_size(s, 2, 5));
    DONE(vmm_set_desc_table(s, 2, RING));
    DONE(vmm_set_avail_ring(s, 2, AREAS));
    DONE(vmm_set_used_ring(s, 2, AREAS + 8));
    DONE(vmm_set_queue_ready(s, 2, 1));
    DONE(vmm_set_vring_base(s, 2, 0x80048004));
    REFUSED(vmm_set_vring_base(s, 2, 0x80058004), VMM_INVALID_AVAIL_RING_INDEX);
    IS(vmm_queue_state(s, 2, &state), VMM_DONE, 9, 0, 0);
    HOLDS(state.size == 5 && state.next_avail == 0x8004 && state.next_used == 0x8004);
    REFUSED(vmm_pop(s, 2, 4), VMM_NO_CHAIN);
    put(RING + 16 * 4, DATA, 8, 3, 0x80);
    IS(vmm_pop(s, 2, 4), VMM_DONE, 8, 3, 0);
    DONE(vmm_add_used(s, 2, 4, 3, 0));
    MAKES(vmm_load(s, 4, 4, RING + 16 * 4 + 12), 0x80800003);
    DONE(vmm_reset_queue(s, 2));
    IS(vmm_queue_state(s, 2, &state), VMM_DONE, 9, 0, 0);
    HOLDS(state.size == 0x105 && state.ready == 0 && state.next_avail == 0x8000 && state.desc_table == 0);
}

/* What a block gives back names nothing, and the others stay. */
static void ends(void) {
    HOLDS(vmm_give_back(s, 2) == VMM_IN_USE);
    vmm_forget_regions(s);
    REFUSED(vmm_plain(s, 0), VMM_NO_SUCH);
    HOLDS(vmm_give_back(s, 2) == VMM_DONE && vmm_give_back(s, 2) == VMM_NO_SUCH);
    REFUSED(vmm_mark_block(s, 2, 0, 1), VMM_NO_SUCH);
    DONE(vmm_mark_block(s, 1, 0, 1));
    MAKES(vmm_region(s, 3, 0), 0);
    vmm_close(s);
    HOLDS(session.at == NULL);
}

/* Each code has its text from one function, and the texts of an access and of a queue are all of vmm_code_text. */
static void texts(void) {
    const char *none = vmm_code_text(1000);
    for (uint32_t code = 0; code < 200; code++) {
        int is_queue = (code >= 19 && code <= 22) || (code >= 70 && code <= 86);
        int is_iotlb = code == 53 || code == 54 || (code >= 57 && code <= 61);
        int is_vhost = code >= 100 && code <= 125 && code != 119;
        int is_access = code >= 32 && code <= 52;
        int is_other = code <= 7 || code == 16 || code == 18 || (code >= 64 && code <= 67);
        const char *const of[] = {vmm_access_text(code), vmm_queue_text(code), vmm_iotlb_text(code),
                                  vmm_vhost_text(code)};
        const int wanted[] = {is_access, is_queue, is_iotlb, is_vhost};
        for (size_t i = 0; i < 4; i++) {
            HOLDS((of[i] != NULL) == (wanted[i] != 0));
            HOLDS(!of[i] || strcmp(of[i], vmm_code_text(code)) == 0);
        }
        HOLDS((strcmp(vmm_code_text(code), none) != 0) == (is_access || is_queue || is_iotlb || is_vhost || is_other));
    }
}

int main(void) {
    void (*const tests[])(void) = {setup,  layouts, accesses,      transfers, tables, switches, dirty_pages, mappings,
                                   queues, chains,  notifications, requests,  packed, ends,     texts};
    if (vmm_open(s) != VMM_DONE) {
        return 1;
    }
    for (size_t i = 0; i < sizeof tests / sizeof *tests; i++) {
        tests[i]();
    }
    if (failed) {
        fprintf(stderr, "line %d\n", failed);
    }
    return failed != 0;
}
