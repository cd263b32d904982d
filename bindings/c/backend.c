/* A vhost-user back end's connection: a front end's messages by hand, and what each leaves. It ends with 0, or the number
 * of what failed. */
#include "vm_memory.h"

#include <string.h>

enum {
    GET_FEATURES = 1,
    SET_FEATURES = 2,
    SET_MEM_TABLE = 5,
    SET_LOG_BASE = 6,
    SET_VRING_NUM = 8,
    SET_VRING_ADDR = 9,
    GET_VRING_BASE = 11,
    SET_VRING_KICK = 12,
    SET_PROTOCOL_FEATURES = 16,
    GET_CONFIG = 24,
    GET_INFLIGHT_FD = 31,
    SET_INFLIGHT_FD = 32
};

/* The address of the front end's memory. The guest sees 64 KiB of it, from 1 MiB on. */
#define USER 0x7f0000000000u
#define GUEST 0x100000u

static vmm_vhost connection;
static uint8_t message[VMM_VHOST_MOST], reply[VMM_VHOST_MOST];
static size_t message_size;
static vmm_vhost_request request;

/* Adds a number to the message, of this size, the lowest byte first. */
static void put(uint64_t number, size_t size) {
    for (size_t i = 0; i < size; i++) {
        message[message_size++] = (uint8_t)(number >> 8 * i);
    }
}

/* Begins a message of the version 1. */
static void begin(uint32_t number, uint32_t payload_size) {
    message_size = 0;
    put(number, 4);
    put(1, 4);
    put(payload_size, 4);
}

static uint32_t handle(size_t descriptors) {
    return vmm_vhost_handle(&connection, message, message_size, descriptors, &request);
}

/* The last number of a reply of this size, or 0 if the reply is another one. */
static uint64_t replied(size_t size) {
    uint64_t number = 0;
    if (vmm_vhost_reply(&connection, message, message_size, reply, sizeof reply) != size || reply[4] != 5) {
        return 0;
    }
    for (size_t i = 0; i < 8; i++) {
        number |= (uint64_t)reply[size - 8 + i] << 8 * i;
    }
    return number;
}

static int opened(void) {
    vmm_vhost_offer offer = {1ull << 32, 0, 1, 256, 0, 0};
    const uint8_t config[8] = {0, 8, 0, 0, 0, 0, 0, 0};
    offer.queues = 0;
    if (vmm_vhost_open(&connection, &offer, config, sizeof config) != VMM_VHOST_OFFER || connection.at) {
        return 1;
    }
    offer.queues = 1;
    return vmm_vhost_open(&connection, &offer, config, sizeof config) == VMM_DONE && connection.at ? 0 : 2;
}

static int features(void) {
    vmm_vhost_negotiated state;
    begin(GET_FEATURES, 0);
    if (handle(1) != VMM_VHOST_DESCRIPTORS || handle(0) != VMM_DONE || request.request != GET_FEATURES) {
        return 10;
    }
    if (replied(20) != 1ull << 32) {
        return 11;
    }
    begin(SET_FEATURES, 8);
    put(3ull << 32, 8);
    if (handle(0) != VMM_VHOST_FEATURES || request.request != GET_FEATURES) {
        return 12;
    }
    message_size -= 8;
    put(1ull << 32, 8);
    if (handle(0) != VMM_DONE || request.value != 1ull << 32) {
        return 13;
    }
    vmm_vhost_state(&connection, &state);
    return state.features == 1ull << 32 && state.queues == 1 && state.regions == 0 && !state.is_owned ? 0 : 14;
}

static int memory(void) {
    vmm_vhost_wanted_bytes wanted;
    vmm_vhost_region_row region;
    begin(SET_MEM_TABLE, 40);
    if (vmm_vhost_wanted(message, 5, &wanted) != VMM_DONE || wanted.bytes != 7 ||
        vmm_vhost_wanted(message, 12, &wanted) != VMM_DONE || wanted.bytes != 40 || wanted.descriptors != 8) {
        return 20;
    }
    put(1, 8);
    put(GUEST, 8);
    put(0x10000, 8);
    put(USER, 8);
    put(0x2000, 8);
    if (handle(1) != VMM_DONE || request.request != SET_MEM_TABLE) {
        return 21;
    }
    if (vmm_vhost_region(&connection, 0, &region) != VMM_DONE || region.guest_address != GUEST ||
        region.size != 0x10000 || region.user_address != USER || region.mmap_offset != 0x2000) {
        return 22;
    }
    return vmm_vhost_region(&connection, 1, &region) == VMM_NO_SUCH && region.size == 0x10000 ? 0 : 23;
}

static int ring(void) {
    vmm_vhost_vring vring;
    if (vmm_vhost_running(&connection, 0, &vring) != VMM_VHOST_STOPPED) {
        return 30;
    }
    begin(SET_VRING_NUM, 8);
    put(0, 4);
    put(64, 4);
    if (handle(0) != VMM_DONE || request.index != 0 || request.value != 64) {
        return 31;
    }
    begin(SET_VRING_ADDR, 40);
    put(0, 8);
    put(USER, 8);
    put(USER + 0x2000, 8);
    put(USER + 0x1000, 8);
    put(0, 8);
    if (handle(0) != VMM_DONE) {
        return 32;
    }
    begin(SET_VRING_KICK, 8);
    put(0, 8);
    if (handle(1) != VMM_DONE || request.flag != 1) {
        return 33;
    }
    if (vmm_vhost_running(&connection, 0, &vring) != VMM_DONE || vring.size != 64 || vring.base != 0 ||
        vring.descriptor != GUEST || vring.available != GUEST + 0x1000 || vring.used != GUEST + 0x2000 ||
        vring.is_logged || vring.kick != 2 || vring.call != 0) {
        return 34;
    }
    begin(GET_VRING_BASE, 8);
    put(0, 8);
    if (vmm_vhost_stop(&connection, 0, 9) != VMM_VHOST_STARTED || handle(0) != VMM_DONE ||
        vmm_vhost_stop(&connection, 0, 9) != VMM_DONE || replied(20) != 9ull << 32) {
        return 35;
    }
    return vmm_vhost_running(&connection, 0, &vring) == VMM_VHOST_STOPPED ? 0 : 36;
}

/* A message that is refused, and its reply: a GET_CONFIG is answered without a payload, and only if there is room. */
static int refused(void) {
    vmm_vhost_wanted_bytes wanted;
    uint8_t config[8];
    begin(GET_CONFIG, 16);
    put(0, 4);
    put(4, 4);
    put(0, 8);
    if (handle(0) != VMM_VHOST_NOT_NEGOTIATED) {
        return 40;
    }
    memset(reply, 7, sizeof reply);
    if (vmm_vhost_refuse(&connection, message, message_size, reply, 11) != 12 || reply[0] != 7) {
        return 41;
    }
    if (vmm_vhost_refuse(&connection, message, message_size, reply, 12) != 12 || reply[0] != GET_CONFIG || reply[8]) {
        return 42;
    }
    if (vmm_vhost_handle(&connection, message, 11, 0, &request) != VMM_VHOST_HEADER ||
        vmm_vhost_wanted(reply, 12, &wanted) != VMM_VHOST_DIRECTION) {
        return 43;
    }
    return vmm_vhost_config(&connection, config, sizeof config) == 8 && config[1] == 8 ? 0 : 44;
}

/* Bytes of the configuration change by themselves, as far as it has them. */
static int changed(void) {
    const uint8_t bytes[3] = {0x21, 0x32, 0x43};
    uint8_t config[8] = {0};
    if (vmm_vhost_change_config(&connection, 5, bytes, 3) != VMM_DONE ||
        vmm_vhost_change_config(&connection, 6, bytes, 3) != VMM_VHOST_CONFIG_RANGE ||
        vmm_vhost_config(&connection, config, 7) != 8 || config[1] != 0) {
        return 60;
    }
    return vmm_vhost_config(&connection, config, 8) == 8 && memcmp(config, "\0\10\0\0\0\x21\x32\x43", 8) == 0 ? 0 : 61;
}

/* Whether the output has these numbers of four bytes each in front, and so many zeros after them. */
static int has(const uint32_t *numbers, size_t count, size_t zeros) {
    for (size_t i = 0; i < 4 * count; i++) {
        if (reply[i] != (uint8_t)(numbers[i / 4] >> 8 * (i % 4))) {
            return 0;
        }
    }
    for (size_t i = 0; i < zeros; i++) {
        if (reply[4 * count + i] != 0) {
            return 0;
        }
    }
    return reply[4 * count + zeros] == 0xee;
}

/* The messages of the back end's own channel. The access and the kind follow three numbers of eight bytes. */
static int asked(void) {
    static const uint32_t miss[] = {1, 9, 32, 0x55667788, 0x11223344}, fail[] = {1, 1, 32, 0x9abcdef0, 0x12345678};
    static const uint32_t change[] = {2, 1, 0};
    memset(reply, 0xee, sizeof reply);
    if (vmm_vhost_miss(0x1122334455667788u, VMM_W, reply, 43) != 44 || reply[0] != 0xee ||
        vmm_vhost_miss(1, VMM_NO, reply, sizeof reply) != 0 || reply[0] != 0xee) {
        return 70;
    }
    if (vmm_vhost_miss(0x1122334455667788u, VMM_W, reply, 44) != 44 || reply[36] != VMM_W || reply[37] != 1) {
        return 71;
    }
    reply[36] = reply[37] = 0;
    if (!has(miss, 5, 24)) {
        return 72;
    }
    memset(reply, 0xee, sizeof reply);
    if (vmm_vhost_access_fail(0x123456789abcdef0u, VMM_R, reply, sizeof reply) != 44 || reply[36] != VMM_R ||
        reply[37] != 4) {
        return 73;
    }
    reply[36] = reply[37] = 0;
    if (!has(fail, 5, 24)) {
        return 74;
    }
    memset(reply, 0xee, sizeof reply);
    return vmm_vhost_config_change(reply, 11) == 12 && reply[0] == 0xee &&
                   vmm_vhost_config_change(reply, sizeof reply) == 12 && has(change, 3, 0)
               ? 0
               : 75;
}

/* What a front end replies there, of a version, to a request. */
static uint32_t answered(uint32_t number, uint32_t flags, size_t size, uint64_t *value) {
    message_size = 0;
    put(number, 4);
    put(flags, 4);
    put(8, 4);
    put(0x8877665544332211u, 8);
    return vmm_vhost_answered(message, size, value);
}

static int answers(void) {
    uint64_t value = 7;
    if (answered(1, 5, 11, &value) != VMM_VHOST_HEADER || answered(1, 6, 20, &value) != VMM_VHOST_VERSION ||
        answered(1, 1, 20, &value) != VMM_VHOST_DIRECTION || answered(9, 5, 20, &value) != VMM_VHOST_REQUEST ||
        answered(1, 5, 19, &value) != VMM_VHOST_PAYLOAD_SIZE || value != 7) {
        return 80;
    }
    return answered(1, 5, 20, &value) == VMM_DONE && value == 0x8877665544332211u ? 0 : 81;
}

/* A connection with a log of 4 bytes, which has bits for 32 pages. */
static int logged(void) {
    vmm_vhost_offer offer = {1ull << 26 | 1ull << 30, 1 << 1, 2, 256, 0, 0};
    vmm_vhost_pages pages = {7, 7};
    vmm_vhost_negotiated state;
    vmm_vhost_close(&connection);
    if (vmm_vhost_open(&connection, &offer, reply, 0) != VMM_DONE) {
        return 90;
    }
    begin(SET_PROTOCOL_FEATURES, 8);
    put(1 << 1, 8);
    if (handle(0) != VMM_DONE || vmm_vhost_logged(&connection, 0x3fff, 0x1002, &pages) != VMM_DONE ||
        pages.count != 0) {
        return 91;
    }
    begin(SET_FEATURES, 8);
    put(1ull << 26, 8);
    handle(0);
    begin(SET_LOG_BASE, 16);
    put(4, 8);
    put(0x5000, 8);
    if (handle(1) != VMM_DONE || request.size != 4 || request.value != 0x5000) {
        return 92;
    }
    if (vmm_vhost_logged(&connection, 0x3fff, 0x1002, &pages) != VMM_DONE || pages.first != 3 || pages.count != 3) {
        return 93;
    }
    if (vmm_vhost_logged(&connection, 0x1ffff, 2, &pages) != VMM_VHOST_LOG || pages.first != 3 || pages.count != 3) {
        return 94;
    }
    vmm_vhost_state(&connection, &state);
    return state.features == 1ull << 26 && state.protocol_features == 1 << 1 && state.queues == 2 ? 0 : 95;
}

/* A region of what is in flight for 2 rings of 128 descriptors: 16 bytes and 16 for each, rounded up to 2,112 by 64. */
static int in_flight(void) {
    vmm_vhost_offer offer = {1ull << 30, 1 << 12, 2, 256, 0, 0};
    vmm_vhost_close(&connection);
    if (vmm_vhost_open(&connection, &offer, reply, 0) != VMM_DONE) {
        return 100;
    }
    begin(SET_PROTOCOL_FEATURES, 8);
    put(1 << 12, 8);
    if (handle(0) != VMM_DONE) {
        return 101;
    }
    begin(GET_INFLIGHT_FD, 20);
    put(0, 8);
    put(0, 8);
    put(2, 2);
    put(128, 2);
    if (handle(0) != VMM_DONE || request.index != 2 || request.queue_size != 128 || request.size != 0) {
        return 102;
    }
    if (replied(32) != (128ull << 48 | 2ull << 32) || reply[12] != 0x80 || reply[13] != 0x10) {
        return 103;
    }
    begin(SET_INFLIGHT_FD, 24);
    put(4224, 8);
    put(0x5000, 8);
    put(2, 2);
    put(128, 6);
    if (handle(1) != VMM_DONE || request.index != 2 || request.queue_size != 128 || request.value != 0x5000 ||
        request.size != 4224) {
        return 104;
    }
    message[12] = 0x7f;
    return handle(1) == VMM_VHOST_REGION_RANGE && request.size == 4224 ? 0 : 105;
}

int main(void) {
    int (*const tests[])(void) = {opened, features, memory, ring, refused, changed, asked, answers, logged, in_flight};
    for (size_t i = 0; i < sizeof tests / sizeof *tests; i++) {
        int failed = tests[i]();
        if (failed) {
            return failed;
        }
    }
    vmm_vhost_close(&connection);
    return connection.at ? 50 : 0;
}
