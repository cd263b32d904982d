/* A block device's back end as a state machine: a front end's messages by hand, and what is to be done after each. It
 * ends with 0, or the number of what failed. */
#include "vm_memory.h"

#include <string.h>

enum {
    GET_FEATURES = 1,
    SET_MEM_TABLE = 5,
    SET_VRING_KICK = 12,
    SET_PROTOCOL_FEATURES = 16,
    GET_INFLIGHT_FD = 31,
    SET_INFLIGHT_FD = 32,
    OUTPUT = 280,
    ROOM = 8
};

#define GUEST 0x100000u
#define USER 0x7f0000000000u
#define LEN 0x2000u

static vmm_backend connection;
static uint8_t message[64], output[OUTPUT], file[LEN];
static size_t message_size;
static vmm_backend_action actions[ROOM];
static vmm_backend_piece pieces[16];
static vmm_backend_counts counts;

/* Adds a number to the message, of this size, the lowest byte first. */
static void put(uint64_t number, size_t size) {
    for (size_t i = 0; i < size; i++) {
        message[message_size++] = (uint8_t)(number >> 8 * i);
    }
}

/* Begins a message of the version 1. */
static void begin(uint32_t number, uint32_t payload_size) {
    message_size = 0;
    put(number, 4);
    put(1, 4);
    put(payload_size, 4);
}

static uint32_t tell(size_t descriptors) {
    return vmm_backend_message(&connection, message, message_size, descriptors);
}

/* Whether a run gives exactly one action, of this kind. */
static int gives(uint32_t kind) {
    vmm_backend_run(&connection, NULL, 0, 1, actions, ROOM, pieces, 16, output, OUTPUT, &counts);
    return counts.actions == 1 && actions[0].kind == kind;
}

static int opened(void) {
    vmm_vhost_offer offer = {1ull << 30 | 1ull << 32, 1 << 12, 1, 256, 0, 0};
    const vmm_backend_disk disk = {2048, 126, 4096, 0, 4096, 0};
    const uint8_t config[8] = {0, 8, 0, 0, 0, 0, 0, 0};
    offer.queues = 0;
    if (vmm_backend_open(&connection, &offer, config, sizeof config, &disk) != VMM_VHOST_OFFER || connection.at) {
        return 1;
    }
    offer.queues = 1;
    return vmm_backend_open(&connection, &offer, config, sizeof config, &disk) == VMM_DONE && connection.at ? 0 : 2;
}

static int features(void) {
    vmm_vhost_negotiated state;
    begin(GET_FEATURES, 0);
    if (tell(0) != 0 || !gives(VMM_BACKEND_SEND) || actions[0].len != 20 || counts.bytes != 20) {
        return 10;
    }
    if (output[0] != GET_FEATURES || output[4] != 5 || output[16] != 1 || output[12] != 0 || output[15] != 0x40) {
        return 11;
    }
    vmm_backend_sent(&connection, 20);
    vmm_backend_kick(&connection, 0);
    vmm_backend_resize(&connection, 1024);
    vmm_backend_state(&connection, &state);
    return state.queues == 1 && state.regions == 0 ? 0 : 12;
}

static void table(void) {
    begin(SET_MEM_TABLE, 40);
    put(1, 8);
    put(GUEST, 8);
    put(LEN, 8);
    put(USER, 8);
    put(0x3000, 8);
}

static int memory(void) {
    vmm_vhost_negotiated state;
    vmm_place place;
    table();
    if (tell(1) != 0 || tell(1) != 1) {
        return 20;
    }
    vmm_backend_run(&connection, NULL, 0, 1, actions, ROOM, pieces, 16, output, OUTPUT, &counts);
    if (counts.actions != 2 || actions[0].kind != VMM_BACKEND_UNMAP_ALL || actions[1].kind != VMM_BACKEND_MAP ||
        counts.state != 1) {
        return 21;
    }
    if (actions[1].id != 0 || actions[1].place != 0x3000 || actions[1].len != LEN || actions[1].guest != GUEST ||
        actions[1].user != USER) {
        return 22;
    }
    place.at = file;
    place.size = LEN;
    if (vmm_backend_mapped(&connection, place) != 0) {
        return 23;
    }
    vmm_backend_run(&connection, NULL, 0, 1, actions, ROOM, pieces, 16, output, OUTPUT, &counts);
    vmm_backend_state(&connection, &state);
    return counts.actions == 0 && counts.state == 0 && state.regions == 1 ? 0 : 24;
}

/* A descriptor of notifications is kept, and then one is not. */
static int ring(void) {
    begin(SET_VRING_KICK, 8);
    put(0, 8);
    if (tell(1) != 0 || !gives(VMM_BACKEND_KEEP) || actions[0].way != 1 || actions[0].ring != 0 ||
        actions[0].count != 1) {
        return 30;
    }
    vmm_backend_done(&connection);
    vmm_backend_run(&connection, NULL, 0, 1, actions, ROOM, pieces, 16, output, OUTPUT, &counts);
    if (counts.state != 0) {
        return 31;
    }
    if (tell(1) != 0 || !gives(VMM_BACKEND_KEEP)) {
        return 32;
    }
    vmm_backend_failed(&connection);
    return gives(VMM_BACKEND_END) && actions[0].way == 2 && counts.state == 3 && tell(1) != 0 ? 0 : 33;
}

/* A message on a region for a ring of 16 descriptors: 272 bytes, rounded up by 64. */
static void region(uint32_t number, uint64_t place) {
    begin(number, 20);
    put(320, 8);
    put(place, 8);
    put(1, 2);
    put(16, 2);
}

/* A region of requests in flight is made for the front end. */
static int made(void) {
    const uint32_t failed = opened();
    if (failed) {
        return (int)failed;
    }
    begin(SET_PROTOCOL_FEATURES, 8);
    put(1 << 12, 8);
    if (tell(0) != 0 || gives(VMM_BACKEND_SEND) || counts.state != 0) {
        return 60;
    }
    region(GET_INFLIGHT_FD, 0);
    if (tell(0) != 0 || !gives(VMM_BACKEND_FILE) || actions[0].len != 320 || actions[0].place != 0) {
        return 61;
    }
    vmm_backend_done(&connection);
    if (!gives(VMM_BACKEND_SEND) || actions[0].len != 32 || output[0] != GET_INFLIGHT_FD || output[12] != 0x40 ||
        output[13] != 1) {
        return 62;
    }
    vmm_backend_sent(&connection, 32);
    return 0;
}

/* The front end gives one, twice, and then no other can be made. */
static int given(void) {
    static uint8_t regions[2][320];
    vmm_place place;
    for (size_t i = 0; i < 2; i++) {
        region(SET_INFLIGHT_FD, 0x7000);
        if (tell(1) != 0 || !gives(VMM_BACKEND_REGION) || actions[0].len != 320 || actions[0].place != 0x7000) {
            return 63;
        }
        place.at = regions[i];
        place.size = sizeof regions[i];
        vmm_backend_track(&connection, place);
        vmm_backend_done(&connection);
        if (gives(VMM_BACKEND_END) || counts.actions != 0 || counts.state != 0) {
            return 64;
        }
    }
    region(GET_INFLIGHT_FD, 0);
    if (tell(0) != 0 || !gives(VMM_BACKEND_FILE)) {
        return 65;
    }
    vmm_backend_failed(&connection);
    vmm_backend_run(&connection, NULL, 0, 1, actions, ROOM, pieces, 16, output, OUTPUT, &counts);
    if (counts.actions == 0 || actions[counts.actions - 1].kind != VMM_BACKEND_END ||
        actions[counts.actions - 1].way != 2) {
        return 66;
    }
    vmm_backend_close(&connection);
    return 0;
}

static int hung_up(void) {
    const uint32_t failed = opened();
    if (failed) {
        return (int)failed;
    }
    vmm_backend_hang_up(&connection);
    if (!gives(VMM_BACKEND_END) || actions[0].way != 6 || counts.state != 3) {
        return 40;
    }
    vmm_backend_close(&connection);
    return 0;
}

/* Nothing was asked for: a channel may be lost, and a reply ends the connection. */
static int unasked(void) {
    vmm_backend_table_counts table;
    const uint32_t failed = opened();
    if (failed) {
        return (int)failed;
    }
    vmm_backend_channel_lost(&connection);
    vmm_backend_table(&connection, &table);
    if (table.misses || table.updates || table.invalidations || table.evictions) {
        return 50;
    }
    message_size = 0;
    put(1, 4);
    put(5, 4);
    put(8, 4);
    put(0, 8);
    if (vmm_backend_answered(&connection, message, message_size) != 1) {
        return 51;
    }
    if (!gives(VMM_BACKEND_END) || counts.state != 3) {
        return 52;
    }
    vmm_backend_close(&connection);
    return 0;
}

int main(void) {
    int failed = opened();
    failed = failed ? failed : features();
    failed = failed ? failed : memory();
    failed = failed ? failed : ring();
    vmm_backend_close(&connection);
    failed = failed ? failed : hung_up();
    failed = failed ? failed : made();
    failed = failed ? failed : given();
    return failed ? failed : unasked();
}
