/*
 * The proved machine, for C11 and C++17.
 *
 * A session is a machine. Each function below is one call of it. If a script has a line for it (docs/SCRIPT.md), the
 * name and the order are those of the line, but what a script can only make before its first command can be made at any
 * time. A script has no queues. docs/BINDINGS.md has the rules.
 *
 * The caller opens a session before it calls it, and closes it once. It makes one call at a time of a session, from any
 * thread, keeps no pointer into it except those that vmm_shared_block gives, does not copy its handle, and gives true
 * lengths. An installed library is whole. Over libvm_memory_c.a alone build a program with vm_memory_heap.c, which has
 * the allocator that it calls, one with shared blocks also with vm_memory_shared.c, and one that asks for the version
 * also with vm_memory_version.c.
 */
#ifndef VM_MEMORY_H
#define VM_MEMORY_H

#include <stddef.h>
#include <stdint.h>

#ifdef __cplusplus
extern "C" {
#endif

/* The version of this header, a port of vm-memory 0.18.0, and that of the library that a program is linked with. */
#define VMM_VERSION "0.1.0"
const char *vmm_version(void);

/* The handle of a session. One that is zero is closed. */
typedef struct vmm_session {
    unsigned char *at;
} vmm_session;

/* clang-format off */
/* What is called, in the order of the lines of a script, and then what no script has a line for. These are the rows of
 * bindings/commands.txt. */
enum vmm_kind {
    VMM_BLOCK, VMM_SPACE, VMM_TABLE, VMM_LIMITED_TABLE, VMM_REGION, VMM_TRANSLATOR, VMM_LAYOUT,
    VMM_INSERT, VMM_REMOVE, VMM_PLAIN, VMM_MEMORY, VMM_REPLACE, VMM_ENABLE, VMM_READ, VMM_WRITE,
    VMM_READX, VMM_WRITEX, VMM_STORE, VMM_LOAD, VMM_FROM, VMM_FROMX, VMM_TO, VMM_TOX, VMM_CHECK,
    VMM_COPY, VMM_SET, VMM_INVALIDATE, VMM_CLEAR, VMM_LOOKUP, VMM_DIRTY_BLOCK, VMM_DIRTY_SPACE,
    VMM_HARVEST_BLOCK, VMM_HARVEST_SPACE, VMM_MARK_BLOCK, VMM_MARK_REACHED, VMM_QUEUE,
    VMM_SET_QUEUE, VMM_RESET_QUEUE, VMM_QUEUE_STATE, VMM_FORGET, VMM_QUEUE_IS_VALID, VMM_AVAIL_IDX,
    VMM_USED_IDX, VMM_POP, VMM_READ_CHAIN, VMM_WRITE_CHAIN, VMM_ADD_USED, VMM_NEEDS_NOTIFICATION,
    VMM_ENABLE_NOTIFICATION, VMM_DISABLE_NOTIFICATION, VMM_BEGIN_REQUEST, VMM_FINISH_REQUEST,
    VMM_IOTLB_MESSAGE, VMM_COMPLETE_CHAIN, VMM_PACKED_QUEUE, VMM_LIST_SEGMENTS
};

/* An access. */
enum vmm_access { VMM_NO, VMM_R, VMM_W, VMM_RW };

/* Why a call was refused, or 0. docs/BINDINGS.md says what the other fields of an answer mean for each. */
enum vmm_code {
    VMM_DONE = 0, VMM_NO_SUCH = 1, VMM_BAD_RANGE = 2, VMM_OUT_OF_MEMORY = 3, VMM_FAILS = 4,
    VMM_INVALID_SIZE = 5, VMM_INVALID_REGION = 6, VMM_IN_USE = 7,
    VMM_BAD_CALL = 16, VMM_SHORT = 18,
    VMM_NO_CHAIN = 19, VMM_IN_FLIGHT = 20, VMM_TOO_MANY = 21, VMM_NOT_IN_FLIGHT = 22,
    VMM_INVALID_GUEST_ADDRESS = 32,
    VMM_IO_INTERRUPTED = 33, VMM_IO_WRITE_ZERO = 34, VMM_IO_UNEXPECTED_EOF = 35, VMM_IO_OTHER = 36,
    VMM_PARTIAL_BUFFER = 37, VMM_INVALID_BACKEND_ADDRESS = 38, VMM_HOST_ADDRESS_NOT_AVAILABLE = 39,
    VMM_CALLBACK_OUT_OF_RANGE = 40, VMM_GUEST_ADDRESS_OVERFLOW = 41,
    VMM_IOMMU_MISSING = 42, VMM_IOMMU_NOT_ALLOWED = 43, VMM_IOMMU_NOT_CONFIGURED = 44, VMM_IOMMU_FRAGMENTED = 45,
    VMM_MISCONFIGURED_MISSING = 46, VMM_MISCONFIGURED_NOT_ALLOWED = 47, VMM_MISCONFIGURED_NOT_CONFIGURED = 48,
    VMM_IOMMU_MEMORY = 49,
    VMM_NO_MEMORY_REGION = 50, VMM_MEMORY_REGION_OVERLAP = 51, VMM_UNSORTED_MEMORY_REGIONS = 52,
    VMM_IOTLB_TOO_SMALL = 53, VMM_NO_IOTLB = 54,
    VMM_MESSAGE_KIND = 57, VMM_MESSAGE_EMPTY_RANGE = 58, VMM_MESSAGE_RANGE = 59, VMM_MESSAGE_PERMISSIONS = 60,
    VMM_MESSAGE_USER_ADDRESS = 61,
    VMM_NOT_PAGED = 64, VMM_NO_FILE = 65, VMM_FILE_SHORT = 66, VMM_NOT_MAPPED = 67,
    VMM_INVALID_MAX_SIZE = 70, VMM_INVALID_QUEUE_SIZE = 71, VMM_INVALID_DESC_TABLE_ALIGN = 72,
    VMM_INVALID_AVAIL_RING_ALIGN = 73, VMM_INVALID_USED_RING_ALIGN = 74, VMM_QUEUE_NOT_READY = 75,
    VMM_ADDRESS_OVERFLOW = 76, VMM_INVALID_AVAIL_RING_INDEX = 77, VMM_INVALID_DESCRIPTOR_INDEX = 78,
    VMM_DESCRIPTOR_LOOP = 79, VMM_INDIRECT_WITH_NEXT = 80, VMM_NESTED_INDIRECT = 81, VMM_INVALID_INDIRECT_TABLE = 82,
    VMM_CHAIN_ORDER = 83, VMM_CHAIN_TOO_LONG = 84, VMM_CHAIN_RANGE = 85, VMM_INVALID_USED_ENTRY = 86,
    VMM_VHOST_OFFER = 100, VMM_VHOST_HEADER = 101, VMM_VHOST_VERSION = 102, VMM_VHOST_DIRECTION = 103,
    VMM_VHOST_REQUEST = 104, VMM_VHOST_PAYLOAD_SIZE = 105, VMM_VHOST_DESCRIPTORS = 106,
    VMM_VHOST_NOT_NEGOTIATED = 107, VMM_VHOST_FEATURES = 108, VMM_VHOST_INDEX = 109, VMM_VHOST_QUEUE_SIZE = 110,
    VMM_VHOST_BASE = 111, VMM_VHOST_FLAGS = 112, VMM_VHOST_ALIGNMENT = 113, VMM_VHOST_STARTED = 114,
    VMM_VHOST_REGION_RANGE = 115, VMM_VHOST_REGION_OVERLAP = 116, VMM_VHOST_CONFIG_RANGE = 117,
    VMM_VHOST_CONFIG_READ_ONLY = 118,
    VMM_VHOST_STOPPED = 120, VMM_VHOST_DISABLED = 121, VMM_VHOST_NO_SIZE = 122, VMM_VHOST_NO_ADDRESS = 123,
    VMM_VHOST_USER_ADDRESS = 124, VMM_VHOST_LOG = 125
};

/* The parts of a queue that VMM_SET_QUEUE sets. */
enum vmm_part {
    VMM_SIZE, VMM_DESC_TABLE, VMM_AVAIL_RING, VMM_USED_RING, VMM_READY, VMM_EVENT_IDX, VMM_NEXT_AVAIL, VMM_NEXT_USED,
    VMM_VRING_BASE
};

/* What VMM_BEGIN_REQUEST returns: what a request asks a block device for. */
enum vmm_blk_request {
    VMM_BLK_READ = 0, VMM_BLK_WRITE = 1, VMM_BLK_WRITE_STABLE = 2, VMM_BLK_FLUSH = 4, VMM_BLK_GET_ID = 8,
    VMM_BLK_REFUSED = 16, VMM_BLK_UNSERVED = 17
};

/* The status of a request: it was done, it failed, or the device does not know its kind. */
enum vmm_blk_status { VMM_BLK_S_OK, VMM_BLK_S_IOERR, VMM_BLK_S_UNSUPP };

/* The numbers that close a step of a source, after the numbers of its bytes, and the numbers of the steps of a sink:
 * after VMM_TAKES stands how many bytes it takes at most. */
enum vmm_step {
    VMM_TAKES = 0, VMM_SINK_INTERRUPTED = 1, VMM_SINK_FAILS = 2,
    VMM_GIVES = 256, VMM_INTERRUPTED = 257, VMM_SOURCE_FAILS = 258
};

/* clang-format on */

/* A call: its kind, and the fields that its kind names. */
typedef struct vmm_request {
    uint32_t kind, width, access;
    size_t first, second, third;
    uint64_t address, target;
    size_t length, other_length;
    uint64_t value;
} vmm_request;

/* What a call that a table refused, VMM_IOMMU_MISSING, VMM_IOMMU_NOT_ALLOWED or VMM_IOTLB_TOO_SMALL, has to have first:
 * `length` addresses from `address` on, for an access. `access` is 0 if there was no memory to look it up. */
typedef struct vmm_miss {
    uint32_t access;
    uint64_t address;
    size_t length;
} vmm_miss;

/* An answer, and what the call missed. */
typedef struct vmm_answer {
    uint32_t code;
    size_t count;
    uint64_t value, address;
    vmm_miss miss;
} vmm_answer;

/* Bytes of the caller's: `size` of them, at a pointer. */
typedef struct vmm_place {
    uint8_t *at;
    size_t size;
} vmm_place;

/* The functions of the library on sessions. `vmm_open` returns VMM_DONE or VMM_OUT_OF_MEMORY. `vmm_call` writes the first
 * four members of `answer`, and `miss` if a table refused the call. `vmm_lend` writes these four, too, and is called
 * through vmm_block_at. */
uint32_t vmm_open(vmm_session *session);
void vmm_call(vmm_session *session, const vmm_request *call, const uint8_t *input, size_t input_size, uint8_t *output,
              size_t output_size, vmm_answer *answer, vmm_miss *miss);
void vmm_lend(vmm_session *session, vmm_place place, size_t page, vmm_answer *answer);
void vmm_close(vmm_session *session);

/* Forgets all regions, layouts and memories, whose numbers begin at 0 again. Everything else stays. */
void vmm_forget_regions(vmm_session *session);

/* Gives a block back, so that the session forgets its bytes and its dirty pages. Its number stays, and each later call that
 * names it is VMM_NO_SUCH. Returns VMM_DONE, and then bytes of the caller's are the caller's again; or VMM_NO_SUCH,
 * VMM_IN_USE (a region, a layout or a memory is there: vmm_forget_regions comes first) or VMM_OUT_OF_MEMORY, and
 * nothing changed. */
uint32_t vmm_give_back(vmm_session *session, size_t block);

/* A call with an input and an output, either of which may be of no bytes and null. */
static inline vmm_answer vmm_asked(vmm_session *session, const vmm_request *call, const void *input, size_t input_size,
                                   void *output, size_t output_size) {
    vmm_answer answer = {0, 0, 0, 0, {0, 0, 0}};
    uint8_t none[1] = {0};
    vmm_call(session, call, input ? (const uint8_t *)input : none, input ? input_size : 0,
             output ? (uint8_t *)output : none, output ? output_size : 0, &answer, &answer.miss);
    return answer;
}

static inline vmm_request vmm_of_kind(enum vmm_kind kind) {
    vmm_request call = {0, 0, 0, 0, 0, 0, 0, 0, 0, 0, 0};
    call.kind = (uint32_t)kind;
    return call;
}

static inline vmm_request vmm_at(enum vmm_kind kind, size_t first, uint64_t address, size_t length) {
    vmm_request call = vmm_of_kind(kind);
    call.first = first;
    call.address = address;
    call.length = length;
    return call;
}

/* Setup: each returns the number of what was made in `value`. A page or a limit of 0 is VMM_BAD_CALL. */

static inline vmm_answer vmm_block(vmm_session *s, size_t size, size_t page) {
    vmm_request call = vmm_at(VMM_BLOCK, 0, 0, size);
    call.other_length = page;
    return vmm_asked(s, &call, NULL, 0, NULL, 0);
}

/* A block whose bytes are the caller's: those at `place`, as they are. Nothing is copied or cleared, and no page is dirty.
 * The caller promises that they are mapped, can be read and written, and are this block's alone, beside its guest,
 * until the block is given back or the session closed: no other block has one of them, no input or output of a call
 * lies in them, and nothing in this process but the library reads or writes them while a call runs. Then they are the
 * caller's to free. It is refused as vmm_block is, and if `place` is null or has no bytes or 2^63 and more with
 * VMM_INVALID_SIZE, and nothing changed then. */
static inline vmm_answer vmm_block_at(vmm_session *s, vmm_place place, size_t page) {
    vmm_answer answer = {VMM_INVALID_SIZE, 0, 0, 0, {0, 0, 0}};
    if (place.at && place.size != 0 && place.size >> 63 == 0) {
        vmm_lend(s, place, page, &answer);
    }
    return answer;
}

/* A mapping of whole pages, and where the bytes of a block lie in it. */
typedef struct vmm_shared {
    uint8_t *address, *mapping;
    size_t mapped;
} vmm_shared;

/* A block whose bytes the caller shares with its guest: those of the file `fd` from `offset` on, or with `fd` -1 private
 * memory. They are mapped, and `*shared` says where: the caller calls vmm_unmap after it gave the block back or closed
 * the session. It is refused as vmm_block is, or with VMM_NOT_PAGED (the size or the offset is no multiple of the
 * system's page), VMM_NO_FILE (`fd` is no regular file), VMM_FILE_SHORT, or VMM_NOT_MAPPED (`count` is the system's
 * error), and nothing changed then. On huge pages those that the bytes have in part are mapped whole.
 * vm_memory_shared.c has this. */
vmm_answer vmm_shared_block(vmm_session *session, size_t size, size_t page, int fd, uint64_t offset,
                            vmm_shared *shared);
void vmm_unmap(vmm_shared *shared);

static inline vmm_answer vmm_space(vmm_session *s, size_t size, size_t page) {
    vmm_request call = vmm_at(VMM_SPACE, 0, 0, size);
    call.other_length = page;
    return vmm_asked(s, &call, NULL, 0, NULL, 0);
}

static inline vmm_answer vmm_table(vmm_session *s) {
    vmm_request call = vmm_of_kind(VMM_TABLE);
    return vmm_asked(s, &call, NULL, 0, NULL, 0);
}

static inline vmm_answer vmm_limited_table(vmm_session *s, size_t limit) {
    vmm_request call = vmm_at(VMM_LIMITED_TABLE, 0, 0, limit);
    return vmm_asked(s, &call, NULL, 0, NULL, 0);
}

static inline vmm_answer vmm_region(vmm_session *s, size_t block, uint64_t address) {
    vmm_request call = vmm_at(VMM_REGION, block, address, 0);
    return vmm_asked(s, &call, NULL, 0, NULL, 0);
}

static inline vmm_answer vmm_translator(vmm_session *s, size_t table) {
    vmm_request call = vmm_at(VMM_TRANSLATOR, table, 0, 0);
    return vmm_asked(s, &call, NULL, 0, NULL, 0);
}

/* Commands. A list of numbers has eight bytes for each, the lowest first; its size is in bytes. */

static inline vmm_answer vmm_layout(vmm_session *s, const void *regions, size_t regions_size) {
    vmm_request call = vmm_of_kind(VMM_LAYOUT);
    return vmm_asked(s, &call, regions, regions_size, NULL, 0);
}

static inline vmm_answer vmm_insert(vmm_session *s, size_t layout, size_t region) {
    vmm_request call = vmm_at(VMM_INSERT, layout, 0, 0);
    call.second = region;
    return vmm_asked(s, &call, NULL, 0, NULL, 0);
}

static inline vmm_answer vmm_remove(vmm_session *s, size_t layout, uint64_t address, size_t size) {
    vmm_request call = vmm_at(VMM_REMOVE, layout, address, size);
    return vmm_asked(s, &call, NULL, 0, NULL, 0);
}

static inline vmm_answer vmm_plain(vmm_session *s, size_t layout) {
    vmm_request call = vmm_at(VMM_PLAIN, layout, 0, 0);
    return vmm_asked(s, &call, NULL, 0, NULL, 0);
}

static inline vmm_answer vmm_memory(vmm_session *s, size_t layout, size_t translator, size_t space, int on) {
    vmm_request call = vmm_at(VMM_MEMORY, layout, 0, 0);
    call.second = translator;
    call.third = space;
    call.value = on ? 1 : 0;
    return vmm_asked(s, &call, NULL, 0, NULL, 0);
}

static inline vmm_answer vmm_replace(vmm_session *s, size_t memory, size_t layout) {
    vmm_request call = vmm_at(VMM_REPLACE, memory, 0, 0);
    call.second = layout;
    return vmm_asked(s, &call, NULL, 0, NULL, 0);
}

static inline vmm_answer vmm_enable(vmm_session *s, size_t memory, int on) {
    vmm_request call = vmm_at(VMM_ENABLE, memory, 0, 0);
    call.value = on ? 1 : 0;
    return vmm_asked(s, &call, NULL, 0, NULL, 0);
}

static inline vmm_answer vmm_read(vmm_session *s, size_t memory, uint64_t address, void *bytes, size_t size) {
    vmm_request call = vmm_at(VMM_READ, memory, address, size);
    return vmm_asked(s, &call, NULL, 0, bytes, size);
}

static inline vmm_answer vmm_write(vmm_session *s, size_t memory, uint64_t address, const void *bytes, size_t size) {
    vmm_request call = vmm_at(VMM_WRITE, memory, address, 0);
    return vmm_asked(s, &call, bytes, size, NULL, 0);
}

static inline vmm_answer vmm_readx(vmm_session *s, size_t memory, uint64_t address, void *bytes, size_t size) {
    vmm_request call = vmm_at(VMM_READX, memory, address, size);
    return vmm_asked(s, &call, NULL, 0, bytes, size);
}

static inline vmm_answer vmm_writex(vmm_session *s, size_t memory, uint64_t address, const void *bytes, size_t size) {
    vmm_request call = vmm_at(VMM_WRITEX, memory, address, 0);
    return vmm_asked(s, &call, bytes, size, NULL, 0);
}

static inline vmm_answer vmm_store(vmm_session *s, size_t memory, uint32_t width, uint64_t address, uint64_t value) {
    vmm_request call = vmm_at(VMM_STORE, memory, address, 0);
    call.width = width;
    call.value = value;
    return vmm_asked(s, &call, NULL, 0, NULL, 0);
}

static inline vmm_answer vmm_load(vmm_session *s, size_t memory, uint32_t width, uint64_t address) {
    vmm_request call = vmm_at(VMM_LOAD, memory, address, 0);
    call.width = width;
    return vmm_asked(s, &call, NULL, 0, NULL, 0);
}

static inline vmm_answer vmm_from(vmm_session *s, size_t memory, uint64_t address, size_t size, const void *steps,
                                  size_t steps_size) {
    vmm_request call = vmm_at(VMM_FROM, memory, address, size);
    return vmm_asked(s, &call, steps, steps_size, NULL, 0);
}

static inline vmm_answer vmm_fromx(vmm_session *s, size_t memory, uint64_t address, size_t size, const void *steps,
                                   size_t steps_size) {
    vmm_request call = vmm_at(VMM_FROMX, memory, address, size);
    return vmm_asked(s, &call, steps, steps_size, NULL, 0);
}

/* What the sink takes goes to `taken`, which has `size` bytes. */
static inline vmm_answer vmm_to(vmm_session *s, size_t memory, uint64_t address, size_t size, const void *steps,
                                size_t steps_size, void *taken) {
    vmm_request call = vmm_at(VMM_TO, memory, address, size);
    return vmm_asked(s, &call, steps, steps_size, taken, size);
}

static inline vmm_answer vmm_tox(vmm_session *s, size_t memory, uint64_t address, size_t size, const void *steps,
                                 size_t steps_size, void *taken) {
    vmm_request call = vmm_at(VMM_TOX, memory, address, size);
    return vmm_asked(s, &call, steps, steps_size, taken, size);
}

/* `value` is 1 if all bytes may be accessed so, and otherwise 0. */
static inline vmm_answer vmm_check(vmm_session *s, size_t memory, uint64_t address, size_t size,
                                   enum vmm_access access) {
    vmm_request call = vmm_at(VMM_CHECK, memory, address, size);
    call.access = (uint32_t)access;
    return vmm_asked(s, &call, NULL, 0, NULL, 0);
}

static inline vmm_answer vmm_copy(vmm_session *s, size_t block, size_t offset, size_t size, size_t to_block,
                                  size_t to_offset, size_t to_size) {
    vmm_request call = vmm_at(VMM_COPY, block, offset, size);
    call.second = to_block;
    call.target = to_offset;
    call.other_length = to_size;
    return vmm_asked(s, &call, NULL, 0, NULL, 0);
}

static inline vmm_answer vmm_set(vmm_session *s, size_t table, uint64_t address, uint64_t target, size_t size,
                                 enum vmm_access access) {
    vmm_request call = vmm_at(VMM_SET, table, address, size);
    call.target = target;
    call.access = (uint32_t)access;
    return vmm_asked(s, &call, NULL, 0, NULL, 0);
}

static inline vmm_answer vmm_invalidate(vmm_session *s, size_t table, uint64_t address, size_t size) {
    vmm_request call = vmm_at(VMM_INVALIDATE, table, address, size);
    return vmm_asked(s, &call, NULL, 0, NULL, 0);
}

static inline vmm_answer vmm_clear(vmm_session *s, size_t table) {
    vmm_request call = vmm_at(VMM_CLEAR, table, 0, 0);
    return vmm_asked(s, &call, NULL, 0, NULL, 0);
}

/* A part of the memory that a vhost front end announced: where it begins there, where in guest memory, and how many
 * bytes it has. */
typedef struct vmm_user_region {
    uint64_t user_address, guest_address, size;
} vmm_user_region;

/* Applies a message of a front end to the I/O table of a memory, whose IOMMU is on. The input has the 32 bytes of the
 * message, and then a vmm_user_region for each part of the announced memory. An INVALIDATE needs none, and is never
 * refused because an allocation fails. A malformed message is refused with VMM_MESSAGE_KIND and so on, and maps
 * nothing; if it is an INVALIDATE, all addresses are unmapped. A call that was refused with VMM_IOMMU_MISSING is made
 * again after its UPDATE was applied so, until it is not. It ends then: if the table has a limit, the call is refused
 * with VMM_IOTLB_TOO_SMALL if it needs more ranges than that (docs/BINDINGS.md). The value of the answer is how many
 * ranges the table evicted for an UPDATE. */
static inline vmm_answer vmm_iotlb_message(vmm_session *s, size_t memory, const void *input, size_t input_size) {
    vmm_request call = vmm_at(VMM_IOTLB_MESSAGE, memory, 0, 0);
    return vmm_asked(s, &call, input, input_size, NULL, 0);
}

/* Ranges go to `list`, sixteen bytes each: where one begins, and how long it is. */
static inline vmm_answer vmm_lookup(vmm_session *s, size_t table, uint64_t address, size_t size, enum vmm_access access,
                                    void *list, size_t list_size) {
    vmm_request call = vmm_at(VMM_LOOKUP, table, address, size);
    call.access = (uint32_t)access;
    return vmm_asked(s, &call, NULL, 0, list, list_size);
}

/* Pages go to `list`, eight bytes each. `list_size` is in bytes. */
static inline vmm_answer vmm_dirty_block(vmm_session *s, size_t block, void *list, size_t list_size) {
    vmm_request call = vmm_at(VMM_DIRTY_BLOCK, block, 0, 0);
    return vmm_asked(s, &call, NULL, 0, list, list_size);
}

static inline vmm_answer vmm_dirty_space(vmm_session *s, size_t space, void *list, size_t list_size) {
    vmm_request call = vmm_at(VMM_DIRTY_SPACE, space, 0, 0);
    return vmm_asked(s, &call, NULL, 0, list, list_size);
}

static inline vmm_answer vmm_harvest_block(vmm_session *s, size_t block, void *list, size_t list_size) {
    vmm_request call = vmm_at(VMM_HARVEST_BLOCK, block, 0, 0);
    return vmm_asked(s, &call, NULL, 0, list, list_size);
}

static inline vmm_answer vmm_harvest_space(vmm_session *s, size_t space, void *list, size_t list_size) {
    vmm_request call = vmm_at(VMM_HARVEST_SPACE, space, 0, 0);
    return vmm_asked(s, &call, NULL, 0, list, list_size);
}

/* Marks the pages of a range of a block as dirty, as a write of these bytes would, and reads and writes none of them. */
static inline vmm_answer vmm_mark_block(vmm_session *s, size_t block, size_t offset, size_t size) {
    vmm_request call = vmm_at(VMM_MARK_BLOCK, block, offset, size);
    return vmm_asked(s, &call, NULL, 0, NULL, 0);
}

/* Marks the pages of the blocks that a write would reach, also behind an IOMMU. `count` is the number of its bytes. */
static inline vmm_answer vmm_mark_reached(vmm_session *s, size_t memory, uint64_t address, size_t size) {
    vmm_request call = vmm_at(VMM_MARK_REACHED, memory, address, size);
    return vmm_asked(s, &call, NULL, 0, NULL, 0);
}

/* A number of a list, from 0. */
static inline uint64_t vmm_number(const void *list, size_t place) {
    const uint8_t *bytes = (const uint8_t *)list + 8 * place;
    uint64_t number = 0;
    for (int i = 7; i >= 0; i--) {
        number = number << 8 | bytes[i];
    }
    return number;
}

/* Virtqueues, split and packed: crates/virtio_queue/README.md. */

/* A queue in its reset state, with the maximum size: a power of two, 1 to 32768. All of its chains in flight have at
 * most `descriptors` segments: the descriptors in an indirect table count, and the one that names the table does not.
 * `value` is its number. */
static inline vmm_answer vmm_queue(vmm_session *s, size_t max_size, size_t descriptors) {
    vmm_request call = vmm_at(VMM_QUEUE, 0, 0, max_size);
    call.other_length = descriptors;
    return vmm_asked(s, &call, NULL, 0, NULL, 0);
}

/* The same for a packed queue, whose greatest size is any from 1 to 32768. Every call below is for both kinds, where it
 * does not say otherwise. The head of a chain of a packed queue is the driver's id for it. A chain whose id is not
 * below the greatest size is refused with VMM_INVALID_DESCRIPTOR_INDEX. */
static inline vmm_answer vmm_packed_queue(vmm_session *s, size_t max_size, size_t descriptors) {
    vmm_request call = vmm_at(VMM_PACKED_QUEUE, 0, 0, max_size);
    call.other_length = descriptors;
    return vmm_asked(s, &call, NULL, 0, NULL, 0);
}

static inline vmm_answer vmm_set_queue(vmm_session *s, size_t queue, enum vmm_part part, uint64_t value) {
    vmm_request call = vmm_at(VMM_SET_QUEUE, queue, 0, 0);
    call.second = (size_t)part;
    call.value = value;
    return vmm_asked(s, &call, NULL, 0, NULL, 0);
}

static inline vmm_answer vmm_set_queue_size(vmm_session *s, size_t queue, size_t size) {
    return vmm_set_queue(s, queue, VMM_SIZE, size);
}

/* The address of the table of descriptors, or of the ring of a packed queue. */
static inline vmm_answer vmm_set_desc_table(vmm_session *s, size_t queue, uint64_t address) {
    return vmm_set_queue(s, queue, VMM_DESC_TABLE, address);
}

/* The address of the available ring, or of a packed queue's event suppression structure of the driver. */
static inline vmm_answer vmm_set_avail_ring(vmm_session *s, size_t queue, uint64_t address) {
    return vmm_set_queue(s, queue, VMM_AVAIL_RING, address);
}

/* The address of the used ring, or of a packed queue's event suppression structure of the device. */
static inline vmm_answer vmm_set_used_ring(vmm_session *s, size_t queue, uint64_t address) {
    return vmm_set_queue(s, queue, VMM_USED_RING, address);
}

static inline vmm_answer vmm_set_queue_ready(vmm_session *s, size_t queue, int on) {
    return vmm_set_queue(s, queue, VMM_READY, on ? 1 : 0);
}

static inline vmm_answer vmm_set_event_idx(vmm_session *s, size_t queue, int on) {
    return vmm_set_queue(s, queue, VMM_EVENT_IDX, on ? 1 : 0);
}

/* Of a split queue. For a packed one this and the next one are VMM_BAD_CALL. */
static inline vmm_answer vmm_set_next_avail(vmm_session *s, size_t queue, uint16_t index) {
    return vmm_set_queue(s, queue, VMM_NEXT_AVAIL, index);
}

static inline vmm_answer vmm_set_next_used(vmm_session *s, size_t queue, uint16_t index) {
    return vmm_set_queue(s, queue, VMM_NEXT_USED, index);
}

/* Sets both positions of a packed queue, as messages of vhost have them: in the low half where the next chain is popped, in
 * the high half where the next one is returned, each as a slot with its wrap counter in bit 15. If it cannot stand
 * there, the code is VMM_INVALID_AVAIL_RING_INDEX, and for a split queue VMM_BAD_CALL. */
static inline vmm_answer vmm_set_vring_base(vmm_session *s, size_t queue, uint32_t base) {
    return vmm_set_queue(s, queue, VMM_VRING_BASE, base);
}

/* Makes it what vmm_queue or vmm_packed_queue made, with no chain in flight. */
static inline vmm_answer vmm_reset_queue(vmm_session *s, size_t queue) {
    vmm_request call = vmm_at(VMM_RESET_QUEUE, queue, 0, 0);
    return vmm_asked(s, &call, NULL, 0, NULL, 0);
}

/* The state of a queue. Of a packed one `desc_table` is the ring, `avail_ring` the driver's area and `used_ring` the
 * device's, and `next_avail` and `next_used` are the halves of what vmm_set_vring_base takes. */
typedef struct vmm_state {
    uint16_t max_size, size;
    uint8_t ready, event_idx_enabled;
    uint64_t desc_table, avail_ring, used_ring;
    uint16_t next_avail, next_used;
} vmm_state;

/* If it is refused, `*state` stays. */
static inline vmm_answer vmm_queue_state(vmm_session *s, size_t queue, vmm_state *state) {
    vmm_request call = vmm_at(VMM_QUEUE_STATE, queue, 0, 0);
    uint8_t list[72];
    vmm_answer answer = vmm_asked(s, &call, NULL, 0, list, sizeof list);
    if (answer.code == VMM_DONE) {
        state->max_size = (uint16_t)vmm_number(list, 0);
        state->size = (uint16_t)vmm_number(list, 1);
        state->ready = (uint8_t)vmm_number(list, 2);
        state->desc_table = vmm_number(list, 3);
        state->avail_ring = vmm_number(list, 4);
        state->used_ring = vmm_number(list, 5);
        state->next_avail = (uint16_t)vmm_number(list, 6);
        state->next_used = (uint16_t)vmm_number(list, 7);
        state->event_idx_enabled = (uint8_t)vmm_number(list, 8);
    }
    return answer;
}

/* A call on a queue and the memory that it lies in. */
static inline vmm_request vmm_on(enum vmm_kind kind, size_t queue, size_t memory, size_t head) {
    vmm_request call = vmm_at(kind, queue, 0, 0);
    call.second = memory;
    call.third = head;
    return call;
}

/* `value` is 1 if the table and both rings, or the ring and both areas, lie whole in memory, else 0. */
static inline vmm_answer vmm_queue_is_valid(vmm_session *s, size_t queue, size_t memory) {
    vmm_request call = vmm_on(VMM_QUEUE_IS_VALID, queue, memory, 0);
    return vmm_asked(s, &call, NULL, 0, NULL, 0);
}

/* How many heads the driver has published, modulo 2^16. A packed queue has no such index, nor the next one: VMM_BAD_CALL. */
static inline vmm_answer vmm_avail_idx(vmm_session *s, size_t queue, size_t memory) {
    vmm_request call = vmm_on(VMM_AVAIL_IDX, queue, memory, 0);
    return vmm_asked(s, &call, NULL, 0, NULL, 0);
}

static inline vmm_answer vmm_used_idx(vmm_session *s, size_t queue, size_t memory) {
    vmm_request call = vmm_on(VMM_USED_IDX, queue, memory, 0);
    return vmm_asked(s, &call, NULL, 0, NULL, 0);
}

/* Pops the next chain, which is in flight until vmm_add_used or vmm_forget: `value` is its head, `count` how many bytes
 * the device may read, and `address` how many it may write. The code is VMM_NO_CHAIN if there is none. */
static inline vmm_answer vmm_pop(vmm_session *s, size_t queue, size_t memory) {
    vmm_request call = vmm_on(VMM_POP, queue, memory, 0);
    return vmm_asked(s, &call, NULL, 0, NULL, 0);
}

/* Reads `size` bytes of a chain in flight, or fewer at the end of its readable bytes, or before an address without
 * memory or a later segment that an IOMMU refuses: `count` is how many. */
static inline vmm_answer vmm_read_chain(vmm_session *s, size_t queue, size_t memory, size_t head, uint64_t offset,
                                        void *bytes, size_t size) {
    vmm_request call = vmm_on(VMM_READ_CHAIN, queue, memory, head);
    call.address = offset;
    call.length = size;
    return vmm_asked(s, &call, NULL, 0, bytes, size);
}

static inline vmm_answer vmm_write_chain(vmm_session *s, size_t queue, size_t memory, size_t head, uint64_t offset,
                                         const void *bytes, size_t size) {
    vmm_request call = vmm_on(VMM_WRITE_CHAIN, queue, memory, head);
    call.address = offset;
    return vmm_asked(s, &call, bytes, size, NULL, 0);
}

/* Returns a chain in flight, to which this many bytes were written. */
static inline vmm_answer vmm_add_used(vmm_session *s, size_t queue, size_t memory, size_t head, uint32_t written) {
    vmm_request call = vmm_on(VMM_ADD_USED, queue, memory, head);
    call.value = written;
    return vmm_asked(s, &call, NULL, 0, NULL, 0);
}

/* vmm_write_chain and then vmm_add_used, in one call. If the chain does not take all `size` bytes, it stays in flight, and
 * the code is that of the write, or VMM_PARTIAL_BUFFER: `count` is how many it took, and `value` is `size`. */
static inline vmm_answer vmm_complete_chain(vmm_session *s, size_t queue, size_t memory, size_t head, uint64_t offset,
                                            const void *bytes, size_t size, uint32_t written) {
    vmm_request call = vmm_on(VMM_COMPLETE_CHAIN, queue, memory, head);
    call.address = offset;
    call.value = written;
    return vmm_asked(s, &call, bytes, size, NULL, 0);
}

/* The segments of a chain in flight go to `list`, sixteen bytes each: its address and its length. Those that the device
 * reads come first: `count` is the number of all, and `value` that of these. `list_size` is in bytes. */
static inline vmm_answer vmm_list_segments(vmm_session *s, size_t queue, size_t head, void *list, size_t list_size) {
    vmm_request call = vmm_on(VMM_LIST_SEGMENTS, queue, 0, head);
    return vmm_asked(s, &call, NULL, 0, list, list_size);
}

/* Drops a chain in flight, and returns nothing to the driver. */
static inline vmm_answer vmm_forget(vmm_session *s, size_t queue, size_t head) {
    vmm_request call = vmm_on(VMM_FORGET, queue, 0, head);
    return vmm_asked(s, &call, NULL, 0, NULL, 0);
}

/* `value` is 1 if the driver wants to be notified: with event indices only of what was returned since it was asked. */
static inline vmm_answer vmm_needs_notification(vmm_session *s, size_t queue, size_t memory) {
    vmm_request call = vmm_on(VMM_NEEDS_NOTIFICATION, queue, memory, 0);
    return vmm_asked(s, &call, NULL, 0, NULL, 0);
}

/* `value` is 1 if the driver has published more by then, so that the device pops on. If it is 0, the device may wait. */
static inline vmm_answer vmm_enable_notification(vmm_session *s, size_t queue, size_t memory) {
    vmm_request call = vmm_on(VMM_ENABLE_NOTIFICATION, queue, memory, 0);
    return vmm_asked(s, &call, NULL, 0, NULL, 0);
}

static inline vmm_answer vmm_disable_notification(vmm_session *s, size_t queue, size_t memory) {
    vmm_request call = vmm_on(VMM_DISABLE_NOTIFICATION, queue, memory, 0);
    return vmm_asked(s, &call, NULL, 0, NULL, 0);
}

/* Requests of a block device whose disk is the caller's: crates/virtio_blk/README.md. */

/* What a request is checked against: the disk has `sectors` sectors, and the driver accepted these features, each as its bit:
 * 9 is FLUSH. If it accepted SEG_MAX, a request has at most `seg_max` data segments, two fewer than its chain has in
 * all, and if it accepted SIZE_MAX, each segment of the chain has at most `size_max` bytes. 0 is no limit. */
typedef struct vmm_blk_limits {
    uint64_t sectors, features;
    int read_only;
    uint32_t seg_max, size_max;
} vmm_blk_limits;

/* Says what the request of a chain in flight asks a device for, and changes nothing. `value` is one of vmm_blk_request:
 * - VMM_BLK_READ: `count` bytes of the disk, from the sector `address` on, go to the front of the writable bytes.
 * - VMM_BLK_WRITE: the `count` readable bytes from the offset 16 on go to the disk, from the sector `address` on.
 * - VMM_BLK_WRITE_STABLE: the same, and they are made stable before vmm_finish_request.
 * - VMM_BLK_FLUSH: what was written before is made stable.
 * - VMM_BLK_GET_ID: the first `count` bytes of the device's name of 20 go to the front of the writable bytes.
 * - VMM_BLK_REFUSED: nothing is done, and the status is `count`. The header of one that breaks a limit is not read.
 * - VMM_BLK_UNSERVED: nothing is done, as there is no byte for the status.
 * The sectors lie on the disk. If an IOMMU refuses an access, nothing is decided, and the call is made again after the
 * mapping came. */
static inline vmm_answer vmm_begin_request(vmm_session *s, size_t queue, size_t memory, size_t head,
                                           vmm_blk_limits limits) {
    vmm_request call = vmm_on(VMM_BEGIN_REQUEST, queue, memory, head);
    call.target = limits.sectors;
    call.access = (uint32_t)(limits.read_only ? VMM_R : VMM_RW);
    call.value = limits.features;
    call.length = limits.seg_max;
    call.other_length = limits.size_max;
    return vmm_asked(s, &call, NULL, 0, NULL, 0);
}

/* Writes the status of a request, to whose first writable bytes `moved` were written. `value` is the length for
 * vmm_add_used. If an IOMMU refuses the access, nothing changed, and the call is made again after the mapping came. */
static inline vmm_answer vmm_finish_request(vmm_session *s, size_t queue, size_t memory, size_t head, uint8_t status,
                                            size_t moved) {
    vmm_request call = vmm_on(VMM_FINISH_REQUEST, queue, memory, head);
    call.value = status;
    call.length = moved;
    return vmm_asked(s, &call, NULL, 0, NULL, 0);
}

/* A vhost-user back end's side of the protocol: crates/vhost_user/README.md. A connection holds what was negotiated, and
 * what the front end said of its memory and its rings. The caller receives messages, does what they ask for, and sends
 * replies. A connection is opened before it is called, and closed once; one call at a time is made of it, from any
 * thread. */

/* The handle of a connection. One that is zero is closed. */
typedef struct vmm_vhost {
    unsigned char *at;
} vmm_vhost;

/* How many bytes a header has, a message at most, and a configuration; and how many descriptors a message has at most. */
enum { VMM_VHOST_HEADER_SIZE = 12, VMM_VHOST_MOST = 280, VMM_VHOST_CONFIG_MOST = 256, VMM_VHOST_DESCRIPTORS_MOST = 8 };

/* What a back end offers: features and features of the protocol, each as its bit, 1 to 256 rings of at most 1 to 32,768
 * descriptors, and which bytes of the configuration a driver may write. */
typedef struct vmm_vhost_offer {
    uint64_t features, protocol_features;
    uint32_t queues, max_queue_size, writable_from, writable_len;
} vmm_vhost_offer;

/* What is still to come of a message: how many bytes of its header, or if that is there of its payload, and how many
 * descriptors come with the whole message at most. */
typedef struct vmm_vhost_wanted_bytes {
    size_t bytes, descriptors;
} vmm_vhost_wanted_bytes;

/* What a message asks for, by the number of its request. Fields that the request does not name are 0. `index` is the
 * ring. `flag` is 1 if a descriptor came (KICK, CALL, ERR), if the ring is enabled (ENABLE), or if it is for a
 * migration (GET_CONFIG, SET_CONFIG). `value` is the number of a SET_VRING_NUM or SET_VRING_BASE, the bits of features,
 * or where a part of the configuration, a log or a region of what is in flight begins, and `size` how many bytes that
 * has. Such a region (GET_INFLIGHT_FD, SET_INFLIGHT_FD) is for `index` rings of at most `queue_size` descriptors. */
typedef struct vmm_vhost_request {
    uint32_t request, index, flag, queue_size;
    uint64_t value, size;
} vmm_vhost_request;

/* A region of the memory that the front end shares: where it begins in guest memory, how many bytes it has, and where it
 * begins in the front end's own memory and in its file. */
typedef struct vmm_vhost_region_row {
    uint64_t guest_address, size, user_address, mmap_offset;
} vmm_vhost_region_row;

/* A ring that is to be served: how many descriptors it has, the index of the next available one from which it was
 * started, and its addresses in guest memory, or I/O addresses if ACCESS_PLATFORM was accepted. The used ring has
 * `used_size` bytes. If `is_logged` is 1, writes to it are marked in the log at the address `log`. `kick` and `call`: 0
 * if no message said so, 1 for no descriptor, 2 for one. */
typedef struct vmm_vhost_vring {
    uint32_t size, base;
    uint64_t descriptor, available, used, used_size, log;
    uint32_t is_logged, kick, call;
} vmm_vhost_vring;

/* Pages of guest memory that are marked in the log of dirty pages, of which the first has the number `first`: its address by
 * 4,096. The bit of page p is bit p % 8 of the byte p / 8 of the log. */
typedef struct vmm_vhost_pages {
    uint64_t first, count;
} vmm_vhost_pages;

/* What was accepted, how many rings and regions there are, and whether a front end said that it owns the connection. */
typedef struct vmm_vhost_negotiated {
    uint64_t features, protocol_features;
    size_t queues, regions;
    uint32_t is_owned;
} vmm_vhost_negotiated;

/* The functions of the library. A code is VMM_DONE, or why the call did nothing. Pointers are not null.
 *
 * Opens a connection, with a configuration of at most 256 bytes: VMM_VHOST_OFFER if no back end offers this, and
 * VMM_OUT_OF_MEMORY. */
uint32_t vmm_vhost_open(vmm_vhost *connection, const vmm_vhost_offer *offer, const uint8_t *config, size_t config_size);

/* What is still to come of a message of which these bytes came, or why its header is refused. */
uint32_t vmm_vhost_wanted(const uint8_t *start, size_t start_size, vmm_vhost_wanted_bytes *wanted);

/* Takes a message, and how many descriptors came with it. A ring that a GET_VRING_BASE names is stopped: finish what is
 * in flight, set by vmm_vhost_stop where the ring goes on, and then send the reply. */
uint32_t vmm_vhost_handle(vmm_vhost *connection, const uint8_t *message, size_t message_size, size_t descriptors,
                          vmm_vhost_request *request);

/* The reply to a message that was taken and done, and to one that was refused or could not be done. It is put into the
 * output if it has room, and 280 bytes are enough. They return how many bytes it has, 0 if no reply is due. */
size_t vmm_vhost_reply(vmm_vhost *connection, const uint8_t *message, size_t message_size, uint8_t *output,
                       size_t output_size);
size_t vmm_vhost_refuse(vmm_vhost *connection, const uint8_t *message, size_t message_size, uint8_t *output,
                        size_t output_size);

/* Replaces bytes of the configuration from an offset on, as a device does that changed: VMM_VHOST_CONFIG_RANGE, and nothing
 * changes, if the configuration does not have them. vmm_vhost_config_change has the message that says so. */
uint32_t vmm_vhost_change_config(vmm_vhost *connection, uint32_t offset, const uint8_t *bytes, size_t bytes_size);

/* Sets where a stopped ring goes on: VMM_VHOST_BASE if it is a split one and this is no index of 16 bits. */
uint32_t vmm_vhost_stop(vmm_vhost *connection, uint32_t index, uint32_t base);

/* A ring as it is to be served, or why it is not: VMM_VHOST_INDEX or one from VMM_VHOST_STOPPED on. */
uint32_t vmm_vhost_running(vmm_vhost *connection, uint32_t index, vmm_vhost_vring *vring);

/* A region of the memory, from 0, or VMM_NO_SUCH. */
uint32_t vmm_vhost_region(vmm_vhost *connection, size_t number, vmm_vhost_region_row *region);

/* The pages to mark in the log for `size` bytes of guest memory that were written, from `address` on: none if LOG_ALL was
 * not accepted or no log was shared. VMM_VHOST_LOG if the log has no bit for one of them. */
uint32_t vmm_vhost_logged(vmm_vhost *connection, uint64_t address, uint64_t size, vmm_vhost_pages *pages);

/* The messages on the back end's own channel, as vmm_vhost_reply gives a reply: a MISS, which asks for the mapping of an
 * address and for a reply; an ACCESS_FAIL, which says that a mapping forbids an access; and one that has the front end
 * read the configuration again. The access is VMM_R, VMM_W or VMM_RW, and otherwise there is no message. They need no
 * connection. */
size_t vmm_vhost_miss(uint64_t iova, uint32_t access, uint8_t *output, size_t output_size);
size_t vmm_vhost_access_fail(uint64_t iova, uint32_t access, uint8_t *output, size_t output_size);
size_t vmm_vhost_config_change(uint8_t *output, size_t output_size);

/* The number in a reply that came on that channel, which has 20 bytes: 0 if what was asked for was done. VMM_VHOST_HEADER
 * if there are fewer bytes than a header has, VMM_VHOST_VERSION, VMM_VHOST_DIRECTION, VMM_VHOST_REQUEST if the back end
 * sends no such message, and VMM_VHOST_PAYLOAD_SIZE. */
uint32_t vmm_vhost_answered(const uint8_t *message, size_t message_size, uint64_t *value);

void vmm_vhost_state(vmm_vhost *connection, vmm_vhost_negotiated *state);

/* The configuration, to which a front end may have written, as vmm_vhost_reply gives a reply. */
size_t vmm_vhost_config(vmm_vhost *connection, uint8_t *output, size_t output_size);

void vmm_vhost_close(vmm_vhost *connection);

/* A block device's back end on a connection with a front end, as a state machine: crates/vhost_backend/README.md.
 * It keeps the protocol's state, the rings, the requests and guest memory, and makes no system call. The caller
 * tells it what happens, asks by vmm_backend_run what is to be done, until `more` is 0, and does that in order
 * before it tells the next event. Kicks may be told at any time. A connection is opened before it is called, and
 * closed once; one call at a time is made of it, from any thread. */

/* The handle of a connection. One that is zero is closed. */
typedef struct vmm_backend {
    unsigned char *at;
} vmm_backend;

/* The disk: how many sectors of 512 bytes it has, how many segments of data a request and how many bytes a segment
 * has at most if the driver accepted SEG_MAX and SIZE_MAX, 1 if nothing is written to it, how many bytes of replies
 * may wait to be sent, and how many ranges the device's I/O table keeps: with 0 ACCESS_PLATFORM is not offered. */
typedef struct vmm_backend_disk {
    uint64_t sectors;
    uint32_t seg_max, size_max, read_only, unread, table_limit;
} vmm_backend_disk;

/* What is to be done, by its kind. Members that the kind does not name are 0.
 *
 * SEND: the next `len` bytes of the output are sent, with the descriptor of a FILE that was made before.
 * UNMAP_ALL: all regions are unmapped.
 * MAP: region `id` is mapped from the descriptor `id` of the message: `len` bytes of its file from `place` on, at
 * `guest` in guest memory and at `user` in the front end's. Then comes vmm_backend_mapped or vmm_backend_failed.
 * LOG: the log is mapped from the descriptor of the message, `len` bytes of its file from `place` on. Then comes
 * vmm_backend_done or vmm_backend_failed.
 * KEEP: the descriptor of the message is kept in place of the one before, or with `count` 0 none is, and then comes
 * vmm_backend_done or vmm_backend_failed. `way` is what it is for: 1 kicks of `ring`, 2 interrupts, 3 errors, 4 the
 * back end's own channel, 5 the log.
 * SERVE: a part of the request `id` of `ring`: `way` is 1 if `len` bytes of the disk, from `place` on, are read
 * into the next `count` pieces, 2 if they are written from there, 3 if what was written is made stable, and 4 if
 * the first `len` bytes of the name are put into the pieces. If `more` is 1, the part goes on with the next action
 * that serves this request, and has one end, after the last. `left` parts of the request come after it if none fails.
 * INTERRUPT, ERROR: `ring` is signalled by the descriptor of its interrupts or errors, if it has one.
 * MARK: `len` bits of the log, from the one of page `place` on, are set, each by an atomic OR.
 * END: the connection is over. `way` is 1 if a message was refused for the code `id`, 2 if what it asked for
 * failed, 3 if an allocation failed, 4 if too many bytes of replies wait, 5 if a page has no bit in the log, 6
 * after vmm_backend_hang_up.
 * STOPPED: the ring is stopped, and its descriptor of kicks is let go.
 * ASK: the front end is sent vmm_vhost_miss on the back end's own channel, for the I/O address `place` and the access
 * `way`, which `ring` needs. Each has a reply, for vmm_backend_answered.
 * FILE: a shared file of `len` zeros is made, for a region of requests in flight. Then comes vmm_backend_done or
 * vmm_backend_failed. The next SEND has its descriptor, which is closed after it.
 * REGION: the region of requests in flight is mapped, shared, from the descriptor of the message: `len` bytes of its
 * file from `place` on, which the file has. Then come vmm_backend_track and vmm_backend_done, or vmm_backend_failed. */
typedef struct vmm_backend_action {
    uint32_t kind, ring, id, way, count, more, left;
    uint64_t place, len, guest, user;
} vmm_backend_action;

enum {
    VMM_BACKEND_SEND = 1,
    VMM_BACKEND_UNMAP_ALL,
    VMM_BACKEND_MAP,
    VMM_BACKEND_LOG,
    VMM_BACKEND_KEEP,
    VMM_BACKEND_SERVE,
    VMM_BACKEND_INTERRUPT,
    VMM_BACKEND_ERROR,
    VMM_BACKEND_MARK,
    VMM_BACKEND_END,
    VMM_BACKEND_STOPPED,
    VMM_BACKEND_ASK,
    VMM_BACKEND_FILE,
    VMM_BACKEND_REGION
};

/* Bytes of a region, from an offset on. */
typedef struct vmm_backend_piece {
    uint64_t region, offset, len;
} vmm_backend_piece;

/* A part of the request `id` of `ring` ended: `bytes` were moved, or with `failed` 1 it could not be done. */
typedef struct vmm_backend_end {
    uint32_t ring, id, failed, bytes;
} vmm_backend_end;

/* How many ends a run took, and how many actions, pieces and bytes of output it gave. If `more` is 1, another run
 * may give more. `state`: 0 if a message is taken, 1 if something is left to be done before, 2 if the connection is
 * over, and 3 if nothing of it is under way any more. */
typedef struct vmm_backend_counts {
    size_t ends, actions, pieces, bytes;
    uint32_t more, state;
} vmm_backend_counts;

/* Opens a connection, as vmm_vhost_open. */
uint32_t vmm_backend_open(vmm_backend *connection, const vmm_vhost_offer *offer, const uint8_t *config,
                          size_t config_size, const vmm_backend_disk *disk);

/* A whole message came, with so many descriptors. 0 if it was taken, and 1 if the one before it is not done,
 * or the connection is over: then nothing changes. Descriptors that no action took are closed when `state` is not 1. */
uint32_t vmm_backend_message(vmm_backend *connection, const uint8_t *message, size_t message_size, size_t descriptors);

/* The region that was asked for lies at this place, which is the connection's until UNMAP_ALL or its close. 0, or 1
 * if it is refused: then it is the caller's again. */
uint32_t vmm_backend_mapped(vmm_backend *connection, vmm_place place);

/* The region of requests in flight lies at this place, which is the connection's until the next one comes here or its
 * close: UNMAP_ALL leaves it. It is no part of guest memory. vmm_backend_done comes after it. */
void vmm_backend_track(vmm_backend *connection, vmm_place place);

/* What was asked for was done, or could not be: then the connection ends. */
void vmm_backend_done(vmm_backend *connection);
void vmm_backend_failed(vmm_backend *connection);

/* The driver of a ring notified; so many bytes of replies were sent; the disk has another size; the connection
 * ended. */
void vmm_backend_kick(vmm_backend *connection, uint32_t ring);
void vmm_backend_sent(vmm_backend *connection, size_t count);
void vmm_backend_resize(vmm_backend *connection, uint64_t sectors);
void vmm_backend_hang_up(vmm_backend *connection);

/* A whole reply came on the back end's own channel. 0 if one was due, and otherwise 1: then the connection ends. */
uint32_t vmm_backend_answered(vmm_backend *connection, const uint8_t *message, size_t message_size);

/* The back end's own channel is lost: no reply comes any more. */
void vmm_backend_channel_lost(vmm_backend *connection);

/* Takes ends of parts, and gives what is to be done, as far as there is room: 280 bytes of output, an action and a
 * piece are enough to go on. What the run before it gave was done: a chain is returned after the pages of its request
 * were marked. If nothing else is left, rings have so many turns. */
void vmm_backend_run(vmm_backend *connection, const vmm_backend_end *ends, size_t ends_size, uint32_t turns,
                     vmm_backend_action *actions, size_t actions_size, vmm_backend_piece *pieces, size_t pieces_size,
                     uint8_t *output, size_t output_size, vmm_backend_counts *counts);

void vmm_backend_state(vmm_backend *connection, vmm_vhost_negotiated *state);

/* How many mappings were asked for, how many messages mapped or invalidated a range of the device's I/O table, and how
 * many ranges that evicted. */
typedef struct vmm_backend_table_counts {
    uint64_t misses, updates, invalidations, evictions;
} vmm_backend_table_counts;

void vmm_backend_table(vmm_backend *connection, vmm_backend_table_counts *counts);

/* Closes a connection, whose places are the caller's again. */
void vmm_backend_close(vmm_backend *connection);

/* A code of an access or a layout in words, or NULL. */
static inline const char *vmm_access_text(uint32_t code) {
    switch (code) {
    case VMM_INVALID_GUEST_ADDRESS: return "invalid guest address";
    case VMM_IO_INTERRUPTED: return "operation interrupted";
    case VMM_IO_WRITE_ZERO: return "write zero";
    case VMM_IO_UNEXPECTED_EOF: return "unexpected end of file";
    case VMM_IO_OTHER: return "other error";
    case VMM_PARTIAL_BUFFER: return "only a part of the buffer was used";
    case VMM_INVALID_BACKEND_ADDRESS: return "invalid backend address";
    case VMM_HOST_ADDRESS_NOT_AVAILABLE: return "host virtual address not available";
    case VMM_CALLBACK_OUT_OF_RANGE: return "a callback answered more than was left";
    case VMM_GUEST_ADDRESS_OVERFLOW: return "a callback passed the greatest address";
    case VMM_IOMMU_MISSING: return "cannot translate: missing mapping";
    case VMM_IOMMU_NOT_ALLOWED: return "cannot translate: access not allowed";
    case VMM_IOMMU_NOT_CONFIGURED: return "cannot translate: not configured";
    case VMM_IOMMU_FRAGMENTED: return "not a continuous I/O virtual address range";
    case VMM_MISCONFIGURED_MISSING: return "IOMMU not configured correctly: missing mapping";
    case VMM_MISCONFIGURED_NOT_ALLOWED: return "IOMMU not configured correctly: access not allowed";
    case VMM_MISCONFIGURED_NOT_CONFIGURED: return "IOMMU not configured correctly: not configured";
    case VMM_IOMMU_MEMORY: return "out of memory in the IOMMU";
    case VMM_NO_MEMORY_REGION: return "no memory region found";
    case VMM_MEMORY_REGION_OVERLAP: return "some of the memory regions intersect with each other";
    case VMM_UNSORTED_MEMORY_REGIONS: return "the provided memory regions haven't been sorted";
    default: return NULL;
    }
}

/* A code of an I/O table and its messages in words, or NULL. */
static inline const char *vmm_iotlb_text(uint32_t code) {
    switch (code) {
    case VMM_IOTLB_TOO_SMALL: return "cannot translate: the call needs more ranges than the I/O table keeps";
    case VMM_NO_IOTLB: return "the memory lies behind no I/O table";
    case VMM_MESSAGE_KIND: return "malformed message: unknown kind of message";
    case VMM_MESSAGE_EMPTY_RANGE: return "malformed message: empty range";
    case VMM_MESSAGE_RANGE: return "malformed message: range past the last address";
    case VMM_MESSAGE_PERMISSIONS: return "malformed message: no permissions";
    case VMM_MESSAGE_USER_ADDRESS: return "malformed message: user address outside the announced memory";
    default: return NULL;
    }
}

/* A code of a connection in words, or NULL. */
static inline const char *vmm_vhost_text(uint32_t code) {
    switch (code) {
    case VMM_VHOST_OFFER: return "invalid offer";
    case VMM_VHOST_HEADER: return "the message ends in its header";
    case VMM_VHOST_VERSION: return "unknown version";
    case VMM_VHOST_DIRECTION: return "a reply for a request";
    case VMM_VHOST_REQUEST: return "unknown request";
    case VMM_VHOST_PAYLOAD_SIZE: return "invalid size of the payload";
    case VMM_VHOST_DESCRIPTORS: return "invalid number of descriptors";
    case VMM_VHOST_NOT_NEGOTIATED: return "feature not negotiated";
    case VMM_VHOST_FEATURES: return "features not offered";
    case VMM_VHOST_INDEX: return "no such ring";
    case VMM_VHOST_QUEUE_SIZE: return "invalid size of a ring";
    case VMM_VHOST_BASE: return "invalid index of a ring";
    case VMM_VHOST_FLAGS: return "invalid flags";
    case VMM_VHOST_ALIGNMENT: return "misaligned ring";
    case VMM_VHOST_STARTED: return "ring is started";
    case VMM_VHOST_REGION_RANGE: return "invalid region";
    case VMM_VHOST_REGION_OVERLAP: return "regions overlap";
    case VMM_VHOST_CONFIG_RANGE: return "range past the configuration";
    case VMM_VHOST_CONFIG_READ_ONLY: return "configuration is read only";
    case VMM_VHOST_STOPPED: return "ring is stopped";
    case VMM_VHOST_DISABLED: return "ring is disabled";
    case VMM_VHOST_NO_SIZE: return "ring has no size";
    case VMM_VHOST_NO_ADDRESS: return "ring has no addresses";
    case VMM_VHOST_USER_ADDRESS: return "no region has the ring";
    case VMM_VHOST_LOG: return "the log has no bit for a page";
    default: return NULL;
    }
}

/* A code of a queue in words, or NULL. */
static inline const char *vmm_queue_text(uint32_t code) {
    switch (code) {
    case VMM_INVALID_MAX_SIZE: return "invalid greatest size of a queue";
    case VMM_INVALID_QUEUE_SIZE: return "invalid size of a queue";
    case VMM_INVALID_DESC_TABLE_ALIGN: return "descriptor table is not aligned";
    case VMM_INVALID_AVAIL_RING_ALIGN: return "available ring is not aligned";
    case VMM_INVALID_USED_RING_ALIGN: return "used ring is not aligned";
    case VMM_QUEUE_NOT_READY: return "queue is not ready";
    case VMM_ADDRESS_OVERFLOW: return "address overflow";
    case VMM_INVALID_AVAIL_RING_INDEX: return "invalid index of the available ring";
    case VMM_INVALID_DESCRIPTOR_INDEX: return "invalid descriptor index";
    case VMM_DESCRIPTOR_LOOP: return "loop of descriptors";
    case VMM_INDIRECT_WITH_NEXT: return "indirect descriptor with a next one";
    case VMM_NESTED_INDIRECT: return "indirect table inside an indirect table";
    case VMM_INVALID_INDIRECT_TABLE: return "invalid length of an indirect table";
    case VMM_CHAIN_ORDER: return "invalid chain: chain order";
    case VMM_CHAIN_TOO_LONG: return "invalid chain: chain too long";
    case VMM_CHAIN_RANGE: return "invalid chain: chain range";
    case VMM_INVALID_USED_ENTRY: return "used entry is not in memory";
    case VMM_NO_CHAIN: return "no chain is published";
    case VMM_IN_FLIGHT: return "the chain of this head is in flight";
    case VMM_TOO_MANY: return "too many descriptors in flight";
    case VMM_NOT_IN_FLIGHT: return "no chain of this head is in flight";
    default: return NULL;
    }
}

/* A code in words. */
static inline const char *vmm_code_text(uint32_t code) {
    const char *text = vmm_access_text(code) ? vmm_access_text(code) : vmm_queue_text(code);
    text = text ? text : vmm_iotlb_text(code);
    text = text ? text : vmm_vhost_text(code);
    switch (code) {
    case VMM_DONE: return "done";
    case VMM_NO_SUCH: return "a number names nothing";
    case VMM_BAD_RANGE: return "a range passes its end";
    case VMM_OUT_OF_MEMORY: return "out of memory";
    case VMM_FAILS: return "the look-up fails";
    case VMM_INVALID_SIZE: return "invalid size of a block";
    case VMM_INVALID_REGION: return "invalid guest region";
    case VMM_IN_USE: return "a region, a layout or a memory is there";
    case VMM_BAD_CALL: return "a page or a limit is 0, or a call has no meaning";
    case VMM_SHORT: return "the output is too short";
    case VMM_NOT_PAGED: return "a size or an offset is no multiple of a page";
    case VMM_NO_FILE: return "not a regular file";
    case VMM_FILE_SHORT: return "the file ends before the block";
    case VMM_NOT_MAPPED: return "the file could not be mapped";
    default: return text ? text : "no code of the library";
    }
}

#ifdef __cplusplus
}
#endif

#endif
