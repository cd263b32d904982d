/* Memory that a guest has, too: another mapping of the same file. It ends with 0, or the number of what failed. */
#define _GNU_SOURCE
#include "vm_memory.h"

#include <errno.h>
#include <fcntl.h>
#include <pthread.h>
#include <stdio.h>
#include <string.h>
#include <sys/mman.h>
#include <unistd.h>

static const uint8_t both_regions[16] = {0, 0, 0, 0, 0, 0, 0, 0, 1};

/* How many mappings the process has. */
static int mappings(void) {
    FILE *maps = fopen("/proc/self/maps", "r");
    int lines = 0;
    for (int c; maps && (c = getc(maps)) != EOF;) {
        lines += c == '\n';
    }
    return maps && fclose(maps) == 0 ? lines : -1;
}

/* The same file, which may only be read. */
static int read_only(int file) {
    char path[64];
    snprintf(path, sizeof path, "/proc/self/fd/%d", file);
    return open(path, O_RDONLY | O_CLOEXEC);
}

/* Refusals of a file of three pages, of a pipe, of what is not open, and of a file that is only read. */
static int refused_files(vmm_session *session, size_t page, const int *fds) {
    static const struct {
        size_t pages, more;
        int is_file;
        uint64_t offset;
        uint32_t code;
        int error;
    } rows[] = {
        {0, 0, 1, 0, VMM_INVALID_SIZE, 0},        {1, 1, 1, 0, VMM_NOT_PAGED, 0},
        {1, 0, 1, 8, VMM_NOT_PAGED, 0},           {1, 0, 0, 1 << 20, VMM_NOT_PAGED, 0},
        {4, 0, 1, 0, VMM_FILE_SHORT, 0},          {2, 0, 1, 0x2000, VMM_FILE_SHORT, 0},
        {1, 0, 1, 0x4000, VMM_FILE_SHORT, 0},     {1, 0, 2, 0, VMM_NO_FILE, 0},
        {1, 0, 3, 0, VMM_NOT_MAPPED, EBADF},      {1, 0, 4, 0, VMM_NOT_MAPPED, EACCES},
        {SIZE_MAX, 0, 0, 0, VMM_INVALID_SIZE, 0},
    };
    vmm_shared shared = {NULL, NULL, 0};
    for (size_t i = 0; i < sizeof rows / sizeof *rows; i++) {
        size_t size = rows[i].pages == SIZE_MAX ? SIZE_MAX / page * page : rows[i].pages * page + rows[i].more;
        vmm_answer answer = vmm_shared_block(session, size, page, fds[rows[i].is_file], rows[i].offset, &shared);
        if (answer.code != rows[i].code || answer.count != (size_t)rows[i].error || shared.mapping) {
            return 21 + (int)i;
        }
    }
    return vmm_shared_block(session, page, 0, fds[1], 0, &shared).code == VMM_BAD_CALL && !shared.mapping ? 0 : 32;
}

/* Each refusal that is none of a block's. Nothing changes: the next block has number 0, and nothing stays mapped. */
static int refusals(vmm_session *session, size_t page) {
    int file = memfd_create("guest", MFD_CLOEXEC), ends[2];
    if (file < 0 || ftruncate(file, (off_t)(3 * page)) != 0 || pipe(ends) != 0) {
        return 20;
    }
    const int fds[] = {-1, file, ends[0], 1 << 20, read_only(file)};
    int before = mappings(), failed = refused_files(session, page, fds);
    if (failed || mappings() != before) {
        return failed ? failed : 33;
    }
    uint8_t byte = 1;
    vmm_place places[] = {{NULL, 1}, {&byte, 0}, {&byte, (size_t)1 << 63}, {&byte, SIZE_MAX}};
    for (size_t i = 0; i < sizeof places / sizeof *places; i++) {
        if (vmm_block_at(session, places[i], page).code != VMM_INVALID_SIZE) {
            return 34 + (int)i;
        }
    }
    close(file);
    close(ends[0]);
    close(ends[1]);
    close(fds[4]);
    return 0;
}

/* Bytes of a file beyond 4 GiB, and what is unmapped is unmapped once. */
static int far_bytes(size_t page) {
    const off_t far = (off_t)1 << 32;
    vmm_session session = {0};
    vmm_shared shared;
    int file = memfd_create("far", MFD_CLOEXEC);
    if (file < 0 || ftruncate(file, far + 2 * (off_t)page) != 0 || pwrite(file, "far", 3, far + (off_t)page) != 3) {
        return 70;
    }
    if (vmm_open(&session) != VMM_DONE ||
        vmm_shared_block(&session, page, page, file, (uint64_t)far + page, &shared).code != VMM_DONE ||
        memcmp(shared.address, "far", 4) != 0) {
        return 71;
    }
    vmm_close(&session);
    vmm_unmap(&shared);
    close(file);
    return shared.mapping || shared.address || shared.mapped ? 72 : 0;
}

/* A page in the middle of a huge one, if the system has huge pages. */
static int huge_page(size_t page) {
    const size_t huge = 2 << 20;
    vmm_session session = {0};
    vmm_shared shared;
    int file = memfd_create("huge", MFD_CLOEXEC | MFD_HUGETLB);
    void *at = file < 0 || ftruncate(file, (off_t)huge) != 0
                   ? MAP_FAILED
                   : mmap(NULL, huge, PROT_READ | PROT_WRITE, MAP_SHARED, file, 0);
    if (at == MAP_FAILED) {
        printf("huge pages are left out: the system has none\n");
        return 0;
    }
    memcpy((char *)at + 3 * page, "huge", 4);
    if (vmm_open(&session) != VMM_DONE ||
        vmm_shared_block(&session, page, page, file, 3 * page, &shared).code != VMM_DONE ||
        memcmp(shared.address, "huge", 5) != 0 || shared.mapped != huge ||
        shared.address != shared.mapping + 3 * page) {
        return 75;
    }
    vmm_close(&session);
    vmm_unmap(&shared);
    close(file);
    return munmap(at, huge) == 0 ? 0 : 76;
}

/* Sessions with small blocks, large ones and shared ones, one after the other. Returns `end` if one fails, or null. */
static void *sessions(void *end) {
    static const size_t sizes[] = {0x1000, 0x1ff000, 0x200000, 0x601000};
    for (size_t i = 0; i < 100; i++) {
        size_t size = sizes[i % 4];
        vmm_session session = {0};
        vmm_shared shared = {NULL, NULL, 0};
        int made = vmm_open(&session) == VMM_DONE && vmm_block(&session, size, 0x1000).code == VMM_DONE &&
                   vmm_shared_block(&session, size, 0x1000, -1, 0, &shared).code == VMM_DONE &&
                   vmm_copy(&session, 0, 0, size, 1, 0, size).code == VMM_DONE;
        if (!made || memcmp(shared.address, "\0", 2) != 0) {
            return end;
        }
        shared.address[size - 1] = 7;
        if (vmm_copy(&session, 1, size - 1, 1, 0, 0, 1).code != VMM_DONE) {
            return end;
        }
        vmm_close(&session);
        vmm_unmap(&shared);
    }
    return NULL;
}

/* Two threads at once, and then one, which leaves no mapping. */
static int threads(void) {
    pthread_t other;
    char end;
    void *failed = &end;
    if (pthread_create(&other, NULL, sessions, &end) != 0) {
        return 40;
    }
    if (sessions(&end) || pthread_join(other, &failed) != 0 || failed) {
        return 41;
    }
    int before = mappings();
    return !sessions(&end) && before > 0 && mappings() == before ? 0 : 42;
}

/* Bytes of this program's own, of any length and at any place. They are the block's as they are, and those beside them
 * are not. */
static int own_bytes(void) {
    uint8_t bytes[5003];
    memset(bytes, 5, sizeof bytes);
    vmm_session session = {0};
    vmm_place place = {bytes + 1, sizeof bytes - 2};
    if (vmm_open(&session) != VMM_DONE || vmm_block_at(&session, place, 0x1000).value != 0) {
        return 50;
    }
    if (vmm_block(&session, place.size, 0x1000).value != 1 ||
        vmm_copy(&session, 1, 0, place.size - 1, 0, 1, place.size - 1).code != VMM_DONE) {
        return 51;
    }
    if (vmm_copy(&session, 1, 0, 1, 0, place.size, 1).code != VMM_BAD_RANGE) {
        return 52;
    }
    uint8_t pages[16] = {0};
    if (vmm_dirty_block(&session, 0, pages, sizeof pages).count != 2 || vmm_number(pages, 1) != 1) {
        return 53;
    }
    vmm_close(&session);
    if (bytes[0] != 5 || bytes[1] != 5 || bytes[2] != 0 || bytes[5001] != 0 || bytes[5002] != 5) {
        return 54;
    }
    return 0;
}

/* Files that are shared and given back, again and again. None stays mapped, and the block that stays keeps its bytes. */
static int given_back(size_t page) {
    vmm_session session = {0};
    vmm_shared stays, shared;
    if (vmm_open(&session) != VMM_DONE || vmm_shared_block(&session, page, page, -1, 0, &stays).code != VMM_DONE) {
        return 60;
    }
    stays.address[page - 1] = 9;
    int before = mappings();
    for (size_t round = 1; round < 500; round++) {
        uint8_t regions[16] = {1}, byte = 0;
        int file = memfd_create("plugged", MFD_CLOEXEC);
        if (file < 0 || ftruncate(file, (off_t)(4 * page)) != 0 ||
            vmm_shared_block(&session, 4 * page, page, file, 0, &shared).value != round) {
            return 61;
        }
        close(file);
        vmm_region(&session, round, page);
        vmm_region(&session, 0, 0);
        vmm_layout(&session, regions, sizeof regions);
        if (vmm_plain(&session, 0).value != 0 || vmm_write(&session, 0, page - 2, "ab", 2).count != 2 ||
            vmm_write(&session, 0, page, "plugged", 7).count != 7 || memcmp(shared.address, "plugged", 7) != 0) {
            return 62;
        }
        if (vmm_give_back(&session, round) != VMM_IN_USE) {
            return 63;
        }
        vmm_forget_regions(&session);
        if (vmm_give_back(&session, round) != VMM_DONE || vmm_give_back(&session, round) != VMM_NO_SUCH ||
            vmm_read(&session, 0, page - 1, &byte, 1).code != VMM_NO_SUCH) {
            return 64;
        }
        vmm_unmap(&shared);
    }
    int is_kept = memcmp(stays.address + page - 2, "ab", 2) == 0 && before > 0 && mappings() == before;
    vmm_close(&session);
    vmm_unmap(&stays);
    return is_kept ? 0 : 65;
}

/* What the guest wrote is read, and what is written the guest finds. Pages are dirty by calls alone. */
static int accesses(vmm_session *session, size_t page, char *guest, const uint8_t *own) {
    uint8_t bytes[8] = {0};
    if (vmm_read(session, 0, 0x10000, bytes, 5).count != 5 || memcmp(bytes, "guest", 5) != 0) {
        return 5;
    }
    if (vmm_write(session, 0, 0x10000 + 2 * page - 3, "monitor", 7).count != 7) {
        return 6;
    }
    if (memcmp(guest + 3 * page - 3, "mon", 3) != 0 || memcmp(own, "itor", 4) != 0) {
        return 7;
    }
    memcpy(guest + page + 8, "\1\2\3\4", 4);
    if (vmm_load(session, 0, 4, 0x10008).value != 0x04030201) {
        return 8;
    }
    return vmm_dirty_block(session, 0, bytes, sizeof bytes).count == 1 && vmm_number(bytes, 0) == 1 ? 0 : 9;
}

/* A block of the last two pages of a file, one of private memory, and one that comes while the machine runs. */
static int blocks(size_t page, int file, char *guest) {
    vmm_session session = {0};
    vmm_shared shared, own, later;
    if (vmm_open(&session) != VMM_DONE) {
        return 2;
    }
    vmm_answer answer = vmm_shared_block(&session, 2 * page, page, file, page, &shared);
    if (answer.code != VMM_DONE || answer.value != 0) {
        return 3;
    }
    if (vmm_shared_block(&session, page, page, -1, 0, &own).value != 1) {
        return 4;
    }
    close(file);
    vmm_region(&session, 0, 0x10000);
    vmm_region(&session, 1, 0x10000 + 2 * page);
    vmm_layout(&session, both_regions, sizeof both_regions);
    vmm_plain(&session, 0);
    int failed = accesses(&session, page, guest, own.address);
    if (failed || vmm_shared_block(&session, page, page, -1, 0, &later).value != 2) {
        return failed ? failed : 10;
    }
    vmm_close(&session);
    vmm_unmap(&shared);
    vmm_unmap(&own);
    vmm_unmap(&later);
    return memcmp(guest + page, "guest", 5) == 0 ? 0 : 11;
}

int main(void) {
    size_t page = (size_t)sysconf(_SC_PAGESIZE);
    vmm_session session = {0};
    int file = memfd_create("guest", MFD_CLOEXEC | MFD_ALLOW_SEALING);
    if (file < 0 || ftruncate(file, (off_t)(3 * page)) != 0 || pwrite(file, "guest", 5, (off_t)page) != 5) {
        return 1;
    }
    char *guest = (char *)mmap(NULL, 3 * page, PROT_READ | PROT_WRITE, MAP_SHARED, file, 0);
    if (guest == MAP_FAILED || vmm_open(&session) != VMM_DONE) {
        return 2;
    }
    int failed = refusals(&session, page);
    if (!failed && vmm_block(&session, page, page).value != 0) {
        failed = 19;
    }
    vmm_close(&session);
    failed = failed ? failed : threads();
    failed = failed ? failed : own_bytes();
    failed = failed ? failed : given_back(page);
    failed = failed ? failed : far_bytes(page);
    failed = failed ? failed : huge_page(page);
    failed = failed ? failed : blocks(page, file, guest);
    return failed || munmap(guest, 3 * page) == 0 ? failed : 12;
}
