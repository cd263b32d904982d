/* Blocks whose bytes are shared with a guest: mappings of files, and private memory. For Linux. */
#define _GNU_SOURCE
#include "vm_memory.h"

#include <errno.h>
#include <stdbool.h>
#include <sys/mman.h>
#include <sys/stat.h>
#include <sys/vfs.h>
#include <unistd.h>

/* What the system says of a file system of huge pages. */
#define HUGETLBFS 0x958458f6u

static vmm_answer refused(enum vmm_code code, int error) {
    vmm_answer answer = {(uint32_t)code, (size_t)error, 0, 0, {0, 0, 0}};
    return answer;
}

/* Whether a file has these bytes: VMM_DONE, or why they cannot be shared. */
static vmm_answer checked(size_t size, int fd, uint64_t offset) {
    size_t page = (size_t)sysconf(_SC_PAGESIZE);
    if (size == 0 || size >> 63) {
        return refused(VMM_INVALID_SIZE, 0);
    }
    if (size % page != 0 || offset % page != 0 || (fd == -1 && offset != 0)) {
        return refused(VMM_NOT_PAGED, 0);
    }
    struct stat file;
    if (fd == -1) {
        return refused(VMM_DONE, 0);
    }
    if (fstat(fd, &file) != 0) {
        return refused(VMM_NOT_MAPPED, errno);
    }
    if (!S_ISREG(file.st_mode)) {
        return refused(VMM_NO_FILE, 0);
    }
    if (offset > (uint64_t)file.st_size || size > (uint64_t)file.st_size - offset) {
        return refused(VMM_FILE_SHORT, 0);
    }
    return refused(VMM_DONE, 0);
}

/* The bytes of a page of a mapping of a file, which is a huge page on hugetlbfs, or 0. */
static size_t page_of(int fd) {
    struct statfs about;
    if (fstatfs(fd, &about) != 0) {
        return 0;
    }
    bool is_huge = (uint32_t)about.f_type == HUGETLBFS && about.f_bsize > 0;
    return is_huge ? (size_t)about.f_bsize : (size_t)sysconf(_SC_PAGESIZE);
}

/* Maps these bytes of a file, which has them, or private memory. A page that they have in part is mapped whole. */
static bool map(size_t size, int fd, uint64_t offset, vmm_shared *shared) {
    int flags = fd == -1 ? MAP_PRIVATE | MAP_ANONYMOUS : MAP_SHARED;
    size_t page = fd == -1 ? 1 : page_of(fd);
    if (page == 0) {
        return false;
    }
    /* The file has the bytes, so that none of these numbers passes 2^63 by more than a page. */
    size_t before = (size_t)(offset % page);
    size_t mapped = (before + size + page - 1) / page * page;
    void *at = mmap(NULL, mapped, PROT_READ | PROT_WRITE, flags, fd, (off_t)(offset - before));
    if (at == MAP_FAILED) {
        return false;
    }
    shared->mapping = at;
    shared->mapped = mapped;
    shared->address = (uint8_t *)at + before;
    return true;
}

vmm_answer vmm_shared_block(vmm_session *session, size_t size, size_t page, int fd, uint64_t offset,
                            vmm_shared *shared) {
    vmm_answer answer = checked(size, fd, offset);
    vmm_shared made;
    if (answer.code != VMM_DONE) {
        return answer;
    }
    if (!map(size, fd, offset, &made)) {
        return refused(VMM_NOT_MAPPED, errno);
    }
    vmm_place place = {made.address, size};
    answer = vmm_block_at(session, place, page);
    if (answer.code == VMM_DONE) {
        *shared = made;
    } else {
        munmap(made.mapping, made.mapped);
    }
    return answer;
}

void vmm_unmap(vmm_shared *shared) {
    if (shared->mapping) {
        munmap(shared->mapping, shared->mapped);
    }
    *shared = (vmm_shared){NULL, NULL, 0};
}
