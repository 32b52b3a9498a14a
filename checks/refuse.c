// Stands before the heap of the C library in a run: it refuses one allocation, or all from one on,
// and tells in a file what happened, a line each.
//   REFUSE       the number of the refused call, from 1 (none: no call is refused)
//   REFUSE_MORE  the later calls are refused too
//   REFUSE_LOG   the file: `refused OBJECT` where a call from this object file was the first that
//                was refused, `late OBJECT` at the first call after a write to standard output,
//                and, where REFUSE_HELD is given, `held COUNT` at the end: the blocks not given back
#define _GNU_SOURCE
#include <dlfcn.h>
#include <errno.h>
#include <fcntl.h>
#include <stdio.h>
#include <stdlib.h>
#include <string.h>
#include <sys/syscall.h>
#include <sys/uio.h>
#include <unistd.h>

extern void *__libc_malloc(size_t);
extern void *__libc_calloc(size_t, size_t);
extern void *__libc_realloc(void *, size_t);
extern void *__libc_memalign(size_t, size_t);
extern void __libc_free(void *);

static long refuse, calls, held;
static int more, wrote, late;
static const char *log_path;

__attribute__((constructor)) static void read_words(void) {
    const char *number = getenv("REFUSE");
    refuse = number ? atol(number) : 0;
    more = getenv("REFUSE_MORE") != 0;
    log_path = getenv("REFUSE_LOG");
}

static void say(int file, const char *text) { syscall(SYS_write, file, text, strlen(text)); }

static void tell(const char *what, const char *of) {
    int file = log_path ? open(log_path, O_WRONLY | O_CREAT | O_APPEND, 0600) : -1;
    if (file < 0) return;
    say(file, what);
    say(file, of);
    say(file, "\n");
    close(file);
}

static const char *object_of(void *caller) {
    Dl_info from;
    return dladdr(caller, &from) && from.dli_fname ? from.dli_fname : "unknown";
}

__attribute__((destructor)) static void tell_held(void) {
    char count[32];
    if (!getenv("REFUSE_HELD")) return;
    snprintf(count, sizeof count, "%ld", held);
    tell("held ", count);
}

// Whether this call is refused.
static int refused(void *caller) {
    calls++;
    if (wrote && !late) {
        late = 1;
        tell("late ", object_of(caller));
    }
    if (calls == refuse) tell("refused ", object_of(caller));
    if (!refuse || calls < refuse || (calls > refuse && !more)) return 0;
    errno = ENOMEM;
    return 1;
}

#define REFUSED refused(__builtin_return_address(0))

// A block that is made counts as held until it is given back.
static void *made(void *block) {
    held += block != 0;
    return block;
}

void *malloc(size_t size) { return REFUSED ? 0 : made(__libc_malloc(size)); }
void *calloc(size_t count, size_t size) { return REFUSED ? 0 : made(__libc_calloc(count, size)); }
void *memalign(size_t align, size_t size) {
    return REFUSED ? 0 : made(__libc_memalign(align, size));
}
void *aligned_alloc(size_t align, size_t size) {
    return REFUSED ? 0 : made(__libc_memalign(align, size));
}

void *realloc(void *block, size_t size) {
    if (REFUSED) return 0;
    void *moved = __libc_realloc(block, size);
    held += !block && moved;
    held -= block && !moved && !size;
    return moved;
}

void free(void *block) {
    held -= block != 0;
    __libc_free(block);
}

int posix_memalign(void **block, size_t align, size_t size) {
    void *place = REFUSED ? 0 : made(__libc_memalign(align, size));
    if (!place) return ENOMEM;
    *block = place;
    return 0;
}

ssize_t write(int file, const void *bytes, size_t length) {
    wrote |= file == 1;
    return syscall(SYS_write, file, bytes, length);
}

ssize_t writev(int file, const struct iovec *pieces, int count) {
    wrote |= file == 1;
    return syscall(SYS_writev, file, pieces, count);
}
