/* Preloaded into the program: refuses one memory request, sockets, or one request for random bytes, fails one read,
   write, send or receive, or moves one byte a call, as the environment says. It tells by the file MET that the
   fault was met.

     REFUSE_MEMORY=N    the Nth request for memory is refused
     FAIL_READ=N        the Nth read of standard input fails
     FAIL_WRITE=N       the Nth write to standard output fails
     STOP_WRITE=N       from the Nth write on, standard output takes nothing
     FAIL_SEND=N        the Nth send fails
     FAIL_RECEIVE=N     the Nth receive fails
     FAIL_SOCKET=N      from the Nth on, no socket is made
     FAIL_RANDOM=N      the Nth request for random bytes fails
     ONE_BYTE=1         each read of standard input and each write to standard output moves one byte */
#define _GNU_SOURCE
#include <dlfcn.h>
#include <errno.h>
#include <fcntl.h>
#include <stdlib.h>
#include <sys/socket.h>
#include <sys/syscall.h>
#include <sys/types.h>
#include <unistd.h>

static long number(const char *name) {
  const char *text = getenv(name);
  return text ? atol(text) : 0;
}

static void tell(void) {
  const char *path = getenv("MET");
  if (path) {
    long file = syscall(SYS_openat, AT_FDCWD, path, O_CREAT | O_WRONLY, 0600);
    if (file >= 0) syscall(SYS_close, file);
  }
}

/* Counts a call, and answers whether it is the one that fails. */
static int fails(const char *name, long *count) {
  if (++*count != number(name)) return 0;
  tell();
  return 1;
}

extern void *__libc_malloc(size_t);
extern void *__libc_calloc(size_t, size_t);
extern void *__libc_realloc(void *, size_t);
extern void *__libc_memalign(size_t, size_t);

static long requests;
static int refused(void) {
  if (!fails("REFUSE_MEMORY", &requests)) return 0;
  errno = ENOMEM;
  return 1;
}

void *malloc(size_t size) { return refused() ? NULL : __libc_malloc(size); }
void *calloc(size_t count, size_t size) { return refused() ? NULL : __libc_calloc(count, size); }
void *realloc(void *old, size_t size) { return refused() ? NULL : __libc_realloc(old, size); }
void *aligned_alloc(size_t align, size_t size) { return refused() ? NULL : __libc_memalign(align, size); }
int posix_memalign(void **place, size_t align, size_t size) {
  if (refused()) return ENOMEM;
  *place = __libc_memalign(align, size);
  return *place ? 0 : ENOMEM;
}

ssize_t read(int file, void *bytes, size_t length) {
  static long reads;
  if (file == 0) {
    if (fails("FAIL_READ", &reads)) { errno = EIO; return -1; }
    if (number("ONE_BYTE") && length > 1) length = 1;
  }
  return syscall(SYS_read, file, bytes, length);
}

ssize_t write(int file, const void *bytes, size_t length) {
  static long writes, puts;
  if (file == 1) {
    if (fails("FAIL_WRITE", &writes)) { errno = EIO; return -1; }
    if (number("STOP_WRITE") && ++puts >= number("STOP_WRITE")) { tell(); return 0; }
    if (number("ONE_BYTE") && length > 1) length = 1;
  }
  return syscall(SYS_write, file, bytes, length);
}

ssize_t sendto(int socket, const void *bytes, size_t length, int flags, const struct sockaddr *to,
               socklen_t size) {
  static long sends;
  if (fails("FAIL_SEND", &sends)) { errno = ENOBUFS; return -1; }
  return syscall(SYS_sendto, socket, bytes, length, flags, to, size);
}

ssize_t recvfrom(int socket, void *bytes, size_t length, int flags, struct sockaddr *from, socklen_t *size) {
  static long receives;
  if (fails("FAIL_RECEIVE", &receives)) { errno = EIO; return -1; }
  return syscall(SYS_recvfrom, socket, bytes, length, flags, from, size);
}

int socket(int domain, int type, int protocol) {
  static long sockets;
  if (number("FAIL_SOCKET") && ++sockets >= number("FAIL_SOCKET")) { tell(); errno = EMFILE; return -1; }
  return syscall(SYS_socket, domain, type, protocol);
}

int getentropy(void *bytes, size_t length) {
  static long draws;
  if (fails("FAIL_RANDOM", &draws)) { errno = ENOSYS; return -1; }
  return syscall(SYS_getrandom, bytes, length, 0) == (long)length ? 0 : -1;
}
