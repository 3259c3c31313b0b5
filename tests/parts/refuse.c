// A library to preload: it refuses calls of the program that it is loaded into.
//
// REFUSE=5 refuses the fifth call that asks for memory, REFUSE=5.. that one and all after it, whatever thread makes it;
// what the system's libraries ask for counts, too. With REFUSE_WHAT=reads, writes, threads, accepts or limits calls
// that read, write, start a thread, accept a connection or set an option of a socket, as its limits are, fail in place of
// those; with files, directories, syncs, names, erasures those that open a file, make a folder, sync one, give a second name
// or another one, or take one; with privileges those that give a second name, as where a file system has none. With
// REFUSE_WHAT=octets nothing fails, and each read and write moves one octet. With REFUSE_WHAT=interruptions every other call
// that reads, writes or accepts a connection is interrupted. With REFUSE_END the program ends in place of a failure, as if it
// was killed. Each time a letter is written to descriptor 9, if that is open. A program that still runs after twenty seconds
// gets SIGALRM.
//
// The toolchain's clang builds it, and has no headers, so that all that is called is declared here.

typedef unsigned long size_t;
extern void *__libc_malloc(size_t);
extern void *__libc_calloc(size_t, size_t);
extern void *__libc_realloc(void *, size_t);
extern void *__libc_memalign(size_t, size_t);
extern char *getenv(const char *);
extern long strtol(const char *, char **, int);
extern unsigned alarm(unsigned);
extern long syscall(long, ...);
extern void *dlsym(void *, const char *);
extern int *__errno_location(void);

enum { READ = 0, WRITE = 1, RECEIVE = 45, SET_OPTION = 54, ACCEPT = 288 };
enum { SYNC = 74, RENAME = 82, MAKE_FOLDER = 83, REMOVE_FOLDER = 84, LINK = 86, UNLINK = 87, OPEN = 257, UNLINK_AT = 263, END = 231 };
enum { NOT_ALLOWED = 1, INTERRUPTED = 4, DEVICE = 5, AGAIN = 11, NO_MEMORY = 12, TOO_MANY = 24, NO_SPACE = 28, SECONDS = 20 };
enum { HERE = -100 };

// The first letter of what is refused; the first such call, 0 for none, and whether those after it are refused, too.
static char what = 'm';
static long first;
static int goes_on;
static int ends;
static long calls;

__attribute__((constructor)) static void start(void) {
  const char *word = getenv("REFUSE");
  char *rest;
  if (!word) return;
  alarm(SECONDS);
  first = strtol(word, &rest, 10);
  goes_on = *rest == '.';
  ends = getenv("REFUSE_END") != 0;
  word = getenv("REFUSE_WHAT");
  if (word) what = *word;
}

static void tell(void) { syscall(WRITE, 9, "r", 1); }

static int is_refused(char kind, int error) {
  if (!first || kind != what) return 0;
  long call = __atomic_add_fetch(&calls, 1, __ATOMIC_SEQ_CST);
  if (call < first || (call > first && !goes_on)) return 0;
  tell();
  if (ends) syscall(END, 137);
  *__errno_location() = error;
  return 1;
}

static int is_interrupted(void) {
  if (!first || what != 'i' || __atomic_add_fetch(&calls, 1, __ATOMIC_SEQ_CST) % 2 == 0) return 0;
  tell();
  *__errno_location() = INTERRUPTED;
  return 1;
}

static int has_none(void) { return is_refused('m', NO_MEMORY); }

void *malloc(size_t size) { return has_none() ? 0 : __libc_malloc(size); }

void *calloc(size_t count, size_t size) { return has_none() ? 0 : __libc_calloc(count, size); }

// (with size 0 it frees)
void *realloc(void *old, size_t size) { return size && has_none() ? 0 : __libc_realloc(old, size); }

void *memalign(size_t to, size_t size) { return has_none() ? 0 : __libc_memalign(to, size); }

void *aligned_alloc(size_t to, size_t size) { return memalign(to, size); }

int posix_memalign(void **at, size_t to, size_t size) {
  void *found = memalign(to, size);
  if (!found) return NO_MEMORY;
  *at = found;
  return 0;
}

// How much of so much is moved at once.
static size_t moved(size_t size) {
  if (!first || what != 'o' || size <= 1) return size;
  tell();
  return 1;
}

long read(int from, void *to, size_t size) {
  return is_refused('r', DEVICE) || is_interrupted() ? -1 : syscall(READ, from, to, moved(size));
}

long recv(int from, void *to, size_t size, int flags) {
  return is_refused('r', DEVICE) || is_interrupted() ? -1 : syscall(RECEIVE, from, to, moved(size), flags, 0, 0);
}

long recvfrom(int from, void *to, size_t size, int flags, void *peer, void *length) {
  return is_refused('r', DEVICE) || is_interrupted() ? -1 : syscall(RECEIVE, from, to, size, flags, peer, length);
}

long write(int to, const void *from, size_t size) {
  return is_refused('w', DEVICE) || is_interrupted() ? -1 : syscall(WRITE, to, from, moved(size));
}

long __write(int to, const void *from, size_t size) { return write(to, from, size); }

int accept4(int listener, void *peer, void *size, int flags) {
  return is_refused('a', DEVICE) || is_interrupted() ? -1 : (int)syscall(ACCEPT, listener, peer, size, flags);
}

// (the mode of a file that is made is the last argument, if there is one)
int openat(int at, const char *path, int flags, unsigned mode) {
  return is_refused('f', TOO_MANY) ? -1 : (int)syscall(OPEN, at, path, flags, mode);
}

int open(const char *path, int flags, unsigned mode) { return openat(HERE, path, flags, mode); }

int mkdir(const char *path, unsigned mode) {
  return is_refused('d', NO_SPACE) ? -1 : (int)syscall(MAKE_FOLDER, path, mode);
}

int fsync(int of) { return is_refused('s', DEVICE) ? -1 : (int)syscall(SYNC, of); }

int link(const char *from, const char *to) {
  return is_refused('n', DEVICE) || is_refused('p', NOT_ALLOWED) ? -1 : (int)syscall(LINK, from, to);
}

int rename(const char *from, const char *to) { return is_refused('n', DEVICE) ? -1 : (int)syscall(RENAME, from, to); }

int unlink(const char *path) { return is_refused('e', DEVICE) ? -1 : (int)syscall(UNLINK, path); }

int unlinkat(int at, const char *path, int flags) { return is_refused('e', DEVICE) ? -1 : (int)syscall(UNLINK_AT, at, path, flags); }

int rmdir(const char *path) { return is_refused('e', DEVICE) ? -1 : (int)syscall(REMOVE_FOLDER, path); }

int setsockopt(int of, int level, int option, const void *value, unsigned size) {
  return is_refused('l', DEVICE) ? -1 : (int)syscall(SET_OPTION, of, level, option, value, size);
}

int pthread_create(void *thread, const void *how, void *(*run)(void *), void *with) {
  int (*create)(void *, const void *, void *(*)(void *), void *) = dlsym((void *)-1, "pthread_create");
  return is_refused('t', AGAIN) ? AGAIN : create(thread, how, run, with);
}
