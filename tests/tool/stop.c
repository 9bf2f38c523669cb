/* Read by the loader before the C library (tests/tool.sh), so that the program's calls of the system come here first. L1_STOP says at
 * which of them something happens, and L1_HOW what: 'b' killed before it, 'a' killed after it, 'h' killed after half of a write,
 * 'f' the call fails as on a full disk. L1_SHORT says how many bytes a read or a write takes at the most. Without L1_STOP the calls are
 * counted, and their number is written to the descriptor 9. Where L1_TOLD is set the name of each call goes to the descriptor 8, one to a
 * line; of a write to standard output or standard error, "cards" or "texts". */
typedef unsigned long size_t;
typedef long ssize_t;

extern void *dlsym(void *, const char *);
extern char *getenv(const char *);
extern int *__errno_location(void);
extern int kill(int, int);
extern int getpid(void);

enum { no_space = 28, sig_kill = 9, counted = 9, named = 8 };

static long calls;

static long number_in(const char *name) {
    const char *text = getenv(name);
    long n = 0;
    if (!text) return 0;
    for (; *text; text++) n = 10 * n + (*text - '0');
    return n;
}

static int how(void) {
    const char *text = getenv("L1_HOW");
    return text ? *text : 'n';
}

static void *real(const char *name) { return dlsym((void *)-1L, name); }

static void told(const char *name) {
    ssize_t (*go)(int, const void *, size_t) = real("write");
    size_t n = 0;
    if (!getenv("L1_TOLD")) return;
    while (name[n]) n++;
    go(named, name, n);
    go(named, "\n", 1);
}

/* Whether this call is the one; one that is to be killed before is. */
static int is_it(const char *name) {
    told(name);
    int it = ++calls == number_in("L1_STOP");
    if (it && how() == 'b') kill(getpid(), sig_kill);
    return it;
}

static int fails(int it) {
    if (!it || how() != 'f') return 0;
    *__errno_location() = no_space;
    return 1;
}

static void after(int it) {
    if (it && how() == 'a') kill(getpid(), sig_kill);
}

static size_t part_of(size_t n) {
    size_t most = number_in("L1_SHORT");
    return most && most < n ? most : n;
}

ssize_t write(int fd, const void *bytes, size_t n) {
    ssize_t (*go)(int, const void *, size_t) = real("write");
    int it = is_it(fd == 1 ? "cards" : fd == 2 ? "texts" : "write");
    if (fails(it)) return -1;
    if (it && how() == 'h') {
        go(fd, bytes, n / 2);
        kill(getpid(), sig_kill);
    }
    ssize_t done = go(fd, bytes, part_of(n));
    after(it);
    return done;
}

ssize_t read(int fd, void *bytes, size_t n) {
    ssize_t (*go)(int, void *, size_t) = real("read");
    int it = is_it("read");
    if (fails(it)) return -1;
    ssize_t done = go(fd, bytes, part_of(n));
    after(it);
    return done;
}

int open(const char *path, int flags, unsigned mode) {
    int (*go)(const char *, int, unsigned) = real("open");
    int it = is_it("open");
    if (fails(it)) return -1;
    int answer = go(path, flags, mode);
    after(it);
    return answer;
}

#define CALL(name, parameters, arguments)                                                                                              \
    int name parameters {                                                                                                              \
        int(*go) parameters = real(#name);                                                                                             \
        int it = is_it(#name);                                                                                                         \
        if (fails(it)) return -1;                                                                                                      \
        int answer = go arguments;                                                                                                     \
        after(it);                                                                                                                     \
        return answer;                                                                                                                 \
    }

CALL(statx, (int at, const char *path, int flags, unsigned mask, void *found), (at, path, flags, mask, found))
CALL(getentropy, (void *bytes, size_t n), (bytes, n))
CALL(fsync, (int fd), (fd))
CALL(close, (int fd), (fd))
CALL(rename, (const char *from, const char *to), (from, to))
CALL(unlink, (const char *path), (path))
CALL(fchmod, (int fd, unsigned mode), (fd, mode))

__attribute__((destructor)) static void tell(void) {
    char digits[20];
    int i = 20;
    ssize_t (*go)(int, const void *, size_t) = real("write");
    if (number_in("L1_STOP")) return;
    do digits[--i] = '0' + calls % 10;
    while (calls /= 10);
    go(counted, digits + i, 20 - i);
}
