/* Loaded before the C library, of which it needs no header: counts the requests for memory, and refuses one of them. REFUSE has the
   number of the refused request, counted from 1, among those of the thread that the program begins with, and REFUSE_STARTED among
   those of all the threads that it starts. Where the latter is given, each request of the first thread takes a while, so that the
   others have their share of the work. At the end the file REQUESTS gets how many requests there were of the one and of the others,
   how many were refused, how many bytes they were for in all, and for how many the greatest was. */
typedef __SIZE_TYPE__ size_t;

int gettid(void);
int getpid(void);
char *getenv(const char *name);
long atol(const char *text);
int creat(const char *name, unsigned mode);
int dprintf(int file, const char *format, ...);
int close(int file);
int usleep(unsigned microseconds);
int *__errno_location(void);
_Noreturn void _Exit(int status);

/* The C library's own, by the names that aren't replaced here. */
void *__libc_malloc(size_t size);
void *__libc_calloc(size_t count, size_t size);
void *__libc_realloc(void *at, size_t size);
void *__libc_memalign(size_t alignment, size_t size);

enum { OUT_OF_MEMORY = 12, A_WHILE = 200 };

static long of_first, of_started, refused;
static size_t everything, greatest;

static void note_size(size_t size) {
    __atomic_fetch_add(&everything, size, __ATOMIC_SEQ_CST);
    size_t before = __atomic_load_n(&greatest, __ATOMIC_SEQ_CST);
    while (before < size && !__atomic_compare_exchange_n(&greatest, &before, size, 0, __ATOMIC_SEQ_CST, __ATOMIC_SEQ_CST)) {
    }
}

static int is_refused(size_t size) {
    int is_first = gettid() == getpid();
    const char *number = getenv(is_first ? "REFUSE" : "REFUSE_STARTED");
    long before = __atomic_fetch_add(is_first ? &of_first : &of_started, 1, __ATOMIC_SEQ_CST);
    note_size(size);
    if (is_first && getenv("REFUSE_STARTED")) usleep(A_WHILE);
    if (!number || before + 1 != atol(number)) return 0;
    __atomic_fetch_add(&refused, 1, __ATOMIC_SEQ_CST);
    *__errno_location() = OUT_OF_MEMORY;
    return 1;
}

__attribute__((destructor)) static void tell(void) {
    const char *name = getenv("REQUESTS");
    int file = name ? creat(name, 0644) : -1;
    if (file < 0) return;
    dprintf(file, "%ld %ld %ld %zu %zu\n", of_first, of_started, refused, everything, greatest);
    close(file);
}

/* A program that may start threads ends by this call, and then no destructor runs. */
_Noreturn void _exit(int status) {
    tell();
    _Exit(status);
}

void *malloc(size_t size) {
    return is_refused(size) ? 0 : __libc_malloc(size);
}

void *calloc(size_t count, size_t size) {
    size_t all;
    if (__builtin_mul_overflow(count, size, &all)) all = -1;
    return is_refused(all) ? 0 : __libc_calloc(count, size);
}

void *realloc(void *at, size_t size) {
    return is_refused(size) ? 0 : __libc_realloc(at, size);
}

void *aligned_alloc(size_t alignment, size_t size) {
    return is_refused(size) ? 0 : __libc_memalign(alignment, size);
}

int posix_memalign(void **at, size_t alignment, size_t size) {
    void *made = is_refused(size) ? 0 : __libc_memalign(alignment, size);
    if (!made) return OUT_OF_MEMORY;
    *at = made;
    return 0;
}
