/* Refuses memory to the program that it is loaded into, by LD_PRELOAD. The program's allocations are numbered from 1, and
   those from REFUSE_FROM to REFUSE_TO are refused. To the descriptor ALLOCATIONS goes one byte for each: '!' where it is
   refused, and '.' where it is given.

   At the program's end goes to the descriptor HELD, where there is one, one byte for each block of memory that the program
   was given and has not given back: '+', or '-' for each that it gave back without having been given it. Then comes '.', so
   that an end that tells nothing is noticed.

   Only calls from the program's own code count: what the C library takes for itself it is given. There is no header here,
   so that a compiler builds it without the system's. */

typedef __SIZE_TYPE__ size;

/* The C library's own allocator, under the names that nothing stands before. */
void *__libc_malloc(size);
void *__libc_calloc(size, size);
void *__libc_realloc(void *, size);
void *__libc_memalign(size, size);
void __libc_free(void *);

/* What dladdr tells of a place (Dl_info): the base is that of the program or of the library in which it lies. */
struct place {
    const char *file;
    void *base;
    const char *symbol;
    void *symbol_at;
};

int dladdr(const void *, struct place *);
unsigned long getauxval(unsigned long);
char *getenv(const char *);
int atoi(const char *);
long write(int, const void *, size);
long syscall(long, ...);

enum { ENTRY_OF_PROGRAM = 9, NO_MEMORY = 12, EXIT_GROUP = 231 };

static int is_of_program(const void *caller) {
    struct place here, entry;
    return dladdr(caller, &here) && dladdr((void *)getauxval(ENTRY_OF_PROGRAM), &entry) && here.base == entry.base;
}

static int number(const char *name) {
    const char *text = getenv(name);
    return text ? atoi(text) : 0;
}

static int is_refused(const void *caller) {
    static int allocations;
    if (!is_of_program(caller))
        return 0;
    int at = __atomic_add_fetch(&allocations, 1, __ATOMIC_RELAXED);
    int refused = number("REFUSE_FROM") <= at && at <= number("REFUSE_TO");
    write(number("ALLOCATIONS"), refused ? "!" : ".", 1);
    return refused;
}

/* How many blocks the program holds. */
static long held;

/* A block that the program is given, or none. */
static void *give(const void *caller, void *block) {
    if (block && is_of_program(caller))
        __atomic_add_fetch(&held, 1, __ATOMIC_RELAXED);
    return block;
}

void *malloc(size bytes) {
    const void *caller = __builtin_return_address(0);
    return is_refused(caller) ? 0 : give(caller, __libc_malloc(bytes));
}

void *calloc(size count, size bytes) {
    const void *caller = __builtin_return_address(0);
    return is_refused(caller) ? 0 : give(caller, __libc_calloc(count, bytes));
}

void *realloc(void *old, size bytes) {
    const void *caller = __builtin_return_address(0);
    if (is_refused(caller))
        return 0;
    void *made = __libc_realloc(old, bytes);
    return old ? made : give(caller, made);
}

void *aligned_alloc(size alignment, size bytes) {
    const void *caller = __builtin_return_address(0);
    return is_refused(caller) ? 0 : give(caller, __libc_memalign(alignment, bytes));
}

int posix_memalign(void **block, size alignment, size bytes) {
    const void *caller = __builtin_return_address(0);
    void *made = is_refused(caller) ? 0 : give(caller, __libc_memalign(alignment, bytes));
    if (!made)
        return NO_MEMORY;
    *block = made;
    return 0;
}

void free(void *block) {
    if (block && is_of_program(__builtin_return_address(0)))
        __atomic_sub_fetch(&held, 1, __ATOMIC_RELAXED);
    __libc_free(block);
}

/* It is called where main returns, and by the call below. */
__attribute__((destructor)) static void tell_held(void) {
    if (!getenv("HELD"))
        return;
    for (; held > 0; held--)
        write(number("HELD"), "+", 1);
    for (; held < 0; held++)
        write(number("HELD"), "-", 1);
    write(number("HELD"), ".", 1);
}

/* A program that names it ends by this call, after which nothing else is called. */
void _exit(int status) {
    tell_held();
    for (;;)
        syscall(EXIT_GROUP, status);
}
