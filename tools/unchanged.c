/*
 * Tells by its status whether sources are as they were: 0 if ROOT/bin/program.sources lists some files, all of them are there, and none has
 * changed since ROOT/bin/program.stamp was written. A change is one of what a file has in it, or a folder, or of its name, mode or owner;
 * its time cannot be set back. The list has a byte 0 behind each name.
 *
 *     unchanged ROOT
 *
 * Each start by ./elltree waits for this. So it calls the system itself: all that takes less time than to load a C library would.
 */

enum { READ = 0, OPEN = 2, LSTAT = 6, EXIT = 60, CHDIR = 80 };

struct moment {
    long seconds, nanoseconds;
};

/* What the system tells of a file, or of a link itself, as it lays it out. */
struct status {
    long before[9];
    struct moment accessed, modified, changed;
    long after[3];
};
_Static_assert(sizeof(struct status) == 144, "the system writes 144 bytes");

static char names[1 << 20];

/* Calls the system: what it answers, an error as a number below 0. */
static long call(long number, long first, long second, long third) {
    __asm__ volatile("syscall" : "+a"(number) : "D"(first), "S"(second), "d"(third) : "rcx", "r11", "memory");
    return number;
}

static int has_status(const char *name, struct status *it) { return call(LSTAT, (long)name, (long)it, 0) == 0; }

static int is_later(struct moment one, struct moment other) {
    return one.seconds > other.seconds || (one.seconds == other.seconds && one.nanoseconds > other.nanoseconds);
}

/* Reads the list: how many bytes it has, or -1 if it cannot be read whole. */
static long read_names(void) {
    long file = call(OPEN, (long)"bin/program.sources", 0, 0), size = 0, count;
    while ((count = call(READ, file, (long)(names + size), (long)sizeof names - size)) > 0)
        size += count;
    return count == 0 && size < (long)sizeof names ? size : -1;
}

static int is_unchanged(const char *root) {
    struct status stamp, it;
    if (call(CHDIR, (long)root, 0, 0) != 0 || !has_status("bin/program.stamp", &stamp))
        return 0;
    const char *name = names, *end = names + read_names();
    int holds = name < end;
    while (holds && name < end) {
        holds = has_status(name, &it) && !is_later(it.changed, stamp.modified);
        while (*name++ != 0) {
        }
    }
    return holds;
}

/* Has what is at the top of the stack as the program begins: the number of its words, and where each is. */
__attribute__((noreturn, used)) static void begin(const long *stack) {
    int holds = stack[0] == 2 && is_unchanged((const char *)stack[2]);
    for (;;)
        call(EXIT, !holds, 0, 0);
}

__asm__(".globl _start\n_start:\n\tmov %rsp, %rdi\n\tand $-16, %rsp\n\tcall begin\n");
