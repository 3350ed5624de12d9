/* Loaded before the C library's: requests for memory that fail.

   FAILS_AT=N refuses request N, counted from one, of the program; STAYS=1 all behind it too. At the end of the program the
   number of requests, and that of the blocks that were never given back, go to the file COUNT_FILE.

   MOST=M makes each request fail in turn, or M of them, evenly spread, where there are more (0: each). The program runs with
   ample memory, and then once more; at each request that is to fail, a process is forked in which it does. What is forked is
   refused if it ends with a status from REFUSED_FROM to REFUSED_TO and a line of its errors that fits the pattern REFUSED,
   and, where WHOLE is 1, a beginning of the output. Else it must answer as the first run did: with its status and, where
   WHOLE is 1, its output and errors. In both cases it must keep as many blocks as the first run. What is neither is told. The
   last line has the counts.

   Where FRAMES names a file, the places of the program at which a call led to a request that was refused are added to it, one
   a line, as offsets of the program's file. The program keeps frame pointers. */
#define _GNU_SOURCE
#include <dlfcn.h>
#include <fcntl.h>
#include <link.h>
#include <regex.h>
#include <stdio.h>
#include <stdlib.h>
#include <string.h>
#include <sys/mman.h>
#include <sys/resource.h>
#include <sys/stat.h>
#include <sys/wait.h>
#include <unistd.h>

static long count, live, fails_at = -1;
static int stays;
/* Whether the requests are those of what stands here, which aren't counted. */
static int inside;
/* The request at which the next process is forked, or 0. */
static long forks_at;
/* What dlsym asks for while it looks for the C library's functions. */
static char early[4096];
static size_t early_used;

static void fork_here(void);

static void *next(const char *name) {
    return dlsym(RTLD_NEXT, name);
}

static long number(const char *name, long without) {
    const char *text = getenv(name);
    return text ? atol(text) : without;
}

/* What all the processes share: what one tells at its end, the counts, and the end of what is marked. */
struct told {
    long made, kept;
    int ended;
};

static struct shared {
    struct told told;
    long failed, refused, answered, faults;
    size_t marked;
} *shared;

/* A mark for each byte of the program that a call comes back to. */
static unsigned char *marks;
static const size_t most_marks = 64ul << 20;
static size_t base;

static void mark(size_t place) {
    if (place >= most_marks) return;
    marks[place] = 1;
    if (place >= shared->marked) shared->marked = place + 1;
}

static __attribute__((noinline)) void mark_frames(void) {
    size_t *frame = __builtin_frame_address(0);
    for (;;) {
        size_t place = frame[1] - base, *above = (size_t *)frame[0];
        mark(place);
        if (above <= frame || (size_t)((char *)above - (char *)frame) > most_marks) return;
        frame = above;
    }
}

static int ends_here(void) {
    if (inside) return 0;
    if (fails_at < 0) {
        fails_at = number("FAILS_AT", 0);
        stays = number("STAYS", 0) != 0;
    }
    count++;
    if (count == forks_at) fork_here();
    int ends = fails_at > 0 && (stays ? count >= fails_at : count == fails_at);
    if (ends && marks) mark_frames();
    return ends;
}

void *malloc(size_t size) {
    static void *(*real)(size_t);
    if (!real) real = (void *(*)(size_t))next("malloc");
    void *got = ends_here() ? NULL : real(size);
    live += got != NULL && !inside;
    return got;
}

void *calloc(size_t many, size_t size) {
    static void *(*real)(size_t, size_t);
    static int looking;
    if (looking) {
        void *got = early + early_used;
        early_used += (many * size + 15) / 16 * 16;
        return early_used <= sizeof early ? got : NULL;
    }
    if (!real) {
        looking = 1;
        real = (void *(*)(size_t, size_t))next("calloc");
        looking = 0;
    }
    void *got = ends_here() ? NULL : real(many, size);
    live += got != NULL && !inside;
    return got;
}

void *realloc(void *old, size_t size) {
    static void *(*real)(void *, size_t);
    if (!real) real = (void *(*)(void *, size_t))next("realloc");
    void *got = ends_here() ? NULL : real(old, size);
    live += got != NULL && old == NULL && !inside;
    return got;
}

void free(void *old) {
    static void (*real)(void *);
    if (!real) real = (void (*)(void *))next("free");
    if (old == NULL || ((char *)old >= early && (char *)old < early + sizeof early)) return;
    live -= !inside;
    real(old);
}

__attribute__((destructor)) static void tell(void) {
    const char *path = getenv("COUNT_FILE");
    long made = count, kept = live;
    inside = 1;
    if (shared) shared->told = (struct told){made, kept, 1};
    FILE *file = path ? fopen(path, "w") : NULL;
    if (file) {
        fprintf(file, "%ld %ld\n", made, kept);
        fclose(file);
    }
}

struct run {
    struct told told;
    int status; /* as `wait` tells it */
    char *out, *errors;
    size_t out_size, errors_size;
};

static struct run first;
static regex_t pattern;
static int whole, report, out_file, errors_file;
static long most, refused_from, refused_to;

static void stop(const char *why) {
    dprintf(2, "failing_malloc: %s\n", why);
    _exit(2);
}

static int new_file(void) {
    int file = memfd_create("output", 0);
    if (file < 0) stop("no file");
    return file;
}

static char *text_of(int file, size_t *size) {
    *size = (size_t)lseek(file, 0, SEEK_END);
    char *text = malloc(*size + 1);
    if (!text || pread(file, text, *size, 0) != (ssize_t)*size) stop("no text");
    text[*size] = 0;
    return text;
}

/* A file with what this one has. */
static int copy_of(int file) {
    size_t size;
    char *text = text_of(file, &size);
    int copy = new_file();
    if (write(copy, text, size) != (ssize_t)size) stop("no copy");
    free(text);
    return copy;
}

/* Files that are read go on from where they are, without moving for the process that was forked from. */
static void open_again(void) {
    for (int file = 0; file < 64; file++) {
        struct stat is;
        char path[32];
        long at = lseek(file, 0, SEEK_CUR);
        if (at < 0 || fstat(file, &is) || !S_ISREG(is.st_mode) || (fcntl(file, F_GETFL) & O_ACCMODE) != O_RDONLY) continue;
        snprintf(path, sizeof path, "/proc/self/fd/%d", file);
        int again = open(path, O_RDONLY);
        if (again < 0 || lseek(again, at, SEEK_SET) != at || dup2(again, file) < 0) stop("no file again");
        close(again);
    }
}

/* Forks a process that writes into these files. */
static pid_t forked(int out, int errors) {
    memset(&shared->told, 0, sizeof shared->told);
    pid_t child = fork();
    if (child < 0) stop("no process");
    if (child == 0) {
        dup2(out, 1);
        dup2(errors, 2);
        open_again();
    }
    return child;
}

static struct run ended(pid_t child, int out, int errors) {
    struct run run;
    if (waitpid(child, &run.status, 0) != child) stop("no end");
    run.told = shared->told;
    run.out = text_of(out, &run.out_size);
    run.errors = text_of(errors, &run.errors_size);
    return run;
}

static int is_refused(const struct run *run) {
    return WEXITSTATUS(run->status) >= refused_from && WEXITSTATUS(run->status) <= refused_to
        && regexec(&pattern, run->errors, 0, NULL, 0) == 0
        && (!whole || (run->out_size <= first.out_size && memcmp(run->out, first.out, run->out_size) == 0));
}

static int is_answered(const struct run *run) {
    return run->status == first.status
        && (!whole || (run->out_size == first.out_size && memcmp(run->out, first.out, run->out_size) == 0
            && run->errors_size == first.errors_size && memcmp(run->errors, first.errors, run->errors_size) == 0));
}

static void tell_fault(const struct run *run, long at) {
    dprintf(report, "allocation %ld of %ld: ", at, first.told.made);
    if (WIFSIGNALED(run->status)) dprintf(report, "signal %d", WTERMSIG(run->status));
    else dprintf(report, "status %d", WEXITSTATUS(run->status));
    if (run->told.ended) dprintf(report, ", %ld blocks are kept, and %ld without a failure", run->told.kept, first.told.kept);
    dprintf(report, "; %zu bytes out of %zu\n%.400s\n", run->out_size, first.out_size, run->errors);
}

static void judge(const struct run *run, long at) {
    int ends = WIFEXITED(run->status) && run->told.ended && run->told.kept == first.told.kept;
    if (ends && is_refused(run)) shared->refused++;
    else if (ends && is_answered(run)) shared->answered++;
    else if (++shared->faults <= 20) tell_fault(run, at);
    shared->failed++;
}

/* The request that fails behind so many others that did, or 0. */
static long failing(long already) {
    long made = first.told.made, all = most == 0 || made < most ? made : most;
    return already < all ? already * made / all + 1 : 0;
}

static void fork_here(void) {
    inside = 1;
    int out = copy_of(out_file), errors = copy_of(errors_file);
    pid_t child = forked(out, errors);
    if (child == 0) {
        setrlimit(RLIMIT_CPU, &(struct rlimit){60, 60});
        fails_at = count;
        forks_at = 0;
    } else {
        struct run now = ended(child, out, errors);
        judge(&now, count);
        free(now.out);
        free(now.errors);
        forks_at = failing(shared->failed);
    }
    close(out);
    close(errors);
    inside = 0;
}

static int found_base(struct dl_phdr_info *info, size_t size, void *data) {
    (void)size;
    *(size_t *)data = info->dlpi_addr;
    return 1;
}

static void *shared_room(size_t size) {
    void *got = mmap(NULL, size, PROT_READ | PROT_WRITE, MAP_SHARED | MAP_ANONYMOUS, -1, 0);
    if (got == MAP_FAILED) stop("no room");
    return got;
}

static void tell_frames(const char *path) {
    FILE *file = fopen(path, "a");
    if (!file) stop("no file for frames");
    for (size_t place = 0; place < shared->marked; place++)
        if (marks[place]) fprintf(file, "%zx\n", place);
    fclose(file);
}

static void prepare(void) {
    fails_at = 0;
    stays = number("STAYS", 0) != 0;
    whole = number("WHOLE", 0) != 0;
    refused_from = number("REFUSED_FROM", 1);
    refused_to = number("REFUSED_TO", 123);
    const char *text = getenv("REFUSED");
    if (!text || regcomp(&pattern, text, REG_EXTENDED | REG_ICASE | REG_NEWLINE | REG_NOSUB)) stop("no pattern");
    shared = shared_room(sizeof *shared);
    report = dup(1);
    if (getenv("FRAMES")) {
        dl_iterate_phdr(found_base, &base);
        marks = shared_room(most_marks);
    }
}

/* Runs the program from its `main` on, in a process of its own; answers whether this is it. */
static int is_begun(struct run *run) {
    out_file = new_file();
    errors_file = new_file();
    pid_t child = forked(out_file, errors_file);
    if (child == 0) {
        count = live = 0;
        inside = 0;
        return 1;
    }
    *run = ended(child, out_file, errors_file);
    return 0;
}

__attribute__((constructor)) static void each_in_turn(void) {
    most = number("MOST", -1);
    if (most < 0) return;
    inside = 1;
    prepare();
    if (is_begun(&first)) return;
    if (!first.told.ended || number("FIRST_STATUS", WEXITSTATUS(first.status)) != WEXITSTATUS(first.status)) {
        dprintf(report, "fails with ample memory:\n%.400s\n", first.errors);
        _exit(2);
    }
    forks_at = failing(0);
    struct run again;
    if (is_begun(&again)) return;
    if (failing(shared->failed)) stop("not all of them failed");
    dprintf(report, "%ld allocations, %ld of them failed in turn: %ld refused, %ld answered as without the failure, %ld neither; %ld blocks are kept to the end of each run\n",
        first.told.made, shared->failed, shared->refused, shared->answered, shared->faults, first.told.kept);
    if (marks) tell_frames(getenv("FRAMES"));
    _exit(shared->faults != 0);
}
