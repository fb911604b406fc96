/* Runs a program again and again, each time with other growths of its memory refused. Loaded before the C library, by
   .ci/memory. The program's main function is entered in a child process of its own for each run, so a run takes less
   than a millisecond and what runs before main isn't counted.

   REFUSE says which growths: `each` the first alone, then the second alone, and so on; `after` all from the first on,
   then all from the second on, and so on; both until a run ends without a refusal. `random` any, in 200 runs.

   REFUSE_OF says what a run may end in. Of a `test`: success; where memory stays away (`after`, `random`) an error that
   it returns too. Of a `command`: the status, output and error stream that it has with ample memory; or status 1,
   nothing on the output and the line `out of memory`. Of a `companion` that status is 2, and the line may begin with
   `error: `, with `<3>`, or with a word of the command line and `: `, after which may be a fault, as `5 Memory: `. Of a
   `loop` also status 1, and behind identifiers `unresolved`, where what memory ran out for was lost and the turns were
   used, or `refused Memory`, where no lookup began.

   Prints a line with the number of growths that were refused, and tells runs that end otherwise. The status is 1 if one
   does or nothing could be refused, 2 if the program can't be run so. */
#define _GNU_SOURCE
#include <ctype.h>
#include <dlfcn.h>
#include <errno.h>
#include <stdio.h>
#include <stdlib.h>
#include <string.h>
#include <sys/mman.h>
#include <sys/wait.h>
#include <unistd.h>

enum { LONGEST = 1 << 20, RANDOM_RUNS = 200, SECONDS = 60, SHOWN = 300, MOST_SHOWN = 3 };

static const char NO_MEMORY[] = "out of memory\n";

/* What a run has asked for and was refused; the parent reads it. */
struct counts {
    long asked;
    long refused;
};

/* How a run ended, and what it printed. */
struct end {
    int status;
    ssize_t out_length, err_length;
    char out[LONGEST], err[LONGEST];
};

enum way { NEVER, EACH, AFTER, RANDOM };

static struct counts *counts;
static char **words;
static int word_count, is_companion;
static enum way way = NEVER;
static long number;
static unsigned long long dice;

/* Whether this growth is to be refused. Each is counted. */
static int refuses(void) {
    if (way == NEVER || !counts) return 0;
    counts->asked += 1;
    int refused = way == EACH ? counts->asked == number : counts->asked >= number;
    if (way == RANDOM) {
        dice = dice * 6364136223846793005ULL + 1442695040888963407ULL;
        refused = (dice >> 33) % (unsigned long long)(2 + number % 15) == 0;
    }
    if (!refused) return 0;
    counts->refused += 1;
    errno = ENOMEM;
    return 1;
}

void *malloc(size_t size) {
    static void *(*real)(size_t);
    if (!real) real = dlsym(RTLD_NEXT, "malloc");
    return refuses() ? NULL : real(size);
}

void *realloc(void *old, size_t size) {
    static void *(*real)(void *, size_t);
    if (!real) real = dlsym(RTLD_NEXT, "realloc");
    return refuses() ? NULL : real(old, size);
}

void *aligned_alloc(size_t alignment, size_t size) {
    static void *(*real)(size_t, size_t);
    if (!real) real = dlsym(RTLD_NEXT, "aligned_alloc");
    return refuses() ? NULL : real(alignment, size);
}

int posix_memalign(void **memory, size_t alignment, size_t size) {
    static int (*real)(void **, size_t, size_t);
    if (!real) real = dlsym(RTLD_NEXT, "posix_memalign");
    return refuses() ? ENOMEM : real(memory, alignment, size);
}

static void fail(const char *what) {
    fprintf(stderr, "refuse_memory: %s: %s\n", what, strerror(errno));
    _exit(2);
}

/* Reads what a run has printed on a stream. */
static ssize_t printed(int file, char *text) {
    ssize_t length = pread(file, text, LONGEST, 0);
    if (length < 0 || length == LONGEST) fail("what a run prints");
    return length;
}

/* A run in which these growths are refused. The child comes back to go on to main; the parent waits for its end. */
static int run(enum way refused_way, long refused_number, int out, int err, struct end *end) {
    counts->asked = counts->refused = 0;
    if (ftruncate(out, 0) || ftruncate(err, 0)) fail("ftruncate");
    pid_t child = fork();
    if (child < 0) fail("fork");
    if (child == 0) {
        if (lseek(out, 0, SEEK_SET) || lseek(err, 0, SEEK_SET) || dup2(out, 1) < 0 || dup2(err, 2) < 0) fail("dup2");
        close(out);
        close(err);
        alarm(SECONDS);
        way = refused_way;
        number = refused_number;
        dice = (unsigned long long)refused_number;
        return 1;
    }
    if (waitpid(child, &end->status, 0) != child) fail("waitpid");
    end->out_length = printed(out, end->out);
    end->err_length = printed(err, end->err);
    return 0;
}

static int same_end(const struct end *one, const struct end *other) {
    return one->status == other->status && one->out_length == other->out_length && one->err_length == other->err_length
           && !memcmp(one->out, other->out, (size_t)one->out_length)
           && !memcmp(one->err, other->err, (size_t)one->err_length);
}

/* Whether this is nothing, or a fault: its number, its name and `: `. */
static int is_fault(const char *text, size_t length) {
    if (length == 0) return 1;
    if (length < 6 || text[0] < '1' || text[0] > '9' || text[1] != ' ' || memcmp(text + length - 2, ": ", 2)) return 0;
    for (size_t n = 2; n < length - 2; n++)
        if (!isalpha((unsigned char)text[n])) return 0;
    return 1;
}

/* Whether the line `out of memory` may begin so. */
static int may_begin(const char *text, size_t length) {
    if (length == 0) return 1;
    if (!is_companion) return 0;
    if (length == 3 && !memcmp(text, "<3>", 3)) return 1;
    for (int n = 0; n < word_count; n++) {
        const char *word = n ? words[n] : "error";
        size_t end = strlen(word) + 2;
        if (end <= length && !memcmp(text, word, end - 2) && !memcmp(text + end - 2, ": ", 2)
            && is_fault(text + end, length - end))
            return 1;
    }
    return 0;
}

/* Whether a command has told that memory ran out, and nothing else. */
static int tells_want(const struct end *end) {
    const ssize_t begins = end->err_length - (ssize_t)strlen(NO_MEMORY);
    return WIFEXITED(end->status) && WEXITSTATUS(end->status) == (is_companion ? 2 : 1) && end->out_length == 0
           && begins >= 0 && !memcmp(end->err + begins, NO_MEMORY, strlen(NO_MEMORY))
           && may_begin(end->err, (size_t)begins);
}

/* The length of a line, its line feed with it. */
static ssize_t line_length(const char *text, ssize_t length) {
    const char *feed = memchr(text, '\n', (size_t)length);
    return feed ? feed - text + 1 : length;
}

/* Whether a line ends so behind the identifier of another line. */
static int ends_otherwise(const char *one, ssize_t length, const char *other, ssize_t other_length, const char *end) {
    const ssize_t tail = (ssize_t)strlen(end);
    return length > tail && !memcmp(one + length - tail, end, (size_t)tail) && other_length > length - tail
           && !memcmp(one, other, (size_t)(length - tail + 1));
}

/* Whether the lines are those of ample memory, but that some identifiers have no outcome for want of memory: at least
   one, which is why the status is 1. */
static int leaves_some(const struct end *end, const struct end *ample) {
    int left_out = 0;
    const char *one = end->out, *other = ample->out;
    ssize_t left = end->out_length, other_left = ample->out_length;
    if (!WIFEXITED(end->status) || WEXITSTATUS(end->status) != 1 || end->err_length != 0) return 0;
    while (left > 0 && other_left > 0) {
        ssize_t length = line_length(one, left), other_length = line_length(other, other_left);
        int same = length == other_length && !memcmp(one, other, (size_t)length);
        if (!same && !ends_otherwise(one, length, other, other_length, " unresolved\n")
            && !ends_otherwise(one, length, other, other_length, " refused Memory\n"))
            return 0;
        left_out += !same;
        one += length, left -= length, other += other_length, other_left -= other_length;
    }
    return left_out > 0 && left == 0 && other_left == 0;
}

static void tell(const struct end *end, const char *how, long run_number) {
    printf("  wrong, %s %ld: ", how, run_number);
    if (WIFSIGNALED(end->status)) printf("signal %d\n", WTERMSIG(end->status));
    else printf("status %d\n", WEXITSTATUS(end->status));
    printf("  %.*s", end->out_length < SHOWN ? (int)end->out_length : SHOWN, end->out);
    printf("%.*s\n", end->err_length < SHOWN ? (int)end->err_length : SHOWN, end->err);
    /* The next run's process is not to have it in its buffer too, and print it as its own. */
    fflush(stdout);
}

__attribute__((constructor)) static void each_run(int main_count, char **main_words) {
    static struct end ample, end;
    const char *how = getenv("REFUSE"), *of = getenv("REFUSE_OF");
    if (!how || !of) return;
    enum way refused = !strcmp(how, "each") ? EACH : !strcmp(how, "after") ? AFTER : RANDOM;
    int is_test = !strcmp(of, "test"), is_loop = !strcmp(of, "loop");
    is_companion = !strcmp(of, "companion");
    word_count = main_count;
    words = main_words;
    counts = mmap(NULL, sizeof *counts, PROT_READ | PROT_WRITE, MAP_SHARED | MAP_ANONYMOUS, -1, 0);
    if (counts == MAP_FAILED) fail("mmap");
    unsetenv("LD_PRELOAD");
    int out = memfd_create("out", 0), err = memfd_create("err", 0);
    if (out < 0 || err < 0) fail("memfd_create");

    long runs = 0, refusals = 0, wanted = 0, wrong = 0;
    if (run(NEVER, 0, out, err, &ample)) return;
    if (is_test && ample.status != 0) {
        tell(&ample, "ample memory", 0);
        wrong += 1;
    }
    for (;;) {
        if (run(refused, runs + 1, out, err, &end)) return;
        int stays_away = refused != EACH && WIFEXITED(end.status);
        int is_right = is_test ? end.status == 0 || stays_away
                               : same_end(&end, &ample) || tells_want(&end) || (is_loop && leaves_some(&end, &ample));
        if (!is_right && wrong++ < MOST_SHOWN) tell(&end, how, runs + 1);
        if (counts->refused == 0 && refused != RANDOM) break;
        runs += 1;
        refusals += counts->refused;
        wanted += is_test ? end.status != 0 : !same_end(&end, &ample);
        if (runs == RANDOM_RUNS && refused == RANDOM) break;
    }
    printf("%s: %ld growths refused in %ld runs, %ld of them without an answer\n", how, refusals, runs, wanted);
    if (refusals == 0) printf("  wrong, %s: nothing was refused\n", how);
    fflush(stdout);
    _exit(wrong || refusals == 0 ? 1 : 0);
}
