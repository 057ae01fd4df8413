/* What AFL++ runs: one guest of nesthv that goes on from a saved state with the bytes of a test case as its unread
   inputs. It serves AFL's fork server, fills AFL's map from the counts that nesthv-trace writes, and aborts where the
   run is a failure. tools/fuzz builds it.
   Usage: target FOLDER [FILE]     (FILE has the test case; standard input if left out)
   FOLDER has what tools/fuzz puts there: front, clock and rest, the state before, of and after the unread inputs;
   run.toml, which names /proc/self/fd/9; and rules. */
#define _GNU_SOURCE
#include <fcntl.h>
#include <signal.h>
#include <stdbool.h>
#include <stdint.h>
#include <stdio.h>
#include <stdlib.h>
#include <string.h>
#include <sys/mman.h>
#include <sys/prctl.h>
#include <sys/resource.h>
#include <sys/shm.h>
#include <sys/wait.h>
#include <unistd.h>

/* The first word to AFL: that options follow in it, and one of them, the size of the map. */
#define OPTIONS 0x80000001u
#define HAS_MAP_SIZE 0x40000000u

enum { CONTROL = 198, ANSWER = 199, STATE = 9, MAP = 1 << 16, MOST_INPUTS = 65536, TAIL = 64, FAULTS = 1024 };

struct bytes {
    char *at;
    size_t length;
};

/* An exception that is no failure: the mode and pc that it was taken from, and its code. */
struct fault {
    char mode[3];
    uint64_t pc;
    unsigned code;
};

static struct {
    char tracer[4096];
    int may_wait, may_run, faults;
    struct fault fault[FAULTS];
} rules;

static struct bytes front, rest;
static uint64_t moment;
static unsigned char own_map[MAP], *map = own_map;
static const char *folder, *test_case;

static void refuse(const char *what)
{
    fprintf(stderr, "fuzz_target: %s\n", what);
    exit(2);
}

static struct bytes read_all(int file)
{
    struct bytes read_bytes = {NULL, 0};
    size_t room = 0;
    ssize_t count = 1;

    while (count > 0) {
        if (read_bytes.length == room) {
            room = room ? 2 * room : 1 << 16;
            read_bytes.at = realloc(read_bytes.at, room);
            if (!read_bytes.at)
                refuse("out of memory");
        }
        count = read(file, read_bytes.at + read_bytes.length, room - read_bytes.length);
        read_bytes.length += count > 0 ? (size_t)count : 0;
    }
    return read_bytes;
}

static struct bytes file_of_folder(const char *name)
{
    char path[4096];
    int file;

    snprintf(path, sizeof path, "%s/%s", folder, name);
    file = open(path, O_RDONLY | O_CLOEXEC);
    if (file < 0)
        refuse("the folder lacks a file: tools/fuzz makes it");
    struct bytes found = read_all(file);
    close(file);
    return found;
}

static void read_rules(void)
{
    struct bytes text = file_of_folder("rules");
    FILE *file = fmemopen(text.at, text.length, "r");

    if (!file || fscanf(file, "tracer %4095[^\n]\nmoment %lu\nwait %d\nrun %d\n", rules.tracer, &moment, &rules.may_wait,
                        &rules.may_run) != 4)
        refuse("the rules cannot be read");
    while (rules.faults < FAULTS) {
        struct fault *fault = &rules.fault[rules.faults];
        if (fscanf(file, "fault %2s %lx %u\n", fault->mode, &fault->pc, &fault->code) != 3)
            break;
        rules.faults++;
    }
    fclose(file);
}

static void put(int file, const void *data, size_t length)
{
    for (size_t done = 0; done < length;) {
        ssize_t count = write(file, (const char *)data + done, length - done);
        if (count <= 0)
            refuse("the state cannot be written");
        done += (size_t)count;
    }
}

/* The state whose unread inputs are these bytes, all of which are there, as a file of number STATE. */
static void put_state(struct bytes inputs)
{
    static char records[9 * MOST_INPUTS];
    uint64_t count = inputs.length < MOST_INPUTS ? inputs.length : MOST_INPUTS;
    int file = memfd_create("state", 0);

    for (uint64_t at = 0; at < count; at++) {
        memcpy(records + 9 * at, &moment, 8);
        records[9 * at + 8] = inputs.at[at];
    }
    put(file, front.at, front.length);
    put(file, &count, sizeof count);
    put(file, records, 9 * count);
    put(file, rest.at, rest.length);
    if (dup2(file, STATE) < 0)
        refuse("the state cannot be opened");
    close(file);
}

static FILE *trace(pid_t *child)
{
    int ends[2];

    if (pipe(ends))
        refuse("there is no pipe");
    *child = fork();
    if (*child == 0) {
        prctl(PR_SET_PDEATHSIG, SIGKILL);
        dup2(ends[1], 1);
        close(ends[0]);
        close(ends[1]);
        if (chdir(folder) == 0)
            execl(rules.tracer, "nesthv-trace", "run.toml", "0", "traps,calls,counts", (char *)NULL);
        _exit(127);
    }
    close(ends[1]);
    return fdopen(ends[0], "r");
}

static bool is_allowed(const char *mode, uint64_t pc, unsigned code)
{
    if (code == 8 || code == 9 || code == 10)
        return true; /* a call */
    for (int at = 0; at < rules.faults; at++)
        if (rules.fault[at].pc == pc && rules.fault[at].code == code && !strcmp(rules.fault[at].mode, mode))
            return true;
    return false;
}

static uint64_t mixed(uint64_t value)
{
    value = (value ^ value >> 31) * 0x9E3779B97F4A7C15;
    return value ^ value >> 29;
}

/* Marks the way into a place from the one that was counted before it, in each world by itself, where the counts of the
   two differ: a block begins there. */
static void mark(const char *mode, const char *hgatp, uint64_t pc, uint64_t times)
{
    static uint64_t world, before, count;
    uint64_t own = strtoull(hgatp, NULL, 16) * 4 + (uint64_t)(mode[0] == 'V') * 2 + (mode[strlen(mode) - 1] == 'U');

    if (own != world || pc != before + 4 || times != count) {
        uint64_t pair = mixed(own) ^ mixed(pc) ^ mixed(own == world ? before + 1 : 1) >> 1;
        map[pair % MAP] = times < 255 ? (unsigned char)times : 255;
    }
    world = own;
    before = pc;
    count = times;
}

/* Whether the last line of a console is `exit N` where N is not 0. */
static bool names_failure(const char *console)
{
    size_t length = strlen(console);
    char line[TAIL + 1];
    const char *last;
    unsigned long number;
    char end;

    memcpy(line, console, length + 1);
    if (length && line[length - 1] == '\n')
        line[length - 1] = '\0';
    last = strrchr(line, '\n');
    return sscanf(last ? last + 1 : line, "exit %lu%c", &number, &end) == 1 && number;
}

/* What a log tells of a run. */
struct run {
    bool is_stopped, waits, has_fault;
    size_t length;
    char console[TAIL + 1]; /* its last bytes */
};

static void take(struct run *run, const char *line)
{
    char mode[3], hgatp[24], kind[12];
    uint64_t pc, times;
    unsigned code, number, byte;

    if (sscanf(line, "count %2s %lx hgatp %20s times %lu", mode, &pc, hgatp, &times) == 4) {
        mark(mode, hgatp[0] == '-' ? "0" : hgatp, pc, times);
    } else if (sscanf(line, "trap %*u %2s %lx to %*s %11s %u", mode, &pc, kind, &code) == 4) {
        run->has_fault |= !strcmp(kind, "exception") && !is_allowed(mode, pc, code);
    } else if (sscanf(line, "put %*u %*s %*x %x", &byte) == 1) {
        if (run->length == TAIL)
            memmove(run->console, run->console + 1, --run->length);
        run->console[run->length++] = byte ? (char)byte : ' ';
    } else if (sscanf(line, "call %*u %*s %*x number %u", &number) == 1) {
        run->is_stopped |= number == 8;
    } else if (!strncmp(line, "wait ", 5)) {
        run->waits |= strstr(line, "until never") != NULL;
    }
}

/* Runs the test case, and aborts where it is a failure. */
static void run_once(void)
{
    struct run run = {0};
    struct rlimit none = {0, 0};
    int file = test_case ? open(test_case, O_RDONLY | O_CLOEXEC) : 0, status;
    char line[512];
    pid_t child;

    setrlimit(RLIMIT_CORE, &none);
    if (file < 0)
        refuse("the test case cannot be read");
    put_state(read_all(file));
    FILE *log = trace(&child);
    while (fgets(line, sizeof line, log))
        take(&run, line);
    fclose(log);
    if (waitpid(child, &status, 0) < 0 || status)
        refuse("nesthv-trace has failed");
    map[0] = 1;
    bool is_running = !run.is_stopped && !run.waits;
    if (run.has_fault || (run.waits && !rules.may_wait) || (is_running && !rules.may_run)
        || (run.is_stopped && names_failure(run.console)))
        abort();
}

/* AFL's fork server: a run for each word that comes, until none does. */
static void serve(void)
{
    uint32_t word;

    while (read(CONTROL, &word, 4) == 4) {
        int status = 0;
        pid_t child = fork();
        if (child == 0) {
            close(CONTROL);
            close(ANSWER);
            run_once();
            _exit(0);
        }
        if (write(ANSWER, &child, 4) != 4 || waitpid(child, &status, 0) < 0 || write(ANSWER, &status, 4) != 4)
            exit(1);
    }
}

int main(int count, char **words)
{
    const char *id = getenv("__AFL_SHM_ID");
    uint32_t hello = OPTIONS | HAS_MAP_SIZE | (MAP - 1) << 1;

    if (count < 2 || count > 3)
        refuse("usage: target FOLDER [FILE]");
    folder = words[1];
    test_case = words[2];
    read_rules();
    front = file_of_folder("front");
    rest = file_of_folder("rest");
    if (id) {
        map = shmat(atoi(id), NULL, 0);
        if (map == (void *)-1)
            refuse("AFL's map is not there");
    }
    if (id && write(ANSWER, &hello, 4) == 4)
        serve();
    else
        run_once();
    return 0;
}
