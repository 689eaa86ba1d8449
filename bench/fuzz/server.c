// What is loaded before the program that is fuzzed: afl-fuzz asks it for runs. main is run in a fork for each input,
// and then its counters and what is judged of its status and output are told. The counters are those that llvm-bolt put
// onto the program's edges; a program without them is run, too.
//
//   FUZZ_AS      what an input is: `bytes`; `reports`, whose checksums are mended; `parts`, of which a bundle is made,
//                with lengths that are right; or `folder`, parts that are written as files
//   FUZZ_FOLDER  the folder of those files, which is emptied before each run
//   FUZZ_KEEP    where what the program reads is written
//
// The parts of an input are told apart by lines `@NAME`. A run that is judged wrong is told as one that aborted. Where
// no afl-fuzz asks, one run is made, and this process ends as it is judged.
#define _GNU_SOURCE
#include <ctype.h>
#include <dirent.h>
#include <dlfcn.h>
#include <elf.h>
#include <fcntl.h>
#include <link.h>
#include <signal.h>
#include <stdint.h>
#include <stdio.h>
#include <stdlib.h>
#include <string.h>
#include <sys/mman.h>
#include <sys/sendfile.h>
#include <sys/shm.h>
#include <sys/stat.h>
#include <sys/wait.h>
#include <unistd.h>

enum { ASKED = 198, TOLD = 199 };  // where afl-fuzz asks, and is told
enum { MOST = 1 << 21, MOST_PARTS = 64, LONGEST_NAME = 64, PAGE = 4096 };
#define HELLO 0xC0000001u  // that options are told, and among them how many counters there are

typedef int main_of(int, char **, char **);

static main_of *program_main;
static uint64_t *counters, *counters_before;
static size_t counter_count;
static unsigned char *map;
static char input[MOST + 1], handed[2 * MOST];
static size_t input_length, handed_length;
static int handed_file, output_file;
static int is_verdict, is_json, is_folder;

static void need(int is_so, const char *what) {
    if (is_so) return;
    fprintf(stderr, "fuzz: %s\n", what);
    _exit(125);
}

// --- the counters ---

static int take_base(struct dl_phdr_info *info, size_t size, void *base) {
    (void)size;
    *(uintptr_t *)base = info->dlpi_addr;  // the program is the first
    return 1;
}

// Finds the section of counters in the program's own file.
static void find_counters(void) {
    int file = open("/proc/self/exe", O_RDONLY);
    struct stat said;
    need(file >= 0 && !fstat(file, &said), "the program can't be read");
    const char *elf = mmap(NULL, said.st_size, PROT_READ, MAP_PRIVATE, file, 0);
    close(file);
    need(elf != MAP_FAILED, "the program can't be mapped");
    const Elf64_Ehdr *head = (const Elf64_Ehdr *)elf;
    const Elf64_Shdr *sections = (const Elf64_Shdr *)(elf + head->e_shoff);
    const char *names = elf + sections[head->e_shstrndx].sh_offset;
    uintptr_t base = 0;
    dl_iterate_phdr(take_base, &base);
    for (int i = 0; i < head->e_shnum; i++) {
        if (strcmp(names + sections[i].sh_name, ".bolt.instr.counters")) continue;
        counters = (uint64_t *)(base + sections[i].sh_addr);
        counter_count = sections[i].sh_size / sizeof *counters;
    }
    munmap((void *)elf, said.st_size);
    need((uintptr_t)counters % PAGE == 0, "the counters begin in the midst of a page");
}

// Puts memory that forks share in the place of the counters, so that they outlive a run.
static void share_counters(void) {
    size_t length = (counter_count * sizeof *counters + PAGE - 1) / PAGE * PAGE;
    if (!length) return;
    counters_before = malloc(length);
    need(counters_before != NULL, "no memory");
    memcpy(counters_before, counters, length);
    // (code stands behind the last of them)
    int may = PROT_READ | PROT_WRITE | PROT_EXEC;
    void *place = mmap(counters, length, may, MAP_SHARED | MAP_ANONYMOUS | MAP_FIXED, -1, 0);
    need(place == counters, "the counters can't be shared");
    memcpy(counters, counters_before, length);
}

static void tell_counters(void) {
    map[0] = 1;
    for (size_t i = 0; i < counter_count; i++) {
        uint64_t count = counters[i] - counters_before[i];
        if (!count) continue;
        map[i + 1] = count > 255 ? 255 : count;
        counters[i] = counters_before[i];
    }
}

// --- the input ---

static int digit(char c) {
    return isdigit((unsigned char)c) ? c - '0' : tolower((unsigned char)c) - 'a' + 10;
}

// Puts the right checksum into a message in hexadecimal, unless its checksum is 0000.
static void mend_message(char *line, size_t length) {
    unsigned long sum = 0;
    if (length < 16 || length % 2 || !memcmp(line + 4, "0000", 4)) return;
    for (size_t i = 0; i < length; i++)
        if (!isxdigit((unsigned char)line[i])) return;
    for (size_t i = 0; i < length; i += 2) {
        if (i == 4 || i == 6) continue;
        unsigned long byte = digit(line[i]) * 16 + digit(line[i + 1]);
        sum += i % 4 ? byte : byte << 8;
    }
    while (sum >> 16) sum = (sum & 0xffff) + (sum >> 16);
    char text[5];
    snprintf(text, sizeof text, "%04lx", ~sum & 0xffff);
    memcpy(line + 4, text, 4);
}

static void mend_reports(char *text, size_t length) {
    char *end = text + length;
    while (text < end) {
        char *line_end = memchr(text, '\n', end - text);
        if (!line_end) line_end = end;
        mend_message(text, line_end - text);
        text = line_end + 1;
    }
}

struct part {
    char name[LONGEST_NAME + 1];
    char *bytes;
    size_t length;
};

// Takes the next part of what is left of the input. Returns whether there is one.
static int take_part(char **at, char *end, struct part *part) {
    if (*at >= end || **at != '@') return 0;
    char *line_end = memchr(*at, '\n', end - *at);
    if (!line_end) line_end = end;
    size_t length = line_end - *at - 1;
    if (length > LONGEST_NAME) length = LONGEST_NAME;
    memcpy(part->name, *at + 1, length);
    part->name[length] = 0;
    part->bytes = line_end < end ? line_end + 1 : end;
    char *next = part->bytes;
    while (next < end && *next != '@') {
        char *feed = memchr(next, '\n', end - next);
        next = feed ? feed + 1 : end;
    }
    part->length = next - part->bytes;
    if (!strncmp(part->name, "igmp", 4)) mend_reports(part->bytes, part->length);
    *at = next;
    return 1;
}

static void hand(const void *bytes, size_t length) {
    if (length > sizeof handed - handed_length) length = sizeof handed - handed_length;
    memcpy(handed + handed_length, bytes, length);
    handed_length += length;
}

static void make_bundle(void) {
    char *at = input, line[LONGEST_NAME + 40];
    struct part part;
    hand("mcaudit bundle 1\n", 17);
    for (int i = 0; i < MOST_PARTS && take_part(&at, input + input_length, &part); i++) {
        hand(line, snprintf(line, sizeof line, "part %s %zu\n", part.name, part.length));
        hand(part.bytes, part.length);
        hand("\n", 1);
    }
    hand("end\n", 4);
}

static int open_folder(void) {
    const char *path = getenv("FUZZ_FOLDER");
    int folder = path ? open(path, O_RDONLY | O_DIRECTORY) : -1;
    need(folder >= 0, "FUZZ_FOLDER is no folder");
    return folder;
}

static void empty_folder(int folder) {
    DIR *listed = fdopendir(dup(folder));
    need(listed != NULL, "the folder can't be listed");
    rewinddir(listed);
    for (struct dirent *it; (it = readdir(listed));)
        if (it->d_name[0] != '.') unlinkat(folder, it->d_name, 0);
    closedir(listed);
}

// Writes the parts as files, `/` and what is no character of a name being `-` in their names.
static void fill_folder(void) {
    int folder = open_folder();
    char *at = input;
    struct part part;
    empty_folder(folder);
    for (int i = 0; i < MOST_PARTS && take_part(&at, input + input_length, &part); i++) {
        for (char *c = part.name; *c; c++)
            if (!isalnum((unsigned char)*c) && (*c != '.' || c == part.name) && *c != '_') *c = '-';
        int file = openat(folder, part.name, O_WRONLY | O_CREAT | O_TRUNC, 0600);
        if (file < 0) continue;
        need(write(file, part.bytes, part.length) == (ssize_t)part.length, "a file can't be written");
        close(file);
    }
    close(folder);
}

static void keep_input(const char *path) {
    int file = open(path, O_WRONLY | O_CREAT | O_TRUNC, 0600);
    need(file >= 0 && write(file, handed, handed_length) == (ssize_t)handed_length, "the input can't be kept");
    close(file);
}

// Reads an input, and makes of it what the program reads.
static void hand_over(void) {
    const char *as = getenv("FUZZ_AS");
    input_length = handed_length = 0;
    for (ssize_t more; (more = pread(0, input + input_length, MOST - input_length, input_length)) > 0;)
        input_length += more;
    if (is_folder) {
        fill_folder();
    } else if (as && !strcmp(as, "parts")) {
        make_bundle();
    } else {
        if (as && !strcmp(as, "reports")) mend_reports(input, input_length);
        hand(input, input_length);
    }
    need(!ftruncate(handed_file, 0), "the input can't be emptied");
    need(pwrite(handed_file, handed, handed_length, 0) == (ssize_t)handed_length, "the input can't be written");
    lseek(handed_file, 0, SEEK_SET);
    if (getenv("FUZZ_KEEP")) keep_input(getenv("FUZZ_KEEP"));
}

// --- what a run shows ---

// Whether a run that ended with this status may have written an output that ends so.
static int is_right(int status, const char *end, size_t length) {
    const char *verdicts[] = {"verdict yes\n", "verdict no\n", "{\"verdict\":\"yes\"}\n", "{\"verdict\":\"no\"}\n"};
    // memory is there, the words are right, and standard input can be read
    if (status > 1) return length == 0 && (status == 2 || (status == 3 && is_folder));
    if (!is_verdict) return length > 0;
    const char *verdict = verdicts[status + 2 * is_json];
    size_t of_verdict = strlen(verdict);
    return length >= of_verdict && !memcmp(end + length - of_verdict, verdict, of_verdict);
}

// The status of a run as afl-fuzz is told it: where what it shows is wrong, that of an abort.
static int judged(int status) {
    char end[32];
    struct stat said;
    if (!WIFEXITED(status)) return status;
    need(!fstat(output_file, &said), "the output can't be looked at");
    off_t from = said.st_size > (off_t)sizeof end ? said.st_size - (off_t)sizeof end : 0;
    ssize_t length = pread(output_file, end, sizeof end, from);
    need(length >= 0, "the output can't be read");
    return is_right(WEXITSTATUS(status), end, length) ? status : SIGABRT;
}

// --- the runs ---

// Begins a run of an input. Returns its number, or 0 in the fork that is to do it.
static int begin_run(void) {
    hand_over();
    need(!ftruncate(output_file, 0), "the output can't be emptied");
    lseek(output_file, 0, SEEK_SET);
    int run = fork();
    need(run >= 0, "no fork");
    if (run) return run;
    dup2(handed_file, 0);
    dup2(output_file, 1);
    int ours[] = {handed_file, output_file, ASKED, TOLD};
    for (size_t i = 0; i < sizeof ours / sizeof *ours; i++) close(ours[i]);
    return 0;
}

// Waits for the end of a run. Returns its status as it is judged.
static int end_run(int run) {
    int status;
    need(waitpid(run, &status, 0) == run, "a run is lost");
    if (counter_count) tell_counters();
    return judged(status);
}

// Answers what afl-fuzz asks. Returns in the fork of each run alone.
static void serve(void) {
    uint32_t asked;
    while (read(ASKED, &asked, sizeof asked) == sizeof asked) {
        int run = begin_run();
        if (!run) return;
        need(write(TOLD, &run, sizeof run) == sizeof run, "afl-fuzz is gone");
        int status = end_run(run);
        need(write(TOLD, &status, sizeof status) == sizeof status, "afl-fuzz is gone");
    }
    _exit(0);
}

// Makes one run, shows its output, and ends as it is judged. Returns in its fork alone.
static void run_alone(void) {
    int run = begin_run();
    if (!run) return;
    int status = end_run(run);
    off_t from = 0;
    while (sendfile(1, output_file, &from, MOST) > 0) {}
    if (WIFSIGNALED(status)) kill(getpid(), WTERMSIG(status));
    _exit(WEXITSTATUS(status));
}

static void take_words(int count, char **words) {
    const char *command = count > 1 ? words[1] : "";
    is_verdict = !strcmp(command, "audit") || !strcmp(command, "check");
    is_folder = getenv("FUZZ_FOLDER") != NULL;
    for (int i = 1; i < count; i++) is_json |= !strcmp(words[i], "--json");
}

static int served_main(int count, char **words, char **environment) {
    const char *shared = getenv("__AFL_SHM_ID");
    take_words(count, words);
    find_counters();
    map = shared ? shmat(atoi(shared), NULL, 0) : calloc(counter_count + 1, 1);
    need(map != NULL && map != (void *)-1, "no map of counters");
    share_counters();
    handed_file = memfd_create("input", 0);
    output_file = memfd_create("output", 0);
    need(handed_file >= 0 && output_file >= 0, "no file for the input and the output");
    uint32_t hello = HELLO | (uint32_t)counter_count << 1;
    if (write(TOLD, &hello, sizeof hello) == sizeof hello) serve();
    else run_alone();
    exit(program_main(count, words, environment));
}

// A run ends here: what llvm-bolt would write at the end isn't needed.
void exit(int status) {
    fflush(NULL);
    _exit(status);
}

int __libc_start_main(main_of *main, int count, char **words, void (*begin)(void), void (*end)(void),
                      void (*loader_end)(void), void *stack) {
    typedef int start_of(main_of *, int, char **, void (*)(void), void (*)(void), void (*)(void), void *);
    start_of *start = (start_of *)dlsym(RTLD_NEXT, "__libc_start_main");
    program_main = main;
    return start(served_main, count, words, begin, end, loader_end, stack);
}
