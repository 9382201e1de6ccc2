/* Not proved: pulls the plug. plug KILLS DISK-FILE [SEED]: half of the kills are of a real process that weaves on a file, by the clock and at its
 * writes; half are cuts of a simulated device and resets over it. After each, everything is read back and judged by the books. Then the wrong drivers. */
#include <poll.h>
#include <signal.h>
#include <stdio.h>
#include <stdlib.h>
#include <sys/wait.h>
#include <time.h>
#include <unistd.h>
#include "plug.h"

static const KeeperSizes choices[] = {
    {.words = 4, .records = 9, .frames = 3, .slots = 2, .pages = 4, .accounts = 2, .chip = 2},
    {.words = 40, .records = 20, .frames = 5, .slots = 3, .pages = 8, .accounts = 2, .chip = 1},
    {.words = 256, .records = 30, .frames = 6, .slots = 4, .pages = 10, .accounts = 4, .chip = 9},
};
enum { KILLS_A_DISK = 25 };

static uint64_t seed = 1;

static double seconds(void)
{
    struct timespec now;
    clock_gettime(CLOCK_MONOTONIC, &now);
    return (double)now.tv_sec + 1e-9 * (double)now.tv_nsec;
}

static void show(const char *what)
{
    static double last;
    if (!isatty(1) || seconds() - last < 0.1)
        return;
    last = seconds();
    printf("\r%s: %lu kills, %lu calls, %lu reads checked, %lu broken promises ", what, totals.kills, totals.calls, totals.reads, totals.broken);
    fflush(stdout);
}

/* One disk, its books and its keeper. */
typedef struct {
    Keeper keeper;
    Books *books;
    int wrong;
} Bench;

static Bench bench_new(int wrong)
{
    Bench bench;
    const KeeperSizes sizes = choices[plug_random(&seed, sizeof choices / sizeof *choices)];
    const size_t bytes = keeper_workspace(sizes);
    keeper_place(&bench.keeper, sizes, malloc(bytes), bytes);
    bench.books = books_new(sizes);
    bench.wrong = wrong;
    return bench;
}

static void bench_free(Bench *bench)
{
    free(bench->keeper.records);
    books_free(bench->books);
}

static Weaver weaver_on(Bench *bench, FileBlocks blocks, void (*tell)(void *, const Note *), void *to)
{
    Weaver weaver;
    memset(&weaver, 0, sizeof weaver);
    weaver.keeper = &bench->keeper;
    weaver.blocks = blocks;
    weaver.random = seed;
    weaver.formatted = books_formatted(bench->books);
    weaver.next_version = books_next_version(bench->books);
    weaver.next_number = books_next_number(bench->books);
    weaver.wrong = bench->wrong;
    weaver.tell = tell;
    weaver.to = to;
    return weaver;
}

/* ── simulated cuts ── */
static void tell_books(void *to, const Note *note)
{
    books_note(to, note);
}

/* After how many operations the end comes: now and then soon, after a reset often within the open. */
static unsigned operations(int reset)
{
    const uint32_t soon = plug_random(&seed, 4);
    return 1 + plug_random(&seed, reset && soon < 2 ? 5 : soon == 0 ? 40 : 900);
}

static void simulated_disk(int wrong, unsigned kills)
{
    Bench bench = bench_new(wrong);
    Simulated *device = simulated_new(2 << 20);
    int reset = 0;
    for (unsigned kill = 0; kill < kills; kill++) {
        Without without;
        const FileBlocks blocks = simulated_on(device, seed, operations(reset), FILEDISK_BLOCK);
        Weaver weaver = weaver_on(&bench, without_on(&without, blocks, wrong), tell_books, bench.books);
        weaver_run(&weaver);
        reset = plug_random(&seed, reset ? 4 : 2) == 0;
        if (!reset)
            simulated_cut(device);
        books_cut(bench.books);
        totals.kills++;
        totals.resets += (unsigned long)reset;
        show("simulated device");
    }
    simulated_free(device);
    bench_free(&bench);
}

/* ── real kills ── */
static void tell_pipe(void *to, const Note *note)
{
    const size_t bytes = offsetof(Note, words) + note->count * sizeof *note->words; /* at most PIPE_BUF: told whole or not at all */
    if (write((int)(intptr_t)to, note, bytes) != (ssize_t)bytes)
        _exit(1);
}

static void child(Bench *bench, const char *path, int to, unsigned countdown, size_t grain)
{
    Killer killer;
    Without without;
    FileDisk disk;
    int answer = filedisk_file(&disk, &killer.file, path, FILEDISK_NEW);
    if (answer == FILEDISK_THERE)
        answer = filedisk_file(&disk, &killer.file, path, FILEDISK_OPEN);
    if (answer != FILEDISK_GOOD)
        _exit(1);
    killer.random = seed;
    killer.countdown = countdown;
    killer.grain = grain;
    Weaver weaver = weaver_on(bench, without_on(&without, killer_on(&killer), bench->wrong), tell_pipe, (void *)(intptr_t)to);
    weaver_run(&weaver);
    _exit(1);
}

/* Reads the notes until the child is dead, and kills it at its time. */
static void listen_to(Books *books, int from, pid_t process, double until)
{
    static unsigned char buffer[1 << 16];
    size_t filled = 0;
    for (;;) {
        struct pollfd ready = {from, POLLIN, 0};
        const double left = until - seconds();
        if (left <= 0)
            kill(process, SIGKILL);
        poll(&ready, 1, left <= 0 ? -1 : 1 + (int)(1000 * left));
        if (ready.revents == 0)
            continue;
        const ssize_t got = read(from, buffer + filled, sizeof buffer - filled);
        if (got <= 0)
            return;
        filled += (size_t)got;
        size_t at = 0;
        while (filled - at >= offsetof(Note, words)) {
            Note note;
            memcpy(&note, buffer + at, offsetof(Note, words));
            const size_t bytes = offsetof(Note, words) + note.count * sizeof *note.words;
            if (filled - at < bytes)
                break;
            memcpy(&note, buffer + at, bytes);
            books_note(books, &note);
            at += bytes;
        }
        memmove(buffer, buffer + at, filled - at);
        filled -= at;
    }
}

static void killed_disk(int wrong, unsigned kills, const char *path)
{
    Bench bench = bench_new(wrong);
    remove(path);
    for (unsigned count = 0; count < kills; count++) {
        int ends[2];
        const int by_clock = plug_random(&seed, 3) == 0;
        const unsigned countdown = by_clock ? UINT32_MAX : 1 + plug_random(&seed, plug_random(&seed, 4) == 0 ? 40 : 600);
        const double until = seconds() + (by_clock ? 0.0005 * plug_random(&seed, 60) : 20);
        if (pipe(ends) != 0)
            exit(2);
        const pid_t process = fork();
        if (process == 0) {
            close(ends[0]);
            child(&bench, path, ends[1], countdown, FILEDISK_BLOCK);
        }
        close(ends[1]);
        listen_to(bench.books, ends[0], process, until);
        close(ends[0]);
        int status;
        waitpid(process, &status, 0);
        if (!WIFSIGNALED(status) || WTERMSIG(status) != SIGKILL) {
            totals.broken++;
            if (!totals.quiet)
                printf("\nbroken: the weaver ended by itself, or by another signal (status %d)\n", status);
        }
        plug_random(&seed, 2);
        books_cut(bench.books);
        totals.kills++;
        show("killed process");
    }
    remove(path);
    bench_free(&bench);
}

/* ── all of it ── */
static void print_totals(const char *what, double since)
{
    printf("%s%s: %lu kills (%lu resets), %lu calls, %lu reads checked, %lu moves, %lu exports, %lu imports and %lu cut ones, %lu numbers skipped, %lu broken promises, %.0f s\n",
           isatty(1) ? "\r" : "", what, totals.kills, totals.resets, totals.calls, totals.reads, totals.moves, totals.exports, totals.imports, totals.cut_imports,
           totals.skipped, totals.broken, seconds() - since);
}

/* A wrong driver: how many kills until it is caught, or 0. */
static unsigned long caught(int wrong, int simulated, const char *path)
{
    memset(&totals, 0, sizeof totals);
    totals.quiet = 1;
    while (totals.broken == 0 && totals.kills < (simulated ? 20000 : 2000)) {
        if (simulated)
            simulated_disk(wrong, wrong == WRONG_OPEN_SYNC ? KILLS_A_DISK : 5);
        else
            killed_disk(wrong, 5, path);
    }
    return totals.broken ? totals.kills : 0;
}

static unsigned passed, failed;

static void count_one(int good)
{
    passed += (unsigned)good;
    failed += (unsigned)!good;
}

/* The right driver: no promise is broken, and everything that is to be tried was. */
static void right_driver(int simulated, unsigned long kills, const char *path)
{
    const double since = seconds();
    memset(&totals, 0, sizeof totals);
    while (totals.kills < kills) {
        const unsigned some = kills - totals.kills < KILLS_A_DISK ? (unsigned)(kills - totals.kills) : KILLS_A_DISK;
        if (simulated)
            simulated_disk(WRONG_NONE, some);
        else
            killed_disk(WRONG_NONE, some, path);
    }
    print_totals(simulated ? "simulated device" : "killed process", since);
    const int carried = totals.imports > 0 && totals.exports > 0 && totals.cut_imports > 0;
    const int tried = totals.moves > 0 && carried && totals.skipped > 0 && (totals.resets > 0 || !simulated);
    count_one(totals.broken == 0 && totals.reads > 0 && (tried || kills < 25));
}

static void wrong_driver(int wrong, const char *name, int simulated, const char *path)
{
    const unsigned long after = caught(wrong, simulated, path);
    printf("wrong driver, %s, %s: %s", name, simulated ? "simulated" : "killed", after ? "caught" : "NOT CAUGHT");
    printf(after ? " within %lu kills\n" : "\n", after);
    count_one(after > 0);
}

int main(int count, char **words)
{
    static const char *names[] = {"", "no journal", "a page is reported before it is stored", "a map is reported before it is stored",
                                  "the store of a slot is left out", "nothing is synced", "a move is two stores", "an import's slot is stored before its records",
                                  "an import's slot is two stores", "a create does not store the highest number", "an open does not store it",
                                  "open brings home what is not safe"};
    const unsigned long kills = count >= 3 ? strtoul(words[1], NULL, 10) : 0;
    if (kills == 0) {
        puts("plug KILLS DISK-FILE [SEED]");
        return 2;
    }
    seed = count > 3 ? strtoull(words[3], NULL, 10) : 1;
    setvbuf(stdout, NULL, _IOLBF, 0);
    for (int simulated = 0; simulated < 2; simulated++)
        right_driver(simulated, (kills + 1) / 2, words[2]);
    for (int wrong = 1; wrong <= WRONG_OPEN_SYNC; wrong++) { /* those behind it are for tests/sectordisk/resets */
        /* a killed process loses nothing that it wrote; and of the highest number it takes a thousand kills now and then */
        if (wrong < WRONG_NO_HIGHEST && wrong != WRONG_NO_SYNC)
            wrong_driver(wrong, names[wrong], 0, words[2]);
        wrong_driver(wrong, names[wrong], 1, words[2]);
    }
    printf("%u passed, %u failed\n", passed, failed);
    return failed != 0;
}
