/*
 * What recording costs: cost [THREADS] [ROWS]. Each thread spawns, starts and ends this many behaviours over two cowns of its own; a line has the least
 * nanoseconds for one of them, of several tries.
 */
#include "boc_record.h"

#include <pthread.h>
#if defined(__x86_64__)
#include <x86intrin.h>
#endif

enum { TRIES = 15, MOST_THREADS = 64 };

static unsigned threads = 1;
static unsigned rows = 20000;

typedef struct task {
    boc_recorder *recorder;
    pthread_barrier_t *barrier;
    uint64_t took;
} task;

/* A cheap clock: one that the processor counts, if there is such. */
static uint64_t cycles(void)
{
#if defined(__x86_64__)
    return __rdtsc();
#elif defined(__aarch64__)
    uint64_t count;
    __asm__ volatile("mrs %0, cntvct_el0" : "=r"(count));
    return count;
#else
    return boc_wall_ns();
#endif
}

static void *record_rows(void *argument)
{
    task *own = (task *)argument;
    boc_thread thread = boc_attach(own->recorder);
    boc_row none = {0}, main_row = boc_spawn(&thread, none, 0, 0);
    boc_cown cowns[2] = {{0, 0}, {1, 0}};
    boc_start(&thread, main_row);
    pthread_barrier_wait(own->barrier);
    uint64_t began = boc_wall_ns();
    for (unsigned i = 0; i < rows; i++) {
        boc_row row = boc_spawn(&thread, main_row, 0, 2);
        boc_ask(&thread, row, 0, &cowns[0]);
        boc_ask(&thread, row, 1, &cowns[1]);
        boc_start(&thread, row);
        boc_wrote(&thread, row, 1);
        boc_end(&thread, row, 0);
    }
    own->took = boc_wall_ns() - began;
    return NULL;
}

/* The nanoseconds of one behaviour in the slowest thread. */
static double once(boc_mode mode, boc_clock now)
{
    boc_options options;
    memset(&options, 0, sizeof options);
    options.mode = mode;
    options.now = now;
    options.memory = (size_t)1 << 30;
    pthread_barrier_t barrier;
    pthread_barrier_init(&barrier, NULL, threads);
    pthread_t started[MOST_THREADS];
    task tasks[MOST_THREADS];
    boc_recorder *recorder = boc_new(&options);
    for (unsigned i = 0; i < threads; i++) {
        tasks[i].recorder = recorder;
        tasks[i].barrier = &barrier;
        if (pthread_create(&started[i], NULL, record_rows, &tasks[i]) != 0)
            abort();
    }
    uint64_t most = 0;
    for (unsigned i = 0; i < threads; i++) {
        pthread_join(started[i], NULL);
        most = tasks[i].took > most ? tasks[i].took : most;
    }
    pthread_barrier_destroy(&barrier);
    boc_free(recorder);
    return (double)most / rows;
}

int main(int argc, char **argv)
{
    static const struct {
        const char *name;
        boc_mode mode;
        boc_clock now;
    } kinds[] = {{"profile, cycles", BOC_PROFILE, cycles},     {"profile, wall clock", BOC_PROFILE, boc_wall_ns}, {"profile, processor time", BOC_PROFILE, boc_cpu_ns},
                 {"audit, cycles", BOC_AUDIT, cycles}, {"audit, wall clock", BOC_AUDIT, boc_wall_ns}};
    threads = argc > 1 ? (unsigned)atoi(argv[1]) : threads;
    rows = argc > 2 ? (unsigned)atoi(argv[2]) : rows;
    if (threads < 1 || threads > MOST_THREADS || rows < 1)
        return 2;
    for (size_t kind = 0; kind < sizeof kinds / sizeof *kinds; kind++) {
        double least = once(kinds[kind].mode, kinds[kind].now);
        for (unsigned i = 1; i < TRIES; i++) {
            double next = once(kinds[kind].mode, kinds[kind].now);
            least = next < least ? next : least;
        }
        printf("%s: %.0f ns\n", kinds[kind].name, least);
    }
    return 0;
}
