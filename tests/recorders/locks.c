/*
 * Threads that take several locks at once, as behaviours over cowns: locks MODE THREADS ROWS COWNS HELD KIB HOW NAMES BUFFERS.
 *
 * MODE is profile, audit, or skewed, which is profile by a clock that differs in each thread as processor time does. ROWS is how many each thread spawns
 * from outside, HELD the most cowns of one, KIB the recorder's memory, HOW a sum of BOC_CLOSE and BOC_WHOLE. The record goes to standard output. The
 * buffers are dumped to BUFFERS: at the end; or a millisecond after the beginning, by a signal handler if the name ends in `.alarm`, or by the first
 * thread if it ends in `.midway`. If it ends in `.live`, the first thread writes the record then, while the others go on.
 */
#include "boc_record.h"

#include <fcntl.h>
#include <pthread.h>
#include <signal.h>
#include <sys/time.h>

enum { MOST_THREADS = 64, MOST_HELD = 32 };

typedef struct lock {
    pthread_mutex_t mutex;
    boc_cown asked;
} lock;

static boc_recorder *recorder;
static boc_row outside;
static unsigned transfer_def, note_def;
static lock *locks;
static uint32_t lock_count, most_held, rows;
static __thread uint64_t shift;
static int buffers;
static FILE *names;
static unsigned how;
static bool by_alarm, is_midway, is_live;

static uint64_t skewed_ns(void)
{
    return boc_wall_ns() + shift;
}

static uint32_t next_random(uint64_t *state)
{
    *state ^= *state << 13;
    *state ^= *state >> 7;
    *state ^= *state << 17;
    return (uint32_t)(*state >> 16);
}

/* Chooses locks in rising order, none twice. */
static uint32_t choose(uint64_t *state, uint32_t *chosen)
{
    uint32_t wanted = next_random(state) % (most_held + 1), count = 0;
    for (uint32_t i = 0; i < wanted; i++) {
        uint32_t number = next_random(state) % lock_count, at = count;
        while (at > 0 && chosen[at - 1] > number)
            at--;
        if (at > 0 && chosen[at - 1] == number)
            continue;
        memmove(chosen + at + 1, chosen + at, (count - at) * sizeof *chosen);
        chosen[at] = number;
        count++;
    }
    return count;
}

static void take_and_release(boc_thread *thread, uint64_t *state)
{
    uint32_t chosen[MOST_HELD + 1];
    uint32_t count = choose(state, chosen);
    const int64_t arguments[] = {(int64_t)count, -(int64_t)next_random(state)};
    for (uint32_t i = 0; i < count; i++)
        pthread_mutex_lock(&locks[chosen[i]].mutex);
    boc_row row = boc_spawn_with(thread, outside, transfer_def, count, arguments, 2), child = {0};
    for (uint32_t i = 0; i < count; i++)
        boc_ask(thread, row, i, &locks[chosen[i]].asked);
    boc_start(thread, row);
    for (uint32_t i = 0; i < count; i += 2)
        boc_wrote(thread, row, i);
    bool has_child = (next_random(state) & 3) == 0;
    if (has_child)
        child = boc_spawn(thread, row, note_def, 0);
    boc_end(thread, row, count % 2);
    for (uint32_t i = 0; i < count; i++)
        pthread_mutex_unlock(&locks[chosen[i]].mutex);
    if (has_child) {
        boc_start(thread, child);
        boc_end(thread, child, 0);
    }
}

static void *work(void *number)
{
    boc_thread thread = boc_attach(recorder);
    uint64_t state = UINT64_C(88172645463325252) + 7919 * (uint64_t)*(uint32_t *)number;
    shift = (uint64_t)*(uint32_t *)number << 40;
    for (uint32_t i = 0; i < rows; i++)
        take_and_release(&thread, &state);
    return NULL;
}

static void dump(int signal)
{
    (void)signal;
    int kept = errno;
    boc_dump(recorder, buffers);
    errno = kept;
}

static void name_all(void)
{
    transfer_def = boc_def(recorder, "transfer \x1b[31m of a name that is longer than the sixty-four bytes which a name may have");
    note_def = boc_def(recorder, "");
    for (uint32_t i = 0; i < lock_count; i++) {
        char name[32];
        snprintf(name, sizeof name, "a lock[%u]", (unsigned)i);
        if (i % 3 != 0)
            boc_name_cown(recorder, i, name);
        locks[i].asked.number = i;
        pthread_mutex_init(&locks[i].mutex, NULL);
    }
}

static boc_report run(uint32_t count)
{
    pthread_t threads[MOST_THREADS];
    uint32_t numbers[MOST_THREADS];
    boc_thread thread = boc_attach(recorder);
    outside = boc_outside(&thread);
    if (by_alarm) {
        const struct itimerval alarm_soon = {{0, 0}, {0, 1000}};
        signal(SIGALRM, dump);
        setitimer(ITIMER_REAL, &alarm_soon, NULL);
    }
    for (uint32_t i = 0; i < count; i++) {
        numbers[i] = i;
        if (pthread_create(&threads[i], NULL, work, &numbers[i]) != 0)
            abort();
    }
    const struct timespec soon = {0, 1000000};
    if (is_midway || is_live)
        nanosleep(&soon, NULL);
    if (is_midway)
        dump(0);
    boc_report report;
    memset(&report, 0, sizeof report);
    if (is_live)
        report = boc_write(recorder, stdout, names, how);
    for (uint32_t i = 0; i < count; i++)
        pthread_join(threads[i], NULL);
    return is_live ? report : boc_write(recorder, stdout, names, how);
}

int main(int argc, char **argv)
{
    if (argc != 10)
        return 2;
    boc_options options;
    memset(&options, 0, sizeof options);
    options.mode = strcmp(argv[1], "audit") == 0 ? BOC_AUDIT : BOC_PROFILE;
    options.now = strcmp(argv[1], "skewed") == 0 ? skewed_ns : NULL;
    options.memory = (size_t)atoi(argv[6]) * 1024;
    options.knows_writes = true;
    rows = (uint32_t)atoi(argv[3]);
    lock_count = (uint32_t)atoi(argv[4]);
    most_held = (uint32_t)atoi(argv[5]);
    recorder = boc_new(&options);
    locks = (lock *)calloc(lock_count, sizeof *locks);
    how = (unsigned)atoi(argv[7]);
    names = fopen(argv[8], "w");
    buffers = open(argv[9], O_WRONLY | O_CREAT | O_TRUNC, 0666);
    if (recorder == NULL || locks == NULL || names == NULL || buffers < 0 || most_held > MOST_HELD)
        return 2;
    name_all();
    by_alarm = strstr(argv[9], ".alarm") != NULL;
    is_midway = strstr(argv[9], ".midway") != NULL;
    is_live = strstr(argv[9], ".live") != NULL;
    boc_report report = run((uint32_t)atoi(argv[2]));
    boc_print_report(stderr, &report);
    if (!by_alarm && !is_midway)
        dump(0);
    fclose(names);
    boc_free(recorder);
    free(locks);
    return report.fault == BOC_DONE ? 0 : 1;
}
