/*
 * Heat in a rod on a small runtime of behaviours by threads:
 *
 *     cc -O2 -pthread -I recorders examples/runtimes/heat.c -o heat
 *     ./heat [THREADS] [--rounds N] [--long ROWS] [--audit] [--names FILE] [--buffers FILE]
 *
 * It writes the record of its run to standard output, and what its rows and cowns are called to FILE. recorders/boc_record.h records; the calls are
 * marked below by their names, boc_*. A tick is a microsecond. If the run takes more than two seconds a round, it is stopped: then the buffers
 * of the recorder go to the file of --buffers, of which recorders/boc_record.py makes a record.
 *
 * With --long the rod has a thousand cells in ten parts, each of which writes into one log, and there are as many rounds as make at least so many rows.
 * That is too much for a record: `boc cut` cuts a window out of it, and `boc why` says of that window that the log is what limits the run.
 */
#include "boc_record.h"

#include <fcntl.h>
#include <pthread.h>
#include <signal.h>
#include <stdatomic.h>

enum { CELLS = 12, LONG_CELLS = 1000, PARTS = 10, MOST_COWNS = 3, MOST_THREADS = 64 };

typedef struct behaviour behaviour;
typedef struct worker worker;
typedef void (*body_of)(worker *me, behaviour *self);

/* A temperature, and the behaviours that asked for it: the first of them holds it, or will hold it once it has its other cowns too. */
typedef struct cown {
    double value;
    pthread_mutex_t lock;
    struct request *first, *last;
    boc_cown asked;
} cown;

typedef struct request {
    behaviour *of;
    struct request *next;
} request;

/* A body with its argument and its cowns in rising order, from its spawn to its end. */
struct behaviour {
    body_of body;
    int64_t round;
    unsigned count;
    cown *cowns[MOST_COWNS];
    request requests[MOST_COWNS];
    atomic_uint missing;
    boc_row row;
    behaviour *next;
};

/* A thread, and the behaviour that it runs. */
struct worker {
    boc_thread record;
    boc_row row;
};

static boc_recorder *recorder;
static unsigned main_def, heat_def, smooth_def, report_def, part_def, note_def;
static int64_t rounds = 4;
static bool is_long;
static int buffers = -1;

static cown rod[LONG_CELLS];
static unsigned cells = CELLS;
static cown book; /* the log of a long run */
static double warmth;

static pthread_mutex_t work_lock = PTHREAD_MUTEX_INITIALIZER;
static pthread_cond_t work_changed = PTHREAD_COND_INITIALIZER;
static behaviour *ready_first, *ready_last;
static unsigned alive;

static void make_ready(behaviour *one)
{
    pthread_mutex_lock(&work_lock);
    one->next = NULL;
    if (ready_last != NULL)
        ready_last->next = one;
    else
        ready_first = one;
    ready_last = one;
    pthread_cond_signal(&work_changed);
    pthread_mutex_unlock(&work_lock);
}

/* A behaviour that is ready, or NULL once all have ended. */
static behaviour *next_ready(void)
{
    pthread_mutex_lock(&work_lock);
    while (ready_first == NULL && alive > 0)
        pthread_cond_wait(&work_changed, &work_lock);
    behaviour *one = ready_first;
    if (one != NULL)
        ready_first = one->next;
    if (ready_first == NULL)
        ready_last = NULL;
    pthread_mutex_unlock(&work_lock);
    return one;
}

/* Takes this many more cowns, and returns whether none is missing any more. */
static bool gets(behaviour *one, unsigned count)
{
    return atomic_fetch_sub(&one->missing, count) == count;
}

/* Appends a request to its queue, and returns whether it is the first there. */
static bool append(cown *to, request *last)
{
    last->next = NULL;
    bool is_first = to->first == NULL;
    if (is_first)
        to->first = last;
    else
        to->last->next = last;
    to->last = last;
    return is_first;
}

/* Spawns a behaviour of the one that this thread runs, which continues. Cowns are locked in rising order, so no two spawns wait for each other. */
static void when(worker *me, unsigned def, body_of body, int64_t round, cown *const cowns[], unsigned count)
{
    behaviour *one = calloc(1, sizeof *one);
    if (one == NULL)
        abort();
    one->body = body;
    one->round = round;
    one->count = count;
    atomic_init(&one->missing, count + 1); /* one more, so that it is not ready before all locks are free again */
    pthread_mutex_lock(&work_lock);
    alive++;
    pthread_mutex_unlock(&work_lock);

    unsigned held = 1;
    for (unsigned i = 0; i < count; i++)
        pthread_mutex_lock(&cowns[i]->lock);
    one->row = boc_spawn_with(&me->record, me->row, def, count, &round, count > 0 ? 1 : 0);
    for (unsigned i = 0; i < count; i++) {
        one->cowns[i] = cowns[i];
        one->requests[i].of = one;
        boc_ask(&me->record, one->row, i, &cowns[i]->asked);
        held += append(cowns[i], &one->requests[i]);
    }
    for (unsigned i = 0; i < count; i++)
        pthread_mutex_unlock(&cowns[i]->lock);
    if (gets(one, held))
        make_ready(one);
}

/* Each cown goes to the next behaviour that asked for it. */
static void release(behaviour *one)
{
    for (unsigned i = 0; i < one->count; i++) {
        cown *released = one->cowns[i];
        pthread_mutex_lock(&released->lock);
        request *next = released->first = released->first->next;
        pthread_mutex_unlock(&released->lock);
        if (next != NULL && gets(next->of, 1))
            make_ready(next->of);
    }
}

static void serve(worker *me, behaviour *one)
{
    me->row = one->row;
    boc_start(&me->record, one->row);
    one->body(me, one);
    boc_end(&me->record, one->row, 0);
    release(one);
    free(one);
    pthread_mutex_lock(&work_lock);
    if (--alive == 0)
        pthread_cond_broadcast(&work_changed);
    pthread_mutex_unlock(&work_lock);
}

static void *serve_all(void *unused)
{
    worker me = {boc_attach(recorder), {0}};
    for (behaviour *one = next_ready(); one != NULL; one = next_ready())
        serve(&me, one);
    return unused;
}

static void work(unsigned microseconds)
{
    struct timespec time = {0, (long)microseconds * 1000};
    nanosleep(&time, NULL);
}

/* Takes the mean of a cell and its neighbours. It only reads the neighbours. */
static void smooth(worker *me, behaviour *self)
{
    cown *const *cell = self->cowns;
    if (!is_long)
        work(100);
    cell[1]->value = (cell[0]->value + cell[1]->value + cell[2]->value) / 3;
    boc_wrote(&me->record, self->row, 1);
}

static void report(worker *me, behaviour *self)
{
    (void)me;
    warmth += self->cowns[0]->value;
}

/* Writes a line into the log. */
static void note(worker *me, behaviour *self)
{
    work(1000);
    self->cowns[0]->value++;
    boc_wrote(&me->record, self->row, 0);
}

static void long_heat(worker *me, behaviour *self);

/* Writes the last line of a round into the log, and begins the next round. */
static void total(worker *me, behaviour *self)
{
    note(me, self);
    if (self->round < rounds)
        when(me, heat_def, long_heat, self->round + 1, NULL, 0);
}

/* One round over a part of the rod, and its line of the log. Parts are numbered through all rounds. */
static void part(worker *me, behaviour *self)
{
    int64_t round = self->round / PARTS;
    unsigned number = (unsigned)(self->round % PARTS), size = cells / PARTS;
    for (unsigned i = number * size; i < (number + 1) * size; i++)
        if (i > 0 && i + 1 < cells)
            when(me, smooth_def, smooth, round, (cown *[]){&rod[i - 1], &rod[i], &rod[i + 1]}, 3);
    if (number + 1 < PARTS)
        when(me, note_def, note, round, (cown *[]){&book}, 1);
    else
        when(me, report_def, total, round, (cown *[]){&book}, 1);
}

/* One round of a long run. */
static void long_heat(worker *me, behaviour *self)
{
    for (unsigned i = 0; i < PARTS; i++)
        when(me, part_def, part, self->round * PARTS + i, NULL, 0);
}

/* One round over the rod; the next one is spawned at once, and its behaviours wait for those of this one cell by cell. */
static void heat(worker *me, behaviour *self)
{
    for (unsigned i = 1; i + 1 < CELLS; i++)
        when(me, smooth_def, smooth, self->round, (cown *[]){&rod[i - 1], &rod[i], &rod[i + 1]}, 3);
    when(me, report_def, report, self->round, (cown *[]){&rod[CELLS / 2]}, 1);
    if (self->round < rounds)
        when(me, heat_def, heat, self->round + 1, NULL, 0);
}

static void begin(worker *me, behaviour *self)
{
    (void)self;
    when(me, heat_def, is_long ? long_heat : heat, 1, NULL, 0);
}

/* A run that hangs: its buffers are written, and make a record of it. */
static void give_up(int signal)
{
    (void)signal;
    if (buffers >= 0)
        boc_dump(recorder, buffers);
    _exit(1);
}

static void name_cown(cown *one, uint32_t number, const char *name)
{
    boc_name_cown(recorder, number, name);
    one->asked.number = number;
    pthread_mutex_init(&one->lock, NULL);
}

static void record(boc_mode mode)
{
    const boc_options options = {.mode = mode, .knows_writes = true, .memory = is_long ? (size_t)1 << 31 : 0};
    recorder = boc_new(&options);
    main_def = boc_def(recorder, "main");
    heat_def = boc_def(recorder, "heat");
    smooth_def = boc_def(recorder, "smooth");
    report_def = boc_def(recorder, "report");
    part_def = boc_def(recorder, "part");
    note_def = boc_def(recorder, "note");
    for (uint32_t i = 0; i < cells; i++) {
        char name[16];
        snprintf(name, sizeof name, "cell[%" PRIu32 "]", i);
        name_cown(&rod[i], i, name);
        rod[i].value = i == 0 ? 100 : 0;
    }
    if (is_long)
        name_cown(&book, cells, "log");
}

static void run(unsigned count)
{
    pthread_t threads[MOST_THREADS];
    worker me = {boc_attach(recorder), {0}};
    when(&me, main_def, begin, 0, NULL, 0);
    for (unsigned i = 0; i < count; i++)
        if (pthread_create(&threads[i], NULL, serve_all, NULL) != 0)
            abort();
    for (unsigned i = 0; i < count; i++)
        pthread_join(threads[i], NULL);
}

int main(int argc, char **argv)
{
    int threads = 4;
    boc_mode mode = BOC_PROFILE;
    FILE *names = NULL;
    for (int i = 1; i < argc; i++) {
        bool has_value = i + 1 < argc;
        if (strcmp(argv[i], "--audit") == 0)
            mode = BOC_AUDIT;
        else if (strcmp(argv[i], "--rounds") == 0 && has_value)
            rounds = atoi(argv[++i]);
        else if (strcmp(argv[i], "--long") == 0 && has_value) {
            is_long = true;
            cells = LONG_CELLS;
            rounds = 1 + atol(argv[++i]) / LONG_CELLS;
        } else if (strcmp(argv[i], "--names") == 0 && has_value)
            names = fopen(argv[++i], "w");
        else if (strcmp(argv[i], "--buffers") == 0 && has_value)
            buffers = open(argv[++i], O_WRONLY | O_CREAT | O_TRUNC, 0666);
        else
            threads = atoi(argv[i]);
    }
    if (threads < 1 || threads > MOST_THREADS || rounds < 1) {
        fputs("usage: heat [THREADS] [--rounds N] [--long ROWS] [--audit] [--names FILE] [--buffers FILE]\n", stderr);
        return 2;
    }
    record(mode);
    signal(SIGALRM, give_up);
    alarm((unsigned)rounds * 2);
    run((unsigned)threads);
    alarm(0);
    boc_report done = boc_write(recorder, stdout, names, is_long ? BOC_WHOLE : 0);
    boc_print_report(stderr, &done);
    boc_free(recorder);
    return done.fault == BOC_DONE ? 0 : 1;
}
