/* Calls the proved program's `main` on a thread with a stack of 4 MB, whatever `ulimit -s` says: the translator's lists take 1.5 MB. Writing to a closed pipe
   or past a limit is an error that the program tells of, not a signal. It is linked with `--wrap=main`: `__real_main` is the program's. */
typedef unsigned long size_t, thread;
typedef struct { size_t room[16]; } attributes; /* the C library's have 56 bytes */
void (*signal(int, void (*)(int)))(int);
int pthread_attr_init(attributes *), pthread_attr_setstacksize(attributes *, size_t), pthread_join(thread, void **);
int pthread_create(thread *, const attributes *, void *(*)(void *), void *);
long write(int, const void *, size_t);
int __real_main(int count, char **words);

static int count, status;
static char **words;
static void *run(void *none) { status = __real_main(count, words); return none; }

int __wrap_main(int argc, char **argv) {
    attributes large;
    thread runs;
    signal(13, (void (*)(int))1);
    signal(25, (void (*)(int))1);
    count = argc;
    words = argv;
    if (pthread_attr_init(&large) || pthread_attr_setstacksize(&large, 4 << 20) || pthread_create(&runs, &large, run, 0))
        return write(2, "tautgaff: no memory\n", 20), 2;
    pthread_join(runs, 0);
    return status;
}
