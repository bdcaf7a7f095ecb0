/* Loaded before a program: appends a line to the file THREADS for each thread that it starts, and waits for APART microseconds behind
   each. At the program's end nothing could be done, since it ends by _exit. */
#define _GNU_SOURCE
#include <dlfcn.h>
#include <fcntl.h>
#include <pthread.h>
#include <stdlib.h>
#include <threads.h>
#include <unistd.h>

/* What such a call answers; 0 says that the thread is there. */
static int counted(int answer) {
    if (answer != 0) return answer;
    const char *name = getenv("THREADS");
    int file = name ? open(name, O_WRONLY | O_APPEND) : -1;
    if (file < 0 || write(file, "1\n", 2) != 2 || close(file) != 0) _exit(99);
    const char *apart = getenv("APART");
    if (apart) usleep(atoi(apart));
    return 0;
}

int pthread_create(pthread_t *thread, const pthread_attr_t *how, void *(*run)(void *), void *given) {
    int (*real)(pthread_t *, const pthread_attr_t *, void *(*)(void *), void *) = dlsym(RTLD_NEXT, "pthread_create");
    return counted(real(thread, how, run, given));
}

/* That of the C library doesn't come by the name above. */
int thrd_create(thrd_t *thread, thrd_start_t run, void *given) {
    int (*real)(thrd_t *, thrd_start_t, void *) = dlsym(RTLD_NEXT, "thrd_create");
    return counted(real(thread, run, given));
}
