#include "worker.h"

#include <errno.h>
#include <fcntl.h>
#include <poll.h>
#include <pthread.h>
#include <signal.h>
#include <stddef.h>
#include <unistd.h>

static bool take(int file, char *c)
{
    ssize_t many;
    do
        many = read(file, c, 1);
    while (many < 0 && errno == EINTR);
    return many == 1;
}

static void put(int file, char c)
{
    while (write(file, &c, 1) < 0 && errno == EINTR)
        ;
}

static void *work(void *context)
{
    struct worker *w = context;
    char order;
    while (take(w->orders[0], &order))
        put(w->results[1], w->job(w->context) ? 1 : 0);
    return NULL;
}

bool worker_begin(struct worker *w)
{
    pthread_t thread;
    sigset_t all, before;
    if (pipe(w->orders) != 0 || pipe(w->results) != 0)
        return false;
    for (int i = 0; i < 2; i++) {
        fcntl(w->orders[i], F_SETFD, FD_CLOEXEC);
        fcntl(w->results[i], F_SETFD, FD_CLOEXEC);
    }
    /* signals are the loop's */
    sigfillset(&all);
    pthread_sigmask(SIG_SETMASK, &all, &before);
    errno = pthread_create(&thread, NULL, work, w);
    pthread_sigmask(SIG_SETMASK, &before, NULL);
    return errno == 0 && (errno = pthread_detach(thread)) == 0;
}

void worker_do(struct worker *w, bool (*job)(void *context), void *context)
{
    w->job = job;
    w->context = context;
    w->busy = true;
    put(w->orders[1], 1);
}

int worker_file(const struct worker *w)
{
    return w->busy ? w->results[0] : -1;
}

bool worker_ended(const struct worker *w)
{
    struct pollfd result = {.fd = w->results[0], .events = POLLIN};
    return w->busy && poll(&result, 1, 0) > 0;
}

bool worker_result(struct worker *w)
{
    char result = 0;
    bool good = take(w->results[0], &result) && result == 1;
    w->busy = false;
    return good;
}
