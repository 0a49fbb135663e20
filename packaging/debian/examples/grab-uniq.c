/* Lets workers in C that can't be changed get jobs from a gmd without --as-gearmand: it sets the option GEARMAN_WORKER_GRAB_UNIQ in each
 * worker that the program makes. It doesn't reach PHP's workers.
 *     cc -shared -fPIC -o grab-uniq.so grab-uniq.c -ldl        (needs libgearman-dev)
 *     LD_PRELOAD=$PWD/grab-uniq.so gearman -w -f wc -- wc -c */
#define _GNU_SOURCE
#include <dlfcn.h>
#include <libgearman/gearman.h>

gearman_worker_st *gearman_worker_create(gearman_worker_st *worker)
{
    gearman_worker_st *(*create)(gearman_worker_st *) = dlsym(RTLD_NEXT, "gearman_worker_create");
    worker = create(worker);
    if (worker != NULL)
        gearman_worker_add_options(worker, GEARMAN_WORKER_GRAB_UNIQ);
    return worker;
}
