/* A worker of all servers: worker SERVERS LOG TIMEOUT. Without a timeout, which is in milliseconds, gearman_worker_work
 * waits for a job for ever. c_record writes the job's handle and data to the log. */
#include <libgearman/gearman.h>
#include <stdio.h>
#include <stdlib.h>
#include <unistd.h>

static void *reverse(gearman_job_st *job, void *context, size_t *size, gearman_return_t *code)
{
    const char *data = gearman_job_workload(job);
    (void) context;
    *size = gearman_job_workload_size(job);
    char *result = malloc(*size + 1);
    *code = result == NULL ? GEARMAN_WORK_FAIL : GEARMAN_SUCCESS;
    for (size_t i = 0; result != NULL && i < *size; i++)
        result[i] = data[*size - 1 - i];
    return result;
}

static void *record(gearman_job_st *job, void *context, size_t *size, gearman_return_t *code)
{
    FILE *log = fopen(context, "a");
    *size = 0;
    *code = log == NULL ? GEARMAN_WORK_FAIL : GEARMAN_SUCCESS;
    if (log != NULL) {
        fprintf(log, "%s %.*s\n", gearman_job_handle(job), (int) gearman_job_workload_size(job),
                (const char *) gearman_job_workload(job));
        fclose(log);
    }
    return NULL;
}

int main(int count, char **arguments)
{
    gearman_worker_st *worker = gearman_worker_create(NULL);
    if (count != 4 || worker == NULL)
        return 2;
    /* libgearman's own choice is packet type 39 (GRAB_JOB_ALL). */
    gearman_worker_remove_options(worker, GEARMAN_WORKER_GRAB_ALL);
    gearman_worker_add_options(worker, GEARMAN_WORKER_GRAB_UNIQ);
    gearman_worker_set_timeout(worker, atoi(arguments[3]) > 0 ? atoi(arguments[3]) : -1);
    if (gearman_failed(gearman_worker_add_servers(worker, arguments[1]))
        || gearman_failed(gearman_worker_add_function(worker, "c_reverse", 0, reverse, NULL))
        || gearman_failed(gearman_worker_add_function(worker, "c_record", 0, record, arguments[2])))
        return 2;
    for (;;) {
        gearman_return_t code = gearman_worker_work(worker);
        if (code != GEARMAN_SUCCESS && code != GEARMAN_TIMEOUT)
            usleep(200000);
    }
}
