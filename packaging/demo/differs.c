/* What C's workers and clients of packaging/demo/differs do: differs PORT WHAT. A worker does jobs of the function mail until it is ended. */
#include <libgearman/gearman.h>
#include <stdbool.h>
#include <stdio.h>
#include <stdlib.h>
#include <string.h>
#include <unistd.h>

static const char *what;

static void *mail(gearman_job_st *job, void *context, size_t *size, gearman_return_t *code)
{
    const char *text = "boom";
    (void) context;
    if (strcmp(what, "application") == 0)
        printf("%.*s\n", (int) gearman_job_workload_size(job), (const char *) gearman_job_workload(job));
    else
        puts("job");
    fflush(stdout);
    *size = 0;
    *code = GEARMAN_SUCCESS;
    if (strcmp(what, "sends") == 0) {
        gearman_job_send_exception(job, text, strlen(text));
        *code = GEARMAN_WORK_FAIL;
    } else if (strcmp(what, "warns") == 0) {
        gearman_job_send_warning(job, text, strlen(text));
        *code = GEARMAN_WORK_FAIL;
    } else if (strcmp(what, "alarm") == 0) {
        alarm(1);
        sleep(4);
        alarm(0);
    }
    return NULL;
}

/* As functions of the library's second version answer. */
static gearman_return_t mail2(gearman_job_st *job, void *context)
{
    (void) job;
    (void) context;
    puts("job");
    fflush(stdout);
    return strcmp(what, "v2-error") == 0 ? GEARMAN_ERROR : strcmp(what, "v2-fail") == 0 ? GEARMAN_FATAL : GEARMAN_SUCCESS;
}

/* Submits jobs in the background, of each priority, and two with one id. It prints the codes. */
static int queues(int port)
{
    gearman_client_st *client = gearman_client_create(NULL);
    char handle[GEARMAN_JOB_HANDLE_SIZE];
    gearman_client_add_server(client, "127.0.0.1", port);
    gearman_client_set_timeout(client, 5000);
    int low = gearman_client_do_low_background(client, "mail", NULL, "low", 3, handle);
    int normal = gearman_client_do_background(client, "mail", "id", "normal", 6, handle);
    int joins = gearman_client_do_background(client, "mail", "id", "joins", 5, handle);
    int high = gearman_client_do_high_background(client, "mail", NULL, "high", 4, handle);
    printf("%d %d %d %d\n", low, normal, joins, high);
    gearman_client_free(client);
    return 0;
}

int main(int count, char **arguments)
{
    if (count != 3)
        return 2;
    what = arguments[2];
    if (strcmp(what, "queues") == 0)
        return queues(atoi(arguments[1]));
    if (strcmp(what, "status") == 0) {
        gearman_client_st *client = gearman_client_create(NULL);
        char handle[GEARMAN_JOB_HANDLE_SIZE];
        bool known = false, running;
        uint32_t done, all;
        gearman_client_add_server(client, "127.0.0.1", atoi(arguments[1]));
        gearman_client_set_timeout(client, 5000);
        gearman_client_do_background(client, "mail", "one id", "x", 1, handle);
        gearman_client_job_status(client, handle, &known, &running, &done, &all);
        gearman_status_t status = gearman_client_unique_status(client, "one id", strlen("one id"));
        printf("%d %d\n", known, gearman_status_is_known(status) ? 0 : gearman_status_return(status));
        return 0;
    }
    gearman_worker_st *worker = gearman_worker_create(NULL);
    gearman_worker_remove_options(worker, GEARMAN_WORKER_GRAB_ALL);
    gearman_worker_add_options(worker, GEARMAN_WORKER_GRAB_UNIQ);
    gearman_worker_set_identifier(worker, "c@mail", strlen("c@mail"));
    gearman_worker_add_server(worker, "127.0.0.1", atoi(arguments[1]));
    if (strncmp(what, "v2", 2) == 0)
        gearman_worker_define_function(worker, "mail", 4, gearman_function_create(mail2), 0, NULL);
    else
        gearman_worker_add_function(worker, "mail", 0, mail, NULL);
    for (;;)
        if (gearman_worker_work(worker) != GEARMAN_SUCCESS)
            usleep(200000);
}
