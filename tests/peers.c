/* What C's workers and clients of tests/peers do, with libgearman's own options: peers PORT WHAT [NUMBER]. A worker prints a line for
 * each job, and goes on until it is ended; a client prints what it got. NUMBER is a worker's time limit, or how many milliseconds a client
 * waits. */
#include <libgearman/gearman.h>
#include <stdbool.h>
#include <stdio.h>
#include <stdlib.h>
#include <string.h>
#include <unistd.h>

static const char *what;

static bool is(const char *name)
{
    return strcmp(what, name) == 0;
}

static void *reverse(gearman_job_st *job, void *context, size_t *size, gearman_return_t *code)
{
    const char *data = gearman_job_workload(job);
    (void) context;
    *size = gearman_job_workload_size(job);
    char *result = malloc(*size + 1);
    printf("%s %.*s\n", gearman_job_function_name(job), (int) *size, data);
    if (is("slow") && *size == 3)
        sleep(6);
    for (size_t i = 0; result != NULL && i < *size; i++)
        result[i] = data[*size - 1 - i];
    if (is("sends") && *size == 3) {
        gearman_job_send_exception(job, "boom", 4);
        *size = 0;
        *code = GEARMAN_WORK_FAIL;
    } else {
        *code = result == NULL ? GEARMAN_WORK_FAIL : GEARMAN_SUCCESS;
    }
    return result;
}

/* A function of the library's second version. Jobs of three bytes get an exception. */
static gearman_return_t reverse2(gearman_job_st *job, void *context)
{
    size_t size;
    gearman_return_t code;
    char *result = reverse(job, context, &size, &code);
    if (size == 3 && is("raises")) {
        gearman_job_send_exception(job, "boom", 4);
        code = GEARMAN_WORK_EXCEPTION;
    } else {
        gearman_job_send_data(job, result, size);
    }
    free(result);
    return code;
}

static gearman_return_t joins(gearman_aggregator_st *aggregator, gearman_task_st *task, gearman_result_st *result)
{
    (void) aggregator, (void) task, (void) result;
    return GEARMAN_SUCCESS;
}

static gearman_return_t tells(const char *name, gearman_task_st *task)
{
    printf("%s %.*s\n", name, (int) gearman_task_data_size(task), (const char *) gearman_task_data(task));
    return GEARMAN_SUCCESS;
}

static gearman_return_t of_data(gearman_task_st *task)
{
    return tells("data", task);
}

static gearman_return_t of_exception(gearman_task_st *task)
{
    return tells("exception", task);
}

static gearman_return_t of_fail(gearman_task_st *task)
{
    (void) task;
    puts("fail");
    return GEARMAN_SUCCESS;
}

static gearman_return_t of_complete(gearman_task_st *task)
{
    return tells("complete", task);
}

static void tasks(gearman_client_st *client)
{
    gearman_return_t code;
    gearman_client_set_data_fn(client, of_data);
    gearman_client_set_exception_fn(client, of_exception);
    gearman_client_set_fail_fn(client, of_fail);
    gearman_client_set_complete_fn(client, of_complete);
    gearman_client_add_task(client, NULL, NULL, "f", NULL, "bad", 3, &code);
    gearman_client_run_tasks(client);
    gearman_client_add_task(client, NULL, NULL, "f", NULL, "good", 4, &code);
    gearman_client_run_tasks(client);
}

static int asks(int port, int patience)
{
    static const char *words[] = {"bad", "good"};
    gearman_client_st *client = gearman_client_create(NULL);
    gearman_client_add_server(client, "127.0.0.1", port);
    gearman_client_set_timeout(client, patience);
    if (strncmp(what, "asked-", 6) == 0)
        printf("%d\n", gearman_client_set_server_option(client, what + 6, strlen(what + 6)));
    if (is("echo"))
        printf("%d\n", gearman_client_echo(client, "hi", 2));
    else if (strncmp(what, "tasks", 5) == 0 || strncmp(what, "asked-", 6) == 0)
        tasks(client);
    else
        for (int i = 0; i < 2; i++) {
            size_t size;
            gearman_return_t code;
            char *result = gearman_client_do(client, "f", NULL, words[i], strlen(words[i]), &size, &code);
            printf("%d %.*s\n", code, (int) size, result == NULL ? "" : result);
            free(result);
        }
    gearman_client_free(client);
    return 0;
}

static gearman_worker_st *worker_of(int port)
{
    gearman_worker_st *worker = gearman_worker_create(NULL);
    gearman_worker_add_server(worker, "127.0.0.1", port);
    if (is("clone"))
        worker = gearman_worker_clone(NULL, worker);
    if (is("identified"))
        gearman_worker_set_identifier(worker, "c@peers", 7);
    return worker;
}

static void add_functions(gearman_worker_st *worker, int limit)
{
    if (is("raises") || is("second"))
        gearman_worker_define_function(worker, "f", 1, gearman_function_create(reverse2), 0, NULL);
    else if (is("partition"))
        gearman_worker_define_function(worker, "f", 1, gearman_function_create_partition(reverse2, joins), 0, NULL);
    else
        gearman_worker_add_function(worker, "f", limit, reverse, NULL);
    if (is("several") || is("leaves")) {
        gearman_worker_add_function(worker, "g", 0, reverse, NULL);
        gearman_worker_add_function(worker, "h", 0, reverse, NULL);
    }
    if (is("leaves"))
        gearman_worker_unregister(worker, "f");
}

int main(int count, char **arguments)
{
    if (count < 3)
        return 2;
    int port = atoi(arguments[1]), number = count > 3 ? atoi(arguments[3]) : 0;
    what = arguments[2];
    setvbuf(stdout, NULL, _IOLBF, 0);
    if (is("do") || is("tasks") || is("echo") || strncmp(what, "asked-", 6) == 0)
        return asks(port, number > 0 ? number : 60000);
    gearman_worker_st *worker = worker_of(port);
    if (is("worker-echo")) {
        printf("%d\n", gearman_worker_echo(worker, "hi", 2));
        return 0;
    }
    if (is("no-job")) {
        gearman_worker_add_function(worker, "f", 0, reverse, NULL);
        gearman_worker_add_options(worker, GEARMAN_WORKER_NON_BLOCKING);
        gearman_return_t code;
        while ((code = gearman_worker_work(worker)) == GEARMAN_IO_WAIT)
            gearman_worker_wait(worker);
        printf("%d\n", code == GEARMAN_NO_JOBS);
        return 0;
    }
    add_functions(worker, number);
    for (;;) {
        gearman_return_t code = gearman_worker_work(worker);
        if (code != GEARMAN_SUCCESS) {
            printf("code %d\n", code);
            usleep(200000);
        }
    }
}
