/* A client of all servers: client SERVERS WHAT COUNT, with a time limit of a second.
 *
 * loop    calls c_reverse COUNT times, each until there is an answer, and prints one line
 * record  hands in COUNT background jobs, each until it is taken, and prints their handles */
#include <libgearman/gearman.h>
#include <stdio.h>
#include <stdlib.h>
#include <string.h>
#include <unistd.h>

static int is_reversed(const char *data, size_t size, const char *result, size_t result_size)
{
    if (result_size != size)
        return 0;
    for (size_t i = 0; i < size; i++)
        if (result[i] != data[size - 1 - i])
            return 0;
    return 1;
}

int main(int count, char **arguments)
{
    gearman_client_st *client = gearman_client_create(NULL);
    int right = 0, wrong = 0, again = 0;
    if (count != 4 || client == NULL || gearman_failed(gearman_client_add_servers(client, arguments[1])))
        return 2;
    gearman_client_set_timeout(client, 1000);
    for (int i = 1; i <= atoi(arguments[3]); i++) {
        char text[32], handle[GEARMAN_JOB_HANDLE_SIZE] = "";
        gearman_return_t code;
        size_t size = snprintf(text, sizeof text, "text %d", i), result_size = 0;
        char *result = NULL;
        for (;; again++) {
            if (strcmp(arguments[2], "loop") == 0)
                result = gearman_client_do(client, "c_reverse", NULL, text, size, &result_size, &code);
            else
                code = gearman_client_do_background(client, "c_record", NULL, text, size, handle);
            if (code == GEARMAN_SUCCESS)
                break;
            free(result);
            result = NULL;
            usleep(100000);
        }
        if (strcmp(arguments[2], "loop") != 0)
            puts(handle);
        else if (is_reversed(text, size, result, result_size))
            right++;
        else
            wrong++;
        free(result);
    }
    if (strcmp(arguments[2], "loop") == 0) {
        if (again > 0)
            printf("again=%d ", again);
        printf("right=%d", right);
        printf(wrong > 0 ? " wrong=%d\n" : "\n", wrong);
    }
    gearman_client_free(client);
    return 0;
}
