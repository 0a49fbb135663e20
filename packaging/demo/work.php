<?php
// Does a worker's jobs until it is ended, and prints a line for each code that isn't success.
function work(GearmanWorker $worker): void
{
    while (true) {
        try {
            @$worker->work();
        } catch (Throwable $e) {
        }
        if ($worker->returnCode() !== GEARMAN_SUCCESS) {
            echo 'code ', $worker->returnCode(), "\n";
            usleep(200000);
        }
    }
}
