<?php
// A worker of all servers: worker.php SERVERS LOG TIMEOUT. Without a timeout, which is in milliseconds, work() waits for
// a job for ever.
[, $servers, $log, $timeout] = $argv;
$worker = new GearmanWorker();
$worker->addOptions(GEARMAN_WORKER_GRAB_UNIQ);
$worker->addServers($servers);
if ($timeout > 0) {
    $worker->setTimeout((int) $timeout);
}
$worker->addFunction('php_reverse', fn ($job) => strrev($job->workload()));
$worker->addFunction('php_record', function ($job) use ($log) {
    file_put_contents($log, $job->handle() . ' ' . $job->workload() . "\n", FILE_APPEND);
    return '1';
});
while (true) {
    @$worker->work();
    if (!in_array($worker->returnCode(), [GEARMAN_SUCCESS, GEARMAN_TIMEOUT])) {
        usleep(200000);
    }
}
