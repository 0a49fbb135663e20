<?php
// What PHP's workers and clients of packaging/demo/differs do: differs.php PORT WHAT [ARGUMENT].. A worker does jobs of the function mail
// until it is ended, and prints a line for each.
require __DIR__ . '/work.php';
[, $port, $what] = $argv;
$argument = $argv[3] ?? '';

function worker(string $port, bool $has_option = true): GearmanWorker
{
    $worker = new GearmanWorker();
    if ($has_option) {
        $worker->addOptions(GEARMAN_WORKER_GRAB_UNIQ);
    }
    $worker->addServer('127.0.0.1', (int) $port);
    return $worker;
}
function client(string $port): GearmanClient
{
    $client = new GearmanClient();
    $client->addServer('127.0.0.1', (int) $port);
    $client->setTimeout(5000);
    return $client;
}
// What a page's code calls.
function send_mail(string $text): string
{
    echo "job\n";
    if ($text === 'slow') {
        sleep(4);
    }
    if ($text === 'bad') {
        throw new Exception('boom');
    }
    return 'done';
}

if ($what === 'throws' || $what === 'uncaught' || $what === 'sends' || $what === 'slow' || $what === 'long' || $what === 'good') {
    // ARGUMENT is the time limit.
    $worker = worker($port);
    $worker->setId("php@$what");
    $worker->addFunction('mail', function ($job) use ($what) {
        echo "job\n";
        if ($what === 'throws' || $what === 'uncaught') {
            throw new Exception('boom');
        } elseif ($what === 'sends') {
            $job->sendException('boom');
            $job->sendFail();
            return null;
        } elseif ($what === 'slow') {
            sleep(4);
        }
        return $what === 'long' ? str_repeat('x', 2000000) : 'done';
    }, null, (int) $argument);
    while ($what === 'uncaught') {
        @$worker->work();
    }
    work($worker);
} elseif ($what === 'application') {
    // A worker that reports all that there is.
    $worker = worker($port);
    $worker->addFunction('mail', function ($job) {
        echo $job->workload(), "\n";
        $job->sendStatus(1, 2);
        $job->sendData('part');
        $job->sendWarning('careful');
        if ($job->workload() === 'bad') {
            $job->sendFail();
            return null;
        }
        return strrev($job->workload());
    });
    work($worker);
} elseif ($what === 'queues') {
    // Jobs in the background of each priority, of which two have one id, and the status of the last.
    $client = client($port);
    $client->doLowBackground('mail', 'low');
    $client->doBackground('mail', 'normal', 'id');
    $client->doBackground('mail', 'joins', 'id');
    $handle = $client->doHighBackground('mail', 'high');
    echo json_encode($client->jobStatus($handle)), "\n";
} elseif ($what === 'tasks') {
    // Tasks of each priority at once, with callbacks, and then calls.
    $client = client($port);
    $said = [];
    foreach (['Created', 'Data', 'Warning', 'Status', 'Complete', 'Fail'] as $kind) {
        $client->{"set{$kind}Callback"}(function ($task) use (&$said, $kind) {
            $said[$task->unique()][] = $kind . match ($kind) {
                'Data', 'Warning', 'Complete' => ' ' . $task->data(),
                'Status' => ' ' . $task->taskNumerator() . '/' . $task->taskDenominator(),
                default => '',
            };
        });
    }
    $client->addTaskHigh('mail', 'abc', null, 'one');
    $client->addTask('mail', 'bad', null, 'two');
    $client->addTaskLow('mail', 'def', null, 'three');
    $client->runTasks();
    ksort($said);
    echo json_encode($said, JSON_UNESCAPED_SLASHES), "\n", json_encode([$client->doHigh('mail', 'ab'), $client->doLow('mail', 'cd')]), "\n";
} elseif ($what === 'options') {
    // What options() says before and after the option is set.
    $worker = new GearmanWorker();
    $before = $worker->options();
    $worker->addOptions(GEARMAN_WORKER_GRAB_UNIQ);
    echo json_encode([$before, $worker->options()]), "\n";
} elseif ($what === 'without') {
    $worker = worker($port, false);
    $worker->addFunction('mail', fn ($job) => 'done');
    work($worker);
} elseif ($what === 'page') {
    // ARGUMENT is the page's code, which adds the function to $worker.
    $worker = worker($port);
    eval($argument);
    work($worker);
} elseif ($what === 'status') {
    $client = client($port);
    $handle = $client->doBackground('mail', 'x', 'one id');
    $by_handle = $client->jobStatus($handle);
    $by_id = @$client->jobStatusByUniqueKey('one id');
    echo json_encode([$by_handle[0], $by_id[0], $client->returnCode()]), "\n";
} elseif ($what === 'full') {
    $client = client($port);
    @$client->doBackground('full', 'x');
    $code = $client->returnCode();
    echo json_encode([$code, str_contains($client->error(), 'queue_full')]), "\n";
} elseif ($what === 'table') {
    // ARGUMENT is the page's code: two lines of the client, one of the worker, and the loop.
    [$submits, $ends, $again] = explode("\n---\n", $argument);
    $path = $argv[4];
    $db = new PDO("sqlite:$path");
    $db->exec('CREATE TABLE IF NOT EXISTS jobs (id INTEGER PRIMARY KEY, data TEXT)');
    $client = client($port);
    if ($argv[5] === 'submit') {
        foreach (['a', 'b', 'c'] as $data) {
            eval($submits);
        }
    } elseif ($argv[5] === 'again') {
        eval($again);
    } else {
        $worker = worker($port);
        $worker->addFunction('mail', function ($job) use ($db, $ends) {
            echo "job\n";
            eval($ends);
        });
        work($worker);
    }
    echo $db->query('SELECT count(*) FROM jobs')->fetchColumn(), "\n";
}
