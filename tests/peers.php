<?php
// What PHP's workers and clients of tests/peers do, with the extension's own options: peers.php PORT WHAT [NUMBER]. A worker prints a line
// for each job, and goes on until it is ended, or with WHAT uncaught until its function throws; a client prints what it got. NUMBER is a
// worker's time limit.
require __DIR__ . '/../packaging/demo/work.php';
[, $port, $what] = $argv;
$number = (int) ($argv[3] ?? 0);

function worker(string $port): GearmanWorker
{
    $worker = new GearmanWorker();
    $worker->addServer('127.0.0.1', (int) $port);
    return $worker;
}
function client(string $port): GearmanClient
{
    $client = new GearmanClient();
    $client->addServer('127.0.0.1', (int) $port);
    $client->setTimeout(60000);
    return $client;
}
function reverse(GearmanJob $job): ?string
{
    global $what;
    echo $job->functionName(), ' ', $job->workload(), "\n";
    if ($job->workload() === 'bad' && ($what === 'throws' || $what === 'uncaught')) {
        throw new Exception('boom');
    }
    if ($job->workload() === 'bad' && $what === 'sends') {
        $job->sendException('boom');
        $job->sendFail();
        return null;
    }
    return strrev($job->workload());
}
function say(string $kind): callable
{
    return function ($task) use ($kind) {
        echo rtrim("$kind " . $task->data()), "\n";
    };
}

if ($what === 'do') {
    $client = client($port);
    foreach (['bad', 'good'] as $text) {
        echo json_encode([@$client->doNormal('f', $text), $client->returnCode()]), "\n";
    }
} elseif ($what === 'tasks' || $what === 'tasks-exceptions') {
    $client = client($port);
    if ($what === 'tasks-exceptions') {
        echo json_encode($client->enableExceptionHandler()), "\n";
    }
    $client->setExceptionCallback(say('exception'));
    $client->setFailCallback(say('fail'));
    $client->setCompleteCallback(say('complete'));
    foreach (['bad', 'good'] as $text) {
        $client->addTask('f', $text);
        @$client->runTasks();
    }
} elseif ($what === 'ping') {
    echo json_encode([client($port)->ping('hi'), worker($port)->ping('hi')]), "\n";
} else {
    $worker = worker($port);
    $worker->setId("php@$what");
    $worker->addFunction('f', 'reverse', null, $number);
    if ($what === 'several' || $what === 'leaves') {
        $worker->addFunction('g', 'reverse');
        $worker->addFunction('h', 'reverse');
    }
    if ($what === 'leaves') {
        $worker->unregister('f');
    }
    while ($what === 'uncaught') {
        @$worker->work();
    }
    work($worker);
}
