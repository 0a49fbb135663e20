<?php
// A client of all servers: client.php SERVERS WHAT COUNT. It prints one line, and sets a time limit but for the first two.
//
// exceptions  adds the servers as addServers() does by itself, and prints whether it threw
// tasks       adds COUNT tasks and runs them, without a time limit
// tasks-limit the same with a time limit of a second
// loop        calls php_reverse COUNT times, each until there is an answer
// record      hands in COUNT background jobs, each until it is taken, and prints their handles instead
[, $servers, $what, $count] = $argv;
$client = new GearmanClient();
if ($what === 'exceptions') {
    try {
        $client->addServers($servers);
        echo "added\n";
    } catch (GearmanException $e) {
        echo "threw\n";
    }
    exit;
}
$client->addServers($servers, false);
if ($what !== 'tasks') {
    $client->setTimeout(1000);
}
$n = [];
function count_one(string $what): void
{
    global $n;
    $n[$what] = ($n[$what] ?? 0) + 1;
}
if ($what === 'tasks' || $what === 'tasks-limit') {
    $client->setCompleteCallback(fn ($task) => count_one('answers'));
    for ($i = 1; $i <= $count; $i++) {
        $client->addTask('php_reverse', "text $i");
    }
    count_one(@$client->runTasks() ? 'ran' : 'refused');
} else {
    for ($i = 1; $i <= $count; $i++) {
        while (true) {
            $answer = $what === 'loop' ? @$client->doNormal('php_reverse', "text $i") : @$client->doBackground('php_record', "text $i");
            if ($client->returnCode() === GEARMAN_SUCCESS) {
                break;
            }
            count_one('again');
            usleep(100000);
        }
        if ($what === 'record') {
            echo "$answer\n";
        } else {
            count_one($answer === strrev("text $i") ? 'right' : 'wrong');
        }
    }
}
ksort($n);
if ($n && $what !== 'record') {
    echo implode(' ', array_map(fn ($k) => "$k=$n[$k]", array_keys($n))), "\n";
}
