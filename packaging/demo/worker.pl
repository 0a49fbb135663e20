# A worker of all servers: worker.pl SERVERS LOG. record writes the job's handle and data to the log.
use strict;
use warnings;
use Gearman::Worker;

my ($servers, $log) = @ARGV;
my $worker = Gearman::Worker->new(job_servers => [split /,/, $servers]);
$worker->register_function(reverse => sub { scalar reverse $_[0]->arg });
$worker->register_function(record => sub {
    my ($job) = @_;
    open my $file, '>>', $log or die;
    syswrite $file, $job->handle . ' ' . $job->arg . "\n";
    return 1;
});
$worker->work while 1;
