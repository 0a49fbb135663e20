# What Perl's workers and clients of packaging/demo/differs do: differs.pl PORT WHAT. A worker does jobs of the function mail until it is
# ended.
use strict;
use warnings;
use Gearman::Client;
use Gearman::Worker;

my ($port, $what) = @ARGV;
my @servers = (job_servers => ["127.0.0.1:$port"]);
if ($what eq 'application') {
    # A worker that reports how far it is.
    my $worker = Gearman::Worker->new(@servers);
    $| = 1;
    $worker->register_function(mail => sub {
        my ($job) = @_;
        print $job->arg, "\n";
        $job->set_status(1, 2);
        return $job->arg eq 'bad' ? undef : scalar reverse $job->arg;
    });
    $worker->work while 1;
} elsif ($what eq 'queues') {
    # Jobs in the background of each priority, of which two have one id, and the status of the last.
    my $client = Gearman::Client->new(@servers);
    $client->dispatch_background(mail => 'low', {priority => 'low'});
    $client->dispatch_background(mail => $_, {uniq => 'id'}) for qw(normal joins);
    my $handle = $client->dispatch_background(mail => 'high', {priority => 'high'});
    my $status = $client->get_status($handle);
    print $status->known ? 'known' : 'unknown', $status->running ? ', running' : '', "\n";
} elsif ($what eq 'tasks') {
    # Tasks of each priority at once, with callbacks.
    my $client = Gearman::Client->new(@servers);
    my $set = $client->new_task_set;
    my %said;
    for my $task (['abc', 'high'], ['bad', 'normal'], ['def', 'low']) {
        my ($text, $priority) = @$task;
        my $say = sub { my ($kind) = @_; sub { push @{$said{$text}}, join ' ', $kind, map { ref $_ ? $$_ : $_ } @_ } };
        $set->add_task(mail => $text, {uniq => $text, priority => $priority, on_complete => $say->('complete'), on_fail => sub { $say->('fail')->() },
            on_status => $say->('status')});
    }
    $set->wait(timeout => 10);
    print "$_: ", join('; ', @{$said{$_}}), "\n" for sort keys %said;
} elsif ($what eq 'late') {
    my $worker = Gearman::Worker->new(@servers);
    $worker->register_function(mail => 1, sub { sleep 3 if $_[0]->arg eq 'slow'; return 'done' });
    eval { $worker->work while 1 };
    $| = 1;
    print "died: ", $@ =~ /(job_not_found)/i ? lc $1 : $@, "\n";
} elsif ($what =~ /^(dies|empty|zero|undef)$/) {
    my $worker = Gearman::Worker->new(client_id => "perl\@$what", @servers);
    $worker->register_function(mail => sub {
        die "boom\n" if $what eq 'dies' && $_[0]->arg eq 'bad';
        return $what eq 'empty' ? '' : $what eq 'zero' ? 0 : $what eq 'undef' ? undef : 'done';
    });
    $worker->work while 1;
} elsif ($what =~ /^calls/) {
    # A good call, a bad one, and a good one.
    my $client = Gearman::Client->new(@servers, $what eq 'calls-exceptions' ? (exceptions => 1) : ());
    for my $text (qw(good bad good)) {
        my $answer = eval { $client->do_task(mail => $text, {timeout => 5}) };
        my $died = $@ =~ /^(Got work_fail for unknown handle)/ ? "died: $1" : $@ ? 'died' : '';
        print defined $answer ? $$answer : $died || 'none', "\n";
    }
} else {
    # A question, or a hanging one.
    $SIG{ALRM} = sub { print "hangs\n"; exit };
    alarm 3;
    my $client = Gearman::Client->new(@servers);
    my $found = $client->$what;
    print ref $found eq 'HASH' && $found->{"127.0.0.1:$port"} ? 'answers' : 'is empty', "\n";
}
