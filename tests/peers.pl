# What Perl's workers and clients of tests/peers do: peers.pl PORT WHAT. A worker prints a line for each job, and goes on until it is
# ended; a client prints what it got.
use strict;
use warnings;
use Gearman::Client;
use Gearman::Worker;

my ($port, $what) = @ARGV;
my @servers = (job_servers => ["127.0.0.1:$port"]);
$| = 1;

sub reverses {
    my ($job) = @_;
    print "f ", $job->arg, "\n";
    die "boom\n" if $job->arg eq 'bad';
    return $job->arg eq 'empty' ? '' : scalar reverse $job->arg;
}

if ($what =~ /^calls/) {
    # A bad call and a good one.
    my $client = Gearman::Client->new(@servers, $what eq 'calls-exceptions' ? (exceptions => 1) : ());
    for my $text (qw(bad good)) {
        my $said = '';
        my $answer = eval {
            $client->do_task(f => $text, {timeout => 60, on_exception => sub { $said = "exception $_[0] " },
                on_fail => sub { $said .= 'fail ' }})
        };
        print $said, defined $answer ? $$answer : $@ ? 'died' : 'none', "\n";
    }
} else {
    my $worker = Gearman::Worker->new(client_id => "perl\@$what", @servers);
    $worker->register_function(f => \&reverses);
    if ($what eq 'several') {
        $worker->register_function($_ => \&reverses) for qw(g h);
    }
    eval { $worker->work while 1 };
    print "died: ", lc $@;
}
