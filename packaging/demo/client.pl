# A client of all servers: client.pl SERVERS WHAT COUNT. It prints one line.
#
# once      calls reverse COUNT times, without unique ids
# once-id   the same with unique ids
# loop      the same without unique ids, each until there is an answer
# same-id   gives COUNT background jobs one unique id, and prints by which servers they were taken
# record    hands in COUNT background jobs without unique ids, and prints their handles instead of counts
# stopped   as once, with time limits of a second for the server and for the job
use strict;
use warnings;
use Gearman::Client;

my ($servers, $what, $count) = @ARGV;
my $client = Gearman::Client->new(
    job_servers => [split /,/, $servers],
    $what eq 'stopped' ? (command_timeout => 1) : (),
);
my %answers;
$| = 1;

sub call {
    my ($text, %options) = @_;
    # Where the server dies between two packets do_task dies too.
    my $answer = eval { $client->do_task(reverse => $text, {%options}) };
    return !defined $answer ? 'none' : $$answer eq reverse($text) ? 'right' : 'wrong';
}
sub name_of {
    my ($handle) = @_;
    return defined $handle && $handle =~ m{//H:([^:]+):} ? $1 : 'none';
}

for my $i (1 .. $count) {
    if ($what eq 'once') {
        $answers{call("text $i")}++;
    } elsif ($what eq 'once-id') {
        $answers{call("text $i", uniq => "id $i")}++;
    } elsif ($what eq 'stopped') {
        $answers{call("text $i", timeout => 1)}++;
    } elsif ($what eq 'loop') {
        my $answer;
        while (($answer = call("text $i")) eq 'none') {
            $answers{again}++;
            select undef, undef, undef, 0.1;
        }
        $answers{$answer}++;
    } elsif ($what eq 'same-id') {
        $answers{name_of(eval { $client->dispatch_background(record => "same", {uniq => 'one id'}) })}++;
    } elsif ($what eq 'record') {
        my $handle = eval { $client->dispatch_background(record => "text $i") };
        print defined $handle ? ($handle =~ m{//(.*)})[0] : 'none', "\n";
    }
}
print join(' ', map { "$_=$answers{$_}" } sort keys %answers), "\n" if %answers;
