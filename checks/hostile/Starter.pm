# Runs programs in the current folder by start.c, which is compiled into a folder and runs as long as the check.
package Starter;
use strict;
use warnings;
use Cwd 'abs_path';
use File::Basename;
use IPC::Open2;
use Exporter 'import';
our @EXPORT = qw(begin_starts started);

my $source = dirname(abs_path(__FILE__)) . '/start.c';
my ($starter, $requests, $answers);

sub begin_starts {
    my ($folder) = @_;
    system('cc', '-O2', '-o', "$folder/start", $source) and die "$source is not compiled\n";
    $starter = open2($answers, $requests, "$folder/start");
}

# Runs a program with arguments, environment variables and the files of its standard input, output and error. Returns
# its `wait` status and its processor seconds.
sub started {
    my ($program, $words, $settings, @streams) = @_;
    my @variables = map { "$_=$settings->{$_}" } keys %$settings;
    my $request = join '', map { "$_\0" } $program, @streams, @variables, '', 'sfbank', @$words;
    syswrite $requests, pack 'L/a*', $request or die "the starter has ended\n";
    (sysread $answers, my $answer, 8) == 8 or die "the starter has ended\n";
    my ($status, $microseconds) = unpack 'lL', $answer;
    return ($status, $microseconds / 1_000_000);
}

# Waits for the starter, so that the processor time of the runs counts as the check's.
END {
    local $?;
    if ($starter) {
        close $requests;
        waitpid $starter, 0;
    }
}

1;
