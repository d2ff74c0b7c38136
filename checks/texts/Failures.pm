# Tests texts and banks that can't be written: a write that fails, or accepts no byte, at each call in turn.
package Failures;
use strict;
use warnings;
use Banks;
use Runs;
use Cases;
use Writes;
use Exporter 'import';
our @EXPORT = qw(try_failures);

my @runs = (
    ['new', 'out'],
    ['script', 'organ', 'out'],
    ['script', 'long', 'out'],
    ['script', '--no-points', 'wide', 'out'],
    ['script', '--no-comments', 'wide', 'out'],
    ['diff', 'tone', 'wide', 'out'],
    ['diff', '--no-comments', 'tone', 'wide', 'out'],
    ['diff', 'tone', 'long', 'out'],
    ['diff', 'renamed', 'tone', 'out'],
);

# Makes each write of a run fail in turn, until none does.
sub try_each_write {
    my ($way, $most, $words) = @_;
    my $name = "@$words, $way, $most bytes a call";
    Writes::run_under('./fail.so', {}, $words, 'out');
    my %whole = (out => read_bytes('out'));
    for my $number (1 .. 100_000) {
        my $run = Writes::run_under('./fail.so', { $way => $number, $most ? (SHORT_WRITES => $most) : () }, $words, 'out');
        if (!-e 'mark') {
            my $right = !$run->{status} && $number > 1 && read_bytes('out') eq $whole{out};
            return report_case("$name, $number calls", $right ? undef : 'is not done');
        }
        report_case("$name, call $number", Writes::is_counted($run, \%whole, 'out'));
    }
}

sub try_failures {
    my ($hostile) = @_;
    my $points = '0123456789abcdef' x 5_000;
    report_case('a longer bank', done(apply_text('layered', "extend 0 x$points x", 'long', 'undo')));
    report_case('another name', done(apply_text('tone', 'rename-sample 0 "ABCDEFGHIJKLMNOPQRST"', 'renamed', 'undo')));
    return report_case('the shim', 'it is not compiled') if system('cc', '-O2', '-shared', '-fPIC', '-o', 'fail.so', "$hostile/fail_writes.c");
    for my $way (qw(FAILED_WRITE EMPTY_WRITE)) {
        for my $run (@runs) { try_each_write($way, $_, $run) for 0, 100; }
    }
}

1;
