# Tests the table `writes`: outputs that can't be written, by the shim of checks/hostile that makes writes fail.
package FailedWrites;
use strict;
use warnings;
use Banks;
use Runs;
use Tables;
use BankFiles;
use Writes;
use Exporter 'import';
our @EXPORT = qw(try_failed_writes);

my %ways = (error => 'FAILED_WRITE', nothing => 'EMPTY_WRITE');

sub put_file {
    my ($name, $what) = @_;
    write_bytes($name, $what =~ /^text (.*)/ ? unescaped($1) : bank_bytes($what));
}

# Returns what is wrong with the number of writes of a whole output, or undef.
sub is_count {
    my ($count, $sign, $number) = @_;
    return if !defined $sign;
    return ($sign eq '=' ? $count == $number : $count < $number) ? undef : "$count writes, not $sign $number";
}

# Makes each write of a run fail in turn, until none does.
sub try_each_write {
    my ($words, $outputs, $how) = @_;
    my ($most, $way, $sign, $number) = $how =~ /^(\d+|all) (error|nothing)(?: ([=<])(\d+))?$/ or die "'$how' is no way\n";
    my @words = split ' ', $words;
    my @outputs = split ' ', $outputs;
    my %short = $most eq 'all' ? () : (SHORT_WRITES => $most);
    Writes::run_under('./fail.so', {}, \@words, @outputs);
    my %whole = map { $_ => read_bytes(Writes::file_of($_)) // '' } @outputs;
    for my $call (1 .. 2000) {
        my $run = Writes::run_under('./fail.so', { $ways{$way} => $call, %short }, \@words, @outputs);
        if (!-e 'mark') {
            my ($other) = grep { (read_bytes(Writes::file_of($_)) // '') ne $whole{$_} } @outputs;
            my $wrong = $run->{status} || $call == 1 ? 'is not done' : defined $other ? "another $other" : is_count($call - 1, $sign, $number);
            return report("$words, $how", $wrong);
        }
        report("$words, $how, call $call", Writes::is_counted($run, \%whole, @outputs));
    }
    report("$words, $how", 'goes on');
}

sub try_row {
    my ($words, $outputs, @ways) = @_;
    return put_file($1, $outputs) if $words =~ /^file (\S+)$/;
    try_each_write($words, $outputs, $_) for @ways;
}

sub try_failed_writes {
    my ($here) = @_;
    my $shim = "$here/../hostile/fail_writes.c";
    return report('the shim', 'it is not compiled') if system('cc', '-O2', '-shared', '-fPIC', '-o', 'fail.so', $shim);
    try_row(@$_) for rows_of("$here/writes");
}

1;
