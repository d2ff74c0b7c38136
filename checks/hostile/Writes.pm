# Tests outputs that can't be written: a write that fails, or accepts no byte, at each call in turn, full devices, and
# closed streams. The fault counts exactly the bytes that were written, and no new file is left.
package Writes;
use strict;
use warnings;
use Banks;
use Runs;
use Exporter 'import';
our @EXPORT = qw(try_writes);

# The runs, each with its outputs; `-` is standard output.
my @runs = (
    [['apply', 'saw', 'rename', 'out', 'undo'], 'out', 'undo'],
    [['apply', '--neutral', 'saw', 'rename', 'out', 'undo'], 'out', 'undo'],
    [['apply', 'layered', 'remove', 'out', 'undo'], 'out', 'undo'],
    [['apply', 'long', 'remove', 'out', 'undo'], 'out', 'undo'],
    [['canon', 'tone', 'out'], 'out'],
    [['play', 'tone', 'note', 'out'], 'out'],
    [['show', 'wide'], '-'],
    [['show', '--zones', '--uses', 'wide'], '-'],
    [['explain', '37'], '-'],
    [['map', 'tone', 'inst', '0', 'out'], 'out'],
    [['map', 'tone', 'sample', '0', 'out'], 'out'],
    [['page', 'tone', 'out'], 'out'],
    [['wave', 'tone', '0', 'out'], 'out'],
    [['import', 'saw', 'take', 'out', 'undo'], 'out', 'undo'],
);

# How writes fail: with an error or by accepting nothing, and the largest number of bytes that each call before accepts,
# if limited.
my @ways = map { my $way = $_; map { [$way, $_] } 0, 1, 100 } qw(FAILED_WRITE EMPTY_WRITE);

sub make_inputs {
    write_bytes('rename', "rename-sample 0 \"ABCDEFGHIJKLMNOPQRST\"\n");
    write_bytes('remove', "remove-inst 1\n");
    write_bytes('note', "0 8 0 0 67 127\n");
    my $wave = run(['wave', 'tone', '0', 'take']);
    report('a recording', $wave->{status} ? $wave->{line} : undef);
    my $points = '0123456789abcdef' x 5_000;
    my $run = apply_text('layered', "extend 0 x$points x", 'long', 'undo');
    report('a longer bank', $run->{wrong});
}

# Returns the file of an output; a run without a fault writes all of it there.
sub file_of { my ($output) = @_; return $output eq '-' ? 'printed' : $output; }

# Runs the program with the shim; output files are removed before.
sub run_under {
    my ($shim, $settings, $words, @outputs) = @_;
    unlink 'mark', map { file_of($_) } @outputs;
    my @output = $outputs[0] eq '-' ? (FAILED_OUTPUT => 1) : ();
    local %Runs::settings = (LD_PRELOAD => $shim, FAILED_MARK => 'mark', @output, %$settings);
    return run($words);
}

# Returns what is wrong with a run with a failed write, or undef: the fault must count the bytes that its file had, which
# are on standard output, and no other file may be left.
sub is_counted {
    my ($run, $whole, @outputs) = @_;
    my ($path, $written) = $run->{line} =~ /^sfbank: write fault (\S+) after (\d+) bytes\n\z/;
    return "status $run->{status} with '$run->{line}'" if $run->{status} != 5 || $run->{signal} || !defined $path;
    return "the fault is of $path" unless grep { $_ eq $path } @outputs;
    my $had = read_bytes('mark');
    return "the file had $had bytes with $run->{line}" if $had != $written;
    my ($left) = grep { -e } grep { $_ ne '-' } @outputs;
    return "$left is there" if defined $left;
    return $path ne '-' || read_bytes('printed') eq substr($whole->{'-'}, 0, $written) ? undef : 'other bytes are printed';
}

# Makes each write of a run fail in turn, until none does; of a page, which is long, the first of each 97.
sub try_each_write {
    my ($shim, $way, $most, $words, @outputs) = @_;
    my $name = "@$words, $way, $most bytes a call";
    run_under($shim, {}, $words, @outputs);
    my %whole = map { $_ => read_bytes(file_of($_)) } @outputs;
    my $step = $words->[0] eq 'page' ? 97 : 1;
    for (my $number = 1; $number <= 100_000; $number += $step) {
        my $run = run_under($shim, { $way => $number, $most ? (SHORT_WRITES => $most) : () }, $words, @outputs);
        if (!-e 'mark') {
            my ($other) = grep { read_bytes(file_of($_)) ne $whole{$_} } @outputs;
            return report("$name, $number calls", $run->{status} || $number == 1 ? 'is not done' : $other);
        }
        report("$name, call $number", is_counted($run, \%whole, @outputs));
    }
}

# Shell commands: the program is `$0`. Each with its status, its line if it can print one, and a test of the files that
# it left.
my @shells = (
    ['"$0" canon empty /dev/full', 5, '/dev/full', '[ -c /dev/full ]'],
    ['"$0" show tone > /dev/full', 5, '-', 'true'],
    ['"$0" play tone note /dev/full', 5, '/dev/full', 'true'],
    ['"$0" apply saw rename /dev/full undo', 5, '/dev/full', '[ ! -e undo ]'],
    ['"$0" apply saw rename out /dev/full', 5, '/dev/full', '[ ! -e out ]'],
    ['"$0" apply --neutral saw rename out /dev/full', 5, '/dev/full', '[ ! -e out ]'],
    ['"$0" apply saw rename out no/undo', 5, 'no/undo', '[ ! -e out ]'],
    ['"$0" canon saw no/out', 5, 'no/out', '[ ! -e no ]'],
    ['"$0" canon saw folder', 5, 'folder', '[ -d folder ]'],
    ['"$0" show tone >&-', 5, '-', 'true'],
    ['{ sleep 0.2; "$0" show tone; echo $? > status; } | true; exit $(cat status)', 5, undef, 'true'],
    ['"$0" canon saw out <&- >&- 2>&-', 0, undef, 'cmp -s out saw'],
    ['"$0" apply saw rename out /dev/full 2>&-', 5, undef, '[ ! -e out ]'],
    ['"$0" canon saw /dev/full 2> /dev/full', 5, undef, 'true'],
    ['"$0" show none 2> /dev/full', 5, undef, 'true'],
    ['"$0" canon saw /dev/stdout | cmp -s - saw && exit 0', 0, undef, 'true'],
);

sub try_shell {
    my ($line, $status, $path, $test) = @_;
    unlink qw(out undo status errors);
    my $ended = system('bash', '-c', "exec 2> errors; $line", program_of_runs()) >> 8;
    my $want = $path ? "sfbank: write fault $path after 0 bytes\n" : '';
    my $errors = read_bytes('errors');
    my $wrong = $ended != $status ? "status $ended" : $errors ne $want ? "reported '$errors'" : system('bash', '-c', $test) ? 'left other files' : undef;
    report($line, $wrong);
}

sub try_writes {
    my ($here) = @_;
    make_inputs();
    mkdir 'folder';
    try_shell(@$_) for @shells;
    return report('the shim', 'it is not compiled') if system('cc', '-O2', '-shared', '-fPIC', '-o', 'fail.so', "$here/fail_writes.c");
    for my $way (@ways) {
        for my $run (@runs) { try_each_write('./fail.so', @$way, @$run) unless $way->[1] == 1 && $run->[0][1] eq 'long'; }
    }
}

1;
