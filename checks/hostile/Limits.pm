# Tests banks at each of the seven limits: an edit that would exceed the limit is refused with its name, and other edits
# are done and undone byte for byte.
package Limits;
use strict;
use warnings;
use Banks;
use Runs;
use Exporter 'import';
our @EXPORT = qw(try_limits);

my $most = 65_535;
my $sample = 'add-sample 0 "s" 44100 60 0 mono noloop x';
my $inst = 'add-inst 0 "i"';
my $preset = 'add-preset 0 "p" 0 0 0 0 0';

# Returns for each bank: the limit, the lines that make it from the empty bank, the edits that are refused, and the
# scripts that are done and undone.
sub full_banks {
    return (
        ['samples', [map { "add-sample $_ \"\" 0 0 0 mono noloop x" } 0 .. $most - 1],
            ["add-sample $most \"\" 0 0 0 mono noloop x", 'add-sample 0 "" 0 0 0 mono noloop x'],
            ['remove-sample 0', 'remove-sample 65534', "remove-sample 7\n$sample", 'move-sample 0 65534', "set-kind 0 right 65534\nmove-sample 65534 3"]],
        ['instruments', [map { "add-inst $_ \"\"" } 0 .. $most - 1],
            ["add-inst $most \"\"", $inst],
            ['remove-inst 0', "remove-inst 65534\n$inst", 'move-inst 65534 0']],
        ['presets', [map { "add-preset $_ \"\" 0 0 0 0 0" } 0 .. $most - 1],
            ["add-preset $most \"\" 0 0 0 0 0", $preset],
            ['remove-preset 0', "remove-preset 65534\n$preset", 'move-preset 65534 0']],
        full_levels('inst 0', $inst, $sample),
        full_levels('preset 0', $preset, $sample, "$inst { 0 }"),
    );
}

# The same for presets or instruments at the limits of zones, generators and modulators.
sub full_levels {
    my ($owner, $add, @first) = @_;
    return (
        ['zones', [@first, $add . ' { 0 }' x $most],
            ["add-zone $owner 0 { 0 }", "set-gen $owner global 17 0", "add-mod $owner global 0 1 2 3 4 5", "split-zone $owner 65534 key 60"],
            ["remove-zone $owner 7", "remove-zone $owner 0\nset-gen $owner global 17 0", "move-zone $owner 0 65534"]],
        ['generators', [@first, "$add { global g 17 1 }" . ' { 0 g 17 0 }' x 32_767],
            ["set-gen $owner 32766 8 0", "set-gen $owner global 8 0", "split-zone $owner 0 vel 127", "add-zone $owner 32767 { 0 }"],
            ["clear-gen $owner 0 17\nset-gen $owner 32766 8 0", "remove-zone $owner 0", "set-gen $owner 5 17 -1"]],
        ['modulators', [@first, "$add { 0" . ' m 0 0 0 0 0' x $most . ' }'],
            ["add-mod $owner 0 65535 1282 48 0 0 0", "add-mod $owner global 0 1 2 3 4 5", "split-zone $owner 0 key 1"],
            ["remove-mod $owner 0 65534\nadd-mod $owner global 0 1 2 3 4 5", "set-mod $owner 0 0 1 2 3 4 5", "remove-zone $owner 0"]],
    );
}

# Returns what is wrong with a script that must be done on a bank and undone, or undef.
sub is_undone {
    my ($bank, $script) = @_;
    my $run = apply_text($bank, $script, 'out', 'undo');
    return $run->{wrong} // ($run->{status} ? $run->{line} : undone($bank));
}

# Returns what is wrong with an edit that must be refused for a limit, or undef.
sub is_full {
    my ($bank, $edit, $limit) = @_;
    my $run = apply_text($bank, $edit, 'out', 'undo');
    return $run->{wrong} // ($run->{line} eq "sfbank: line 1: refused 37 Full $limit\n" ? undef : $run->{line});
}

sub try_bank {
    my ($limit, $lines, $refused, $taken) = @_;
    my $name = "the most $limit, of " . substr($lines->[-1], 0, 12);
    report($name, is_undone('empty', join("\n", @$lines)));
    rename 'out', 'full' or return;
    my $more = apply_text('empty', join("\n", @$lines, $refused->[0]), 'out', 'undo');
    my $line = 'sfbank: line ' . (1 + @$lines) . ": refused 37 Full $limit\n";
    report("$name, and more", $more->{wrong} // ($more->{line} eq $line ? undef : $more->{line}));
    report("$name: $_", is_full('full', $_, $limit)) for @$refused;
    report("$name: $_", is_undone('full', $_)) for @$taken;
}

# Returns a file of samples that all have the same 49,954 points; the first begins at a given point.
sub of_many_points {
    my ($samples, $start) = @_;
    my $points = pack 'v*', map { $_ * 7919 & 0xffff } 1 .. 49_954;
    my $heads = join '', map { pack 'a20V5Ccvv', 'g', $_, 49_954, $_, $_, 44_100, 60, 0, 0, 1 } $start, (0) x ($samples - 1);
    my ($more, $long) = (length $heads, length $points);
    my $file = changed(bytes_of($EMPTY), join ';', '258 4 =' . (46 + $more), '86 4 =' . (218 + $more), "78 4 =$long", '66 4 =' . (12 + $long), '4 4 =' . (300 + $more + $long));
    substr($file, 262, 0) = $heads;
    substr($file, 82, 0) = $points;
    return $file;
}

# Returns whether two runs write the same gigabyte to /dev/stdout.
sub write_the_same { my ($one, $other) = @_; return system('bash', '-c', "cmp -s <($one) <($other)") == 0; }

# Tests the limit of points. The outputs have a gigabyte, so they are compared while they are written; the edited bank
# is compared with a file made as the edit would make it.
sub try_points {
    my $program = program_of_runs();
    write_bytes('most', of_many_points(10_000, 0));
    write_bytes('trimmed', of_many_points(10_000, 1));
    write_bytes('more', of_many_points(10_001, 0));
    write_bytes('trim', "trim 0 1 0\n");
    my $run = canon('more', 'out');
    report('a sample more than the most points', $run->{line} eq "sfbank: read fault 18 TooMany\n" ? $run->{wrong} : $run->{line});
    report("the most points: $_", is_full('most', $_, 'points')) for 'add-sample 0 "n" 0 0 0 mono noloop x', 'extend 0 x0000 x', 'extend 9999 x x0000';
    $run = run(['apply', 'most', 'trim', '/dev/null', 'undo']);
    report('the most points are edited', is_right($run, 1_000_000_000) // ($run->{status} ? $run->{line} : undef));
    my $length = `$program canon most /dev/stdout | wc -c`;
    report('the file of the most points', $length == 1_000_460_308 ? undef : "has $length bytes");
    my $edited = write_the_same("$program canon trimmed /dev/stdout", "$program apply most trim /dev/stdout undo");
    my $back = $edited && write_the_same("$program canon most /dev/stdout", "$program apply trimmed undo /dev/stdout again");
    report('the most points are edited and undone', $back && read_bytes('again') eq "trim 0 1 0\n" ? undef : $edited ? 'not undone' : 'not edited');
}

sub try_limits {
    for my $bank (full_banks()) {
        try_bank(@$bank);
        report('the file of the most samples', -s 'full' == 9_044_138 ? undef : 'has ' . (-s 'full') . ' bytes') if $bank->[0] eq 'samples';
    }
    try_points();
}

1;
