# Tests inputs of sizes at which a program might fail: with enough memory each run is done. A contract can't state that,
# since any allocation may fail.
package Sizes;
use strict;
use warnings;
use Banks;
use Runs;
use Exporter 'import';
our @EXPORT = qw(try_sizes);

my $sample = 'add-sample 0 "s" 44100 60 0 mono loop 0 2 x00100020';

# Returns what is wrong with a script that must be done on a bank and undone, or undef.
sub is_done {
    my ($bank, @lines) = @_;
    my $run = apply_text($bank, join("\n", @lines), 'out', 'undo');
    return $run->{wrong} // ($run->{status} ? $run->{line} : undone($bank));
}

# Tests that a bank of each minor version is read and written.
sub try_versions {
    for my $minor (0 .. 16, 255, 256, 65_535) {
        my $run = run_command(['new', '--minor', $minor, 'version'], 'version');
        my $wrong = $run->{wrong} // ($run->{status} ? $run->{line} : is_done('version', $sample));
        report("a bank of the minor version $minor", $wrong);
        unlink 'version';
    }
}

# Tests that banks of many members and zones are read, edited, written and listed.
sub try_counts {
    for my $count (1, 2, 64, 65, 256, 1_000, 32_768, 39_999 .. 40_001) {
        my @lines = ($sample, 'add-inst 0 "i"' . ' { 0 }' x $count, map { "add-sample $_ \"\" 0 0 0 mono noloop x" } 1 .. $count);
        my $wrong = is_done('empty', @lines);
        my $made = apply_text('empty', join("\n", @lines), 'many', 'undo');
        $wrong //= $made->{wrong} // is_done('many', 'rename-sample 0 "t"');
        my $shown = run(['show', '--zones', '--uses', 'many']);
        report("$count members and zones", $wrong // ($shown->{status} ? $shown->{line} : undef));
        unlink 'many';
    }
}

# Tests that a note of many voices renders like as many notes of one voice.
sub try_voices {
    for my $count (1, 2, 63 .. 66, 100, 128, 1_000) {
        my ($one, $many) = map { 'add-inst 0 "i"' . ' { 0 g 54 1 }' x $_ } 1, $count;
        my $wrong;
        for (['one', $one, $count], ['many', $many, 1]) {
            my ($name, $inst, $notes) = @$_;
            my $run = apply_text('empty', join("\n", $sample, $inst, 'add-preset 0 "p" 0 0 0 0 0 { 0 }'), $name, 'undo');
            write_bytes('notes', "0 400 0 0 60 20\n" x $notes);
            my $played = run_command(['play', $name, 'notes', "$name.wav"], "$name.wav");
            $wrong //= $run->{wrong} // $played->{wrong} // ($run->{status} || $played->{status} ? $run->{line} . $played->{line} : undef);
        }
        report("a note of $count voices", $wrong // (same('one.wav', 'many.wav') ? undef : 'sounds otherwise'));
        unlink qw(one many one.wav many.wav);
    }
}

# Tests scripts and texts of several megabytes.
sub try_scripts {
    my @names = map { sprintf 'rename-sample 0 "name %07d"', $_ } 1 .. 60_000;
    report('a script of 1.6 MB', is_done('empty', $sample, @names));
    my $points = 'x' . '0080ff7f' x 600_000;
    report('a line of 4.8 MB', is_done('empty', "add-sample 0 \"s\" 44100 60 0 mono noloop $points"));
}

sub try_sizes {
    try_versions();
    try_counts();
    try_voices();
    try_scripts();
}

1;
