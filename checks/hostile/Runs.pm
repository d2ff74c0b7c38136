# Runs the program in a folder and checks what holds for each run: it ends by itself, with an exit status, the line for
# that status, and no output unless it is done.
package Runs;
use strict;
use warnings;
use Banks;
use Cwd 'abs_path';
use Starter;
use Exporter 'import';
our @EXPORT = qw(program_that_was_built run_in program_of_runs run run_command run_making is_right report totals canon apply apply_text knows_groups same undone);

# The names of faults and refusals, by number.
our %FAULTS = (
    1 => 'NotRiff', 2 => 'NotSfbk', 3 => 'Truncated', 4 => 'MissingList', 5 => 'MissingChunk', 6 => 'Version',
    7 => 'RecordSize', 8 => 'NoTerminal', 9 => 'BagOrder', 10 => 'IndexOutside', 11 => 'BadInstrument',
    12 => 'BadSample', 14 => 'SampleRange', 15 => 'SampleType', 16 => 'RomSample', 17 => 'OddSamples', 18 => 'TooMany',
    41 => 'Syntax', 42 => 'Number', 43 => 'Literal', 45 => 'BadNote', 46 => 'TooManyNotes', 47 => 'TooLong',
    53 => 'NotWave', 54 => 'Truncated', 55 => 'Compressed', 56 => 'NoFormat', 57 => 'SampleBits', 58 => 'ChannelCount',
    59 => 'NoData', 60 => 'HalfFrame', 61 => 'ShortSampler', 62 => 'UnityNote', 63 => 'LoopOutside',
    71 => 'NoSuchChannel', 72 => 'TwoChannels', 73 => 'NotAPair', 74 => 'SidesDiffer',
    75 => 'BadRow', 76 => 'TooManyRows', 77 => 'NoRows',
    78 => 'NotSixteenBits', 79 => 'OtherRate', 80 => 'ShortForLoop',
);
our %REFUSALS = (
    20 => 'NoSuchPreset', 21 => 'NoSuchInstrument', 22 => 'NoSuchSample', 23 => 'NoSuchZone', 24 => 'NoSuchModulator',
    25 => 'BadPlace', 26 => 'InUse', 27 => 'BadGenerator', 28 => 'NotSet', 29 => 'BadRange', 30 => 'SplitOutside',
    31 => 'NotJoinable', 32 => 'LinkedModulator', 33 => 'TooShort', 34 => 'LoopCut', 35 => 'BadLoop', 36 => 'BadText',
    (map { ("37 Full $_" => 1) } qw(presets instruments samples zones generators modulators points)),
);

my ($program, $folder);
# Environment variables of each run beside those of the check.
our %settings;
# The flags of each `apply`.
our @flags;
# The prefix of each printed line.
our $prefix = 'hostile';
my ($passed, $failed) = (0, 0);

# Returns the program that SFBANK names, else the one that the gate left in this checkout, which is proved and built if
# a source is newer.
sub program_that_was_built {
    my ($top) = @_;
    return abs_path($ENV{SFBANK}) if $ENV{SFBANK};
    my $made = "$top/crates/sfbank_cli/out/sfbank_cli";
    my $newer = -x $made ? `find $top/crates/*/src $top/crates/*/specs -newer $made -print -quit` : 'all';
    system("cd $top/crates/sfbank_cli && rt run -- --version > /dev/null 2>&1") if $newer;
    return $made;
}

# Sets the program and the folder of all runs.
sub run_in {
    ($program, $folder) = @_;
    chdir $folder or die "$folder: $!\n";
    begin_starts($folder);
}

sub program_of_runs { return $program; }

# Counts a case, and prints what is wrong with it, for the first twenty.
sub report {
    my ($name, $wrong) = @_;
    if (!defined $wrong) { $passed++; return; }
    print "$prefix: $name: $wrong\n" if ++$failed <= 20;
}

sub totals { return ($passed, $failed); }

# Runs the program with these arguments; its standard output is the file `printed`, or the one given. Returns the run:
# its arguments, exit status, signal, processor seconds, and what it wrote to standard error.
sub run {
    my ($words, $output) = @_;
    my ($status, $seconds) = started($program, $words, \%settings, '/dev/null', $output // 'printed', 'errors');
    return {
        words => join(' ', @$words), status => $status >> 8, signal => $status & 127,
        seconds => $seconds, line => read_bytes('errors'), printed => -s 'printed',
    };
}

# Returns the exit status for a line on standard error; undef if the program has no such line.
sub status_of {
    my ($line) = @_;
    return 0 if $line eq '';
    return is_fault($1, $2, 1, 18) ? 2 : undef if $line =~ /^sfbank: (?:FROM: )?read fault (\d+) (\w+)\n\z/;
    return is_fault($1, $2, 41, 47) || is_fault($1, $2, 75, 77) ? 3 : undef if $line =~ /^sfbank: line [1-9]\d*: fault (\d+) (\w+)\n\z/;
    return is_fault($1, $2, 53, 74) || is_fault($1, $2, 78, 80) ? 2 : undef if $line =~ /^sfbank: (?:(?:line [1-9]\d*: )?[^\n]+: )?wave fault (\d+) (\w+)\n\z/;
    return 4 if $line =~ /^sfbank: line [1-9]\d*: refused 50 NotNeutral\n\z/;
    return 4 if $line =~ /^sfbank: refused (?:67 NoSuchNumbers|68 NumbersInUse|69 BankTooHigh|70 NoFreeNumbers) \d+:\d+\n\z/;
    return is_cause($1) ? 4 : undef if $line =~ /^sfbank: refused (37 Full \w+|\d+ NoSuch\w+)\n\z/;
    return is_cause($1) ? 4 : undef if $line =~ /^sfbank: line [1-9]\d*: refused (?:48 GroupRefused \d+ )?(.*)\n\z/;
    return 5 if $line =~ /^sfbank: (?:(?:line [1-9]\d*: )?file fault [^\n]*|write fault [^\n]* after \d+ bytes|output fault (?:6[45]|81) \w+ [^\n]*)\n\z/;
    return;
}

# Returns whether a fault has this name, and its number is between these two.
sub is_fault {
    my ($number, $name, $least, $most) = @_;
    return $number >= $least && $number <= $most && ($FAULTS{$number} // '') eq $name;
}

sub is_cause {
    my ($cause) = @_;
    return $REFUSALS{$cause} || $cause =~ /^(\d+) (\w+)$/ && ($REFUSALS{$1} // '') eq $2;
}

# Returns what is wrong with a run of any kind, or undef. `bytes` is the number of bytes that it read and wrote.
sub is_right {
    my ($run, $bytes) = @_;
    return wrong_of_end($run) // wrong_of_time($run, $bytes);
}

sub wrong_of_end {
    my ($run) = @_;
    return "$run->{words}: ended by signal $run->{signal}" if $run->{signal};
    my $status = status_of($run->{line});
    return "$run->{words}: status $run->{status} with '$run->{line}'" if !defined $status || $status != $run->{status};
    return $status && $run->{printed} ? "$run->{words}: printed beside a fault" : undef;
}

sub wrong_of_time {
    my ($run, $bytes) = @_;
    my $limit = 1 + $bytes / 1_000_000;
    my $seconds = least_seconds($run, $limit);
    return $seconds > $limit ? "$run->{words}: took $seconds seconds for $bytes bytes" : undef;
}

# Returns the processor seconds of a run. If they are over the limit the run is repeated up to four times and the least
# counts, since other processes on the machine can slow it down.
sub least_seconds {
    my ($run, $limit) = @_;
    my $seconds = $run->{seconds};
    for (1 .. 4) {
        last if $seconds <= $limit;
        my $again = run([split ' ', $run->{words}])->{seconds};
        $seconds = $again if $again < $seconds;
    }
    return $seconds;
}

# Removes the output files, runs a command that makes them, and returns the run with what is wrong: as above, or an
# output file that exists after a fault.
sub run_command {
    my ($words, @made) = @_;
    my $run = run_making($words, @made);
    my $bytes = 0;
    $bytes += -s $_ // 0 for @$words[1 .. $#$words];
    $run->{wrong} //= wrong_of_time($run, $bytes);
    return $run;
}

# The same for a command that may replace its input, and so can't be repeated: its time is not tested.
sub run_making {
    my ($words, @made) = @_;
    die 'a file to be made is elsewhere' if grep { m{/} } @made;
    unlink @made;
    my $run = run($words);
    $run->{wrong} = wrong_of_end($run);
    $run->{wrong} //= "$run->{words}: printed" if $run->{printed};
    for (@made) { $run->{wrong} //= $run->{status} ? "$run->{words}: left $_" : "$run->{words}: made no $_" if !$run->{status} != !!-e; }
    return $run;
}

sub canon { my ($in, $out) = @_; return run_command(['canon', $in, $out], $out); }
sub apply { my ($in, $script, $out, $undo) = @_; return run_command(['apply', @flags, $in, $script, $out, $undo], $out, $undo); }

# The same with a script given as text.
sub apply_text {
    my ($in, $text, $out, $undo) = @_;
    write_bytes('script', $text);
    return apply($in, 'script', $out, $undo);
}

# Returns whether the program has groups of edits.
sub knows_groups { return !apply_text('empty', 'group', 'out', 'undo')->{status}; }

# Returns what is wrong with undoing `out` by `undo`, which must restore the canonical file `in`, and whose own undo
# must give `out` and `undo`; or undef.
sub undone {
    my ($in) = @_;
    for (['out', 'undo', 'back', 'again', $in], ['back', 'again', 'out.again', 'undo.again', 'out']) {
        my ($from, $script, $to, $undo, $want) = @$_;
        my $run = apply($from, $script, $to, $undo);
        return $run->{wrong} if $run->{wrong};
        return "$script is not done: $run->{line}" if $run->{status};
        return "$script on $from is not $want" if !same($to, $want);
    }
    return same('undo', 'undo.again') ? undef : 'the undo of the undo of the undo is another';
}

sub same { my ($one, $other) = @_; return read_bytes($one) eq read_bytes($other); }

1;
