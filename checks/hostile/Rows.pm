# Tests the tables of files, scripts, note lists and recordings in this folder row by row, and that together they have
# each fault, each refusal and each count.
package Rows;
use strict;
use warnings;
use Banks;
use Runs;
use Exporter 'import';
our @EXPORT = qw(try_rows);

# The faults, refusals and counts that rows had.
my %met;

# Returns the rows of a table: the parts between `|`, without the blanks around them.
sub rows_of {
    my ($path) = @_;
    return map { [split /\s*\|\s*/, $_, -1] } grep { /^[^#]/ } split /\s*\n/, read_bytes($path) // die "$path: $!\n";
}

# Returns what is wrong with a run whose line must end with this text, or undef.
sub ends_by {
    my ($run, $part) = @_;
    $met{$1}++ if $run->{line} =~ /(?:fault|refused) (\d+)/;
    return $run->{wrong} // (index($run->{line}, $part) < 0 ? "'$run->{line}' instead of $part" : undef);
}

# Returns what is wrong with a run that must be done, or undef.
sub is_done { my ($run) = @_; return $run->{wrong} // ($run->{status} ? $run->{line} : undef); }

# Returns the line of counts of a listing.
sub counts_line {
    my ($counts) = @_;
    my %counted = split ' ', $counts;
    $met{$_}++ for keys %counted;
    return join ' ', 'counts', map { "$_ " . ($counted{$_} // 0) } qw(texts sm24 zones gens ranges loops links);
}

# Returns what is wrong with a file that must have this canonical file and these counts, or undef.
sub reads_as {
    my ($canonical, $counts) = @_;
    write_bytes('want', $canonical);
    my $wrong = is_done(canon('in', 'out'));
    $wrong //= read_bytes('out') eq $canonical ? undef : 'another canonical file';
    $wrong //= is_done(canon('want', 'again')) // (read_bytes('again') eq $canonical ? undef : 'no canonical file is wanted');
    return $wrong if defined $wrong;
    my $shown = run(['show', 'in']);
    my $line = counts_line($counts);
    return "'$line' is not counted" if $shown->{status} || index(read_bytes('printed'), "\n$line\n") < 0;
    return;
}

sub try_file {
    my ($bank, $changes, $answer, $then, $counts) = @_;
    write_bytes('in', changed(read_bytes($bank), $changes));
    my ($as) = $answer =~ /^as (\w+)$/;
    my $wrong = $as ? reads_as(changed(read_bytes($as), $then // ''), $counts // '') : ends_by(canon('in', 'out'), "read fault $answer\n");
    report("$bank with $changes", $wrong);
}

# Tests each proper prefix of a file: NotRiff for less than four bytes, else Truncated.
sub try_fronts {
    for my $bank (qw(empty saw tone)) {
        my $whole = read_bytes($bank);
        for my $length (0 .. length($whole) - 1) {
            write_bytes('in', substr $whole, 0, $length);
            report("$length bytes of $bank", ends_by(canon('in', 'out'), 'read fault ' . ($length < 4 ? "1 NotRiff\n" : "3 Truncated\n")));
        }
    }
}

sub try_script {
    my ($bank, $script, $answer) = @_;
    $_ = s/\\n/\n/gr for $script, $answer;
    my $run = apply_text($bank, "$script\n", 'out', 'undo');
    my $wrong;
    if ($answer =~ s/^undo ?//) {
        my $undo = $answer eq '' ? '' : "$answer\n";
        $wrong = is_done($run) // (read_bytes('undo') eq $undo ? undone($bank) : 'another undo text: ' . read_bytes('undo'));
    } else {
        my $line = $answer =~ /^line/ ? $answer : "line 1: $answer";
        $wrong = ends_by($run, ": $line\n");
    }
    report("$script on $bank", $wrong);
}

sub play {
    my ($bank, $notes, $out) = @_;
    write_bytes('notes', $notes);
    return run_command(['play', $bank, 'notes', $out], $out eq '/dev/null' ? () : $out);
}

# Returns the WAVE file of these frames.
sub wave {
    my ($frames) = @_;
    return pack('a4Va8VvvVVvva4V', 'RIFF', 36 + length $frames, 'WAVEfmt ', 16, 1, 2, 44_100, 176_400, 4, 16, 'data', length $frames) . $frames;
}

sub try_notes {
    my ($bank, $notes, $answer) = @_;
    $notes =~ s/\\n/\n/g;
    my $run = play($bank, "$notes\n", 'out');
    my $wrong;
    if ($answer =~ s/^frames ?//) {
        $wrong = is_done($run) // (read_bytes('out') eq wave(bytes_of($answer)) ? undef : 'another WAVE file');
    } else {
        $wrong = ends_by($run, ": line 1: $answer\n");
    }
    report("$notes on $bank", $wrong);
}

# Tests what is too long for a table.
sub try_long {
    report('65,535 notes', is_done(play('tone', "0 1 0 1 60 1\n" x 65_535, 'out')));
    report('65,535 notes that sound at one frame', is_done(play('tone', "0 1 0 0 60 127\n" x 65_535, 'out')));
    report('65,536 notes', ends_by(play('tone', "0 1 0 1 60 1\n" x 65_536, 'out'), ": line 65536: fault 46 TooManyNotes\n"));
    report('the latest notes', is_done(play('empty', "99999999 1 0 0 60 127\n100000000 0 0 0 60 127\n", '/dev/null')));
    my @lines = (
        ['100,000 braces', '{ ' x 100_000, 'fault 41 Syntax'],
        ['a zone of 100,000 braces', 'add-zone inst 0 0 ' . '{ ' x 100_000, 'fault 42 Number'],
        ['a word of a megabyte', 'f' x 1_000_000, 'fault 41 Syntax'],
        ['a number of a megabyte', 'remove-sample ' . '1' x 1_000_000, 'fault 42 Number'],
        ['a name of a megabyte', 'rename-sample 0 "' . 'n' x 1_000_000 . '"', 'fault 43 Literal'],
        ['a literal without an end', 'rename-sample 0 "' . 'n' x 1_000_000, 'fault 43 Literal'],
        ['a million bare literals', 'x ' x 1_000_000, 'fault 41 Syntax'],
        ['a text of a byte too many', 'set-info ICMT "' . 'c' x 65_536 . '"', 'refused 36 BadText'],
        ['a million lines', "\n" x 1_000_000 . 'frob', 'line 1000001: fault 41 Syntax'],
    );
    try_long_line(@$_) for @lines;
    my @done = (
        ['a literal of 2,000,000 digits', 'extend 0 x x' . '01fe' x 500_000, "trim 0 0 500000\n"],
        ['a comment of a megabyte', '#' x 1_000_000, ''],
        ['a text of the most bytes', 'set-info ICMT "' . 'c' x 65_535 . '"', "set-info ICMT \"\"\n"],
        ['one generator 100,000 times', 'add-inst 1 "i" { 0' . ' g 17 1' x 100_000 . ' }', "remove-inst 1\n"],
    );
    for (@done) {
        my ($name, $script, $undo) = @$_;
        report($name, is_undone($script, $undo));
    }
}

# Returns what is wrong with a script that must be done on `tone` with this undo script, or undef.
sub is_undone {
    my ($script, $undo) = @_;
    my $wrong = is_done(apply_text('tone', $script, 'out', 'undo'));
    return $wrong // (read_bytes('undo') eq $undo ? undone('tone') : 'another undo text');
}

sub try_groups {
    my ($here) = @_;
    try_script(@$_) for rows_of("$here/groups");
    my $name = '{ rename-sample 0 "t" }';
    report('a group of 100,000 edits', is_undone("group" . " $name" x 100_000, "group" . " $name" x 100_000 . "\n"));
    try_long_line('a group of 100,000 braces', 'group' . ' {' x 100_000, 'fault 41 Syntax');
    report('48 is met by a row', $met{48} ? undef : 'it is not');
}

# Tests neutral edits, whose inverses must be neutral too.
sub try_neutral {
    my ($here) = @_;
    local @Runs::flags = ('--neutral');
    try_script(@$_) for rows_of("$here/neutral");
    report('50 is met by a row', $met{50} ? undef : 'it is not');
}

sub try_long_line {
    my ($name, $script, $answer) = @_;
    my $line = $answer =~ /^line/ ? $answer : "line 1: $answer";
    report($name, ends_by(apply_text('tone', $script, 'out', 'undo'), ": $line\n"));
}

# Tests an import of the WAVE file of a sample, with changes.
sub try_recording {
    my ($changes, $answer) = @_;
    write_bytes('in.wav', changed(read_bytes('tone.wav'), $changes));
    my $run = run_command(['import', 'tone', 'in.wav', 'out', 'undo'], 'out', 'undo');
    report("a recording with $changes", $answer eq 'done' ? is_done($run) // undone('tone') : ends_by($run, "wave fault $answer\n"));
}

sub try_recordings {
    my ($here) = @_;
    my $wrong = is_done(run_command(['wave', 'tone', '0', 'tone.wav'], 'tone.wav'));
    return report('the WAVE file of a sample', $wrong) if defined $wrong;
    try_recording(@$_) for rows_of("$here/recordings");
}

# Tests that each fault, refusal and count was in some row. Faults from 71 on are met in `checks/rows`.
sub try_met {
    my @faults = grep { $_ < 71 } keys %Runs::FAULTS;
    for (sort(@faults, grep { /^\d+$/ } keys %Runs::REFUSALS), qw(texts sm24 zones gens ranges loops links)) {
        report("$_ is met by a row", $met{$_} ? undef : 'it is not');
    }
}

sub try_rows {
    my ($here) = @_;
    try_file(@$_) for rows_of("$here/files");
    try_fronts();
    try_script(@$_) for rows_of("$here/scripts");
    try_notes(@$_) for rows_of("$here/notes");
    try_long();
    try_groups($here) if knows_groups();
    try_neutral($here);
    try_recordings($here);
    try_met();
}

1;
