# Tests random sessions: edits of all kinds, many of them refused, undo and redo, notes, presses, releases and pedals,
# stops, frames, measures, recordings, saves and listings. The expected answer to an edit is the result of `apply` of the
# same edit to the same bank; saved files are those that `apply` writes, and frames are the sum of what `play` renders of
# the notes of each bank since the last stop, each from its start to its release. A recording has these notes.
package Sessions;
use strict;
use warnings;
use Banks;
use Live;
use Runs;
use Exporter 'import';
our @EXPORT = qw(try_sessions try_kinds session_of wrong_of_run);

# The smallest number of lines with each kind of answer in 3,000 sessions.
my %floors = (
    'edit ok' => 5000, 'edit refused' => 3000, 'neutral ok' => 500, 'neutral refused' => 500, 'undo ok' => 1500, 'undo refused' => 500,
    'redo ok' => 500, 'redo refused' => 500, 'note ok' => 4000, 'press ok' => 3000, 'release ok' => 400,
    'release of none' => 500, 'silence ok' => 500, 'frames ok' => 4000, 'save ok' => 1500, 'show ok' => 300, 'fault' => 500,
    'pedal on' => 1000, 'pedal off' => 500, 'notes that a pedal held' => 100, 'stop ok' => 500, 'record ok' => 500,
    'voices ok' => 500, 'meter ok' => 500,
    'frames of several banks' => 1000,
);
my %count;

# The faults of the faulty lines, by their first words.
my %faults = (
    undo => 'fault 41 Syntax # 1', note => 'fault 45 BadNote', press => 'fault 45 BadNote', release => 'fault 41 Syntax',
    frames => 'fault 42 Number # -1', save => 'fault 43 Literal # "a', help => 'fault 41 Syntax # me',
    pedal => 'fault 41 Syntax # up', record => 'fault 41 Syntax # b',
);

my $lot;
sub below {
    my ($limit) = @_;
    $lot = ($lot * 1103515245 + 12345) % 2147483648;
    return int($lot / 2147483648 * $limit);
}
sub one_of { return $_[below(scalar @_)]; }

# ---- the lines of a session

sub owner { return one_of('preset', 'inst') . ' ' . below(3); }

# Returns a random edit, of members that may exist.
sub step {
    my @forms = (
        sub { 'rename-sample ' . below(3) . ' "s' . below(100) . '"' },
        sub { 'rename-inst ' . below(4) . ' "i' . below(100) . '"' },
        sub { 'set-head ' . below(3) . ' "p" ' . below(2) . ' 0' },
        sub { 'set-gen ' . owner() . ' ' . one_of('global', 0, 1) . ' ' . one_of('48 ' . below(200), '51 ' . (below(25) - 12), '52 ' . (below(99) - 50)) },
        sub { 'clear-gen ' . owner() . ' ' . one_of('global', 0, 1) . ' ' . one_of(48, 51, 52) },
        sub { 'set-gen inst ' . below(3) . ' 0 ' . one_of('17 ' . (below(1000) - 500), '54 ' . below(2), '34 ' . (below(12000) - 12000), '38 ' . (below(9000) - 9000)) },
        sub { 'add-zone ' . owner() . ' 0 { ' . below(3) . ' g 43 ' . below(64) . '..' . (64 + below(64)) . ' }' },
        sub { 'remove-zone ' . owner() . ' ' . below(3) },
        sub { 'move-zone ' . owner() . ' ' . below(3) . ' ' . below(3) },
        sub { 'split-zone ' . owner() . ' ' . below(2) . ' key ' . below(128) },
        sub { 'set-target ' . owner() . ' ' . below(2) . ' ' . below(3) },
        sub { 'trim ' . below(2) . ' ' . below(2) . ' ' . below(2) },
        sub { 'extend ' . below(2) . ' x' . unpack('H*', pack 'v*', map { below(2000) } 1 .. below(3)) . ' x0100' },
        sub { 'set-loop ' . below(2) . ' ' . one_of('noloop', 'loop ' . below(4) . ' ' . below(6)) },
        sub { 'set-tune ' . below(2) . ' ' . one_of(22050, 44100, 48000) . ' ' . (48 + below(24)) . ' ' . (below(21) - 10) },
        sub { 'move-sample ' . below(2) . ' ' . below(3) },
        sub { 'add-sample ' . below(2) . ' "n" 44100 60 0 mono noloop x0100feff' },
        sub { 'remove-sample ' . below(3) },
        sub { 'set-info ' . one_of('INAM', 'ICMT') . ' "text ' . below(9) . '"' },
        sub { 'add-mod ' . owner() . ' 0 0 ' . (2 + below(2)) . ' 48 ' . below(900) . ' 0 0' },
    );
    return $forms[below(scalar @forms)]->();
}

# Returns a random neutral edit, if its members exist.
sub neutral_step {
    my @forms = (
        sub { 'rename-sample ' . below(2) . ' "s' . below(100) . '"' },
        sub { 'rename-inst ' . below(3) . ' "i' . below(100) . '"' },
        sub { 'set-info ' . one_of('INAM', 'ICMT') . ' "text ' . below(9) . '"' },
        sub { 'move-zone ' . owner() . ' ' . below(2) . ' ' . below(2) },
        sub { 'split-zone ' . owner() . ' ' . below(2) . ' key ' . below(128) },
        sub { 'move-sample ' . below(2) . ' ' . below(2) },
        sub { 'set-kind ' . below(2) . ' mono' },
    );
    return $forms[below(scalar @forms)]->();
}

sub edit { return below(5) ? step() : join ' ', 'group', map { '{ ' . step() . ' }' } 0 .. below(3); }

# Returns a random note, so quiet that twenty of them together are never clipped.
sub note { return 'note ' . one_of(0, 1, 50 + below(400), 3000) . ' 0 ' . one_of(0, 0, 1, 2) . ' ' . (30 + below(70)) . ' ' . (1 + below(20)); }

# Returns the numbers of a key; there are few, so that presses and releases meet.
sub key { return '0 ' . one_of(0, 0, 0, 1) . ' ' . one_of(40, 60); }

# Returns lines in which a pedal holds a note after the release of its key.
sub pedalled {
    my $key = key();
    my ($preset) = $key =~ /^(\d+ \d+)/;
    return "pedal on $preset\npress $key " . (1 + below(20)) . "\nframes " . below(300) . "\nrelease $key\nframes " . below(300) . "\npedal off $preset";
}

my ($saves, $records);
sub line {
    my @lines = (
        (\&edit) x 8, sub { 'neutral ' . (below(3) ? neutral_step() : edit()) }, ('undo') x 3, ('redo') x 3, (\&note) x 5,
        (sub { 'press ' . key() . ' ' . (1 + below(20)) }) x 3, (sub { 'release ' . key() }) x 2, one_of('silence', 'stop'),
        (sub { 'pedal ' . one_of('on', 'on', 'off') . ' 0 ' . one_of(0, 0, 1) }) x 2, sub { $records++; "record notes.$records" }, one_of('voices', 'meter'), \&pedalled,
        (sub { 'frames ' . one_of(0, 1, below(300), below(3000), 1024) }) x 5,
        (sub { $saves++; "save saved.$saves " . (below(2) ? "undo.$saves" : "\"undo.$saves\"") }) x 2,
        'show', sub { one_of('', ' # nothing', 'undo 1', 'rename-sample 0', 'note 1 2', 'press 0 0 60', 'release 0 0', 'pedal up 0 0', 'record a b', 'frames -1', 'save "a', 'trim 0 x1', 'help me') },
    );
    my $line = $lines[below(scalar @lines)];
    return ref $line ? $line->() : $line;
}

# ---- the state of a session after its answers so far

# Returns the script of the edits that made the current bank.
sub script_of { my ($s) = @_; return join '', map { "$_\n" } @{ $s->{edits} }[0 .. $s->{at} - 1]; }

# Returns the run of `apply` of a script to the first bank, with the bytes of both outputs. Results are cached, since a
# session returns to the same bank often.
sub made_by {
    my ($s, $script) = @_;
    return $s->{made}{$script} //= apply_to($s->{bank}, $script);
}

sub apply_to {
    my ($bank, $script) = @_;
    my $run = apply_text($bank, $script, 'out', 'undo');
    return { %$run, out => read_bytes('out'), undo => read_bytes('undo') };
}

# Returns `ok` if `apply` accepts these lines on the current bank, else its line without the line number.
sub result_of_apply {
    my ($s, $line, @flags) = @_;
    my $run;
    if (@flags) {
        my $made = made_by($s, script_of($s));
        return $made->{line} if $made->{status};
        write_bytes('now', $made->{out});
        local @Runs::flags = @flags;
        $run = apply_text('now', "$line\n", 'out', 'undo');
    } else {
        $run = made_by($s, script_of($s) . "$line\n");
    }
    return $run->{wrong} if $run->{wrong};
    return $run->{status} ? $run->{line} =~ s/^sfbank: line \d+: //r =~ s/\n\z//r : 'ok';
}

sub answered {
    my ($kind, $answer, $want) = @_;
    $count{ "$kind " . ($answer =~ /^(ok|refused|fault)/ ? $1 : '') }++;
    $count{fault}++ if $answer =~ /^fault/;
    return $answer eq $want ? undef : "answered '$answer', not '$want'";
}

# Returns a line as a comment shows it.
sub shown {
    my ($line) = @_;
    return length $line > 120 ? substr($line, 0, 120) . '..' : $line;
}

# Returns the inverse of the last edit of a script, as a line.
sub inverse_of_last {
    my ($s, $script) = @_;
    return (split /\n/, made_by($s, $script)->{undo})[0];
}

sub is_edited {
    my ($s, $answer, $line, @flags) = @_;
    my $token = $answer =~ /^fault/ && $answer =~ s/ # (.*)$// ? $1 : undef;
    return "the comment '$token' is no token" if defined $token && !grep { $_ eq $token } split ' ', $line;
    my $wrong = answered(@flags ? 'neutral' : 'edit', $answer, result_of_apply($s, $line, @flags));
    return $wrong if $wrong || $answer ne 'ok';
    splice @{ $s->{edits} }, $s->{at};
    push @{ $s->{edits} }, $line;
    $s->{at}++;
    return;
}

sub is_undone {
    my ($s, $answer) = @_;
    return answered('undo', $answer, 'refused 39 NothingToUndo') unless $s->{at};
    my $inverse = inverse_of_last($s, script_of($s));
    $s->{at}--;
    return answered('undo', $answer, 'ok # ' . shown($inverse));
}

sub is_redone {
    my ($s, $answer) = @_;
    return answered('redo', $answer, 'refused 40 NothingToRedo') if $s->{at} == @{ $s->{edits} };
    $s->{at}++;
    my $inverse = inverse_of_last($s, script_of($s));
    my $edit = inverse_of_last($s, script_of($s) . "$inverse\n");
    return answered('redo', $answer, 'ok # ' . shown($edit));
}

sub is_saved {
    my ($s, $answer, $out, $undo) = @_;
    my $wrong = answered('save', $answer, 'ok');
    my $run = made_by($s, script_of($s));
    $wrong //= $run->{wrong} // ($run->{status} ? $run->{line} : undef);
    return $wrong // (read_bytes($out) ne $run->{out} ? "$out is another bank" : read_bytes($undo) eq $run->{undo} ? undef : "$undo is another undo script");
}

# Returns what is wrong with the listing of the current bank, or undef: its lines, then `ok`.
sub is_shown {
    my ($s, @answers) = @_;
    write_bytes('out', made_by($s, script_of($s))->{out});
    run(['show', 'out'], 'listing');
    $count{'show ok'}++;
    my $want = read_bytes('listing') =~ s/^counts.*\n//mr;
    my $listed = join('', map { "$_\n" } @answers) =~ s/^counts.*\n//mr;
    return $listed eq "${want}ok\n" ? undef : 'another listing: ' . one_line($listed);
}

# Removes and returns the answer to a line from the remaining answers.
sub take_answer {
    my ($line, $left) = @_;
    return shift @$left unless $line eq 'show' || $line eq 'help';
    my @answers;
    while (@$left) {
        push @answers, shift @$left;
        last if $answers[-1] eq 'ok';
    }
    return @answers;
}

# Starts a note of at most a number of frames, on the current bank.
sub start {
    my ($s, $length, @numbers) = @_;
    my $note = { start => $s->{frame}, length => $length, numbers => [@numbers], preset => "@numbers[0, 1]", key => "@numbers[0 .. 2]" };
    push @{ $s->{played} }, $note;
    push @{ $s->{notes}{ scalar(@{ $s->{stops} }), script_of($s) } }, $note;
    return $note;
}

# Starts a note that its key holds.
sub hold {
    my ($s, @numbers) = @_;
    push @{ $s->{held} }, start($s, 100_000_000, @numbers);
}

# Ends some notes now, unless they have ended before.
sub end_notes {
    my ($s, @notes) = @_;
    for my $note (@notes) {
        my $length = $s->{frame} - $note->{start};
        $note->{length} = $length if !$note->{is_over} && $length < $note->{length};
        $note->{is_over} = 1;
        $s->{held} = [grep { $_ != $note } @{ $s->{held} }];
    }
    return scalar @notes;
}

# Releases a key: its first note ends, or is left to the pedal of its preset. Returns how many notes.
sub released {
    my ($s, $key) = @_;
    my ($note) = grep { $_->{key} eq $key && !$_->{is_sustained} } @{ $s->{held} };
    return 0 if !$note;
    if ($s->{pedals}{ $note->{preset} }) { $note->{is_sustained} = 1; }
    else { end_notes($s, $note); }
    return 1;
}

# Ends all notes, and releases the pedals. Returns how many notes were held.
sub all_released {
    my ($s) = @_;
    my $held = @{ $s->{held} };
    end_notes($s, @{ $s->{played} });
    $s->{pedals} = {};
    return $held;
}

# Releases a pedal. Returns how many notes it held alone.
sub pedal_released {
    my ($s, $preset) = @_;
    delete $s->{pedals}{$preset};
    my $notes = end_notes($s, grep { $_->{preset} eq $preset && $_->{is_sustained} } @{ $s->{held} });
    $count{'notes that a pedal held'} += $notes;
    return $notes;
}

# Returns the line of a note in a note list; one that is held ends now.
sub listed {
    my ($s, $note) = @_;
    my $length = $s->{frame} - $note->{start};
    $length = $note->{length} if $note->{is_over} || $note->{length} < $length;
    return join(' ', $note->{start}, $length, @{ $note->{numbers} }) . "\n";
}

# Returns what is wrong with a recording, or undef.
sub is_recorded {
    my ($s, $answer, $notes) = @_;
    my $wrong = counted('record ok', $answer, scalar @{ $s->{played} });
    my $want = join '', map { listed($s, $_) } @{ $s->{played} };
    return $wrong // (read_bytes($notes) eq $want ? undef : 'another recording: ' . one_line(read_bytes($notes)));
}

# Counts a line of a kind, and returns what is wrong with its answer with a number, or undef.
sub counted {
    my ($kind, $answer, $number) = @_;
    $count{$kind}++;
    return $answer eq "ok $number" ? undef : "answered '$answer', not 'ok $number'";
}

# Returns what is wrong with the answer to a line, or undef, and updates the session.
sub wrong_of_line {
    my ($s, $line, @answers) = @_;
    my $answer = $answers[0] // return 'no answer';
    return $answer eq 'ok' ? undef : "answered '$answer'" if $line eq 'quit';
    return is_undone($s, $answer) if $line eq 'undo';
    return is_redone($s, $answer) if $line eq 'redo';
    return is_shown($s, @answers) if $line eq 'show';
    return is_edited($s, $answer, $1, '--neutral') if $line =~ /^neutral (.*)/;
    if ($line =~ /^note (\d+) (\d+) (\d+) (\d+) (\d+)$/) {
        start($s, $1, $2, $3, $4, $5);
        $count{'note ok'}++;
        return $answer =~ /^ok \d+$/ ? undef : "answered '$answer'";
    }
    if ($line =~ /^press (\d+) (\d+) (\d+) (\d+)$/) {
        hold($s, $1, $2, $3, $4);
        $count{'press ok'}++;
        return $answer =~ /^ok \d+$/ ? undef : "answered '$answer'";
    }
    if ($line =~ /^release (\d+ \d+ \d+)$/) {
        my $notes = released($s, $1);
        return counted($notes ? 'release ok' : 'release of none', $answer, $notes);
    }
    return counted('silence ok', $answer, all_released($s)) if $line eq 'silence';
    if ($line eq 'stop') {
        all_released($s);
        push @{ $s->{stops} }, $s->{frame};
        return answered('stop', $answer, 'ok');
    }
    if ($line =~ /^pedal on (\d+ \d+)$/) {
        $s->{pedals}{$1} = 1;
        $count{'pedal on'}++;
        return $answer eq 'ok' ? undef : "answered '$answer'";
    }
    return counted('pedal off', $answer, pedal_released($s, $1)) if $line =~ /^pedal off (\d+ \d+)$/;
    return is_recorded($s, $answer, $1) if $line =~ /^record (notes\.\d+)$/;
    if ($line eq 'voices') {
        my $held = @{ $s->{held} };
        $count{'voices ok'}++;
        return $answer =~ /^ok \d+ $held$/ ? undef : "answered '$answer', with $held held";
    }
    if ($line eq 'meter') {
        push @{ $s->{measures} }, [$s->{frame}, $answer];
        $count{'meter ok'}++;
        return;
    }
    if ($line =~ /^frames (\d+)$/) {
        $s->{frame} += $1;
        return answered('frames', $answer, 'ok');
    }
    return is_saved($s, $answer, $1, $2) if $line =~ /^save (saved\.\d+) "?(undo\.\d+)/;
    return answered('other', $answer, $faults{$1}) if $line =~ /^(\w+) / && $faults{$1};
    return is_edited($s, $answer, $line);
}

# Returns the frames that a session must write: the sum over its banks of what `play` renders of the notes between two
# stops.
sub frames_of {
    my ($s) = @_;
    all_released($s);
    my @sum = (0) x (2 * $s->{frame});
    my @stops = (@{ $s->{stops} }, $s->{frame});
    for my $notes (sort keys %{ $s->{notes} }) {
        my ($stops, $script) = split /$;/, $notes, 2;
        my $made = made_by($s, $script);
        return (undef, $made->{wrong} // $made->{line}) if $made->{wrong} || $made->{status};
        write_bytes('out', $made->{out});
        write_bytes('notes', join '', map { listed($s, $_) } @{ $s->{notes}{$notes} });
        my $run = run_command(['play', 'out', 'notes', 'wave'], 'wave');
        return (undef, $run->{wrong} // $run->{line}) if $run->{status} || $run->{wrong};
        my @samples = unpack 's<*', substr read_bytes('wave'), 44;
        my $end = 2 * $stops[$stops];
        $end = @samples if @samples < $end;
        $sum[$_] += $samples[$_] for 0 .. $end - 1;
    }
    return (pack('s<*', @sum));
}

# Returns what is wrong with the measures of the frames that a session wrote, or undef.
sub wrong_of_measures {
    my ($s, $frames) = @_;
    my $at = 0;
    for my $measure (@{ $s->{measures} }) {
        my ($frame, $answer) = @$measure;
        my ($peak, $clipped) = (0, 0);
        for (; $at < $frame; $at++) {
            my @sides = unpack 's<2', substr $frames, 4 * $at, 4;
            $clipped++ if grep { $_ == -32768 || $_ == 32767 } @sides;
            for (map { abs } @sides) { $peak = $_ if $_ > $peak; }
        }
        return "meter answered '$answer', not 'ok $peak $clipped'" if $answer ne "ok $peak $clipped";
    }
    return;
}

# ---- sessions

# Returns what is wrong with a run on these lines, or undef. If an allocation may fail, a line may be answered `out of
# memory` and change nothing, or the run may end.
sub wrong_of_run {
    my ($bank, $run, $may_want, @lines) = @_;
    my $stopped = $may_want && $run->{status} == 6 && $run->{line} eq "sfbank: out of memory\n";
    my $wrong = $stopped ? undef : is_done($run);
    return $wrong if $wrong;
    my $session = {
        bank => $bank, edits => [], at => 0, frame => 0, notes => {}, played => [], held => [], pedals => {}, stops => [],
        measures => [], made => {},
    };
    my @left = answer_lines($run);
    pop @left;
    for my $line (grep { /^[^#]*\w/ && !/^ #/ } @lines) {
        last if $stopped && !@left;
        if ($may_want && ($left[0] // '') eq 'out of memory') { shift @left; next; }
        $wrong = wrong_of_line($session, $line, take_answer($line, \@left));
        return "'$line': $wrong" if $wrong;
        last if $line eq 'quit';
    }
    return 'answered more: ' . one_line(join "\n", @left) if @left;
    (my $frames, $wrong) = frames_of($session);
    $count{'frames of several banks'}++ if keys %{ $session->{notes} } > 1 && $session->{frame};
    $wrong //= $frames eq $run->{frames} ? undef : 'other frames: ' . length($run->{frames}) . ' bytes, not ' . length $frames;
    return $wrong // wrong_of_measures($session, $frames);
}

# Returns the bank and the lines of the session of a seed.
sub session_of {
    my ($seed) = @_;
    ($lot, $saves, $records) = ($seed, 0, 0);
    below(2) for 1 .. 3;
    return ($BANKS[$seed % @BANKS], (map { my $text = line(); $text eq q{} ? $text : split /\n/, $text } 1 .. 8 + below(24)), below(2) ? ('quit', 'undo') : ());
}

sub wrong_of_session {
    my ($seed) = @_;
    my ($bank, @lines) = session_of($seed);
    my $run = live($bank, join("\n", @lines) . (below(2) ? "\n" : ''));
    return wrong_of_run($bank, $run, 0, @lines);
}

# Tests `count` sessions from a seed on.
sub try_sessions {
    my ($first, $count) = @_;
    for my $seed ($first .. $first + $count - 1) {
        report("session $seed", wrong_of_session($seed));
        unlink glob('saved.*'), glob('undo.*'), glob('notes.*');
    }
}

# Tests that there were enough answers of each kind.
sub try_kinds {
    for my $kind (sort keys %floors) {
        my $there = $count{$kind} // 0;
        report("3000 sessions, $kind", $there >= $floors{$kind} ? undef : "$there, not $floors{$kind}");
    }
}

1;
