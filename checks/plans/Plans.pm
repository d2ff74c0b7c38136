# Tests `tidy` and `keep` on a bank, and has what tests of other plans need.
package Plans;
use strict;
use warnings;
use Banks;
use Comments;
use Listed;
use Runs;
use Exporter 'import';
our @EXPORT = qw(try_plans below chance note_lines play wrong_of_plan wrong_of_sound wrong_of_canon count_edits count_sound);

# How many scripts had each form of edit, and how many note lists sounded.
our %count;

sub below { my ($limit) = @_; return int rand $limit; }
sub chance { my ($percent) = @_; return below(100) < $percent; }

# Returns what is wrong with a run that must be done, or undef.
sub done { my ($run) = @_; return $run->{wrong} // ($run->{status} ? $run->{line} : undef); }

# Returns the words of a run on files; the options are before or after these.
sub words_of {
    my ($plan, @files) = @_;
    my ($command, @options) = @$plan;
    return [$command, chance(50) ? (@options, @files) : (@files, @options)];
}

# Writes the edits of a plan to a file by a dry run, which must save nothing. Returns what is wrong, or undef.
sub wrong_of_dry_run {
    my ($file, $plan, @inputs) = @_;
    write_bytes($_, "before\n") for qw(out undo);
    my $run = run(words_of([@$plan, '--dry-run'], @inputs, 'out', 'undo'), $file);
    my $wrong = is_right($run, -s $inputs[0]) // ($run->{status} ? $run->{line} : undef);
    return $wrong // (join('', map { read_bytes($_) } qw(out undo)) eq "before\n" x 2 ? undef : 'a dry run saves a file');
}

# Writes the edits of a plan as `edits`, and with comments as `commented`. Returns what is wrong, or undef.
sub wrong_of_edits {
    my ($plan, @inputs) = @_;
    my $wrong = wrong_of_dry_run('edits', [@$plan, '--no-comments'], @inputs);
    $wrong //= wrong_of_dry_run('commented', $plan, @inputs);
    $wrong //= done(run_command(['script', '--no-comments', '--no-points', $inputs[0], 'text'], 'text'));
    return $wrong // wrong_of_comments(read_bytes('commented'), members_made(read_bytes('text')), read_bytes('edits'));
}

# Returns what is wrong with the run that replaces the bank itself and saves its script, or undef.
sub wrong_of_replacement {
    my ($plan, $bank, @others) = @_;
    write_bytes('over', read_bytes($bank));
    my $saving = [@$plan, '--script', 'over.edits'];
    my $wrong = done(run_making(words_of($saving, 'over', @others, 'over', 'over.undo'), 'over.undo', 'over.edits'));
    $wrong //= same('over', 'out') && same('over.undo', 'undo') ? undef : 'another bank, or another undo script, where OUT is IN';
    return $wrong // (same('over.edits', 'commented') ? undef : 'saves another script than its dry run prints');
}

# Returns what is wrong with a plan on a bank, which may have other inputs, or undef. It leaves `out`, `undo` and `edits`;
# `canonical` is the canonical file of the bank.
sub wrong_of_plan {
    my ($plan, $bank, @others) = @_;
    my $wrong = wrong_of_edits($plan, $bank, @others);
    $wrong //= done(run_command(words_of($plan, $bank, @others, 'out', 'undo'), 'out', 'undo'));
    $wrong //= done(apply('out', 'undo', 'back', 'redo'));
    $wrong //= same('back', 'canonical') ? undef : 'is not undone';
    $wrong //= same('redo', 'edits') ? undef : 'has another script than its dry run';
    for my $script (qw(edits commented)) {
        $wrong //= done(apply($bank, $script, 'again', 'again.undo'));
        $wrong //= same('again', 'out') && same('again.undo', 'undo') ? undef : "$script does something else";
    }
    return $wrong // wrong_of_replacement($plan, $bank, @others);
}

# Counts the forms of the edits in `edits`.
sub count_edits {
    my ($command) = @_;
    my %forms = map { $_ => 1 } read_bytes('edits') =~ /^([\w-]+)/mg;
    $count{"$command $_"}++ for keys %forms;
}

# ---- sound

# Returns the lines of random notes of presets with these numbers.
sub note_lines {
    my ($count, @numbers) = @_;
    return '' unless @numbers;
    return join '', map { note_of($numbers[$_ % @numbers]) } 0 .. $count - 1;
}

sub note_of {
    my ($numbers) = @_;
    my ($bank, $number) = split /:/, $numbers;
    return join(' ', below(3000), below(2000), $bank, $number, below(128), 1 + below(127)) . "\n";
}

sub play { my ($bank, $wave) = @_; return done(run_command(['play', $bank, 'notes', $wave], $wave)); }

# Counts a note list if it sounds in `wave`.
sub count_sound {
    my ($command) = @_;
    $count{"$command sounds"}++ if substr(read_bytes('wave'), 44) =~ /[^\0]/;
}

# Makes `canonical` of a bank, and returns what is wrong, or undef.
sub wrong_of_canon { my ($bank) = @_; return done(canon($bank, 'canonical')); }

# Returns what is wrong with `notes`, which must render identically on a bank and on `out`, or undef.
sub wrong_of_sound {
    my ($command, $bank) = @_;
    my $wrong = play($bank, 'wave') // play('out', 'out.wave');
    return $wrong if defined $wrong;
    count_sound($command);
    return same('wave', 'out.wave') ? undef : 'notes render otherwise';
}

# ---- the commands

# Returns what is wrong with the parts of `out`, which must have these lines, or undef.
sub wrong_of_parts {
    my ($out, $roughly, $lines) = @_;
    return $out->{wrong} if defined $out->{wrong};
    my @unused = unused_in($out);
    return "@unused[0 .. 0] is unused" if @unused;
    return lines_of($out, $roughly) eq $lines ? undef : "has the parts\n" . lines_of($out, $roughly) . "\nnot\n$lines";
}

# Returns what is wrong with a tidied bank, or undef. Its script must be neutral, and find nothing more afterwards.
sub wrong_of_tidy {
    my ($bank, $in) = @_;
    my $wrong = wrong_of_plan(['tidy'], $bank);
    return $wrong if defined $wrong;
    count_edits('tidy');
    my $out = listed('out');
    my @lonely = lonely_links_in($out);
    $wrong = wrong_of_parts($out, 1, lines_of_kept($in, 1, numbers_of($in))) // (@lonely ? "$lonely[0] has no link back" : undef);
    write_bytes('notes', note_lines(24, numbers_of($in)));
    return $wrong // wrong_of_sound('tidy', $bank) // wrong_of_neutral($bank) // wrong_of_second();
}

# The same with `--merge`, whose script need not be neutral.
sub wrong_of_merging_tidy {
    my ($bank, $in) = @_;
    my $wrong = wrong_of_plan(['tidy', '--merge'], $bank);
    return $wrong if defined $wrong;
    count_edits('tidy --merge');
    my $out = listed('out');
    my @unused = unused_in($out);
    my @lonely = lonely_links_in($out);
    $wrong = $out->{wrong} // (@unused ? "$unused[0] is unused" : @lonely ? "$lonely[0] has no link back" : undef);
    write_bytes('notes', note_lines(24, numbers_of($in)));
    return $wrong // wrong_of_sound('tidy --merge', $bank) // wrong_of_second('--merge');
}

sub wrong_of_neutral {
    my ($bank) = @_;
    local @Runs::flags = ('--neutral');
    my $wrong = done(apply($bank, 'edits', 'again', 'again.undo'));
    return $wrong // (same('again', 'out') && same('again.undo', 'undo') ? undef : 'its neutral script does something else');
}

sub wrong_of_second {
    my (@options) = @_;
    my $run = run(['tidy', @options, '--dry-run', 'out', 'none', 'none.undo'], 'edits');
    my $wrong = is_right($run, -s 'out') // ($run->{status} ? $run->{line} : undef);
    my ($other) = split /\n/, read_bytes('edits');
    return $wrong // (defined $other ? "is tidied again by $other" : undef);
}

# Returns what is wrong with `keep` of the presets with these numbers, or undef. `plan` has its words; the notes to
# play are in `notes`.
sub wrong_of_keep {
    my ($plan, $bank, $in, @numbers) = @_;
    my $wrong = wrong_of_plan($plan, $bank);
    return $wrong if defined $wrong;
    count_edits('keep');
    return wrong_of_parts(listed('out'), 0, lines_of_kept($in, 0, @numbers)) // wrong_of_sound('keep', $bank);
}

# Returns numbers of some presets of a bank.
sub some_numbers {
    my ($in) = @_;
    my $percent = (20, 50, 80)[below(3)];
    return grep { chance($percent) } numbers_of($in);
}

# Returns the words of a `keep` of presets with these numbers, of which some are given twice.
sub keep_words {
    my (@numbers) = @_;
    return 'keep', map { my $it = $_; map { chance(30) ? "--preset=$it" : ('--preset', $it) } 1 .. (chance(10) ? 2 : 1) } @numbers;
}

# Numbers that no preset has.
my $missing = '65535:9';

sub wrong_of_keep_by_numbers {
    my ($bank, $in) = @_;
    my @numbers = some_numbers($in);
    @numbers = grep { defined } (numbers_of($in))[0] unless @numbers;
    my $wrong = wrong_of_missing($bank, $missing, @numbers) // wrong_of_missing($bank, @numbers, $missing);
    return $wrong if defined $wrong || !@numbers;
    write_bytes('notes', note_lines(24, @numbers));
    return wrong_of_keep([keep_words(@numbers)], $bank, $in, @numbers);
}

# Returns what is wrong with `keep` of presets of which the bank lacks one, or undef.
sub wrong_of_missing {
    my ($bank, @numbers) = @_;
    my $run = run_command([keep_words(@numbers), $bank, 'again', 'again.undo'], 'again', 'again.undo');
    return $run->{wrong} // ($run->{line} eq "sfbank: refused 67 NoSuchNumbers $missing\n" ? undef : "'$run->{line}' for a missing preset");
}

# The same by a list of notes, which may be of missing presets. It must do what it does by their numbers.
sub wrong_of_keep_by_notes {
    my ($bank, $in) = @_;
    my @numbers = some_numbers($in);
    my @played = (@numbers, chance(50) ? $missing : ());
    write_bytes('notes', "# a song\n" . note_lines(@played + below(12), @played));
    my $wrong = wrong_of_keep(['keep', '--notes', 'notes'], $bank, $in, @numbers);
    return $wrong if defined $wrong || !@numbers;
    $wrong = done(run_command([keep_words(@numbers), $bank, 'again', 'again.undo'], 'again', 'again.undo'));
    return $wrong // (same('again', 'out') && same('again.undo', 'undo') ? undef : 'does something else by numbers');
}

# The same with `--zones`. No preset is left that isn't played, and each zone that is left has a note.
sub wrong_of_keep_zones {
    my ($bank, $in) = @_;
    my @numbers = some_numbers($in);
    write_bytes('notes', note_lines(@numbers + below(12), @numbers));
    my $wrong = wrong_of_plan(['keep', '--zones', '--notes', 'notes'], $bank);
    return $wrong if defined $wrong;
    count_edits('zones');
    my $out = listed('out');
    my %is_played = map { $_ => 1 } @numbers;
    my @unused = unused_in($out);
    my ($other) = grep { !$is_played{$_} } numbers_of($out);
    $wrong = $out->{wrong} // (@unused ? "$unused[0] is unused" : defined $other ? "$other is left" : undef);
    return $wrong // wrong_of_sound('zones', $bank) // wrong_of_second_zones();
}

# Returns what is wrong with a second run, which must find nothing to do, or undef.
sub wrong_of_second_zones {
    my $run = run(['keep', '--zones', '--notes', 'notes', '--dry-run', 'out', 'none', 'none.undo'], 'edits');
    my $wrong = is_right($run, -s 'out') // ($run->{status} ? $run->{line} : undef);
    my ($more) = split /\n/, read_bytes('edits');
    return $wrong // (defined $more ? "$more is found later" : undef);
}

sub try_plans {
    my ($name, $bank) = @_;
    my $in = listed($bank);
    my $wrong = $in->{wrong} // wrong_of_canon($bank);
    return report($name, $wrong) if defined $wrong;
    report("$name: tidy", wrong_of_tidy($bank, $in));
    report("$name: tidy --merge", wrong_of_merging_tidy($bank, $in));
    report("$name: keep by numbers", wrong_of_keep_by_numbers($bank, $in));
    report("$name: keep by notes", wrong_of_keep_by_notes($bank, $in));
    report("$name: keep by zones", wrong_of_keep_zones($bank, $in));
}

1;
