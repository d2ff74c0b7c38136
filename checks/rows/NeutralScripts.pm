# Tests the table `neutral`: each script is refused with its line, or does what `apply` does and a note renders
# identically.
package NeutralScripts;
use strict;
use warnings;
use Banks;
use Notes;
use Rows;
use Runs;
use Tables;
use Exporter 'import';
our @EXPORT = qw(try_neutral);

my $note = "0 8 0 0 67 127\n";
my $frames = '500 3 993 -11 -987 16 979 -24';

sub apply_neutral {
    my ($in, $script, $out, $undo) = @_;
    local @Runs::flags = ('--neutral');
    return apply_text($in, $script, $out, $undo);
}

# Returns what is wrong with the note on a bank: its frames must be those of the bank `tone`, or differ from them.
sub wrong_of_note {
    my ($bank, $others) = @_;
    my $wrong = Rows::is_done(play_notes($bank, $note, 'wave'));
    return $wrong if defined $wrong;
    my $is_same = read_bytes('wave') eq wave_of($frames);
    return !$is_same == !!$others ? undef : $others ? 'the note renders identically' : 'the note renders otherwise';
}

# Returns what is wrong with a script that `apply` must accept, and with the note on the new bank; or undef.
sub is_applied {
    my ($script, $others) = @_;
    my $wrong = Rows::is_done(apply_text('tone', $script, 'out', 'undo'));
    $wrong //= same('out', 'tone') ? 'makes no other bank' : undef;
    return $wrong // wrong_of_note('out', $others);
}

# Returns what is wrong with a neutral script, which must do what `apply` does, byte for byte, and have a neutral undo
# script; or undef.
sub is_neutral {
    my ($script) = @_;
    my $wrong = is_applied($script, 0) // Rows::is_done(apply_neutral('tone', $script, 'same.out', 'same.undo'));
    $wrong //= same('out', 'same.out') && same('undo', 'same.undo') ? undef : 'does what apply does not';
    local @Runs::flags = ('--neutral');
    return $wrong // undone('tone');
}

sub is_refused {
    my ($script, $line) = @_;
    my $run = apply_neutral('tone', $script, 'out', 'undo');
    return $run->{wrong} // ($run->{line} eq "sfbank: $line\n" ? undef : "'$run->{line}' instead of $line");
}

sub try_row {
    my ($unescaped, $answer) = @_;
    my $script = unescaped($unescaped);
    my $wrong = $answer eq 'changes no sound' ? is_neutral($script)
        : $answer eq 'changes the sound' ? is_applied($script, 1) // is_refused($script, 'line 1: refused 50 NotNeutral')
        : is_refused($script, $answer);
    report("neutral $unescaped", $wrong);
}

sub try_neutral {
    my ($here) = @_;
    report('the note on tone', wrong_of_note('tone', 0));
    try_row(@$_) for rows_of("$here/neutral");
    write_bytes('in', 'RIFF');
    my $run = apply_neutral('in', 'set-tune 0 44100 60 0', 'out', 'undo');
    report('a neutral script on what is no bank', $run->{line} eq "sfbank: read fault 3 Truncated\n" ? $run->{wrong} : $run->{line});
}

1;
