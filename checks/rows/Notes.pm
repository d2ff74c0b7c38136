# Tests the table `notes`: the WAVE file of each note list on its bank, byte for byte, or the fault.
package Notes;
use strict;
use warnings;
use Banks;
use Rows;
use Runs;
use Tables;
use Exporter 'import';
our @EXPORT = qw(try_notes wave_of play_notes);

# Returns the WAVE file of frames, given as in the table.
sub wave_of { my ($unescaped) = @_; return Rows::wave(frames_of($unescaped)); }

# Returns the bytes of frames.
sub frames_of { my ($unescaped) = @_; return join '', map { frame_of($_) } split ' ', $unescaped; }

sub frame_of {
    my ($word) = @_;
    my ($left, $right, $times) = $word =~ m{^(-?\d+)(?:/(-?\d+))?(?:\^(\d+))?$} or die "'$word' is no frame\n";
    return pack('s<2', $left, $right // $left) x ($times // 1);
}

# Plays notes on a bank into the file `out`.
sub play_notes {
    my ($bank, $notes, $out) = @_;
    write_bytes('notes', $notes);
    return run_command(['play', $bank, 'notes', $out], $out);
}

sub make_bank {
    my ($name, $script) = @_;
    my $run = apply_text('empty', unescaped($script), "$name.sf2", 'undo');
    report("the bank $name", Rows::is_done($run));
}

sub try_row {
    my ($bank, $notes, $answer) = @_;
    return make_bank($bank, $notes) if !defined $answer;
    write_bytes('in', $bank =~ /^words\b(.*)/ ? bytes_of($1) : read_bytes("$bank.sf2") // read_bytes($bank) // die "there is no bank $bank\n");
    my $run = play_notes('in', unescaped($notes), 'wave');
    my $wrong = $run->{wrong};
    if ($answer =~ /^frames(.*)/) {
        $wrong //= $run->{status} ? $run->{line} : read_bytes('wave') eq wave_of($1) ? undef : 'another WAVE file';
    } else {
        $wrong //= $run->{line} eq "sfbank: $answer\n" ? undef : "'$run->{line}' instead of $answer";
    }
    report('the notes ' . substr($notes, 0, 60) . " on $bank", $wrong);
}

sub try_notes {
    my ($here) = @_;
    try_row(@$_) for rows_of("$here/notes");
}

1;
