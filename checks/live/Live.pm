# Live sessions: their banks, running one, and what holds for each.
package Live;
use strict;
use warnings;
use Banks;
use Runs;
use Starter;
use Exporter 'import';
our @EXPORT = qw(make_banks @BANKS live live_under answer_lines is_done one_line);

# The banks of the sessions. None has an exclusive class, so notes of several banks do not silence each other.
our @BANKS = qw(tone layered struck);

my %scripts = (
    tone => join("\n", @{ $SCRIPTS{tone} }[1 .. $#{ $SCRIPTS{tone} }]),
    layered => join("\n", @{ $SCRIPTS{layered} }[1 .. $#{ $SCRIPTS{layered} }]),
    # Two samples, three instruments, two presets whose zones overlap, with envelopes, tunings and a release.
    struck => join("\n",
        'add-sample 0 "low" 44100 48 0 mono loop 2 10 xe803d00730f8e80300f0d00730f8e803d00730f8e803d007',
        'add-sample 1 "high" 22050 72 7 mono noloop xe803d00730f8e80300f0d00730f8e803d00730f8e803d007',
        'add-inst 0 "i0" { global g 38 -4000 } { 0 g 43 0..71 g 54 1 } { 1 g 43 60..127 g 17 -200 }',
        'add-inst 1 "i1" { 1 g 51 12 g 52 30 g 34 -6000 }',
        'add-inst 2 "i2" { 0 g 44 64..127 g 48 120 }',
        'add-preset 0 "p" 0 0 0 0 0 { 0 } { 1 g 43 48..80 }',
        'add-preset 1 "q" 1 0 0 0 0 { global g 48 30 } { 2 } { 0 g 44 0..90 }'),
);

# Writes the banks into the folder as canonical files.
sub make_banks {
    write_bytes('empty', bytes_of($EMPTY));
    for my $bank (@BANKS) {
        my $run = apply_text('empty', $scripts{$bank}, $bank, 'undo');
        report("the bank $bank", $run->{wrong} // ($run->{status} ? $run->{line} : undef));
    }
}

# Runs a session on a bank, with these input lines and environment variables. Returns its exit status, signal, line of
# errors, answers and frames.
sub live_under {
    my ($settings, $bank, $lines) = @_;
    unlink qw(pcm answers errors mark);
    write_bytes('lines', $lines);
    my ($status) = started(program_of_runs(), ['live', $bank, 'pcm'], $settings, qw(lines answers errors));
    return {
        status => $status >> 8, signal => $status & 127, line => read_bytes('errors'),
        answers => read_bytes('answers'), frames => read_bytes('pcm') // '',
    };
}

sub live { return live_under({}, @_); }

# Returns the lines of the answers of a session.
sub answer_lines { my ($run) = @_; return split /\n/, $run->{answers}, -1; }

# Returns what is wrong with a session that must be done, or undef.
sub is_done {
    my ($run) = @_;
    return "ended by signal $run->{signal}" if $run->{signal};
    return "status $run->{status} with '$run->{line}'" if $run->{status} || $run->{line} ne '';
    return $run->{answers} =~ /[^\n]\z/ ? 'the last answer has no line feed' : undef;
}

# Returns a text as one line for a message; a long one is truncated.
sub one_line { my ($text) = @_; return length $text > 300 ? substr($text, 0, 300) =~ s/\n/\\n/gr . '..' : $text =~ s/\n/\\n/gr; }

1;
