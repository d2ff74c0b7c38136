# Tests the table `releases`: the frames of live sessions, and how many notes each release and `silence` releases.
package Releases;
use strict;
use warnings;
use Live;
use Notes;
use Runs;
use Tables;
use Exporter 'import';
our @EXPORT = qw(try_releases);

# Returns what is wrong with the answers to lines, or undef. Each must be `ok`; `released` are the numbers of the
# releases, each 1 if they aren't given.
sub wrong_of_answers {
    my ($run, $lines, $released) = @_;
    my @lines = grep { /\S/ } split /\n/, $lines;
    my @answers = split /\n/, $run->{answers};
    return @answers . ' answers to ' . @lines . ' lines' if @answers != @lines;
    my ($other) = grep { $answers[$_] !~ /^ok\b/ } 0 .. $#lines;
    return "'$lines[$other]' is answered '$answers[$other]'" if defined $other;
    my @numbers = map { $answers[$_] =~ s/^ok //r } grep { $lines[$_] =~ /^\s*(?:release|silence)\b/ } 0 .. $#lines;
    my $want = $released // join ' ', (1) x @numbers;
    return "@numbers" eq $want ? undef : "released @numbers, not $want";
}

# Returns the first frame that differs from the expected frames, or undef.
sub other_frame {
    my ($frames, $want) = @_;
    return if $frames eq $want;
    my ($at) = grep { substr($frames, 4 * $_, 4) ne substr($want, 4 * $_, 4) } 0 .. length($want) / 4 - 1;
    return length($frames) / 4 . ' frames' if !defined $at || 4 * $at >= length $frames;
    return "frame $at is " . join '/', unpack 's<2', substr $frames, 4 * $at, 4;
}

sub try_row {
    my ($bank, $lines, $frames, $released) = @_;
    return Notes::make_bank($bank, $lines) if !defined $frames;
    my ($sides) = $frames =~ /^frames\b(.*)/ or die "'$frames' are no frames\n";
    my ($numbers) = ($released // '') =~ /^released (.*)/ or !defined $released or die "'$released' is no number\n";
    my $text = unescaped($lines);
    my $run = live("$bank.sf2", $text);
    my $wrong = Live::is_done($run) // wrong_of_answers($run, $text, $numbers);
    report("the lines $lines on $bank", $wrong // other_frame($run->{frames}, Notes::frames_of(unescaped($sides))));
}

sub try_releases {
    my ($here) = @_;
    try_row(@$_) for rows_of("$here/releases");
}

1;
