# Tests `take` on two banks.
package Taken;
use strict;
use warnings;
use Banks;
use Listed;
use Plans;
use Runs;
use Exporter 'import';
our @EXPORT = qw(try_take free_numbers wrong_of_copies wrong_of_first_parts wrong_of_refused);

# Returns numbers that no preset of a bank has and that are not among these.
sub free_numbers {
    my ($in, $taken) = @_;
    my %used = map { $_ => 1 } numbers_of($in), @$taken;
    my $numbers;
    do { $numbers = below(60_000) . ':' . below(128) } while $used{$numbers};
    return $numbers;
}

# Returns pairs of numbers: those of some presets of the other bank, and those that they get, the same ones where they are
# free and chance allows it.
sub some_presets {
    my ($in, $from) = @_;
    my %used = map { $_ => 1 } numbers_of($in);
    my (@pairs, @taken);
    for my $numbers (numbers_of($from)) {
        next unless chance(60);
        my $is_free = !$used{$numbers} && !grep { $_ eq $numbers } @taken;
        my $new = $is_free && chance(50) ? $numbers : free_numbers($in, \@taken);
        push @taken, $new;
        push @pairs, [$numbers, $new];
    }
    return @pairs;
}

sub option_of {
    my ($pair) = @_;
    return $pair->[0] eq $pair->[1] && chance(50) ? $pair->[0] : "$pair->[0]=$pair->[1]";
}

sub words_for { my (@pairs) = @_; return 'take', map { ('--preset', option_of($_)) } @pairs; }

# Returns what is wrong with notes on copied presets, or undef: they must render as on the originals. Each pair has the
# numbers of an original and of its copy.
sub wrong_of_copies {
    my ($command, $from, @pairs) = @_;
    for my $pair (@pairs) {
        my $lines = note_lines(8, $pair->[0]);
        my ($bank, $number) = split /:/, $pair->[1];
        write_bytes('notes', $lines);
        my $wrong = play($from, 'wave');
        return $wrong if defined $wrong;
        write_bytes('notes', $lines =~ s/^(\d+ \d+) \d+ \d+/$1 $bank $number/mgr);
        $wrong = play('out', 'out.wave');
        return $wrong if defined $wrong;
        return "$pair->[1] renders otherwise than $pair->[0] of the other bank" unless same('wave', 'out.wave');
        count_sound($command);
    }
    return;
}

# Returns what is wrong with `out`, which must have the parts of the first bank before all others, or undef.
sub wrong_of_first_parts {
    my ($in) = @_;
    my $out = listed('out');
    return $out->{wrong} if defined $out->{wrong};
    $#{ $out->{$_} } = $#{ $in->{$_} } for qw(presets instruments samples);
    return lines_of($out) eq lines_of($in) ? undef : 'has other parts of the first bank';
}

sub wrong_of_take {
    my ($bank, $in, $from, @pairs) = @_;
    my $wrong = wrong_of_plan([words_for(@pairs)], $bank, $from);
    return $wrong if defined $wrong;
    count_edits('take');
    write_bytes('notes', note_lines(24, numbers_of($in)));
    return wrong_of_first_parts($in) // wrong_of_sound('take others', $bank) // wrong_of_copies('take', $from, @pairs);
}

# Returns what is wrong with a run that must be refused by this line, or undef.
sub wrong_of_refused {
    my ($bank, $from, $line, @words) = @_;
    my $run = run_command([@words, $bank, $from, 'again', 'again.undo'], 'again', 'again.undo');
    return $run->{wrong} // ($run->{line} eq "sfbank: refused $line\n" ? undef : "'$run->{line}', not '$line'");
}

# Returns what is wrong with the refusals of presets that can't be taken, or undef.
sub wrong_of_refusals {
    my ($bank, $in, $from, $there) = @_;
    my $free = free_numbers($in, []);
    my ($other) = numbers_of($there);
    my ($used) = numbers_of($in);
    my $wrong = wrong_of_refused($bank, $from, '67 NoSuchNumbers 65535:9', 'take', '--preset', "65535:9=$free");
    $wrong //= wrong_of_refused($bank, $from, "68 NumbersInUse $used", 'take', "--preset=$other=$used") if defined $other && defined $used;
    $wrong //= wrong_of_refused($bank, $from, "68 NumbersInUse $free", 'take', map { "--preset=$other=$free" } 1, 2) if defined $other;
    return $wrong;
}

# Tests `take` of presets of another bank, which is a file of its own, or the bank itself.
sub try_take {
    my ($name, $bank, $from) = @_;
    my ($in, $there) = (listed($bank), listed($from));
    my $wrong = $in->{wrong} // $there->{wrong} // wrong_of_canon($bank);
    return report("$name: take", $wrong) if defined $wrong;
    my @pairs = some_presets($in, $there);
    report("$name: take", wrong_of_take($bank, $in, $from, @pairs)) if @pairs;
    report("$name: take refuses", wrong_of_refusals($bank, $in, $from, $there));
}

1;
