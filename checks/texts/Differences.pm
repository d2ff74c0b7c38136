# Tests differences of banks: `diff` writes what the table states, and its script makes the second bank from the first
# and is undone, byte for byte.
package Differences;
use strict;
use warnings;
use Banks;
use Rows;
use Runs;
use Texts;
use Cases;
use Exporter 'import';
our @EXPORT = qw(try_differences);

# Writes the difference of two banks, whose canonical files are given, to `difference`. Returns what is wrong, or undef.
sub leads {
    my ($from, $to, $canonical, $goal) = @_;
    my $wrong = done(diff($from, $to, 'difference')) // done(apply($from, 'difference', 'out', 'undo'));
    $wrong //= same('out', $goal) ? undef : 'the difference makes another bank: ' . one_line(read_bytes('difference'));
    $wrong //= is_commented_diff($from, $to, 'difference');
    $wrong //= done(apply($from, 'commented', 'out.again', 'undo.again'));
    return $wrong // wrong_of_again() // undone($canonical);
}

# The same in both directions; `difference` has the first.
sub back_and_forth {
    my ($from, $to, $canonical, $goal) = @_;
    my $back = leads($to, $from, $goal, $canonical);
    return defined $back ? "the other way round: $back" : leads($from, $to, $canonical, $goal);
}

# Writes B as `b`.
sub make_other {
    my ($from, $edits) = @_;
    my $wrong = $edits =~ /^bank (\w+)$/ ? done(canon($1, 'out')) : done(apply_text($from, $edits, 'out', 'undo'));
    rename 'out', 'b';
    return $wrong;
}

# Returns what is wrong with a difference that must be a text, or have at most so many lines; or undef.
sub is_expected {
    my ($expected) = @_;
    my $difference = read_bytes('difference');
    my $right = $expected =~ /^at most (\d+)$/ ? lines_of($difference) <= $1 : $difference eq $expected;
    return $right ? undef : 'the difference has ' . lines_of($difference) . ' lines: ' . one_line($difference);
}

sub wrong_of_row {
    my ($from, $edits, $expected) = @_;
    $expected = $edits if $expected eq '=';
    $_ = s/\\n/\n/gr for $edits, $expected;
    $expected .= "\n" if $expected ne '' && $expected !~ /^at most/;
    my $wrong = make_other($from, $edits) // done(canon($from, 'a'));
    return $wrong // back_and_forth($from, 'b', 'a', 'b') // is_expected($expected);
}

# The script of a hundred samples, of which some are linked, and of an instrument with a zone for each.
sub many_samples {
    my @lines = map { sprintf 'add-sample %d "s%02d" 44100 60 0 mono noloop x%04x', $_, $_, 257 * ($_ + 1) } 0 .. 99;
    push @lines, map { 'set-kind ' . 7 * $_ . ' left ' . (99 - 3 * $_) } 0 .. 9;
    return join "\n", @lines, 'add-inst 0 "i" ' . join ' ', map { "{ $_ }" } 0 .. 99;
}

# Moves of samples, the same in each run.
sub some_moves {
    my ($count) = @_;
    return join "\n", map { 'move-sample ' . (37 * $_ * $_ + 11) % 100 . ' ' . (53 * $_ + 29) % 100 } 1 .. $count;
}

# Differences with few and many moves of samples, which are made one by one or together.
sub try_moves {
    for my $count (20, 90, 400) {
        my $wrong = make_other('empty', many_samples()) // done(canon('b', 'a'));
        $wrong //= make_other('a', some_moves($count)) // back_and_forth('a', 'b', 'a', 'b');
        report_case("$count samples moved", $wrong // is_expected('at most ' . ($count < 99 ? $count : 99)));
    }
    my $wrong = make_other('a', some_moves(90) . "\nrename-sample 50 \"other\"") // back_and_forth('a', 'b', 'a', 'b');
    report_case('samples moved and one renamed', $wrong // is_expected('at most 91'));
}

sub try_differences {
    my ($here) = @_;
    try_moves();
    for (Rows::rows_of("$here/differences")) {
        my ($from, $edits, $expected) = @$_;
        report_case("diff $from, " . ($edits || 'nothing'), wrong_of_row($from, $edits, $expected));
    }
    my $over = done(canon('wide', 'over')) // done(run_over('diff', '--force', '--no-comments', 'tone', 'over', 'over'));
    $over //= done(diff('tone', 'wide', 'difference'));
    report_case('a difference over a bank', $over // (same('over', 'difference') ? undef : 'another text'));
}

1;
