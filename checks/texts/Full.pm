# Tests banks at a limit: their scripts, and differences of one edit, within a second and a second for each megabyte.
package Full;
use strict;
use warnings;
use Banks;
use Differences;
use Limits;
use Runs;
use Texts;
use Cases;
use Exporter 'import';
our @EXPORT = qw(try_full);

# Returns what is wrong with the difference of the full bank and the bank after an edit, which has at most so many lines
# if a number is given; or undef.
sub differs {
    my ($edit, $most) = @_;
    my $wrong = done(apply_text('full', $edit, 'edited', 'undo')) // done(diff('full', 'edited', 'difference'));
    $wrong //= is_commented_diff('full', 'edited', 'difference') // done(apply('full', 'commented', 'out', 'undo'));
    $wrong //= same('out', 'edited') ? undef : 'the difference makes another bank';
    return $wrong if defined $wrong || !defined $most;
    my $lines = lines_of(read_bytes('difference'));
    return $lines <= $most ? undef : "the difference has $lines lines, not at most $most";
}

# The difference of one edit is one line. That of several has at most one line more than they: removals that make room
# come first.
sub try_bank {
    my ($name, @edits) = @_;
    report_case("the text of $name", remade('full', 'full'));
    report_case("$name: nothing differs", differs('', 0));
    report_case("$name: $_", differs($_, /\n/ ? 2 + tr/\n// : 1)) for @edits;
}

sub try_full {
    my ($scripts) = @_;
    for (Limits::full_banks()) {
        my ($limit, $lines, undef, $taken) = @$_;
        report_case("the most $limit", done(apply_text('empty', join("\n", @$lines), 'full', 'undo')));
        try_bank("the most $limit, of " . substr($lines->[-1], 0, 12), @$taken);
    }
    system("$scripts/make_bank wide 65535 > full") and return report_case('scripts/make_bank', 'failed');
    my @edits = ('rename-sample 7 "n"', 'move-preset 65534 0', 'remove-preset 32767', 'set-target inst 40000 0 7', 'set-kind 65534 left 0', 'rename-inst 7 "i8"' . "\n" . 'rename-inst 8 "i7"', "set-target inst 9 0 7\nremove-sample 9\nadd-sample 3 \"n\" 44100 60 0 mono noloop x0102");
    try_bank('the most members', @edits);
}

1;
