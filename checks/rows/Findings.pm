# Tests the table `findings`: what `check` lists of banks, byte for byte, and its status with --strict.
package Findings;
use strict;
use warnings;
use Banks;
use Listings;
use Rows;
use Runs;
use Tables;
use Exporter 'import';
our @EXPORT = qw(try_findings);

# Returns what is wrong with `check --strict`, which prints the same, and ends with status 7 where anything is found.
sub wrong_when_strict {
    my ($want) = @_;
    my $run = run(['check', '--strict', 'checked']);
    my ($status, $line) = $want eq '' ? (0, '') : (7, "sfbank: check fault 82 HasFindings checked\n");
    return $run->{wrong} // "status $run->{status}" if $run->{status} != $status;
    return "line $run->{line}" if $run->{line} ne $line;
    return other_line(read_bytes('printed'), $want);
}

sub try_bank {
    my ($name, $script, @lines) = @_;
    my $made = Rows::is_done(apply_text('empty', unescaped($script), 'checked', 'undo'));
    my $want = join '', map { "$_\n" } @lines;
    my $run = run(['check', 'checked']);
    my $wrong = $made // is_right($run, -s 'checked') // ($run->{status} ? $run->{line} : undef);
    report("check: $name", $wrong // other_line(read_bytes('printed'), $want) // wrong_when_strict($want));
}

sub try_findings {
    my ($here) = @_;
    try_bank(@$_) for rows_of("$here/findings");
}

1;
