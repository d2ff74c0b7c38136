# Tests the tables `bank_texts` and `differences`: empty banks, banks as scripts, and differences of banks.
package BankTexts;
use strict;
use warnings;
use Banks;
use Comments;
use Rows;
use Runs;
use Scripts;
use Tables;
use BankFiles;
use Exporter 'import';
our @EXPORT = qw(try_bank_texts);

# Returns what is wrong with a run that must write this bank or this text to `out`, or undef.
sub wrong_of_done {
    my ($words, $kind, $due) = @_;
    my $wrong = Rows::is_done(run_command([split ' ', $words], 'out'));
    return $wrong // (read_bytes('out') eq ($kind eq 'makes' ? bank_bytes($due) : lines(unescaped($due))) ? undef : 'another output');
}

# Returns what is wrong with a run that must end with this status and line and write nothing, or undef.
sub wrong_of_refused {
    my ($words, $status, $line) = @_;
    unlink 'out';
    my $run = run([split ' ', $words]);
    return "status $run->{status} and signal $run->{signal}" if $run->{status} != $status || $run->{signal};
    return "reported '$run->{line}'" if $run->{line} ne "sfbank: $line\n";
    return -e 'out' || $run->{printed} ? 'made something' : undef;
}

sub wrong_of_text {
    my ($words, $answer) = @_;
    return wrong_of_refused($words, $1, $2) if $answer =~ /^(\d) (.*)/;
    return $answer =~ /^(makes|writes) (.*)/ ? wrong_of_done($words, $1, $2) : "has the answer '$answer'";
}

# Returns what is wrong with the difference of a bank and the bank after a script, which must be the script, and with its
# comments; or undef.
sub wrong_of_difference {
    my ($bank, $script) = @_;
    my $wrong = Rows::is_done(apply_text($bank, lines(unescaped($script)), 'other', 'undo'));
    $wrong //= Rows::is_done(run_command(['diff', '--no-comments', $bank, 'other', 'difference'], 'difference'));
    $wrong //= read_bytes('difference') eq lines(unescaped($script)) ? undef : 'another difference: ' . read_bytes('difference');
    $wrong //= Rows::is_done(run_command(['script', '--no-comments', $bank, 'first'], 'first'));
    $wrong //= Rows::is_done(run_command(['diff', $bank, 'other', 'commented'], 'commented'));
    return $wrong // wrong_of_comments(read_bytes('commented'), members_made(read_bytes('first')), lines(unescaped($script)));
}

sub try_bank_texts {
    my ($here) = @_;
    report("bank_texts, $_->[0]", wrong_of_text(@$_)) for rows_of("$here/bank_texts");
    report("differences, $_->[0]: $_->[1]", wrong_of_difference(@$_)) for rows_of("$here/differences");
}

1;
