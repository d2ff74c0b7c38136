# Tests the tables of scripts, row by row: a script on a bank, and the result of `apply`. Each script is tested with and
# without a line feed after its last line, and with `--no-undo`.
package Scripts;
use strict;
use warnings;
use Banks;
use Rows;
use Runs;
use Tables;
use BankFiles;
use Exporter 'import';
our @EXPORT = qw(try_scripts wrong_of_line lines);

my @tables = qw(canonical_forms syntax members zones settings splits samples points texts groups limits);

# Returns the text with a line feed at its end.
sub lines { my ($text) = @_; return $text eq '' ? '' : "$text\n"; }

# Returns a text for a message; a long one is truncated.
sub short { my ($text) = @_; return length $text > 200 ? substr($text, 0, 200) . '..' : $text; }

# Returns what is wrong with a run that must be refused with a line, or undef.
sub wrong_of_line {
    my ($run, $due) = @_;
    my $line = 'sfbank: ' . ($due =~ /^line \d|^read fault/ ? $due : "line 1: $due") . "\n";
    return $run->{wrong} // ($run->{line} eq $line ? undef : "reported '$run->{line}'");
}

# Returns what is wrong with the written file, or undef.
sub wrong_of_out {
    my ($due) = @_;
    return 'another file' if defined $due->{makes} && read_bytes('out') ne bank_bytes($due->{makes});
    return 'has ' . (-s 'out') . ' bytes' if defined $due->{bytes} && -s 'out' != $due->{bytes};
    return if !defined $due->{lists};
    my $run = run(['show', 'out']);
    my $last = read_bytes('printed') =~ /([^\n]*)\n\z/ ? $1 : '';
    return is_right($run, -s 'out') // ($last eq unescaped($due->{lists}) ? undef : "lists '$last'");
}

# Returns what is wrong with the undo script, or with undoing and redoing; or undef.
sub wrong_of_undo {
    my ($bank, $script, $due) = @_;
    my $undo = $due->{undo};
    return 'another undo text: ' . short(read_bytes('undo')) if defined $undo && read_bytes('undo') ne lines(unescaped($undo));
    my $wrong = undone($bank);
    return $wrong if defined $wrong || !defined $undo;
    my $printed = defined $due->{printed} ? unescaped($due->{printed}) : $script;
    return read_bytes('again') eq lines($printed) ? undef : 'is printed otherwise: ' . short(read_bytes('again'));
}

# Applies the last script again, without an undo script.
sub apply_alone { my ($bank) = @_; return run_command(['apply', '--no-undo', $bank, 'script', 'alone'], 'alone'); }

# Returns what is wrong with a script that must be done with these results, or undef.
sub wrong_of_done {
    my ($bank, $script, $due) = @_;
    my $wrong = Rows::is_done(apply_text($bank, "$script\n", 'out', 'undo')) // wrong_of_out($due) // wrong_of_undo($bank, $script, $due);
    $wrong //= Rows::is_done(apply_text($bank, $script, 'bare', 'bare.undo'));
    $wrong //= same('bare', 'out') && same('bare.undo', 'undo') ? undef : 'another answer without the last line feed';
    $wrong //= Rows::is_done(apply_alone($bank));
    return $wrong // (same('alone', 'out') ? undef : 'another bank without an undo script');
}

# Returns what is wrong with a script that must be refused with this line, or undef.
sub wrong_of_refused {
    my ($bank, $script, $due) = @_;
    my $wrong = wrong_of_line(apply_text($bank, "$script\n", 'out', 'undo'), $due);
    $wrong //= wrong_of_line(apply_text($bank, $script, 'out', 'undo'), $due);
    return $wrong // wrong_of_line(apply_alone($bank), $due);
}

# Returns what is wrong with a row, or undef. Its results are one line, or parts that begin with a keyword each.
sub wrong_of_row {
    my ($bank, $script, @answers) = @_;
    my ($file, $text) = (bank_file($bank), unescaped($script));
    return 'has no answer' if !@answers;
    return wrong_of_refused($file, $text, @answers) if @answers == 1 && $answers[0] =~ /^(?:line \d+: |read )?(?:fault|refused) /;
    my %due = map { /^(undo|printed|makes|bytes|lists)\b ?(.*)/s ? ($1 => $2) : return "has the answer '$_'" } @answers;
    return wrong_of_done($file, $text, \%due);
}

sub try_scripts {
    my ($here) = @_;
    for my $table (@tables) {
        report("$table, $_->[0]: " . short($_->[1]), wrong_of_row(@$_)) for rows_of("$here/$table");
    }
}

1;
