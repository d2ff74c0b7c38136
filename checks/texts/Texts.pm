# Tests banks as scripts: `script` writes the files of `printed`, and those of `commented` with comments, byte for byte,
# and `apply` of either to the empty bank of the same version makes the bank again.
package Texts;
use strict;
use warnings;
use Banks;
use Rows;
use Runs;
use Cases;
use Exporter 'import';
our @EXPORT = qw(try_new make_banks try_texts try_streams try_faults remade run_over wrong_of_again);

my $without = ' without points';

# Returns what is wrong with the empty bank of a minor version, or undef.
sub wrong_of_new {
    my ($minor, @words) = @_;
    my $wrong = done(new_bank('out', @words));
    $wrong //= read_bytes('out') eq changed(bytes_of($EMPTY), '34 2 ' . unpack 'H*', pack 'v', $minor) ? undef : 'another file';
    return $wrong // done(canon('out', 'again')) // (same('out', 'again') ? undef : 'it is not its own canonical file');
}

sub try_new {
    report_case('new', wrong_of_new(4));
    report_case("new, of minor version $_", wrong_of_new($_, '--minor', $_)) for 0, 1, 4, 9, 255, 256, 65_535;
    done(new_bank('empty'));
    my $made = read_bytes('empty') // '';
    report_case('an empty bank has 308 bytes', length $made == 308 ? undef : length($made) . ' bytes');
}

# Writes the banks into the folder: those made by scripts, those of the examples, and one of 200 presets.
sub make_banks {
    my ($here) = @_;
    my @many = ('add-inst 0 "i"', map { "add-preset $_ \"p$_\" $_ 0 0 0 0 { 0 }" } 0 .. 199);
    my %banks = (many => [4, join "\n", @many], map { ($_ => [4, join "\n", @{ $SCRIPTS{$_} }[1 .. $#{ $SCRIPTS{$_} }]]) } keys %SCRIPTS);
    for (Rows::rows_of("$here/banks")) { $banks{ $_->[0] } = [$_->[1], $_->[2] =~ s/\\n/\n/gr]; }
    report_case("the bank $_", make_bank($_, @{ $banks{$_} })) for sort keys %banks;
    write_bytes($_, read_bytes("$here/../../examples/$_.sf2")) for qw(organ untidy);
    return ('empty', sort(keys %banks), 'organ', 'untidy');
}

sub make_bank {
    my ($name, $minor, $script) = @_;
    my $wrong = done(new_bank('from', '--minor', $minor)) // done(apply_text('from', $script, 'out', 'undo'));
    rename 'out', $name or $wrong //= "$name is not there";
    return $wrong;
}

# Returns what is wrong with the bank made by its script from the bank that the first line names, or undef: the file
# must be the canonical one, and its script the same. Comments change nothing.
sub remade {
    my ($bank, $canonical) = @_;
    my $wrong = done(script($bank, 'text')) // is_commented_script($bank, 'text');
    return $wrong if defined $wrong;
    my ($minor) = read_bytes('text') =~ /\A# sfbank new --minor (\d+)\n/ or return 'no first line';
    $wrong = done(new_bank('from', '--minor', $minor)) // done(apply('from', 'text', 'out', 'undo'));
    $wrong //= same('out', $canonical) ? undef : 'its text makes another bank';
    $wrong //= done(script('out', 'text.again'));
    $wrong //= same('text', 'text.again') ? undef : 'the bank of its text has another text';
    return $wrong // done(apply('from', 'commented', 'out.again', 'undo.again')) // wrong_of_again();
}

# Returns what is wrong with the bank of a text with comments, and with its undo script, or undef.
sub wrong_of_again {
    return same('out', 'out.again') && same('undo', 'undo.again') ? undef : 'with comments the text does something else';
}

# Returns a script without the points of samples.
sub without_points {
    my ($text) = @_;
    $text =~ s/\n/$without\n/;
    return $text =~ s/^(add-sample .* x)[0-9a-f]*$/$1/mgr;
}

# Returns what is wrong with the script of a bank, which must be this text, and with its comments; or undef.
sub is_printed {
    my ($bank, $text, @flags) = @_;
    my $wrong = done(script($bank, 'text', @flags));
    $wrong //= read_bytes('text') eq $text ? undef : 'prints ' . one_line(read_bytes('text'));
    return $wrong // is_commented_script($bank, 'text', @flags);
}

# The same of a text with comments.
sub is_commented {
    my ($bank, $text) = @_;
    my $wrong = done(run_command(['script', $bank, 'commented'], 'commented'));
    return $wrong // (read_bytes('commented') eq $text ? undef : 'prints ' . one_line(read_bytes('commented')));
}

sub try_text {
    my ($here, $bank) = @_;
    my $text = read_bytes("$here/printed/$bank.txt");
    if (defined $text) {
        report_case("script $bank", is_printed($bank, $text));
        report_case("script --no-points $bank", is_printed($bank, without_points($text), '--no-points'));
    }
    my $commented = read_bytes("$here/commented/$bank.txt");
    report_case("script $bank, with comments", is_commented($bank, $commented)) if defined $commented;
    report_case("canon $bank", done(canon($bank, 'canonical')));
    report_case("$bank is made of its text", remade($bank, 'canonical') // undone('from'));
    my $over = done(canon($bank, 'over')) // done(run_over('script', '--force', 'over', 'over'));
    $over //= is_commented_script($bank, 'text');
    report_case("script of $bank over it", $over // (same('over', 'commented') ? undef : 'another text'));
}

# Runs a command whose output replaces an input.
sub run_over {
    my (@words) = @_;
    my $run = run(\@words);
    $run->{wrong} = is_right($run, 10_000_000);
    return $run;
}

# Tests output to a stream.
sub try_streams {
    for (['new'], ['script', 'organ'], ['diff', 'tone', 'wide']) {
        my $run = run([@$_, '/dev/stdout']);
        rename 'printed', 'streamed';
        my $wrong = is_right({ %$run, printed => 0 }, 10_000_000) // done(run_command([@$_, 'out'], 'out'));
        report_case("@$_ to a stream", $wrong // (same('streamed', 'out') ? undef : 'another text'));
    }
}

# Tests the scripts of all banks, and that each file of `printed` and `commented` is of a bank.
sub try_texts {
    my ($here, @banks) = @_;
    try_text($here, $_) for @banks;
    my %known = map { $_ => 1 } @banks;
    for (glob "$here/printed/* $here/commented/*") {
        report_case("$_ is a bank's", m{/(\w+)\.txt$} && $known{$1} ? undef : 'it is not');
    }
}

# ---- faults

sub wrong_of_fault {
    my ($words, $status, $line) = @_;
    my @there = sort glob '*';
    my $run = run([split ' ', $words]);
    return "ended by signal $run->{signal}" if $run->{signal};
    return "status $run->{status}" if $run->{status} != $status;
    return "reported '" . one_line($run->{line}) . "'" if defined $line && $run->{line} ne "$line\n";
    return 'printed' if $run->{printed};
    return "@there" eq join(' ', sort glob '*') ? undef : 'made a file';
}

sub try_faults {
    my ($here) = @_;
    write_bytes('cut', substr read_bytes('tone'), 0, 300);
    report_case('another version', done(new_bank('other', '--minor', 3)));
    unlink qw(out undo);
    report_case($_->[0], wrong_of_fault(@$_)) for Rows::rows_of("$here/faults");
}

1;
