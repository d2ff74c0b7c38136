# Tests inputs that end or are split anywhere, and outputs that can't be written.
package Ends;
use strict;
use warnings;
use Banks;
use Live;
use Runs;
use Sessions;
use Exporter 'import';
our @EXPORT = qw(try_inputs try_outputs);

# ---- inputs

my $digits = 'e803' x 250_000;

# Returns a long text as a comment shows it.
sub cut { return substr($_[0], 0, 120) . '..'; }

# Inputs to sessions on the bank `tone`, and all answers.
my @inputs = (
    ['', ''],
    ["\n\n \t\r\n# undo\n", ''],
    ['undo', "refused 39 NothingToUndo\n"],
    ["undo\r\nredo\r\n", "refused 39 NothingToUndo\nrefused 40 NothingToRedo\n"],
    ["rename-sample 0 \"u\"\nundo\nredo\nredo", "ok\nok # rename-sample 0 \"t\"\nok # rename-sample 0 \"u\"\nrefused 40 NothingToRedo\n"],
    ["quit\nundo\n", "ok\n"],
    ["undo\0\n\0\nundo", "fault 41 Syntax # undo?\nfault 41 Syntax # ?\nrefused 39 NothingToUndo\n"],
    ["rename-sample 0 \"a\0b\"\nrename-sample 0 x6100\n", "fault 43 Literal # \"a?b\"\nfault 43 Literal # x6100\n"],
    ['rename-sample 0 "u', "fault 43 Literal # \"u\n"],
    ['rename-sample 0 x7', "fault 43 Literal # x7\n"],
    ["\xff\xfe\nsave \xff undo\nsave xbank undo\n", "fault 41 Syntax # \xff\xfe\nfault 41 Syntax # \xff\nfault 43 Literal # xbank\n"],
    ["extend 0 x$digits x\nundo\nredo", "ok\nok # trim 0 250000 0\nok # " . cut("extend 0 x$digits x") . "\n"],
    ["extend 0 x${digits}0 x\nundo", 'fault 43 Literal # ' . cut("x$digits") . "\nrefused 39 NothingToUndo\n"],
    [' ' x 1_000_000, ''],
    ['#' . 'a' x 1_000_000, ''],
    ['a' x 1_000_000 . "\nundo\n", 'fault 41 Syntax # ' . cut('a' x 1000) . "\nrefused 39 NothingToUndo\n"],
    ['"' x 1_000_000 . "\nundo\n", 'fault 43 Literal # ' . cut('"' x 1000) . "\nrefused 39 NothingToUndo\n"],
    ['undo ' x 200_000 . "\nundo\n", "fault 41 Syntax # undo\nrefused 39 NothingToUndo\n"],
    ["undo\n" x 100_000, "refused 39 NothingToUndo\n" x 100_000],
    ["note 100 0 0 60 100\nnote 100 0 1 60 100\nframes 0\n", "ok 1\nok 0\nok\n"],
    ["note 100000000 0 0 60 100\nnote 100000001 0 0 60 100\nnote 1 0 0 128 0\n", "ok 1\nfault 47 TooLong # 100000001\nfault 45 BadNote # 128\n"],
    ["neutral rename-sample 0 \"u\"\nneutral trim 0 1 0\nneutral undo\n", "ok\nrefused 50 NotNeutral\nfault 41 Syntax # undo\n"],
    ["remove-sample 0\ngroup { rename-sample 0 \"u\" } { remove-sample 0 }\n", "refused 26 InUse\nrefused 48 GroupRefused 1 26 InUse\n"],
);

sub wrong_of_input {
    my ($lines, $want) = @_;
    my $run = live('tone', $lines);
    return is_done($run) // ($run->{answers} eq $want ? undef : 'answered ' . one_line($run->{answers}));
}

# Runs a shell command: the program is `$0`, the input lines are in the file `lines`. Returns its exit status.
sub shell {
    my ($line, $lines) = @_;
    unlink qw(pcm answers errors status);
    write_bytes('lines', $lines) if defined $lines;
    return system('bash', '-c', "exec 2> errors; $line", program_of_runs()) >> 8;
}

# Returns what is wrong with a session whose input arrives in pieces of one to three bytes, which must have the same
# outputs; or undef.
sub wrong_of_bytes {
    my ($seed) = @_;
    my ($bank, @lines) = session_of($seed);
    my $lines = join("\n", @lines);
    my $whole = live($bank, $lines);
    unlink glob('saved.*'), glob('undo.*');
    my $status = shell(q(perl -e '$| = 1; binmode STDIN; print while read STDIN, $_, 1 + rand 3' < lines | "$0" live ) . "$bank pcm > answers", $lines);
    return "status $status" if $status;
    return read_bytes('answers') eq $whole->{answers} && read_bytes('pcm') eq $whole->{frames} ? undef : 'answered otherwise';
}

# Returns what is wrong with a session on random bytes and tokens, or undef: each line that is not blank has one answer.
sub wrong_of_noise {
    my @pieces = ("\n", ' ', '"', 'x', '#', 'undo', 'redo', 'note 1 0 0 60 9', 'frames 9', 'rename-sample 0 "u"', 'save a', '{', '}', 'group', "\0", "\r", '4294967296', '-', "\xc3");
    my $lines = join '', map { rand() < 0.7 ? $pieces[rand @pieces] : chr rand 256 } 1 .. 200;
    my $run = live('tone', $lines);
    my $wrong = is_done($run);
    my $count = grep { /^[ \t\r]*[^ \t\r#]/ } split /\n/, $lines;
    my @answers = answer_lines($run);
    return $wrong // (@answers == $count + 1 ? undef : @answers - 1 . " answers to $count lines: " . one_line($lines));
}

# Returns what is wrong with a session of over 100,000,000 frames, or undef: a recording has the notes that start before.
sub wrong_of_limit {
    my $lines = "frames 99999990\nnote 30 0 0 60 100\nframes 10\npress 0 0 61 100\nframes 5\nnote 1 0 0 62 100\nrecord late\n";
    my $status = shell('"$0" live tone /dev/null < lines > answers', $lines);
    my $want = "ok\nok 1\nok\nok 1\nok\nok 1\nok 2\n";
    return "status $status, answers " . one_line(read_bytes('answers')) if $status || read_bytes('answers') ne $want;
    my $notes = "99999990 10 0 0 60 100\n100000000 0 0 0 61 100\n";
    return read_bytes('late') eq $notes ? undef : 'recorded ' . one_line(read_bytes('late'));
}

# Returns what is wrong with the lines of the help, or undef: each must be a valid line.
sub wrong_of_help {
    my @answers = answer_lines(live('tone', "help\n"));
    splice @answers, -2;
    return 'it has no lines' unless @answers > 8;
    my $run = live('tone', join "\n", grep { !/^(?:save|show|quit)/ } @answers);
    return is_done($run) // ($run->{answers} =~ /^fault/m ? one_line($run->{answers}) : undef);
}

sub try_inputs {
    for my $number (0 .. $#inputs) { report("input $number, " . substr(one_line($inputs[$number][0]), 0, 40), wrong_of_input(@{ $inputs[$number] })); }
    report("session $_, in bytes", wrong_of_bytes($_)) for 1 .. 100;
    srand 1;
    report("noise $_", wrong_of_noise()) for 1 .. 300;
    report('100,000,000 frames', wrong_of_limit());
    report('the help', wrong_of_help());
    unlink glob('saved.*'), glob('undo.*');
}

# ---- outputs

my $lines = "rename-sample 0 \"u\"\nnote 4000 0 0 60 100\nframes 3000\nundo\nframes 2000\nframes 0\nredo\n";

# Shell commands, with their exit status, their line of errors, and a test of their files.
my @shells = (
    ['"$0" live tone /dev/full < lines > answers', 5, qr{^sfbank: write fault /dev/full after 0 bytes\n\z}, '[ "$(cat answers)" = "$(printf "ok\nok 1")" ]'],
    ['"$0" live tone no/pcm < lines > answers', 5, qr{^sfbank: [^\n]*no/pcm[^\n]*\n\z}, '[ ! -e no ]'],
    ['"$0" live tone pcm < lines > /dev/full', 5, qr{^sfbank: write fault - after 0 bytes\n\z}, 'true'],
    ['"$0" live tone pcm < lines >&-', 5, qr{^sfbank: write fault - after 0 bytes\n\z}, 'true'],
    ['{ sleep 0.2; "$0" live tone pcm < lines; echo $? > status; } | true; exit $(cat status)', 5, qr{^\z}, 'true'],
    # (more frames than a pipe holds, so that the reader ends before they are written)
    ['mkfifo pipe; head -c 400 pipe > /dev/null & { cat lines; echo frames 100000; } | "$0" live tone pipe > answers; s=$?; rm pipe; exit $s', 5, qr{^sfbank: write fault pipe after \d+ bytes\n\z}, 'true'],
    ['mkfifo pipe; cat pipe > pcm & "$0" live tone pipe < lines > answers; s=$?; wait; rm pipe; exit $s', 0, qr{^\z}, 'cmp -s pcm whole.pcm && cmp -s answers whole.answers'],
    ['"$0" live none pcm < lines > answers', 5, qr{^sfbank: file fault none\n\z}, '[ ! -s answers ] && [ ! -e pcm ]'],
    ['"$0" live lines pcm < lines > answers', 2, qr{^sfbank: read fault 1 NotRiff\n\z}, '[ ! -s answers ]'],
);

# Saves that fail, which must leave the session as it is.
my @saves = (
    ['save /dev/full undo.1', 'write fault /dev/full after 0 bytes'],
    ['save no/saved undo.1', 'write fault no/saved after 0 bytes'],
    ['save saved.1 no/undo', 'write fault no/undo after 0 bytes'],
    ['save "a folder" undo.1', 'write fault a folder after 0 bytes'],
    ['save "" undo.1', 'write fault  after 0 bytes'],
);

sub wrong_of_shell {
    my ($line, $status, $message, $test) = @_;
    my $ended = shell($line, $lines);
    return "status $ended" if $ended != $status;
    return 'reported ' . one_line(read_bytes('errors')) if read_bytes('errors') !~ $message;
    return system('bash', '-c', $test) ? 'left something else' : undef;
}

sub wrong_of_save {
    my ($save, $want) = @_;
    my $run = live('tone', "rename-sample 0 \"u\"\n$save\nundo\nundo\nsave saved.2 undo.2\n");
    my $wrong = is_done($run) // ($run->{answers} eq "ok\n$want\nok # rename-sample 0 \"t\"\nrefused 39 NothingToUndo\nok\n" ? undef : 'answered ' . one_line($run->{answers}));
    return $wrong // (same('saved.2', 'tone') && read_bytes('undo.2') eq '' ? undef : 'the bank is another');
}

# Makes each write of frames fail in turn, until none does: the frames must be the prefix that the fault counts, and all
# earlier answers must be written.
sub try_each_write {
    my ($way, $most) = @_;
    for my $number (1 .. 10_000) {
        my $run = live_under({ LD_PRELOAD => './fail.so', FAILED_MARK => 'mark', $way => $number, $most ? (SHORT_WRITES => $most) : () }, 'tone', $lines);
        my $name = "$way $number, $most bytes a call";
        return report($name, is_done($run) // ($run->{frames} eq read_bytes('whole.pcm') ? undef : 'other frames')) if !-e 'mark';
        my ($written) = $run->{line} =~ /^sfbank: write fault pcm after (\d+) bytes\n\z/;
        my $right = $run->{status} == 5 && defined $written && $run->{frames} eq substr(read_bytes('whole.pcm'), 0, $written)
            && $run->{answers} eq substr(read_bytes('whole.answers'), 0, length $run->{answers});
        report($name, $right ? undef : "status $run->{status} with '$run->{line}', " . length($run->{frames}) . ' bytes');
    }
}

sub try_outputs {
    my ($hostile) = @_;
    my $whole = live('tone', $lines);
    report('a session', is_done($whole));
    write_bytes('whole.pcm', $whole->{frames});
    write_bytes('whole.answers', $whole->{answers});
    mkdir 'a folder';
    report($_->[0], wrong_of_shell(@$_)) for @shells;
    report($_->[0], wrong_of_save(@$_)) for @saves;
    return report('the shim', 'it is not compiled') if system('cc', '-O2', '-shared', '-fPIC', '-o', 'fail.so', "$hostile/fail_writes.c");
    my $run = live_under({ LD_PRELOAD => './fail.so', SHORT_WRITES => 1, FAILED_OUTPUT => 1 }, 'tone', $lines);
    report('a byte a call', is_done($run) // ($run->{frames} eq $whole->{frames} && $run->{answers} eq $whole->{answers} ? undef : 'gives something else'));
    for my $way (qw(FAILED_WRITE EMPTY_WRITE)) { try_each_write($way, $_) for 0, 1000; }
    unlink glob('saved.*'), glob('undo.*');
}

1;
