# Tests inputs longer than the longest file, the longest file, inputs and sounds that do not fit in memory, and paths
# that no file can have: each run ends with its line and no output. The long files are sparse.
package Lengths;
use strict;
use warnings;
use Banks;
use Runs;
use Exporter 'import';
our @EXPORT = qw(try_lengths);

# The length of the longest file: the largest size that a RIFF header can hold, and its eight bytes.
my $most = 4_294_967_295 + 8;
my $long_path = 'p' x 5_000;

sub make_inputs {
    write_bytes($_, '') for qw(over longest);
    truncate 'over', $most + 1 or die "over: $!\n";
    put_longest(bytes_of($EMPTY));
    write_bytes('rename', "rename-sample 0 \"u\"\n");
    write_bytes('note', "0 1 0 0 60 127\n");
    write_bytes('late', "99999999 1 0 0 60 127\n");
    my @lines = (
        'add-sample 0 "s" 44100 60 0 mono loop 0 1 x0100',
        'add-inst 0 "i"' . ' { 0 }' x 1_000,
        'add-preset 0 "p" 0 0 0 0 0' . ' { 0 }' x 1_000,
    );
    my $run = apply_text('empty', join("\n", @lines), 'voices', 'undo');
    report('a bank of a million voices', $run->{wrong} // ($run->{status} ? $run->{line} : undef));
}

# Writes the empty bank's file after an unknown chunk, without the last pad byte.
sub put_longest {
    my ($empty) = @_;
    my $lists = substr $empty, 12;
    my $between = $most - 1 - 20 - length $lists;
    open my $file, '+<:raw', 'longest' or die "longest: $!\n";
    print {$file} pack 'a4Va8V', 'RIFF', $most - 8, 'sfbkJUNK', $between or die "longest: $!\n";
    seek $file, 20 + $between, 0 or die "longest: $!\n";
    print {$file} $lists or die "longest: $!\n";
    close $file or die "longest: $!\n";
    truncate 'longest', $most or die "longest: $!\n";
}

# Shell commands: the program is `$0`, and `$1` a path. Each with its status and its line.
my @shells = (
    # Too long by a byte, and endless.
    ['"$0" canon over out', 5, 'file fault over'],
    ['"$0" apply empty /dev/zero out undo', 5, 'file fault /dev/zero'],
    ['"$0" apply --neutral empty /dev/zero out undo', 5, 'file fault /dev/zero'],
    ['"$0" play empty /dev/zero out', 5, 'file fault /dev/zero'],
    ['"$0" import empty out undo --kit /dev/zero', 5, 'file fault /dev/zero'],
    # A fault of IN is reported before other inputs are read.
    ['"$0" apply none over out undo', 5, 'file fault none'],
    ['"$0" play none over out', 5, 'file fault none'],
    ['"$0" import none out undo --kit over', 5, 'file fault none'],
    ['"$0" import empty none over out undo', 5, 'file fault none'],
    # The longest file.
    ['"$0" canon longest back && cmp back empty', 0],
    # Too large for memory.
    ['ulimit -v 1000000; "$0" canon over out', 6, 'out of memory'],
    ['ulimit -v 1000000; "$0" show longest', 6, 'out of memory'],
    ['ulimit -v 200000; "$0" show /dev/zero', 6, 'out of memory'],
    ['ulimit -v 200000; "$0" apply empty /dev/zero out undo', 6, 'out of memory'],
    ['ulimit -v 200000; "$0" apply empty over out undo', 6, 'out of memory'],
    ['ulimit -v 200000; "$0" apply --neutral empty over out undo', 6, 'out of memory'],
    ['ulimit -v 200000; "$0" play empty /dev/zero out', 6, 'out of memory'],
    ['ulimit -v 200000; "$0" import empty out undo --kit /dev/zero', 6, 'out of memory'],
    ['echo /dev/zero 36 > kit; ulimit -v 200000; "$0" import empty out undo --kit kit', 6, 'out of memory'],
    ['ulimit -v 200000; "$0" import empty saw /dev/zero out undo', 6, 'out of memory'],
    ['ulimit -v 100000; "$0" play voices note out', 6, 'out of memory'],
    ['ulimit -v 100000; "$0" play empty late out', 6, 'out of memory'],
    # Paths.
    ['"$0" show "$1"', 5, "file fault $long_path"],
    ['"$0" apply saw "$1" out undo', 5, "file fault $long_path"],
    ['"$0" play saw "$1" out', 5, "file fault $long_path"],
    ['"$0" import saw saw "$1" out undo', 5, "file fault $long_path"],
    ['printf \'#\n%s 36\n\' "$1" > kit; "$0" import saw out undo --kit kit', 5, "line 2: file fault $long_path"],
    ['"$0" canon saw "$1"', 5, "write fault $long_path after 0 bytes"],
    ['"$0" apply saw rename "$1" undo', 5, "write fault $long_path after 0 bytes"],
);

sub try_shell {
    my ($command, $status, $line) = @_;
    unlink qw(out undo back errors printed);
    my $ended = system('bash', '-c', "exec 2> errors > printed; $command", program_of_runs(), $long_path) >> 8;
    my $errors = read_bytes('errors');
    my $due = defined $line ? "sfbank: $line\n" : '';
    my $wrong = $ended == $status ? undef : "status $ended";
    $wrong //= "reported '$errors'" if $errors ne $due;
    $wrong //= 'printed' if -s 'printed';
    $wrong //= 'left a file' if -e 'out' || -e 'undo';
    report($command, $wrong);
}

sub try_lengths {
    make_inputs();
    try_shell(@$_) for @shells;
    unlink qw(over longest);
}

1;
