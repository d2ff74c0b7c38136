# Tests tables of kits, and the recordings of one: a table with changed bytes is rejected with a line or imported, and
# an import is undone byte for byte; a changed recording is rejected by the fault of an import of it alone. Also tables
# and lines that are very long.
package Kits;
use strict;
use warnings;
use Banks;
use Rows;
use Runs;
use Exporter 'import';
our @EXPORT = qw(try_kits);

# The smallest number of changed tables to be imported.
our $floor = 600;

my $imported = 0;
my $table = "# kit\nk.wav 36\n\"my s.wav\" 3..40 0..90 root 38 pan -20 class 3\nk.wav 42 pan 500\r\n";
# Two recordings: of one channel, and of two with a loop.
my %recordings = (
    'k.wav' => "'RIFF =40 'WAVEfmt 20 =16 01000100 =44100 =88200 02001000 'data =4 0100feff",
    'my s.wav' => "'RIFF =112 'WAVEfmt 20 =16 01000200 =44100 =176400 04001000
        'smpl =60 *12 =62 *12 =1 *12 =0 =1 *8 'data =8 01000300feff0400",
);

sub import_kit { return run_command(['import', 'tone', 'out', 'undo', '--kit', 'kit.txt', @_], 'out', 'undo'); }

# Returns what is wrong with the import of a table, which may be rejected and must be undone if done; or undef.
sub wrong_of_table {
    my ($text) = @_;
    write_bytes('kit.txt', $text);
    my $run = import_kit();
    return $run->{wrong} if $run->{wrong} || $run->{status};
    $imported++;
    return undone('tone');
}

# Tests each prefix of the table, and each byte removed, doubled and replaced.
sub try_bytes {
    for my $at (0 .. length($table) - 1) {
        my ($front, $byte, $rest) = (substr($table, 0, $at), substr($table, $at, 1), substr $table, $at + 1);
        report("$at bytes of a table", wrong_of_table($front));
        report("a table without byte $at", wrong_of_table($front . $rest));
        report("a table with byte $at twice", wrong_of_table($front . $byte x 2 . $rest));
        for my $other ("\0", "\n", ' ', '"', '#', '-', '.', '/', '0', '9', "\x7f", "\xff") {
            report(sprintf('a table whose byte %d is %02x', $at, ord $other), wrong_of_table($front . $other . $rest));
        }
    }
}

# Returns one of some words.
sub one_of { return $_[int rand @_]; }

# Returns a line of a table, which may have a wrong word, or one too many or too few.
sub random_line {
    my @line = (one_of('k.wav', '"my s.wav"', '"k.wav"'), one_of(0 .. 127, '0..127', '36..40', '127..127'));
    push @line, one_of('0..127', '1..80', '90..90') if rand() < 0.4;
    push @line, 'root', int rand 128 if rand() < 0.3;
    push @line, 'pan', int rand(1001) - 500 if rand() < 0.3;
    push @line, 'class', 1 + int rand 127 if rand() < 0.3;
    my @wrong = ('', '#', '"', '..', '-1', '128', '500', '501', '0..', '9..8', '36', 'root', 'pan', 'class', 'x24', "\xc3\xa4", 'k.wav');
    splice @line, int rand(@line + 1), int rand 2, one_of(@wrong) if rand() < 0.2;
    return join one_of(' ', "\t", '  '), @line;
}

# Tests random tables, of lines that are mostly right, and of changed bytes.
sub try_table_seeds {
    my ($count) = @_;
    for my $seed (1 .. $count) {
        srand $seed;
        my $text = rand() < 0.8 ? join one_of("\n", "\r\n", "\n#\n"), map { random_line() } 0 .. rand 4 : $table;
        if (rand() < 0.2) { substr($text, int(rand length $text), 1) = chr int rand 256 for 0 .. rand 3; }
        report("seed $seed of a table", wrong_of_table($text));
    }
}

# Returns what is wrong with the file `in.wav` in line 3 of a table, which must be rejected by its fault or be undone;
# or undef.
sub wrong_of_recording {
    my ($bytes) = @_;
    write_bytes('in.wav', $bytes);
    my $alone = run_command(['import', 'tone', 'in.wav', 'out', 'undo'], 'out', 'undo');
    my $run = import_kit();
    return $alone->{wrong} // $run->{wrong} if $alone->{wrong} || $run->{wrong};
    return $run->{status} ? $run->{line} : undone('tone') if !$alone->{status};
    my $line = $alone->{line} =~ s/^sfbank: /sfbank: line 3: in.wav: /r;
    return $run->{line} eq $line ? undef : "'$run->{line}' instead of $line";
}

# Tests the files of the table of recordings, and random ones, among recordings that are right.
sub try_wrong_recordings {
    my ($here, $count) = @_;
    my $whole = read_bytes('tone.wav');
    write_bytes('kit.txt', "k.wav 36\n\nin.wav 38\n\"my s.wav\" 40\nin.wav 41\n");
    for (Rows::rows_of("$here/recordings")) { report("a kit with the recording $_->[0]", wrong_of_recording(changed($whole, $_->[0]))); }
    for my $seed (1 .. $count) {
        srand $seed;
        my $file = $whole;
        substr($file, int(rand length $file), 1) = chr int rand 256 for 0 .. rand 4;
        report("seed $seed of a recording in a kit", wrong_of_recording($file));
    }
}

# Tests tables that are very long, or have a very long line or path.
sub try_long_tables {
    my $megabyte = 'n' x 1_000_000;
    my @tables = (
        ['a path of a megabyte', "$megabyte 36", "line 1: file fault $megabyte"],
        ['a word of a megabyte', "k.wav $megabyte", 'line 1: fault 75 BadRow'],
        ['a number of a megabyte', 'k.wav ' . '1' x 1_000_000, 'line 1: fault 75 BadRow'],
        ['a quote without an end', "k.wav 36\n\"$megabyte", 'line 2: fault 75 BadRow'],
        ['a million words', 'k.wav ' . '36 ' x 1_000_000, 'line 1: fault 75 BadRow'],
        ['a million lines', "\n" x 1_000_000 . 'k.wav', 'line 1000001: fault 75 BadRow'],
        ['a million comments', "#\n" x 1_000_000, 'line 1: fault 77 NoRows'],
        ['a folder', '. 36', 'line 1: file fault .'],
        ['a name with a zero byte', "k\0.wav 36", "line 1: file fault k\0.wav"],
    );
    for (@tables) {
        my ($name, $text, $line) = @$_;
        write_bytes('kit.txt', $text);
        report("a table with $name", Rows::ends_by(import_kit(), "sfbank: $line\n"));
    }
    for (['a comment of a megabyte', "#$megabyte\nk.wav 36 #$megabyte"], ['20,000 lines', "k.wav 36\n" x 20_000]) {
        my ($name, $text) = @$_;
        write_bytes('kit.txt', $text);
        report("a table with $name", Rows::is_done(import_kit()) // undone('tone'));
    }
}

sub try_kits {
    my ($here) = @_;
    write_bytes($_, bytes_of($recordings{$_})) for keys %recordings;
    try_bytes();
    try_table_seeds(1000);
    report('tables imported', $imported >= $floor ? undef : "$imported, not $floor");
    try_wrong_recordings($here, 500);
    try_long_tables();
}

1;
