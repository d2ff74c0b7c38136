# Tests folders of banks: a bank.txt with changed bytes is rejected with a line or packed, and what is packed is
# unpacked and packed again as the same bank; a changed WAVE file is rejected by the fault of an import of it alone, or
# by its channels, bits, rate or loop, or has the points of that import. Also texts and lines that are very long.
package Folders;
use strict;
use warnings;
use Banks;
use File::Path qw(make_path remove_tree);
use Rows;
use Runs;
use Exporter 'import';
our @EXPORT = qw(try_folders);

# The smallest numbers of changed texts to be packed, and of changed WAVE files.
our ($texts_floor, $files_floor) = (300, 300);

my ($texts, $files) = (0, 0);
my $text = <<'LINES';
# sfbank new --minor 4 without points
add-sample 0 "k" 44100 60 0 mono loop 0 2 x
add-sample 1 "my s" 22050 62 -5 right 0 noloop x
add-inst 0 "i" { 0 } { 1 g 43 0..59 }
add-preset 0 "p" 0 0 0 0 0 { 0 }   # 0 "i"
LINES
# The WAVE files of lines 2 and 3.
my %lines = ('folder/samples/0000 k.wav' => 2, 'folder/samples/0001 my s.wav' => 3);
my %waves = (
    'folder/samples/0000 k.wav' => "'RIFF =116 'WAVEfmt 20 =16 01000100 =44100 =88200 02001000
        'smpl =68 *12 =60 *12 =1 =8 *8 =0 =1 *8 'sfbk 3c000000 'data =4 0100feff",
    'folder/samples/0001 my s.wav' => "'RIFF =42 'WAVEfmt 20 =16 01000100 =22050 =44100 02001000 'data =6 010002000300",
);

# Packs the folder, in the time for the bytes of its text.
sub pack_folder {
    my $run = run_making(['pack', '--force', 'folder', 'out'], 'out');
    $run->{wrong} //= is_right($run, -s 'folder/bank.txt');
    return $run;
}

# Returns what is wrong with the bank `out`, which must be its own canonical file and be packed as itself; or undef.
sub wrong_of_bank {
    my $wrong = Rows::is_done(canon('out', 'canonical'));
    $wrong //= same('out', 'canonical') ? undef : 'is not its canonical file';
    remove_tree('again');
    my $run = run(['unpack', 'out', 'again']);
    $wrong //= is_right($run, -s 'out') // Rows::is_done($run);
    $wrong //= Rows::is_done(run_command(['pack', 'again', 'packed'], 'packed'));
    return $wrong // (same('out', 'packed') ? undef : 'is packed as another bank');
}

# Returns what is wrong with a folder with this text, which may be rejected, or undef.
sub wrong_of_text {
    my ($changed) = @_;
    write_bytes('folder/bank.txt', $changed);
    my $run = pack_folder();
    return $run->{wrong} if $run->{wrong} || $run->{status};
    $texts++;
    return wrong_of_bank();
}

# Tests each prefix of the text, and each byte removed, doubled and replaced.
sub try_bytes {
    for my $at (0 .. length($text) - 1) {
        my ($front, $byte, $rest) = (substr($text, 0, $at), substr($text, $at, 1), substr $text, $at + 1);
        report("$at bytes of bank.txt", wrong_of_text($front));
        report("bank.txt without byte $at", wrong_of_text($front . $rest));
        report("bank.txt with byte $at twice", wrong_of_text($front . $byte x 2 . $rest));
        for my $other ("\0", "\n", ' ', '"', '#', '/', '0', 'x', "\xff") {
            report(sprintf('bank.txt whose byte %d is %02x', $at, ord $other), wrong_of_text($front . $other . $rest));
        }
    }
}

# Returns the points of a sample as the digits of its line, or undef.
sub points_of {
    my ($bank, $number) = @_;
    my $run = run_command(['script', $bank, 'script.txt'], 'script.txt');
    return if $run->{wrong} || $run->{status};
    return read_bytes('script.txt') =~ /^add-sample $number .* x([0-9a-f]*)$/m ? $1 : undef;
}

# Returns what is wrong with a folder in which a file has these bytes, or undef.
sub wrong_of_file {
    my ($path, $bytes) = @_;
    write_bytes($_, $bytes) for $path, 'in.wav';
    my $alone = run_command(['import', 'empty', 'in.wav', 'imported', 'undo'], 'imported', 'undo');
    my $run = pack_folder();
    return $alone->{wrong} // $run->{wrong} if $alone->{wrong} || $run->{wrong};
    my $front = "sfbank: line $lines{$path}: $path: ";
    my $wanted = $alone->{line} =~ s/^sfbank: /$front/r;
    return $run->{line} eq $wanted ? undef : "'$run->{line}' instead of $wanted" if $alone->{status};
    return $run->{line} =~ /^\Q$front\Ewave fault (?:72|78|79|80) / ? undef : $run->{line} if $run->{status};
    $files++;
    my ($packed, $imported) = (points_of('out', $lines{$path} - 2), points_of('imported', 0));
    return 'no points' if !defined $packed || !defined $imported;
    return $packed eq $imported ? undef : 'other points than those of an import';
}

# Tests each prefix of each file, each of its bytes changed, and random changes.
sub try_files {
    my ($count) = @_;
    for my $path (sort keys %waves) {
        my $whole = bytes_of($waves{$path});
        for my $at (0 .. length($whole) - 1) {
            report("$at bytes of $path", wrong_of_file($path, substr $whole, 0, $at));
            for my $byte (0, 1, 2, 3, 127, 255) {
                my $file = substr($whole, 0, $at) . chr($byte) . substr $whole, $at + 1;
                report("byte $at of $path is $byte", wrong_of_file($path, $file));
            }
        }
        for my $seed (1 .. $count) {
            srand $seed;
            my $file = $whole;
            substr($file, int(rand length $file), 1) = chr int rand 256 for 0 .. rand 4;
            report("seed $seed of $path", wrong_of_file($path, $file));
        }
        write_bytes($path, $whole);
    }
}

# Tests texts that are very long, or have a very long line.
sub try_long {
    my $megabyte = 'n' x 1_000_000;
    my $line = 'add-sample 0 "k" 44100 60 0 mono loop 0 2 x';
    my @rejected = (
        ['a name of a megabyte', $line =~ s/k/$megabyte/r, 'line 1: fault 43 Literal'],
        ['a number of a megabyte', $line =~ s/ 0 / @{[ '1' x 1_000_000 ]} /r, 'line 1: fault 42 Number'],
        ['a literal without an end', qq($line\n"$megabyte), 'line 2: fault 43 Literal'],
        ['a million lines', "\n" x 1_000_000 . 'frob', 'line 1000001: fault 41 Syntax'],
        ['a lost file', "\n" x 1_000_000 . $line =~ s/k/l/r, 'line 1000001: file fault folder/samples/0000 l.wav'],
    );
    for (@rejected) {
        my ($name, $changed, $answer) = @$_;
        write_bytes('folder/bank.txt', $changed);
        report("bank.txt with $name", Rows::ends_by(pack_folder(), "sfbank: $answer\n"));
    }
    my @packed = (
        ['a comment of a megabyte', "#$megabyte\n$line #$megabyte"],
        ['a version of a megabyte', '# sfbank new --minor ' . '1' x 1_000_000 . "\n$line"],
        ['points of two megabytes', $line . '0100' x 1_000_000],
        ['2,000 lines of one file', "$line\n" x 2_000],
    );
    for (@packed) {
        my ($name, $changed) = @$_;
        write_bytes('folder/bank.txt', $changed);
        report("bank.txt with $name", Rows::is_done(pack_folder()) // wrong_of_bank());
    }
}

sub try_folders {
    make_path('folder/samples');
    write_bytes($_, bytes_of($waves{$_})) for keys %waves;
    write_bytes('folder/bank.txt', $text);
    report('a folder', Rows::is_done(pack_folder()) // wrong_of_bank());
    try_bytes();
    report('texts packed', $texts >= $texts_floor ? undef : "$texts, not $texts_floor");
    write_bytes('folder/bank.txt', $text);
    try_files(300);
    report('WAVE files packed', $files >= $files_floor ? undef : "$files, not $files_floor");
    try_long();
    remove_tree('folder', 'again');
}

1;
