# Tests WAVE files: that of a sample is imported as the sample; prefixes of one, and files with changed bytes, are
# rejected with a line or imported, and an import is undone byte for byte.
package Waves;
use strict;
use warnings;
use Banks;
use Runs;
use Exporter 'import';
our @EXPORT = qw(try_waves);

# The smallest number of changed files to be imported.
our $floor = 300;

my $imported = 0;

sub wave { my ($bank, $sample, $out) = @_; return run_command(['wave', $bank, $sample, $out], $out); }
sub imported { my ($bank, $wave, $out, $undo) = @_; return run_command(['import', $bank, $wave, $out, $undo], $out, $undo); }

# Returns what is wrong with the file `in.wav` in the place of the sample of `tone`, which must be rejected for two channels
# and otherwise be undone; or undef.
sub wrong_of_replacement {
    my $run = run_command(['replace', 'tone', '0', 'in.wav', 'out', 'undo'], 'out', 'undo');
    return $run->{wrong} if $run->{wrong};
    return $run->{line} eq "sfbank: wave fault 72 TwoChannels\n" ? undef : $run->{line} if $run->{status};
    return undone('tone');
}

# Returns what is wrong with the import of the file `in.wav`, which may be rejected and must be undone if done; or
# undef. The same for a replacement.
sub wrong_of_import {
    my ($bytes) = @_;
    write_bytes('in.wav', $bytes);
    my $run = imported('tone', 'in.wav', 'out', 'undo');
    return $run->{wrong} if $run->{wrong} || $run->{status};
    $imported++;
    return undone('tone') // wrong_of_replacement();
}

# Returns what is wrong with a sample exported and imported, whose WAVE file must be the same again; or undef.
sub wrong_of_sample {
    my ($bank) = @_;
    my $first = wave($bank, 0, 'first.wav');
    return $first->{wrong} // $first->{line} if $first->{wrong} || $first->{status};
    my $run = imported('empty', 'first.wav', 'out', 'undo');
    return $run->{wrong} // $run->{line} if $run->{wrong} || $run->{status};
    my $again = wave('out', 0, 'again.wav');
    return $again->{wrong} // (!$again->{status} && same('first.wav', 'again.wav') ? undef : 'another WAVE file');
}

# 32-bit numbers to write over sizes, counts and frames.
my @lies = (0, 1, 2, 3, 7, 24, 36, 43, 44, 67, 68, 69, 127, 128, 255, 0x7fff_ffff, 0x8000_0000, 0xffff_fffe, 0xffff_ffff);

# WAVE files of other samples: 8 bits, two channels of 24 bits in the extensible format, 32 bits, and floats.
my %others = (
    '8 bits' => "'RIFF =38 'WAVEfmt 20 =16 01000100 =44100 =44100 01000800 'data =2 00ff",
    '24 bits' => "'RIFF =72 'WAVEfmt 20 =40 feff0200 =44100 =264600 06001800 16001800 =3 01000000 00001000 8000 00aa00389b71
        'data =12 7f0000 800000 80ffff ffff7f",
    '32 bits' => "'RIFF =44 'WAVEfmt 20 =16 01000100 =44100 =176400 04002000 'data =8 00800000 00000080",
    'floats' => "'RIFF =48 'WAVEfmt 20 =16 03000100 =44100 =176400 04002000 'data =12 0000003f 000080ff 0000c07f",
);

# Tests each prefix of a file of these samples, changes of each byte, and changes of each number that may be wrong.
sub try_changes {
    my ($samples, $whole) = @_;
    for my $length (0 .. length($whole) - 1) {
        report("$length bytes of a WAVE file of $samples", wrong_of_import(substr $whole, 0, $length));
        for my $byte (0, 1, 2, 3, 127, 128, 255) {
            my $file = substr($whole, 0, $length) . chr($byte) . substr($whole, $length + 1);
            report("byte $length of a WAVE file of $samples is $byte", wrong_of_import($file));
        }
        next if $length % 4 || $length + 4 > length $whole;
        for my $lie (@lies) {
            my $file = substr($whole, 0, $length) . pack('V', $lie) . substr($whole, $length + 4);
            report("number $length of a WAVE file of $samples is $lie", wrong_of_import($file));
        }
    }
}

# Tests random files: up to four bytes of the file are changed.
sub try_wave_seeds {
    my ($whole, $count) = @_;
    for my $seed (1 .. $count) {
        srand $seed;
        my $file = $whole;
        substr($file, int(rand length $file), 1) = chr int rand 256 for 0 .. rand 4;
        report("seed $seed of a WAVE file", wrong_of_import($file));
    }
}

# Returns whether the program has the command `wave`.
sub knows_waves { return !run(['wave', '--help'])->{status}; }

sub try_waves {
    return if !knows_waves();
    for my $bank (qw(saw tone)) { report("sample 0 of $bank", wrong_of_sample($bank)); }
    my $run = wave('tone', 0, 'tone.wav');
    my $whole = read_bytes('tone.wav');
    return report('the WAVE file of a sample', $run->{wrong} // 'is none') if !defined $whole;
    try_changes('16 bits', $whole);
    try_changes($_, bytes_of($others{$_})) for sort keys %others;
    try_wave_seeds($whole, 3000);
    report('WAVE files imported', $imported >= $floor ? undef : "$imported, not $floor");
}

1;
