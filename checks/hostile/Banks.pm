# Banks of the checks as bytes, and changes of bytes.
package Banks;
use strict;
use warnings;
use Exporter 'import';
our @EXPORT = qw(bytes_of changed read_bytes write_bytes $EMPTY %SCRIPTS);

# The empty bank of minor version 4: 308 bytes.
our $EMPTY = <<'WORDS';
'RIFF =300 'sfbk
'LIST =42 'INFO 'ifil =4 02000400 'isng =8 'EMU8000 *1 'INAM =2 *2
'LIST =12 'sdta 'smpl =0
'LIST =218 'pdta 'phdr =38 'EOP *35 'pbag =4 *4 'pmod =10 *10 'pgen =4 *4
'inst =22 'EOI *19 'ibag =4 *4 'imod =10 *10 'igen =4 *4 'shdr =46 'EOS *43
WORDS

# The other banks: the length of the file, and the script that makes it from the empty bank.
our %SCRIPTS = (
    saw => [450, 'add-sample 0 "saw" 44100 60 0 mono noloop x0100feff'],
    tone => [
        532,
        'add-sample 0 "t" 44100 60 0 mono loop 1 3 xe803d00730f8',
        'add-inst 0 "i" { 0 g 54 1 }',
        'add-preset 0 "p" 0 0 0 0 0 { 0 }',
    ],
    layered => [
        594,
        'add-sample 0 "s" 44100 60 0 mono noloop x',
        'add-inst 0 "i0" { 0 }',
        'add-inst 1 "i1" { 0 g 17 -100 }',
        'add-inst 2 "i2" { 0 }',
        'add-preset 0 "p" 0 0 0 0 0 { 0 } { 2 }',
    ],
    wide => [
        1078,
        'set-info ICMT "all kinds of records"',
        'set-info ISFT "an editor"',
        'add-sample 0 "L" 44100 60 0 mono loop 0 2 x0010001800f0',
        'add-sample 1 "R" 22050 62 -5 right 0 noloop x000100020003',
        'set-kind 0 left 1',
        'add-sample 2 "k" 48000 255 7 linked 2 loop 2 3 x0a000b000c00',
        'add-inst 0 "a" { global g 54 1 m 1282 48 480 0 0 } { 0 g 43 0..59 g 44 0..127 } { 1 g 43 60..127 g 17 -100 m 2 17 50 0 0 }',
        'add-inst 1 "b" { 2 g 54 3 g 38 -2400 g 57 1 }',
        'add-inst 2 "c"',
        'add-preset 0 "p" 0 0 1 2 3 { global g 48 60 } { 0 m 3 52 100 0 0 } { 1 g 44 64..127 g 51 -12 }',
        'add-preset 1 "q" 9 128 0 0 0 { 2 } { 0 m 129 32769 100 0 0 }',
    ],
);

# Returns the bytes of words: `'abc` is the text `abc`, `*3` three zero bytes, `=300` a number of 32 bits, and every
# other word is bytes in hexadecimal digits. A word followed by `^N` counts N times.
sub bytes_of {
    my ($words) = @_;
    return join '', map { word_bytes($_) } split ' ', $words;
}

sub word_bytes {
    my ($word) = @_;
    my $times = $word =~ s/\^(\d+)$// ? $1 : 1;
    my $bytes = $word =~ /^'(.*)/ ? $1 : $word =~ /^\*(\d+)/ ? "\0" x $1 : $word =~ /^=(\d+)/ ? pack('V', $1) : pack 'H*', $word;
    return $bytes x $times;
}

# Returns bytes after changes, separated by `;` and made in order: each is a position, the number of bytes to remove
# there, and the words to insert.
sub changed {
    my ($bytes, $changes) = @_;
    for my $change (split /;/, $changes) {
        my ($at, $out, $words) = split ' ', $change, 3;
        substr($bytes, $at, $out) = bytes_of($words // '');
    }
    return $bytes;
}

sub read_bytes {
    my ($path) = @_;
    open my $file, '<:raw', $path or return;
    local $/;
    return scalar(<$file>) // '';
}

sub write_bytes {
    my ($path, $bytes) = @_;
    open my $file, '>:raw', $path or die "$path: $!\n";
    print {$file} $bytes or die "$path: $!\n";
    close $file or die "$path: $!\n";
}

1;
