# Tests the table `kits`: several recordings in a bank by one command, with an instrument and a preset.
package Kits;
use strict;
use warnings;
use Banks;
use File::Basename;
use File::Path 'make_path';
use Recordings;
use Rows;
use Runs;
use Tables;
use Exporter 'import';
our @EXPORT = qw(try_kits);

# Writes a recording of the table.
sub put_recording {
    my ($path, $wave) = @_;
    make_path(dirname($path));
    write_bytes($path, Recordings::wave_bytes($wave));
}

# Returns what is wrong with an import that must do what the script does, with its undo text; or undef.
sub wrong_of_import {
    my ($bank, $script, $words) = @_;
    my $wrong = Rows::is_done(apply_text($bank, unescaped($script), 'edited', 'undo.edited'));
    $wrong //= Rows::is_done(run_command($words, 'out', 'undo'));
    $wrong //= same('out', 'edited') ? undef : 'another bank';
    return $wrong // (same('undo', 'undo.edited') ? undone($bank) : 'another undo text: ' . substr(read_bytes('undo'), 0, 200));
}

# Tests an import by these words, which must do what the script does, or print the line.
sub try_import {
    my ($name, $bank, $answer, @words) = @_;
    my $is_line = $answer =~ /^sfbank:/;
    my $wrong = $is_line ? Recordings::tells(run_command(\@words, 'out', 'undo'), $answer) : wrong_of_import($bank, $answer, \@words);
    report(length $name > 200 ? substr($name, 0, 200) . '..' : $name, $wrong);
}

sub try_row {
    my ($what, @parts) = @_;
    my ($way, @words) = map { unescaped($_) } split ' ', $what;
    return put_recording($words[0], $parts[0]) if $way eq 'file';
    my $bank = shift @words;
    my ($first) = grep { $words[$_] =~ /^--/ } 0 .. $#words;
    my @options = splice @words, $first // @words;
    return try_import($what, $bank, $parts[0], 'import', $bank, @words, 'out', 'undo', @options) if $way eq 'import';
    write_bytes('kit.txt', unescaped($parts[0]));
    try_import("$what: $parts[0]", $bank, $parts[1], 'import', $bank, 'out', 'undo', '--kit', 'kit.txt', @options);
}

sub try_kits {
    my ($here) = @_;
    try_row(@$_) for rows_of("$here/kits");
}

1;
