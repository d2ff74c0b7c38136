# The table of recordings: the WAVE file of a sample, to the byte, and what comes of WAVE files that are put into a
# bank.
package Recordings;
use strict;
use warnings;
use Banks;
use Rows;
use Runs;
use Tables;
use Exporter 'import';
our @EXPORT = qw(try_recordings);

# The bytes of the WAVE file of the sample of the bank `tone`.
my $file;

# Returns what is wrong with a run that must print this line, or undef.
sub tells { my ($run, $line) = @_; return $run->{wrong} // ($run->{line} eq "$line\n" ? undef : "'$run->{line}' instead of $line"); }

# Returns the bytes of a WAVE file of the table.
sub wave_bytes {
    my ($wave) = @_;
    return $wave =~ /^words\b(.*)/ ? bytes_of($1) : changed($file, $wave);
}

sub wave_run {
    my ($bank, $sample, @options) = @_;
    return run_command(['wave', @options, $bank, $sample, 'out.wav'], 'out.wav');
}

sub import_run {
    my ($name, @options) = @_;
    return run_command(['import', @options, 'tone', $name, 'out', 'undo'], 'out', 'undo');
}

sub replace_run {
    my ($bank, $sample, @options) = @_;
    return run_command(['replace', @options, $bank, $sample, 'in.wav', 'out', 'undo'], 'out', 'undo');
}

sub try_wave {
    my ($script, $changes) = @_;
    my $wrong = Rows::is_done(apply_text('tone', unescaped($script), 'tuned', 'undo')) // Rows::is_done(wave_run('tuned', 0));
    report("the WAVE file of tone behind $script", $wrong // (read_bytes('out.wav') eq wave_bytes($changes) ? undef : 'is another'));
}

# Tests an import with options, which must do what the script does and have this undo script.
sub try_import {
    my ($options, $name, $wave, $script, $undo) = @_;
    write_bytes($name, wave_bytes($wave));
    my $wrong = Rows::is_done(apply_text('tone', unescaped($script), 'edited', 'undo.edited'));
    $wrong //= Rows::is_done(import_run($name, split ' ', $options));
    $wrong //= same('out', 'edited') ? undef : 'another bank';
    $wrong //= read_bytes('undo') eq unescaped($undo) ? undone('tone') : 'another undo text: ' . read_bytes('undo');
    report("the import$options of $name", $wrong);
}

sub try_fault {
    my ($options, $wave, $line) = @_;
    write_bytes('in.wav', wave_bytes($wave));
    report("the import$options of $wave", tells(import_run('in.wav', split ' ', $options), $line));
}

# Tests a replacement in `tone` after a script, which must do what another script does, and be undone; or have this line.
sub try_replacement {
    my ($sample, $options, $before, $wave, $script) = @_;
    write_bytes('in.wav', wave_bytes($wave));
    my $wrong = Rows::is_done(apply_text('tone', unescaped($before), 'first', 'undo'));
    my $run = replace_run('first', $sample, split ' ', $options);
    return report("a replacement$options by $wave", $wrong // tells($run, $script)) if $script =~ /^sfbank:/;
    $wrong //= Rows::is_done($run) // undone('first');
    write_bytes('made', read_bytes('out'));
    $wrong //= Rows::is_done(apply_text('first', unescaped($script), 'edited', 'undo.edited'));
    report("a replacement$options by $wave", $wrong // (same('made', 'edited') ? undef : 'another bank'));
}

# Tests the WAVE file of the pair of sample 0 of `tone` after a script: these bytes or this line.
sub try_pair {
    my ($sample, $script, $wave) = @_;
    my $wrong = Rows::is_done(apply_text('tone', unescaped($script), 'paired', 'undo'));
    my $run = wave_run('paired', $sample, '--pair');
    return report("the pair behind $script", $wrong // tells($run, $wave)) if $wave =~ /^sfbank:/;
    $wrong //= Rows::is_done($run) // (read_bytes('out.wav') eq wave_bytes($wave) ? undef : 'is another');
    report("the pair behind $script", $wrong);
}

sub try_row {
    my ($what, @parts) = @_;
    return $file = bytes_of($parts[0]) if $what eq 'file';
    return try_wave(@parts) if $what eq 'wave';
    return report($what, tells(wave_run('tone', $1), $parts[0])) if $what =~ /^wave (\d+)$/;
    return try_replacement($1, $2, @parts) if $what =~ /^replace (\d+)(.*)$/;
    return try_pair($1, @parts) if $what =~ /^pair (\d+)$/;
    my ($options) = $what =~ /^import(.*)$/;
    return @parts > 2 ? try_import($options, @parts) : try_fault($options, @parts);
}

sub try_recordings {
    my ($here) = @_;
    try_row(@$_) for rows_of("$here/recordings");
}

1;
