# Tests the table `folders`: banks that are unpacked, and folders that are packed.
package Folders;
use strict;
use warnings;
use Banks;
use BankFiles;
use File::Path qw(make_path remove_tree);
use Recordings;
use Rows;
use Runs;
use Tables;
use Exporter 'import';
our @EXPORT = qw(try_folders);

# Returns what is wrong with the folder of a bank, which must have these files and no others and be packed as the bank;
# or undef.
sub wrong_of_unpacking {
    my ($bank, @parts) = @_;
    remove_tree('new');
    my $wrong = Rows::is_done(run(['unpack', $bank, 'new']));
    return $wrong if defined $wrong;
    my @paths;
    for (@parts) {
        my ($path, $file) = /^(\S+) ?(.*)$/;
        push @paths, 'new/' . unescaped($path);
        my $want = $file =~ /^text (.*)/ ? unescaped($1 =~ s/\\n /\\n/gr) : Recordings::wave_bytes($file);
        return "$path is another" if (read_bytes($paths[-1]) // 'none') ne $want;
    }
    my @seen = grep { !-d } glob 'new/* new/samples/*';
    return "has the files @seen" if @seen != @paths;
    $wrong = Rows::is_done(run_command(['pack', 'new', 'out'], 'out'));
    return $wrong // (same('out', $bank) ? undef : 'packed, it is another bank');
}

# Returns what is wrong with the folder with this text, which must be packed as the empty bank after the script, or
# print the line; or undef.
sub wrong_of_packing {
    my ($text, $answer) = @_;
    write_bytes('folder/bank.txt', unescaped($text));
    my $run = run_command(['pack', 'folder', 'out'], 'out');
    return Recordings::tells($run, $answer) if $answer =~ /^sfbank:/;
    write_bytes('made', read_bytes('out')) if !$run->{status};
    my $wrong = Rows::is_done($run) // Rows::is_done(apply_text('empty', unescaped($answer), 'edited', 'undo'));
    return $wrong // (same('made', 'edited') ? undef : 'another bank');
}

sub try_row {
    my ($what, @parts) = @_;
    if ($what =~ /^file (\S+)$/) {
        make_path('folder/samples');
        return write_bytes('folder/samples/' . unescaped($1), Recordings::wave_bytes($parts[0]));
    }
    return report("the folder of $1", wrong_of_unpacking($1, @parts)) if $what =~ /^unpack (\S+)$/;
    report("a folder of $parts[0]", wrong_of_packing(@parts)) if $what eq 'pack';
}

sub try_folders {
    my ($here) = @_;
    try_row(@$_) for rows_of("$here/folders");
    remove_tree('folder', 'new');
}

1;
