# Counts cases, and runs of `new`, `script` and `diff`.
package Cases;
use strict;
use warnings;
use Banks;
use Comments;
use Runs;
use Exporter 'import';
our @EXPORT = qw(report_case totals_of_cases done new_bank script diff one_line lines_of
    is_commented_script is_commented_diff);

my ($passed, $failed) = (0, 0);

# Counts a case, and prints what is wrong with it, for the first twenty.
sub report_case {
    my ($name, $wrong) = @_;
    if (!defined $wrong) { $passed++; return; }
    print "texts: $name: $wrong\n" if ++$failed <= 20;
}

sub totals_of_cases { return ($passed, $failed); }

# Returns what is wrong with a run that must be done, or undef.
sub done { my ($run) = @_; return $run->{wrong} // ($run->{status} ? $run->{line} : undef); }

# Runs of the three commands, as `canon` of Runs.pm. Their texts have no comments.
sub new_bank { my ($out, @version) = @_; return run_command(['new', $out, @version], $out); }
sub script { my ($in, $out, @flags) = @_; return run_command(['script', '--no-comments', @flags, $in, $out], $out); }
sub diff { my ($from, $to, $out) = @_; return run_command(['diff', '--no-comments', $from, $to, $out], $out); }

# Writes the script of a bank with comments as `commented`. Returns what is wrong, or undef: it must be the text with
# the comments of the model.
sub is_commented_script {
    my ($bank, $text, @flags) = @_;
    my $wrong = done(run_command(['script', @flags, $bank, 'commented'], 'commented'));
    return $wrong // wrong_of_comments(read_bytes('commented'), members_made(''), read_bytes($text));
}

# Whether a script replaces a whole bank by another, whose own script without its first line it ends with.
sub is_replacement {
    my ($text, $to) = @_;
    return 0 if done(script($to, 'second'));
    my $rest = read_bytes('second') =~ s/\A.*\n//r;
    return $rest ne '' && substr(read_bytes($text), -length $rest) eq $rest;
}

# The same of the difference of two banks. A replacement has no comments.
sub is_commented_diff {
    my ($from, $to, $text) = @_;
    my $wrong = done(script($from, 'first', '--no-points'));
    $wrong //= done(run_command(['diff', $from, $to, 'commented'], 'commented'));
    return if !defined $wrong && same('commented', $text) && is_replacement($text, $to);
    return $wrong // wrong_of_comments(read_bytes('commented'), members_made(read_bytes('first')), read_bytes($text));
}

# Returns a text as one line for a message; a long one is truncated.
sub one_line { my ($text) = @_; return length $text > 300 ? substr($text, 0, 300) =~ s/\n/\\n/gr . '..' : $text =~ s/\n/\\n/gr; }

sub lines_of { my ($text) = @_; return scalar(() = $text =~ /\n/g); }

1;
