# Reads tables: their rows, and the escapes in the parts of a row.
package Tables;
use strict;
use warnings;
use Banks;
use Exporter 'import';
our @EXPORT = qw(rows_of unescaped);

# The rows of a table: the parts between `|`, without the blanks around them. A line that begins with a blank goes on
# with the row above it, and one that begins with `#` is for the reader alone.
sub rows_of {
    my ($path) = @_;
    my $text = read_bytes($path) // die "$path: $!\n";
    $text =~ s/^#.*\n//mg;
    $text =~ s/\n[ \t]+/ /g;
    return map { [split /\s*\|\s*/, $_, -1] } grep { $_ ne '' } split /\s*\n/, $text;
}

my %bytes = (n => "\n", t => "\t", r => "\r", '\\' => '\\');

# Returns the bytes of a part: `\n`, `\t`, `\r`, `\\` and `\x7f` (hexadecimal) are one byte each, and `(..)^3` is the
# text between the parentheses three times.
sub unescaped {
    my ($part) = @_;
    $part =~ s/\(([^()]*)\)\^(\d+)/$1 x $2/ge;
    return $part =~ s/\\(x[0-9a-f]{2}|.?)/$bytes{$1} \/\/ (length $1 == 3 ? chr hex substr $1, 1 : die "'$part' has \\$1\n")/ger;
}

1;
