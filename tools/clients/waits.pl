# Beside its other in a deadlock, by parameters of DBI, and again behind it; its arguments are Sybase or ODBC, and 1 or 2. Texts are
# sent for numbers; by a text no key is found, and so each goes into a variable.
use strict;
use warnings;
use DBI;

my ($driver, $me) = @ARGV;
my $other = 3 - $me;
my $server = $driver eq 'ODBC' ? 'dbi:ODBC:DRIVER=FreeTDS;SERVERNAME=tsqld' : 'dbi:Sybase:server=tsqld';
my $db = DBI->connect($server, 'sa', 'A', { PrintError => 0, RaiseError => 1 });

sub add {
    $db->do('DECLARE @more INT = ?, @id INT = ?; UPDATE stock SET amount = amount + @more WHERE id = @id', undef, 10, @_);
}

$db->do('BEGIN TRANSACTION');
add($me);
$db->do('SET LOCK_TIMEOUT 0');
eval {
    while (1) { # until the other has its row
        $db->selectall_arrayref('DECLARE @id INT = ?; SELECT amount FROM stock WHERE id = @id', undef, $other);
    }
};
print $@;
$db->do('SET LOCK_TIMEOUT -1');
if (!eval { add($other) }) {
    print $@;
    $db->do('BEGIN TRANSACTION');
    add($other); # as soon as the other has committed
    add($me);
}
$db->do('COMMIT');
print "committed\n";
