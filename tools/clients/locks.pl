# Beside its other, with LOCK_TIMEOUT 0 and then in a deadlock, by DBI and DBD::Sybase; its argument is 1 or 2.
use strict;
use DBI;

my $me = shift;
my $other = 3 - $me;
my $db = DBI->connect('dbi:Sybase:server=tsqld', 'sa', 'A', { PrintError => 0, RaiseError => 1 });
$db->do('BEGIN TRANSACTION');
$db->do("INSERT INTO seat VALUES ($me)");
$db->do('SET LOCK_TIMEOUT 0');
eval {
    while (1) { # until the other has its row
        $db->selectall_arrayref("SELECT id FROM seat WHERE id = $other");
    }
};
print $@;
$db->do('SET LOCK_TIMEOUT -1');
eval {
    $db->do("INSERT INTO seat VALUES ($other)");
    $db->do('COMMIT');
    print "committed\n";
    1;
} or print $@;
