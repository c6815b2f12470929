# A connection of DBI's `connect_cached` that is taken again; its argument is Sybase or ODBC.
use strict;
use warnings;
use DBI;

my $server = $ARGV[0] eq 'ODBC' ? 'dbi:ODBC:DRIVER=FreeTDS;SERVERNAME=tsqld' : 'dbi:Sybase:server=tsqld';
my %quiet = (PrintError => 0, RaiseError => 1);
my %pooled = (%quiet, Callbacks => { 'connect_cached.reused' => \&roll_back });

sub roll_back {
    $_[0]->do('IF @@TRANCOUNT > 0 ROLLBACK');
    return;
}

sub taken {
    return DBI->connect_cached($server, 'sa', 'A', \%pooled);
}

# Takes the connection again, and tells how many rows there are.
sub again {
    print "$_[0] ", taken()->selectrow_array('SELECT COUNT(*) FROM shelf WHERE id > ?', undef, 0), "\n";
}

sub add {
    my ($db, $id) = @_;
    $db->do('INSERT INTO shelf VALUES (?)', undef, $id);
}

my $db = taken();
$db->do('DECLARE mark CURSOR STATIC FOR SELECT id FROM shelf');
$db->do('BEGIN TRANSACTION');
add($db, 2);
again('open');
my $beside = DBI->connect($server, 'sa', 'A', \%quiet);
$beside->do('SET LOCK_TIMEOUT 0');
add($beside, 2);
print "free\n";
eval { add(taken(), 1) };
print $@;
again('failed');
my $rows = taken()->prepare('SELECT id FROM shelf WHERE id > ?');
$rows->execute(0);
$rows->fetch;
undef $rows;
again('unread');
taken()->do('DEALLOCATE mark');
print "the same session\n";
