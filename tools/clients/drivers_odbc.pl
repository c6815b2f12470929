# Parameters, prepared statements and transactions by DBI and DBD::ODBC over FreeTDS.
use strict;
use warnings;
use DBI;

my ($create, $procedure) = split /\ngo\n/, do { local (@ARGV, $/) = 'drivers.sql'; <> };

sub show {
    print join(' ', map { !defined $_ ? 'NULL' : $_ eq '' ? "''" : $_ } @_), "\n";
}

my $db = DBI->connect('dbi:ODBC:DRIVER=FreeTDS;SERVERNAME=tsqld;CLIENTCHARSET=UTF-8', 'sa', 'A', { PrintError => 0, RaiseError => 1 });
$db->do($create);
$db->do($procedure);
my $insert = $db->prepare('INSERT INTO parts VALUES (?, ?, ?, ?)');
print $insert->execute(1, 2**40, 1, 'bolt'), " added\n";
$db->begin_work;
$insert->execute(@$_) for [2, undef, 0, ''], [3, 7, undef, undef], [4, 8, 1, 'Žé€'];
$db->commit;
my $all = $db->prepare('SELECT id, weight, sold, name FROM parts WHERE id >= ? AND id < ? ORDER BY id');
$all->execute(1, 5);
while (my $row = $all->fetch) {
    show(@$row);
}
for ([2, 1, 1, 'again'], [5, -1, 1, 'light']) {
    eval { $insert->execute(@$_) };
    print $@;
}
$db->begin_work;
$insert->execute(5, 9, 1, 'gone');
$db->rollback;
my $find = $db->prepare('SELECT name FROM parts WHERE id = ?');
for (1, 4) {
    $find->execute($_);
    print $find->fetch->[0], "\n";
    $find->finish;
}
my ($status, $count) = (0, 0);
my $call = $db->prepare('{? = CALL add_part (?, ?, ?)}');
$call->bind_param_inout(1, \$status, 50, DBI::SQL_INTEGER);
$call->bind_param(2, 5, DBI::SQL_INTEGER);
$call->bind_param(3, 'nut');
$call->bind_param_inout(4, \$count, 50, DBI::SQL_INTEGER);
$call->execute;
show($status, $count);
print 'long ', $db->selectrow_array('SELECT LEN(?)', undef, 'x' x 4000), "\n";
eval { $db->selectrow_array('SELECT LEN(?)', undef, 'x' x 4001) };
print $@;
