# Calls a procedure with an OUTPUT parameter by DBI and DBD::ODBC over FreeTDS.
use strict;
use DBI;

my $db = DBI->connect('dbi:ODBC:DRIVER=FreeTDS;SERVERNAME=tsqld', 'sa', 'A', { PrintError => 0, RaiseError => 1 });
$db->do('CREATE TABLE parts (id INT NOT NULL PRIMARY KEY, name NVARCHAR(20))');
$db->do("CREATE PROCEDURE add_part \@id INT, \@count INT OUTPUT AS BEGIN
  INSERT INTO parts VALUES (\@id, N'part'); SELECT \@count = COUNT(*) FROM parts; RETURN 7 END");
$db->begin_work;
for my $number (1, 2) {
    my ($status, $count) = (0, 0);
    my $call = $db->prepare('{? = CALL add_part (?, ?)}');
    $call->bind_param_inout(1, \$status, 50, DBI::SQL_INTEGER);
    $call->bind_param(2, $number, DBI::SQL_INTEGER);
    $call->bind_param_inout(3, \$count, 50, DBI::SQL_INTEGER);
    $call->execute;
    print "$status, $count\n";
}
$db->commit;
