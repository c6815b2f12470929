# Calls a procedure with an OUTPUT parameter by DBI and DBD::Sybase.
use strict;
use DBI;

my $db = DBI->connect('dbi:Sybase:server=tsqld', 'sa', 'A', { PrintError => 0, RaiseError => 1 });
$db->do('CREATE TABLE parts (id INT NOT NULL PRIMARY KEY, name NVARCHAR(20))');
$db->do("CREATE PROCEDURE add_part \@id INT, \@count INT OUTPUT AS BEGIN
  INSERT INTO parts VALUES (\@id, N'part'); SELECT \@count = COUNT(*) FROM parts; RETURN 7 END");
for my $number (1, 2) {
    my $call = $db->prepare('EXEC add_part ?, ? OUTPUT');
    $call->bind_param(1, $number, DBI::SQL_INTEGER);
    $call->bind_param(2, 0, DBI::SQL_INTEGER);
    $call->execute;
    my @told;
    do {
        while (my $row = $call->fetch) {
            push @told, "@$row";
        }
    } while $call->{syb_more_results};
    print join(', ', @told), "\n";
}
