<?php
// Beside its other in a deadlock, by parameters of PDO, and again behind it; its arguments are dblib or odbc, and 1 or 2. Texts are
// sent for numbers; by a text no key is found, and so each goes into a variable.
$me = (int) $argv[2];
$other = 3 - $me;
$server = $argv[1] == 'odbc' ? 'odbc:DRIVER=FreeTDS;SERVERNAME=tsqld' : 'dblib:host=tsqld';
$db = new PDO($server, 'sa', 'A', [PDO::ATTR_ERRMODE => PDO::ERRMODE_EXCEPTION]);
$add = $db->prepare('DECLARE @more INT = ?, @id INT = ?; UPDATE stock SET amount = amount + @more WHERE id = @id');
$find = $db->prepare('DECLARE @id INT = ?; SELECT amount FROM stock WHERE id = @id');

// To the end of what comes, where an error may stand.
function run($statement, ...$numbers) {
    $statement->execute($numbers);
    while ($statement->nextRowset()) {
    }
    $statement->closeCursor();
}

$db->exec('BEGIN TRANSACTION');
run($add, 10, $me);
$db->exec('SET LOCK_TIMEOUT 0');
try {
    while (true) { // until the other has its row
        run($find, $other);
    }
} catch (PDOException $error) {
    echo $error->getMessage(), "\n";
}
$find = null;
$db->exec('SET LOCK_TIMEOUT -1');
try {
    run($add, 10, $other);
} catch (PDOException $error) {
    echo $error->getMessage(), "\n";
    $db->exec('BEGIN TRANSACTION');
    run($add, 10, $other); // as soon as the other has committed
    run($add, 10, $me);
}
$db->exec('COMMIT');
echo "committed\n";
