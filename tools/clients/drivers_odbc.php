<?php
// Parameters and transactions by PDO over ODBC, which prepares each statement.
[$create, $procedure] = explode("\ngo\n", file_get_contents('drivers.sql'));

function show(...$values) {
    echo implode(' ', array_map(fn($value) => $value === null ? 'NULL' : ($value === '' ? "''" : $value), $values)), "\n";
}

$db = new PDO('odbc:DRIVER=FreeTDS;SERVERNAME=tsqld;CLIENTCHARSET=UTF-8', 'sa', 'A', [PDO::ATTR_ERRMODE => PDO::ERRMODE_EXCEPTION]);
$db->exec($create);
$db->exec($procedure);
$insert = $db->prepare('INSERT INTO parts VALUES (?, ?, ?, ?)');
$insert->execute([1, 2 ** 40, 1, 'bolt']);
echo $insert->rowCount(), " added\n";
$db->beginTransaction();
foreach ([[2, null, 0, ''], [3, 7, null, null], [4, 8, 1, 'Žé€']] as $row) {
    $insert->execute($row);
}
$db->commit();
$find = $db->prepare('SELECT id, weight, sold, name FROM parts WHERE id >= ? AND id < ? ORDER BY id');
$find->execute([1, 5]);
foreach ($find->fetchAll(PDO::FETCH_NUM) as $row) {
    show(...$row);
}
foreach ([[2, 1, 1, 'again'], [5, -1, 1, 'light']] as $row) {
    try {
        $insert->execute($row);
    } catch (PDOException $error) {
        echo $error->getMessage(), "\n";
    }
}
$db->beginTransaction();
$insert->execute([5, 9, 1, 'gone']);
$db->rollBack();
$find = $db->prepare('SELECT name FROM parts WHERE id = ?');
foreach ([1, 4] as $number) {
    $find->execute([$number]);
    echo $find->fetchColumn(), "\n";
    $find->closeCursor();
}
$call = $db->prepare('DECLARE @n INT, @status INT; EXEC @status = add_part ?, ?, @n OUTPUT; SELECT @status, @n');
$call->execute([5, 'nut']);
while (!$call->columnCount()) {
    $call->nextRowset(); // the counts of the statements in front
}
show(...$call->fetch(PDO::FETCH_NUM));
$call->closeCursor();
$length = $db->prepare('SELECT LEN(?)');
$length->execute([str_repeat('x', 4000)]);
echo 'long ', $length->fetchColumn(), "\n";
$length->closeCursor();
try {
    $length->execute([str_repeat('x', 4001)]);
} catch (PDOException $error) {
    echo preg_replace('/x{9,}/', 'x..', $error->getMessage()), "\n";
}
