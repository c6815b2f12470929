<?php
$db = new PDO('dblib:host=tsqld;charset=UTF-8', 'sa', 'A', [PDO::ATTR_ERRMODE => PDO::ERRMODE_EXCEPTION]);
$db->exec('CREATE TABLE parts (id INT NOT NULL PRIMARY KEY, name NVARCHAR(20))');
$db->beginTransaction();
$add = $db->prepare('INSERT INTO parts VALUES (?, ?)');
$add->execute([1, 'bolt']);
$add->execute([2, null]);
$db->commit();
$find = $db->prepare('SELECT id, name FROM parts WHERE id < ?');
$find->execute([3]);
foreach ($find->fetchAll(PDO::FETCH_NUM) as [$number, $name]) {
    echo $number, ' ', $name ?? 'NULL', "\n";
}
