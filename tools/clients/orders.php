<?php
// Runs the batches of orders.sql by PDO.
[$create, $fill, $totals, $procedure, $call, $status, $wrong, $cursor] = explode("\ngo\n", file_get_contents('orders.sql'));

$db = new PDO('dblib:host=tsqld', 'sa', 'A', [PDO::ATTR_ERRMODE => PDO::ERRMODE_EXCEPTION]);
$db->exec($create);
$db->exec($fill);
foreach ($db->query($totals) as ['customer' => $customer, 'total' => $total]) {
    echo $customer, ' ', $total ?? 'NULL', "\n";
}
$db->exec($procedure);
foreach ([$call, $status] as $text) {
    $result = $db->query($text);
    $result->nextRowset(); // the first is the count of the INSERT in the procedure
    echo implode(' ', $result->fetch(PDO::FETCH_NUM)), "\n";
}
foreach (explode(';', $wrong) as $insert) {
    try {
        $db->exec($insert);
    } catch (PDOException $error) {
        echo $error->getMessage(), "\n";
    }
}
echo $db->query($cursor)->fetchColumn(), "\n";
