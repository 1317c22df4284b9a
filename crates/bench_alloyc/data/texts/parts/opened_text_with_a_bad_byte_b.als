sig A {}
$
