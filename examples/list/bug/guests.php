<!DOCTYPE html PUBLIC "-//W3C//DTD XHTML 1.0 Strict//EN" "http://www.w3.org/TR/xhtml1/DTD/xhtml1-strict.dtd">
<html xmlns="http://www.w3.org/1999/xhtml">
<head><title>Guests</title></head>
<body>
<h1>Guests</h1>
<ul>
<?php foreach ($_GET['guest'] ?? [] as $guest) { ?>
<li><?= htmlspecialchars($guest) ?></li>
<?php } ?>
</ul>
</body>
</html>
