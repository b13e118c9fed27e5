<?php
header('Content-Type: text/html; charset=UTF-8');
$link = mysqli_connect('localhost', 'reader');
$result = $link ? mysqli_query($link, 'SELECT title, body FROM news ORDER BY day DESC') : false;
?>
<!DOCTYPE html PUBLIC "-//W3C//DTD XHTML 1.0 Strict//EN" "http://www.w3.org/TR/xhtml1/DTD/xhtml1-strict.dtd">
<html xmlns="http://www.w3.org/1999/xhtml">
<head><title><?= gettext('News') ?></title></head>
<body>
<h1><?= gettext('News') ?></h1>
<?php while ($result && ($row = mysqli_fetch_assoc($result))) { ?>
<h2><?= $row['title'] ?></h2>
<p><?= htmlspecialchars($row['body']) ?></p>
<?php } ?>
<p>&copy; <?= date('Y') ?></p>
</body>
</html>
