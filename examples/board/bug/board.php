<?php
function message($name, $text)
{
    echo '<div class="message"><h2>', htmlspecialchars($name), '</h2>';
    if ($text === '') {
        return;
    }
    echo '<p>', nl2br(htmlspecialchars($text)), '</p></div>';
}
?><!DOCTYPE html PUBLIC "-//W3C//DTD XHTML 1.0 Strict//EN" "http://www.w3.org/TR/xhtml1/DTD/xhtml1-strict.dtd">
<html xmlns="http://www.w3.org/1999/xhtml">
<head><title>Board</title></head>
<body>
<?php
foreach ($_GET['text'] ?? [] as $name => $text) {
    message($name, $text);
}
?>
<p>No more messages.</p>
</body>
</html>
