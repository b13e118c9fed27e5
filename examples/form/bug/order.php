<?php
$title = 'Order';
include 'parts/head.php';
$name = $_POST['name'] ?? '';
?>
<form method="post" action="order.php">
<p><label>Name <input type="text" name="name" value="<?= $name ?>" /></label></p>
<?php if ($name === '') { ?>
<p class="hint">Please give your name.</p>
<?php } ?>
<p><input type="submit" value="Send" /></p>
</form>
<?php
include 'parts/foot.php';
