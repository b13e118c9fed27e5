<?php
// Functions that stand for functions of PHP which phpsa does not know: `phpsa check --stubs examples/stubs/env.php PAGE`.
//
// A page is then judged for all that these functions may return and print. So each has to return all that PHP's own can, or more: what a
// stub leaves out, the answer does not speak of. Copy this file, and leave in it what your pages call.
//
// What comes from outside stands in $_SERVER here, under names that no server sets, and so may be anything there.

// Any text of XML's characters in UTF-8. A text of other bytes is not presumed: refuse it where it enters.
function stub_text() {
    return strval($_SERVER['stub text'] ?? '');
}

// Any integer.
function stub_number() {
    return intval($_SERVER['stub number'] ?? 0);
}

// True or false.
function stub_truth() {
    return isset($_SERVER['stub truth']);
}

// Any array, of texts and of arrays; also the empty one.
function stub_array() {
    $array = $_SERVER['stub array'] ?? null;
    return is_array($array) ? $array : array();
}

// ---- Headers: they are no part of the page, so that nothing is printed.

function header($line, $replace = true, $code = 0) {
}

function setcookie($name, $value = '', $expires = 0, $path = '', $domain = '', $secure = false, $httponly = false) {
    return stub_truth();
}

// The status before, or whether there is one.
function http_response_code($code = 0) {
    return stub_truth() ? stub_number() : stub_truth();
}

// ---- Dates: a text without &, <, > and quotes, as of each format that has none of them itself.

function date($format, $timestamp = null) {
    return htmlspecialchars(stub_text());
}

function time() {
    return stub_number();
}

// A time, or false where the text names none.
function strtotime($text, $base = null) {
    return stub_truth() ? stub_number() : false;
}

// ---- Files: what a file holds is any text, or it is not read.

function file_exists($name) {
    return stub_truth();
}

function is_readable($name) {
    return stub_truth();
}

function file_get_contents($name) {
    return stub_truth() ? stub_text() : false;
}

function file($name, $flags = 0) {
    return stub_truth() ? stub_array() : false;
}

// This one prints, as PHP's does.
function readfile($name) {
    echo stub_text();
    return stub_number();
}

// ---- A database: its connections and results are only handed on, and tested; a row is any array, and its members are any texts.

function mysqli_connect($host = null, $user = null, $password = null, $database = null, $port = null, $socket = null) {
    return stub_truth();
}

function mysqli_query($link, $query) {
    return stub_truth();
}

function mysqli_num_rows($result) {
    return stub_number();
}

// A row, or null behind the last: the analysis takes each turn of a loop over it freely.
function mysqli_fetch_assoc($result) {
    return stub_truth() ? stub_array() : null;
}

function mysqli_fetch_all($result, $mode = 2) {
    return stub_array();
}

// It is for queries: in a page the text is as good as any other.
function mysqli_real_escape_string($link, $text) {
    return stub_text();
}

function mysqli_error($link) {
    return stub_text();
}

function mysqli_close($link) {
    return true;
}

// ---- Translation: texts without &, <, > and quotes. Where your translators write markup, return stub_text() in their place.

function gettext($message) {
    return htmlspecialchars(stub_text());
}

function ngettext($one, $many, $count) {
    return htmlspecialchars(stub_text());
}

function _($message) {
    return htmlspecialchars(stub_text());
}
