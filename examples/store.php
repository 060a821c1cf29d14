<?php
// A store of documents with insertions, deletions and an index. It takes some seconds; docs/MEASUREMENTS.md measures it.
ini_set('memory_limit', '-1');
mt_srand((int)(getenv('SEED') ?: 5));
class Doc {
    public $id, $title, $text, $tags, $meta;
    function __construct($id, $fields) {
        $this->id = $id;
        foreach ($fields as $name => $value) $this->$name = $value;
    }
}
$words = [];
for ($i = 0; $i < 5000; $i++) $words[] = "word$i";
$docs = [];
$index = [];
for ($round = 0; $round < 60; $round++) {
    for ($j = 0; $j < 1500; $j++) {
        $id = mt_rand(0, 29999);
        $length = mt_rand(10, 80);
        $text = [];
        for ($k = 0; $k < $length; $k++) $text[] = $words[mt_rand(0, 4999)];
        $source = json_encode([
            "title" => implode(" ", array_slice($text, 0, mt_rand(2, 8))), "text" => implode(" ", $text),
            "tags" => array_slice($text, 0, mt_rand(0, 6)), "meta" => ["v" => mt_rand() / 7, "n" => mt_rand()]]);
        $docs[$id] = new Doc($id, json_decode($source, true));
        foreach (array_slice(array_unique($text), 0, 10) as $word) $index[$word][] = $id;
    }
    foreach ((array)array_rand($docs, 800) as $id) unset($docs[$id]);
    foreach ($index as $word => $ids) if (count($ids) > 400) $index[$word] = array_slice($ids, intdiv(count($ids), 3));
}
uasort($index, fn($one, $other) => count($other) - count($one));
echo count($docs), " ", count($index), " ", strlen(json_encode(array_slice($docs, 0, 5000))), "\n";
