# A store of documents with insertions, deletions and an index; docs/MEASUREMENTS.md measures it.
use strict;
use warnings;
my (%docs, %index);
my $seed = $ENV{SEED} || 5;

sub draw {
    my ($least, $most) = @_;
    $seed = ($seed * 1103515245 + 12345) % 2147483648;
    return $least + int($seed / 65536) % ($most - $least + 1);
}

for my $round (1 .. 30) {
    for (1 .. 1000) {
        my $id = draw(0, 19999);
        my @text = map { "word" . draw(0, 4999) } 1 .. draw(10, 60);
        $docs{$id} = {
            id => $id, title => join(" ", @text[0 .. draw(2, 8)]), text => join(" ", @text), tags => [@text[0 .. 2]],
            meta => { v => draw(0, 30000) / 7 }
        };
        push @{ $index{$_} }, $id for @text[0 .. 9];
    }
    delete $docs{ draw(0, 19999) } for 1 .. 500;
    for my $word (keys %index) {
        splice @{ $index{$word} }, 0, int(@{ $index{$word} } / 3) if @{ $index{$word} } > 300;
    }
}
my @sorted = sort { length $docs{$b}{text} <=> length $docs{$a}{text} || $a <=> $b } keys %docs;
my $out = join "\n", map { "$_ $docs{$_}{title}" } @sorted;
print scalar(keys %docs), " ", length $out, "\n";
