# keeps 1,200 strings of 16 to 76 KB
srand(5);
my @kept;
for my $n (1..2500) { $kept[int(rand(1200))] = "x" x (16400 + int(rand(60000))) }
my $sum = 0;
$sum += length($_ // "") for @kept;
print "$sum\n";
