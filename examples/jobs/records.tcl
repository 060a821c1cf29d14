# Keeps records in a dictionary, and counts their bytes.
for {set n 0} {$n < 150000} {incr n} {dict set kept "record $n" [list $n [string repeat x [expr {$n % 60}]]]}
set bytes 0
dict for {name each} $kept {incr bytes [string length [lindex $each 1]]}
puts $bytes
