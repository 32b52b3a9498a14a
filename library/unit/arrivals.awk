# The arrivals file of a recorded trace: awk -f arrivals.awk TRACE > ARRIVALS
$2 == "soft" { print $1 ",soft," $4 }
$2 == "firm" { print $1 ",firm," $4 "," $5 }
$2 == "sporadic" || $2 == "done" { print $1 "," $2 "," $4 }
$2 == "withdraw" { sub("firm:", "", $4); print $1 ",withdraw," $4 }
