# The balance is ten for each commit of the day before.
/^\[0\] login view / { posted = $4 - 1 }
/^\[1\] / { if ($2 != 10 * posted || posted < 2) print posted " postings, and a balance of " $2 }
END { if (NR != 6) print "the report has " NR " lines" }
