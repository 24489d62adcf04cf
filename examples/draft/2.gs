session DataCurator
run
"The third divisor is zero: the loop fails half way, and with it the chunk."
Globals at: #Count put: 0.
1 to: 5 do: [:i | Globals at: #Count put: Count + (100 // (3 - i))]
%
commit
printit
"What nobody meant is shared now."
Count
%
run
"All that may fail comes first, on temporaries. Nothing is stored, since it fails."
| count |
count := 0.
1 to: 5 do: [:i | count := count + (100 // (3 - i))].
Globals at: #Count put: count
%
printit
Count
%
