session Eva
printit
"The auditor reads both, and writes neither."
(Orders at: 1) amount
%
printit
Limits at: #order
%
run
Orders removeLast
%
run
Limits at: #order put: 0
%
