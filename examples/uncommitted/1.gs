session DataCurator
run
Globals at: #T put: 5
%
printit
T
%
abort
printit
T
%
run
Globals at: #T put: 6
%
