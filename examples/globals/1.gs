session DataCurator
run
Globals at: #T put: 2 + 3
%
commit
