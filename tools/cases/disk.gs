session DataCurator
run
Globals at: #A put: 1
%
commit
checkpoint
commit
checkpoint
commit
