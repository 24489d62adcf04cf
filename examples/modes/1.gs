session DataCurator
checkpoint
mode no_rw_checks
run
Globals at: #Rate put: 3
%
commit
checkpoint
mode full_checks
run
Globals at: #Rate put: 4
%
commit
run
Globals at: #Rate put: Rate + 1
%
mode no_rw_checks
mode full_checks
mode no_rw_checks
commit
commit
