session DataCurator
run
Globals at: #Rate put: Rate + 1
%
commit
