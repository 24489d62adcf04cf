session DataCurator
run
Box at: 1 put: 3
%
commit
lock write Box
abort
session DataCurator
run
Transcript show: 'error'
%
printit
'error E1'
%
commit
commit
commit
commit
