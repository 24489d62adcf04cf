session DataCurator
run
Books group: #clerks authorization: #write
%
commit
