session DataCurator
printit
T * T
%
commit
