session DataCurator
printit
Till balance
%
commit
