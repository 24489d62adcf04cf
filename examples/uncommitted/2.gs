session DataCurator
printit
T
%
