session DataCurator
printit
3
%
logout
