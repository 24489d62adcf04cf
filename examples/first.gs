session DataCurator
printit
3 + 4 * 2
%
