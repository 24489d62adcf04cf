session DataCurator
printit
A add: 10; add: 20
%
commit
