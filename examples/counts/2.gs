session DataCurator
run
Visits increment; incrementBy: 4.
Pages at: #home put: 3; at: #news put: 2
%
printit
Visits value
%
commit
