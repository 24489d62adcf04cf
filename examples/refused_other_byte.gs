session DataCurator
printit
"café" 3
%
