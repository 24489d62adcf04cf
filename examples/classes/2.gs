session DataCurator
printit
"Classes and methods are objects, and are committed like others."
(Square side: 4) area
%
