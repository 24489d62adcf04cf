session Carol
printit
Ledger at: 2 put: 950
%
commit
