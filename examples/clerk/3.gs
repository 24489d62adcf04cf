session Dan
printit
Ledger at: 2
%
printit
Note
%
run
Globals at: #Ledger put: nil
%
commit
