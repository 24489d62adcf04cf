session Carol
printit
Ledger
%
run
Ledger at: 2 put: 0
%
run
Books worldAuthorization: #write
%
run
"She may write what is her own."
UserGlobals at: #Note put: 'ask for the receipt'
%
commit
