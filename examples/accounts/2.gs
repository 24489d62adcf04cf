session DataCurator
printit
Checking deposit: 100
%
printit
Savings deposit: 50
%
commit
printit
Checking transfer: 30 to: Savings. Checking balance
%
printit
Savings balance
%
commit
printit
Checking withdraw: 500
%
printit
"In the wrong order: the deposit is done when the withdrawal is refused."
Savings deposit: 500. Checking withdraw: 500
%
printit
Savings balance
%
abort
printit
Savings balance
%
printit
Savings deposit: 0
%
