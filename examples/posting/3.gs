session Alice
printit
Posts size
%
printit
Checking balance
%
printit
Savings balance
%
commit
