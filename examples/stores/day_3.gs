session DataCurator
printit
Checking balance
%
printit
Savings balance
%
printit
Vault balance
%
printit
Checking balance + Vault balance
%
commit
