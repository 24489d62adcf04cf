session DataCurator
printit
Checking balance + Savings balance
%
commit
