session DataCurator
printit
Checking balance
%
printit
Savings balance
%
run
Checking add: -30. Savings add: 30.
Globals at: #Vault put: Account new
%
commit
lock read Vault
checkpoint
run
Vault add: 5
%
commit
