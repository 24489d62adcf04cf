session DataCurator
run
Object subclass: #Account instVarNames: #(balance) inDictionary: Globals.
Globals at: #Checking put: Account new.
Globals at: #Savings put: Account new
%
method: Account
balance
  ^balance isNil ifTrue: [0] ifFalse: [balance]
%
method: Account
add: amount
  balance := self balance + amount.
  ^balance
%
commit
printit
Checking add: 100
%
commit
run
"This isn't committed, so the next day doesn't find it."
Savings add: 1000
%
