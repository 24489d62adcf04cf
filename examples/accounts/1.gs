session DataCurator
run
"An account has a balance, which is nil at first. It doesn't fall below zero."
Object subclass: #Account instVarNames: #(balance) inDictionary: Globals.
Globals at: #Checking put: Account new.
Globals at: #Savings put: Account new
%
method: Account
balance
  ^balance isNil ifTrue: [0] ifFalse: [balance]
%
method: Account
deposit: amount
  amount > 0 ifFalse: [self error: 'no amount: ' , amount printString].
  balance := self balance + amount.
  ^balance
%
method: Account
withdraw: amount
  self balance < amount ifTrue: [self error: 'overdraft of ' , (amount - self balance) printString].
  balance := self balance - amount.
  ^balance
%
method: Account
transfer: amount to: other
  self withdraw: amount.
  other deposit: amount
%
commit
