session DataCurator
run
Object subclass: #Account
  instVarNames: #(sum)
  inDictionary: Globals.
Globals at: #A put: Account new
%
method: Account
add: amount
^sum := (sum isNil
  ifTrue: [0]
  ifFalse: [sum]) + amount
%
commit
