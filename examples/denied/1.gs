session DataCurator
run
"An account to which two tellers post. Each locks it before."
| desk |
UserProfile newUser: #Ann; newUser: #Bob.
desk := Segment new.
desk worldAuthorization: #write.
Object subclass: #Account instVarNames: #(balance) inDictionary: Globals.
Globals at: #Till put: (Account new assignToSegment: desk)
%
method: Account
balance
  ^balance isNil ifTrue: [0] ifFalse: [balance]
%
method: Account
post: amount
  "To count the money takes a while."
  | counted |
  counted := 0.
  amount * 20000 timesRepeat: [counted := counted + 1].
  balance := self balance + (counted // 20000)
%
commit
