session DataCurator
run
"Two users, two accounts and a list of postings, which every user may write."
| s |
UserProfile newUser: #Alice; newUser: #Bob.
s := Segment new.
s worldAuthorization: #write.
Object subclass: #Account instVarNames: #(balance) inDictionary: Globals.
Globals at: #Checking put: (Account new assignToSegment: s; yourself).
Globals at: #Savings put: (Account new assignToSegment: s; yourself).
Globals at: #Posts put: (RcQueue new assignToSegment: s; yourself)
%
method: Account
balance
^balance isNil ifTrue: [0] ifFalse: [balance]
%
method: Account
post: n
balance := self balance + n.
^balance
%
commit
