session DataCurator
run
"Two users. The ledger lies in a segment which clerks may read, and others may not."
| books |
UserProfile newUser: #Carol; newUser: #Dan.
(AllUsers at: #Carol) addGroup: #clerks.
books := Segment new.
books group: #clerks authorization: #read.
Globals at: #Books put: books.
Globals at: #Ledger put: (Array new: 2).
Ledger at: 1 put: 'rent'; at: 2 put: 900; assignToSegment: books
%
commit
