session DataCurator
run
"Two clerks, an auditor and a manager. Clerks write the orders; the manager writes the limits."
| desk office |
UserProfile newUser: #Ann; newUser: #Bob; newUser: #Eva; newUser: #Max.
(AllUsers at: #Ann) addGroup: #clerks.
(AllUsers at: #Bob) addGroup: #clerks.
(AllUsers at: #Eva) addGroup: #auditors.
(AllUsers at: #Max) addGroup: #managers.
desk := Segment new.
desk group: #clerks authorization: #write; group: #auditors authorization: #read.
desk group: #managers authorization: #read.
office := Segment new.
office group: #managers authorization: #write; group: #auditors authorization: #read.
office group: #clerks authorization: #read.
Globals at: #Desk put: desk; at: #Office put: office.
Globals at: #Orders put: (OrderedCollection new assignToSegment: desk).
Globals at: #Inbox put: (RcQueue new assignToSegment: desk).
Globals at: #Limits put: (IdentityDictionary new assignToSegment: office).
Limits at: #order put: 500.
Object subclass: #Order instVarNames: #(amount log) inDictionary: Globals
%
classmethod: Order
new
  "What a user makes lies in that user's segment. An order lies on the desk, and its log, too."
  ^super new assignToSegment: Desk; begin
%
method: Order
begin
  log := OrderedCollection new assignToSegment: Desk
%
method: Order
amount: n
  n > (Limits at: #order) ifTrue: [self error: 'above the limit: ' , n printString].
  amount := n.
  log add: System myUserProfile userId
%
method: Order
amount
  ^amount
%
method: Order
log
  ^log
%
commit
