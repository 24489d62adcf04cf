session DataCurator
run
"Clerks hand postings in. Their keeper enters them in a journal, which all may read and nobody else write."
| desk |
UserProfile newUser: #Ann.
(AllUsers at: #Ann) addGroup: #clerks.
desk := Segment new.
desk group: #clerks authorization: #write.
Globals at: #Inbox put: (RcQueue new assignToSegment: desk).
Globals at: #Journal put: OrderedCollection new.
Object subclass: #Posting instVarNames: #(amount text) inDictionary: Globals
%
method: Posting
amount
  ^amount
%
method: Posting
text
  ^text
%
method: Posting
amount: anInteger text: aString
  amount := anInteger.
  text := aString
%
commit
