session DataCurator
run
Journal removeLast
%
run
"What was handed in is an argument of messages to the keeper's own objects, and becomes new objects."
| posting |
posting := #() , Inbox remove.
Journal add: (Posting new amount: 0 + (posting at: 1) text: '' , (posting at: 2))
%
run
| posting |
posting := #() , Inbox remove.
Journal add: (Posting new amount: 0 + (posting at: 1) text: '' , (posting at: 2))
%
printit
(AllUsers at: #Ann) groups
%
commit
