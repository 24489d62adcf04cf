session DataCurator
run
"The wrong way: it is entered as it was handed in."
Journal add: Inbox remove
%
commit
printit
Inbox remove amount
%
printit
(AllUsers at: #Ann) groups
%
abort
