session DataCurator
run
Orders add: Order new
%
printit
(Orders segment) owner userId
%
run
"One's own change of a right counts at once."
Desk ownerAuthorization: #none
%
run
Inbox add: #mail
%
run
Desk ownerAuthorization: #write
%
run
Inbox add: #mail
%
commit
