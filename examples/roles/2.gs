session Ann
run
Orders add: (Order new amount: 300)
%
run
Order new amount: 600
%
run
Limits at: #order put: 900
%
run
"This list is no order: it lies in Ann's own segment."
Orders add: (OrderedCollection new add: 40; yourself).
Inbox add: #call
%
commit
