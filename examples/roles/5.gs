session Max
run
Limits at: #order put: 800
%
run
Orders removeLast
%
commit
