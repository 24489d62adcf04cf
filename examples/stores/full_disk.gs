session DataCurator
run
Globals at: #Small put: (Array new: 10)
%
commit
run
"Its record is larger than the log may get here."
Globals at: #Large put: (Array new: 20000)
%
commit
commit
run
Globals at: #Late put: 1
%
commit
checkpoint
abort
printit
"What met the fault isn't in the view, and no later commit is accepted, also where nothing was changed."
Globals includesKey: #Large
%
commit
