session DataCurator

run
session x
commit
 %
%
commit
printit
3 foo: 4 +

%
classmethod: Object
%
method: Object
  twice
	^self * * 2
%
printit
'................................................................................................' + + 3
%
run
Globals at: #T put: 3
commit
printit
T
%
abort
session DataCurator
lock write T
logout
session Nobody
commit
logout
