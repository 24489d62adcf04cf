session DataCurator

run
Globals at: #T put: 3. 1152921504606846975 + 1
%
commit
printit
T
%
printit
Globals at: #Total put: (T + 4) * 2.
%
printit
Total + Unknown
%
abort
printit
Total
%
logout
