session DataCurator
run
"The % after this chunk is missing, so that it goes on to the next one."
Globals at: #T put: 3
commit
printit
T
%
run
Globals at: #T put: 3.
commit
printit
T
%
method: Object
first
  ^1
method: Object
second
  ^2
%
run
"The error is that of a message within the kernel's method."
3 timesRepeat: 4
%
run
$a < 3
%
run
#(1 2) do: 3
%
run
Collection new size
%
run
"Which of the two? What was shown before the error is shown."
| list |
list := OrderedCollection new.
Transcript show: 'first'; cr.
list add: 3; removeFirst.
Transcript show: 'second'; cr.
list removeFirst.
Transcript show: 'third'; cr
%
run
"One's own error says more than E18."
| prices |
prices := IdentityDictionary new.
prices at: #tea ifAbsent: [self error: 'no price of tea']
%
abort
