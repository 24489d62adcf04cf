session DataCurator
run
"Ten numbers, of which each chunk takes four: as many as its budget allows."
| numbers |
numbers := Array new: 10.
1 to: 10 do: [:i | numbers at: i put: i * i].
Globals at: #Numbers put: numbers.
UserGlobals at: #Next put: 1; at: #Sum put: 0
%
commit
run
| sum last |
sum := Sum.
last := Next + 3 min: Numbers size.
Next to: last do: [:i | sum := sum + (Numbers at: i)].
UserGlobals at: #Sum put: sum; at: #Next put: last + 1
%
printit
Sum
%
run
| sum last |
sum := Sum.
last := Next + 3 min: Numbers size.
Next to: last do: [:i | sum := sum + (Numbers at: i)].
UserGlobals at: #Sum put: sum; at: #Next put: last + 1
%
run
| sum last |
sum := Sum.
last := Next + 3 min: Numbers size.
Next to: last do: [:i | sum := sum + (Numbers at: i)].
UserGlobals at: #Sum put: sum; at: #Next put: last + 1
%
run
"More often than needed does no harm."
| sum last |
sum := Sum.
last := Next + 3 min: Numbers size.
Next to: last do: [:i | sum := sum + (Numbers at: i)].
UserGlobals at: #Sum put: sum; at: #Next put: last + 1
%
printit
Sum
%
printit
Next
%
commit
