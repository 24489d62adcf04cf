session DataCurator
printit
"A loop takes one unit, and one more for each turn. A chunk has 1,000,000."
1 to: 999999 do: [:i | ]
%
run
"Here the at:put: takes one, so that the last turn has none."
UserGlobals at: #K put: 7. 1 to: 999999 do: [:i | ]
%
printit
"What was done before the error stays."
K
%
printit
"The chunk is the first activation, and each evaluation of the block one more: 2,000 may live at once."
| down |
down := [:n | n = 0 ifTrue: [0] ifFalse: [down value: n - 1]].
down value: 1998
%
printit
| down |
down := [:n | n = 0 ifTrue: [0] ifFalse: [down value: n - 1]].
down value: 1999
%
run
"A string takes a slot, and one for each 8 bytes. A chunk may take 4,000,000."
31 timesRepeat: [String new: 1048000]
%
