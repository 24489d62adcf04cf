session DataCurator
printit
#(1 2 3 4 5) collect: [:n | n * n]
%
printit
#(3 1 4 1 5) inject: 0 into: [:sum :n | sum + n]
%
printit
(#(3 1 4 1 5) select: [:n | n > 2]) size
%
printit
#(3 1 4) detect: [:n | n > 9] ifNone: ['none']
%
printit
"Between the parentheses names and selectors are symbols, and an inner array needs no #."
#(1 $a 'text' name at:put: + (2 3) nil true)
%
printit
#(3 1 4) at: 4
%
printit
"An OrderedCollection grows at both ends. It is printed by its class alone."
| line |
line := OrderedCollection new.
line add: 'Ann'; add: 'Bob'; addFirst: 'Cyd'.
Transcript show: line removeFirst; cr.
line
%
printit
"A dictionary keeps its keys in the order in which they came."
| ages |
ages := IdentityDictionary new.
ages at: #Ann put: 30; at: #Bob put: 41; at: #Ann put: 31.
ages keysAndValuesDo: [:name :age | Transcript show: name; show: ' '; show: age printString; cr].
ages keys
%
printit
"Strings are equal by their bytes. Each that is written out is an object of its own."
| a b |
a := 'tea'.
b := 'tea'.
(a = b) & (a == b) not
%
printit
'smalltalk' copyFrom: 1 to: 5
%
