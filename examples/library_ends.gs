session DataCurator
printit
"The library at its ends: nothing, one, and equal ones. This script is served over a store with the library."
(#() sorted: [:a :b | a < b]) size
%
printit
#(7) sorted: [:a :b | a < b]
%
printit
#(5 3 9 1 3 8 2) sorted: [:a :b | a < b]
%
printit
#('pear' 'fig' 'apple' 'fig' 'date' 'kiwi') sorted: [:a :b | a < b]
%
printit
"Those of the same size stay in their order."
#(pear fig apple plum nut date) sorted: [:a :b | a size < b size]
%
printit
#(pear fig apple plum nut date) sortedByNumber: [:each | each size]
%
printit
"Numbers below zero, and both ends of 44 bits."
#(3 -2 17592186044415 0 -17592186044416 -2) sortedByNumber: [:each | each]
%
printit
(#() sortedByNumber: [:each | each]) size
%
printit
#(pear fig pear apple) sortedByName: [:each | each asString]
%
printit
#() concatenated , (#() join: ', ') , (#(one) join: ', ')
%
printit
#(a b c d e f g) join: '-'
%
printit
('' split: $,) size
%
printit
(',a,,b,' split: $,) asArray
%
printit
('too long' padTo: 3) , ('too long' rightIn: 3) , ('' padTo: 0) , ('x' rightIn: 4)
%
printit
| all |
all := OrderedCollection new.
1 to: 4 by: 3 do: [:i | all add: i].
1 to: 0 by: 1 do: [:i | all add: i].
5 to: 1 by: -2 do: [:i | all add: i].
1 to: 5 by: -1 do: [:i | all add: i].
all asArray
%
printit
| list |
list := #() asOrderedCollection.
list insert: #b at: 1; insert: #a at: 1; insert: #c at: 3.
list asArray
%
run
OrderedCollection new remove: #a
%
run
OrderedCollection new removeAt: 1
%
printit
(#(1 2 3) indexOf: 4) + #() reverse size
%
printit
(#(1 2 3 4) reject: [:each | each even]) asArray
%
printit
"Strings of the same bytes make one group."
(#('a' 'b' 'a') groupBy: [:each | each]) keys
%
printit
| set |
set := Set new.
set add: 'a'; add: 'a'; add: 3; add: nil isNil; remove: 3.
Array with: set size with: ((set includes: 'a') and: [(set includes: 'b') not])
%
run
"nil is no key."
Set new add: nil
%
printit
| stream |
stream := WriteStream new.
stream show: 'a'; cr; show: #b.
Array with: stream contents with: WriteStream new contents
%
printit
(nil ifNil: [3]) + (4 ifNil: [nil])
%
run
#(1 2) detect: [:each | each > 2]
%
