session DataCurator
run
"This makes another class of the same name, without methods; the old objects stay of the old one."
Object subclass: #Customer instVarNames: #(name limit) inDictionary: Globals
%
printit
(Customers at: 1) class == Customer
%
printit
(Customers at: 1) class
%
run
Customer new name: 'Cleo'
%
abort
run
"What works: a class under another name, and one new object for each old one."
(Globals includesKey: #Customer2)
  ifFalse: [Object subclass: #Customer2 instVarNames: #(name limit) inDictionary: Globals]
%
classmethod: Customer2
from: old
  "One that is new already stays what it is, so that all of this may be done again."
  ^old class == self
    ifTrue: [old]
    ifFalse: [self new name: old name; limit: 100; yourself]
%
method: Customer2
name
  ^name
%
method: Customer2
name: aString
  name := aString
%
method: Customer2
limit
  ^limit
%
method: Customer2
limit: anInteger
  limit := anInteger
%
run
"Each place that refers to an old one gets the new one of it, so that shared ones stay shared."
| new |
new := IdentityDictionary new.
Customers do: [:each | new at: each put: (Customer2 from: each)].
1 to: Customers size do: [:i | Customers at: i put: (new at: (Customers at: i))].
1 to: Favourites size do: [:i | Favourites at: i put: (new at: (Favourites at: i))].
Globals at: #Customer put: Customer2
%
printit
(Favourites at: 1) == (Customers at: 1)
%
printit
(Customers at: 2) name
%
printit
(Customers at: 2) limit
%
printit
Customer new
%
commit
run
"The same once more: nothing comes of it."
| new |
new := IdentityDictionary new.
Customers do: [:each | new at: each put: (Customer2 from: each)].
1 to: Customers size do: [:i | Customers at: i put: (new at: (Customers at: i))].
1 to: Favourites size do: [:i | Favourites at: i put: (new at: (Favourites at: i))].
Globals at: #Customer put: Customer2
%
printit
(Favourites at: 1) == (Customers at: 1)
%
