session DataCurator
run
Object subclass: #Customer instVarNames: #(name) inDictionary: Globals.
Globals at: #Customers put: OrderedCollection new; at: #Favourites put: OrderedCollection new
%
method: Customer
name
  ^name
%
method: Customer
name: aString
  name := aString
%
run
Customers add: (Customer new name: 'Ann'); add: (Customer new name: 'Bob').
Favourites add: (Customers at: 1)
%
commit
