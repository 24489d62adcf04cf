session DataCurator
run
"Sales come as text, a line for each. This script is served over a store with the library."
Object subclass: #Sale instVarNames: #(customer article pieces price) inDictionary: Globals
%
classmethod: Sale
from: aLine
  ^self new set: (aLine split: $,)
%
method: Sale
set: parts
  parts size = 4 ifFalse: [self error: 'not four parts'].
  customer := parts at: 1.
  article := (parts at: 2) asSymbol.
  pieces := (parts at: 3) asInteger ifNil: [self error: 'no number: ' , (parts at: 3)].
  price := (parts at: 4) asInteger ifNil: [self error: 'no number: ' , (parts at: 4)]
%
method: Sale
customer
  ^customer
%
method: Sale
article
  ^article
%
method: Sale
amount
  ^pieces * price
%
run
| lines |
lines := 'Miller,tea,3,450
Jones,coffee,1,800
Miller,tea,1,450
Adams,sugar,10,120
Jones,tea,2,450' split: 10 asCharacter.
Globals at: #Sales put: (lines collect: [:line | Sale from: line])
%
run
Sale from: 'Jones,tea,two,450'
%
commit
printit
((Sales sorted: [:a :b | a amount > b amount]) collect: [:sale | sale customer]) join: ' '
%
printit
(Sales sortedByNumber: [:sale | sale amount]) collect: [:sale | sale amount]
%
printit
((Sales sortedByName: [:sale | sale customer]) collect: [:sale | sale amount printString]) join: ' '
%
run
"What each customer has bought, in columns."
| groups |
groups := Sales groupBy: [:sale | sale customer].
(groups keys sortedByName: [:name | name]) do: [:name | | sum |
  sum := (groups at: name) inject: 0 into: [:all :sale | all + sale amount].
  Transcript show: (name asString padTo: 10); show: (sum printString rightIn: 6); cr]
%
printit
"Strings of the same bytes are one element of a Set."
| articles |
articles := Set new.
Sales do: [:sale | articles add: sale article asString].
(articles asArray sortedByName: [:each | each]) join: ', '
%
printit
| stream |
stream := WriteStream new.
1 to: 10 by: 3 do: [:i | stream show: i printString; show: ' '].
stream contents
%
printit
(Sales reject: [:sale | sale article = #tea]) size
%
printit
(Sales detect: [:sale | sale amount > 1000]) customer
%
run
Sales detect: [:sale | sale amount > 9000]
%
printit
| list |
list := #(1 2 4 5) asOrderedCollection.
list insert: 3 at: 3; remove: 5; removeAt: 1.
list reverse
%
printit
Array with: $a asString , 'b' with: (#(3 1 2) indexOf: 2)
%
commit
