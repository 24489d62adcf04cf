session DataCurator
run
"A class is made by a message, which puts it under its name into a dictionary."
Object subclass: #Shape instVarNames: #(name) inDictionary: UserGlobals.
Shape subclass: #Square instVarNames: #(side) inDictionary: UserGlobals.
Shape subclass: #Circle instVarNames: #(radius) inDictionary: UserGlobals
%
method: Shape
name: aString
  name := aString
%
method: Shape
describe
  "Each kind of shape has its own area."
  ^name , ' of ' , self area printString
%
classmethod: Square
side: n
  ^self new name: 'square'; side: n; yourself
%
method: Square
side: n
  side := n
%
method: Square
area
  ^side * side
%
method: Square
describe
  ^super describe , ' and sides of ' , side printString
%
classmethod: Circle
radius: n
  ^self new name: 'circle'; radius: n; yourself
%
method: Circle
radius: n
  radius := n
%
method: Circle
area
  "as near as whole numbers come"
  ^radius * radius * 314 // 100
%
printit
(Square side: 3) describe
%
printit
(Circle radius: 10) describe
%
printit
(Circle radius: 10) isKindOf: Shape
%
printit
Square superclass
%
printit
Square selectors
%
printit
Shape new area
%
commit
