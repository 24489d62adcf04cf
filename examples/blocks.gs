session DataCurator
printit
[:x :y | x * y] value: 6 value: 7
%
printit
"A block uses the variables around it, and they stay as it leaves them."
| count next |
count := 0.
next := [count := count + 1].
next value. next value
%
printit
"It takes one argument, and is given none."
[:x | x] value
%
run
Object subclass: #Maker instVarNames: #() inDictionary: UserGlobals
%
method: Maker
make
  ^[^5]
%
printit
"The method make has ended, so there is nothing left to return from."
Maker new make value
%
run
"A block can't be stored in an object: it is gone when its chunk ends."
UserGlobals at: #Later put: [3]
%
