session Ann
run
"The journal isn't hers, but what she made is, there too."
Journal removeLast
%
printit
Mine amount: 3 text: 'rent'. (Journal at: 1) amount
%
run
"The right way: she hands in an array of an integer and a text."
| posting |
posting := Array new: 2.
posting at: 1 put: 300; at: 2 put: 'rent'.
UserGlobals at: #Mine put: posting.
Inbox add: posting
%
commit
