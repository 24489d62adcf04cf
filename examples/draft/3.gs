session DataCurator
run
"A draft: no older one is left over."
UserGlobals at: #Draft put: nil
%
run
| sales |
sales := OrderedCollection new.
1 to: 5 do: [:i | sales add: 100 // (3 - i)].
UserGlobals at: #Draft put: sales
%
run
Draft isNil ifTrue: [self error: 'the draft failed'].
Globals at: #Sales put: Draft.
UserGlobals at: #Draft put: nil
%
commit
printit
Sales
%
run
UserGlobals at: #Draft put: nil
%
run
| sales |
sales := Array new: 2.
1 to: 2 do: [:i | sales at: i put: 100 // (3 - i)].
UserGlobals at: #Draft put: sales
%
run
Draft isNil ifTrue: [self error: 'the draft failed'].
Globals at: #Sales put: Draft.
UserGlobals at: #Draft put: nil
%
commit
printit
Sales
%
