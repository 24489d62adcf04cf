session DataCurator
run
3 fly
%
run
Nowhere + 1
%
run
3 ifTrue: [4]
%
run
#(1 2) at: 3
%
run
3 + 'four'
%
run
1 bitShift: 60
%
run
1 // 0
%
run
[:x | x] value
%
run
Object removeSelector: #isNil
%
run
(Array new: 1) at: 1 put: [3]
%
run
String new: 1048556
%
run
IdentityDictionary new at: #a
%
run
Segment new assignToSegment: Segment new
%
run
3 error: 'no such day'
%
