session DataCurator
run
"Elements of a Set are the same where their keys are, and a stream collects texts."
Object subclass: #Set instVarNames: #(items) inDictionary: Globals.
Object subclass: #WriteStream instVarNames: #(texts) inDictionary: Globals
%
classmethod: Set
new
  ^super new begin
%
method: Set
begin
  items := IdentityDictionary new
%
method: Set
add: anObject
  items at: anObject asKey put: anObject.
  ^anObject
%
method: Set
includes: anObject
  ^items includesKey: anObject asKey
%
method: Set
remove: anObject
  ^items removeKey: anObject asKey
%
method: Set
size
  ^items size
%
method: Set
asArray
  ^items values
%
classmethod: WriteStream
new
  ^super new begin
%
method: WriteStream
begin
  texts := OrderedCollection new
%
method: WriteStream
show: aText
  texts add: aText
%
method: WriteStream
cr
  texts add: '
'
%
method: WriteStream
contents
  ^texts concatenated
%
commit
