session SystemUser
method: Object
asKey
  "What stands for it where keys go by identity."
  ^self
%
method: String
asKey
  ^self asSymbol
%
method: Object
ifNil: aBlock
  ^self
%
method: UndefinedObject
ifNil: aBlock
  ^aBlock value
%
method: Character
asString
  ^(String new: 1) at: 1 put: self; yourself
%
method: SmallInteger
to: limit by: step do: aBlock
  0 to: limit - self // step do: [:i | aBlock value: self + (i * step)]
%
classmethod: Array
with: first with: second
  ^(self new: 2) at: 1 put: first; at: 2 put: second; yourself
%
method: SequenceableCollection
asArray
  ^self collect: [:each | each]
%
method: SequenceableCollection
asOrderedCollection
  ^OrderedCollection new addAll: self; yourself
%
method: SequenceableCollection
detect: aBlock
  ^self detect: aBlock ifNone: [self error: 'nothing is detected']
%
method: SequenceableCollection
reject: aBlock
  ^self select: [:each | (aBlock value: each) not]
%
method: SequenceableCollection
doWithIndex: aBlock
  1 to: self size do: [:i | aBlock value: (self at: i) value: i]
%
method: SequenceableCollection
do: aBlock separatedBy: another
  self doWithIndex: [:each :i |
    i > 1 ifTrue: [another value].
    aBlock value: each]
%
method: SequenceableCollection
indexOf: anObject
  "0 where it isn't there."
  1 to: self size do: [:i | (self at: i) = anObject ifTrue: [^i]].
  ^0
%
method: SequenceableCollection
reverse
  "An Array."
  | reversed after |
  reversed := Array new: self size.
  after := self size + 1.
  1 to: self size do: [:i | reversed at: i put: (self at: after - i)].
  ^reversed
%
method: OrderedCollection
addAll: aCollection
  aCollection do: [:each | self add: each]
%
method: OrderedCollection
insert: anObject at: index
  "Those from the index on move up."
  self add: anObject.
  self size to: index + 1 by: -1 do: [:i | self at: i put: (self at: i - 1)].
  self at: index put: anObject
%
method: OrderedCollection
removeAt: index
  "Those after it move down."
  | removed |
  removed := self at: index.
  index to: self size - 1 do: [:i | self at: i put: (self at: i + 1)].
  self removeLast.
  ^removed
%
method: OrderedCollection
remove: anObject
  | index |
  index := self indexOf: anObject.
  index = 0 ifTrue: [self error: 'not there: ' , anObject printString].
  ^self removeAt: index
%
method: SequenceableCollection
groupBy: aBlock
  "A dictionary of OrderedCollections by what the block answers; strings as their Symbols."
  | groups |
  groups := IdentityDictionary new.
  self do: [:each | | key |
    key := (aBlock value: each) asKey.
    (groups includesKey: key) ifFalse: [groups at: key put: OrderedCollection new].
    (groups at: key) add: each].
  ^groups
%
method: SequenceableCollection
sorted: comesBefore
  "A new Array. The block tells whether its first argument comes before the second; where neither
  does, they stay in their order."
  | from into width |
  from := self asArray.
  into := Array new: self size.
  width := 1.
  [width < self size] whileTrue: [ | done |
    1 to: self size by: width * 2 do: [:first |
      from merge: first with: first + width to: (first + width + width - 1 min: self size)
        into: into by: comesBefore].
    done := into.
    into := from.
    from := done.
    width := width * 2].
  ^from
%
method: Array
merge: first with: second to: last into: anArray by: comesBefore
  "Two sorted parts become one: from the first to before the second, and from the second to the last."
  | left right |
  left := first.
  right := second.
  first to: last do: [:place |
    (right > last or: [left < second
      and: [(comesBefore value: (self at: right) value: (self at: left)) not]])
      ifTrue: [anArray at: place put: (self at: left). left := left + 1]
      ifFalse: [anArray at: place put: (self at: right). right := right + 1]]
%
method: SequenceableCollection
sortedByNumber: aBlock
  "A new Array by what the block answers, an integer of at most 44 bits. A bag of integers has them in
  ascending order; each is the number and the element's index."
  | bag |
  bag := RcIdentityBag new.
  self doWithIndex: [:each :i | bag add: (aBlock value: each) * 65536 + i].
  ^bag asArray collect: [:key | self at: key \\ 65536]
%
method: SequenceableCollection
sortedByName: aBlock
  "A new Array by what the block answers, a String or Symbol, by bytes."
  | groups names sorted |
  groups := self groupBy: aBlock.
  names := RcIdentityBag new.
  groups keys do: [:key | names add: key].
  sorted := OrderedCollection new.
  names do: [:key | sorted addAll: (groups at: key)].
  ^sorted asArray
%
method: SequenceableCollection
concatenated
  "The texts in it as one String. They are put together two by two, so each byte is copied seldom."
  | texts |
  texts := self.
  [texts size > 1] whileTrue: [texts := texts inPairs].
  ^texts isEmpty ifTrue: [''] ifFalse: [texts first asString]
%
method: SequenceableCollection
inPairs
  | size pairs |
  size := self size.
  pairs := Array new: size + 1 // 2.
  1 to: size // 2 do: [:i | pairs at: i put: (self at: i * 2 - 1) , (self at: i * 2)].
  size odd ifTrue: [pairs at: pairs size put: self last].
  ^pairs
%
method: SequenceableCollection
join: aText
  "The texts in it as one String, with this one between them."
  | texts |
  texts := OrderedCollection new.
  self do: [:each | texts add: each] separatedBy: [texts add: aText].
  ^texts concatenated
%
classmethod: String
blanks: size
  | blanks |
  blanks := self new: (size max: 0).
  1 to: size do: [:i | blanks at: i put: $ ].
  ^blanks
%
method: String
padTo: width
  "With blanks after it."
  ^self , (String blanks: width - self size)
%
method: String
rightIn: width
  "With blanks before it."
  ^(String blanks: width - self size) , self
%
method: String
split: aCharacter
  "An OrderedCollection of the parts between these, empty ones too."
  | parts first |
  parts := OrderedCollection new.
  first := 1.
  1 to: self size do: [:i |
    (self at: i) = aCharacter ifTrue: [
      parts add: (self copyFrom: first to: i - 1).
      first := i + 1]].
  parts add: (self copyFrom: first to: self size).
  ^parts
%
commit
