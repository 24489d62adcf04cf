session DataCurator
run
Object subclass: #Sieve instVarNames: #() inDictionary: UserGlobals.
Object subclass: #Permute instVarNames: #(count values) inDictionary: UserGlobals.
Object subclass: #Queens instVarNames: #(rows maxs mins places) inDictionary: UserGlobals.
Object subclass: #Disk instVarNames: #(size next) inDictionary: UserGlobals.
Object subclass: #Towers instVarNames: #(piles moved) inDictionary: UserGlobals.
Object subclass: #Element instVarNames: #(value next) inDictionary: UserGlobals.
Object subclass: #ListRun instVarNames: #() inDictionary: UserGlobals.
Object subclass: #Random instVarNames: #(seed) inDictionary: UserGlobals.
Object subclass: #Storage instVarNames: #(count) inDictionary: UserGlobals.
Object subclass: #Ball instVarNames: #(x y xSpeed ySpeed) inDictionary: UserGlobals.
Object subclass: #Bounce instVarNames: #() inDictionary: UserGlobals.
Object subclass: #Point instVarNames: #(x) inDictionary: UserGlobals.
UserGlobals at: #Items put: (Array new: 10).
UserGlobals at: #Origin put: Point new
%
method: Sieve
run
  | flags count |
  flags := Array new: 5000.
  1 to: 5000 do: [:i | flags at: i put: true].
  count := 0.
  2 to: 5000 do: [:i |
    (flags at: i - 1) ifTrue: [ | k |
      count := count + 1.
      k := i + i.
      [k <= 5000] whileTrue: [flags at: k - 1 put: false. k := k + i]]].
  ^count
%
method: Permute
run
  count := 0.
  values := Array new: 6.
  1 to: 6 do: [:i | values at: i put: i - 1].
  self permute: 6.
  ^count
%
method: Permute
permute: n
  | i |
  count := count + 1.
  n = 0 ifTrue: [^self].
  self permute: n - 1.
  i := n.
  [i >= 1] whileTrue: [
    self swap: n with: i.
    self permute: n - 1.
    self swap: n with: i.
    i := i - 1]
%
method: Permute
swap: i with: j
  | kept |
  kept := values at: i.
  values at: i put: (values at: j).
  values at: j put: kept
%
method: Queens
run
  rows := self free: 8.
  maxs := self free: 16.
  mins := self free: 16.
  places := Array new: 8.
  ^self place: 1
%
method: Queens
free: size
  | list |
  list := Array new: size.
  1 to: size do: [:i | list at: i put: true].
  ^list
%
method: Queens
place: column
  1 to: 8 do: [:row |
    (self isFree: row column: column) ifTrue: [
      places at: row put: column.
      self set: row column: column to: false.
      column = 8 ifTrue: [^true].
      (self place: column + 1) ifTrue: [^true].
      self set: row column: column to: true]].
  ^false
%
method: Queens
isFree: row column: column
  ^(rows at: row) and: [(maxs at: column + row) and: [mins at: column - row + 8]]
%
method: Queens
set: row column: column to: free
  rows at: row put: free.
  maxs at: column + row put: free.
  mins at: column - row + 8 put: free
%
method: Disk
size
  ^size
%
method: Disk
size: number
  size := number
%
method: Disk
next
  ^next
%
method: Disk
next: disk
  next := disk
%
method: Towers
run
  piles := Array new: 3.
  self build: 1 disks: 10.
  moved := 0.
  self move: 10 from: 1 to: 2.
  ^moved
%
method: Towers
build: pile disks: disks
  | left |
  left := disks.
  [left >= 1] whileTrue: [ | disk |
    disk := Disk new.
    disk size: left.
    self push: disk on: pile.
    left := left - 1]
%
method: Towers
push: disk on: pile
  | top |
  top := piles at: pile.
  top notNil ifTrue: [disk size >= top size ifTrue: [self error: 'a large disk on a small one']].
  disk next: top.
  piles at: pile put: disk
%
method: Towers
pop: pile
  | top |
  top := piles at: pile.
  top isNil ifTrue: [self error: 'no disk'].
  piles at: pile put: top next.
  top next: nil.
  ^top
%
method: Towers
moveTop: source to: target
  self push: (self pop: source) on: target.
  moved := moved + 1
%
method: Towers
move: disks from: source to: target
  | other |
  disks = 1 ifTrue: [^self moveTop: source to: target].
  other := 6 - source - target.
  self move: disks - 1 from: source to: other.
  self moveTop: source to: target.
  self move: disks - 1 from: other to: target
%
method: Element
value
  ^value
%
method: Element
value: number
  value := number
%
method: Element
next
  ^next
%
method: Element
next: element
  next := element
%
method: Element
length
  next isNil ifTrue: [^1].
  ^1 + next length
%
method: ListRun
run
  ^(self tail: (self make: 15) and: (self make: 10) and: (self make: 6)) length
%
method: ListRun
make: length
  | element |
  length = 0 ifTrue: [^nil].
  element := Element new.
  element value: length.
  element next: (self make: length - 1).
  ^element
%
method: ListRun
is: x shorterThan: y
  | one other |
  one := x.
  other := y.
  [other notNil] whileTrue: [
    one isNil ifTrue: [^true].
    one := one next.
    other := other next].
  ^false
%
method: ListRun
tail: x and: y and: z
  (self is: y shorterThan: x) ifFalse: [^z].
  ^self
    tail: (self tail: x next and: y and: z)
    and: (self tail: y next and: z and: x)
    and: (self tail: z next and: x and: y)
%
method: Random
start
  seed := 74755
%
method: Random
next
  seed := (seed * 1309) + 13849 bitAnd: 65535.
  ^seed
%
method: Storage
run
  | random |
  random := Random new.
  random start.
  count := 0.
  self build: 7 by: random.
  ^count
%
method: Storage
build: depth by: random
  | list |
  count := count + 1.
  depth = 1 ifTrue: [^Array new: random next \\ 10 + 1].
  list := Array new: 4.
  1 to: 4 do: [:i | list at: i put: (self build: depth - 1 by: random)].
  ^list
%
method: Ball
start: random
  x := random next \\ 500.
  y := random next \\ 500.
  xSpeed := random next \\ 300 - 150.
  ySpeed := random next \\ 300 - 150
%
method: Ball
bounce
  | bounced |
  bounced := false.
  x := x + xSpeed.
  y := y + ySpeed.
  x > 500 ifTrue: [x := 500. xSpeed := 0 - xSpeed abs. bounced := true].
  x < 0 ifTrue: [x := 0. xSpeed := xSpeed abs. bounced := true].
  y > 500 ifTrue: [y := 500. ySpeed := 0 - ySpeed abs. bounced := true].
  y < 0 ifTrue: [y := 0. ySpeed := ySpeed abs. bounced := true].
  ^bounced
%
method: Bounce
run
  | random balls bounces |
  random := Random new.
  random start.
  balls := Array new: 100.
  1 to: 100 do: [:i | | ball |
    ball := Ball new.
    ball start: random.
    balls at: i put: ball].
  bounces := 0.
  1 to: 50 do: [:i |
    balls do: [:ball | ball bounce ifTrue: [bounces := bounces + 1]]].
  ^bounces
%
method: Point
me
  ^self
%
method: Point
kept
  | t |
  t := self.
  ^t
%
method: Point
first: a second: b
  | t |
  t := a.
  ^t
%
method: Point
x
  ^x
%
method: Point
x: value
  x := value
%
commit
