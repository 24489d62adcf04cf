session SystemUser
printit
| sum | sum := 0. 1 to: 10 do: [:i | sum := sum + i. sum := sum - 1]. sum
%
printit
| i | i := 0. [i < 5] whileTrue: [i := i + 1]. i >= 5
%
printit
| sum | sum := 1152921504606846970. [true] whileTrue: [sum := sum + 1]
%
printit
| sum | sum := 0. 1 to: 3 do: [:i | sum := sum + #one]. sum
%
printit
| sum | sum := 0. 1 to: 3 do: [:i | i < nil]. sum
%
printit
(1 = 1) & (1 == 1) & (1 <= 2) & (2 > 1) & (3 * 4 = 12) & (1 = #one) not
%
method: SmallInteger
+ other
  ^42
%
printit
1 + 2
%
printit
| sum | sum := 0. 1 to: 3 do: [:i | sum := sum + i]. sum - 1
%
printit
| sum | sum := 3 + 4. SmallInteger removeSelector: #+. sum
%
printit
1 + 2
%
printit
1 - 2
%
printit
3 < 4. SmallInteger removeSelector: #<. 3 < 4
%
method: SmallInteger
< other
  ^other
%
printit
3 < 4
%
