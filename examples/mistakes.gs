session DataCurator
printit
3 +
%
printit
3 + - 4
%
printit
(3 + 4
%
printit
[3 + 4
%
printit
3 + 'it
%
printit
1152921504606846976
%
printit
| a a | 3
%
printit
self := 3
%
printit
3 + }
%
method: Account
balance
  ^balance
  }
%
