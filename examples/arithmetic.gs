session DataCurator
printit
3 -4
%
printit
1152921504606846975 + 1
%
printit
0 - 1152921504606846975 - 1
%
printit
2 * 3 + 4 * 5

  - 8
%
printit
-7 // 2
%
printit
-7 \\ 2
%
printit
-7 quo: 2
%
printit
-7 rem: 2
%
printit
7 // 0
%
printit
3 + 4 max: 9
%
printit
255 printString: 16
%
