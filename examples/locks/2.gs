session Erin
lock read Prices
lock write Prices
unlock Prices
printit
Prices at: 1
%
