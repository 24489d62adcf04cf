session DataCurator
run
"Prices refers to an object, and Rate to an integer."
Globals at: #Prices put: (Array new: 2).
Globals at: #Rate put: 5.
UserProfile newUser: #Erin
%
lock write Prices
commit
lock read Prices
lock write Prices
lock read Prices
run
Prices at: 1 put: 12
%
commit
unlock Prices
unlock Prices
lock read Rate
lock read Nowhere
lock read Prices
