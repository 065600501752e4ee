# A ring for exactly five items has eight slots; after a refused size the previous ring stays.
ring exact 5
put burst a b c d e f
ring power 6
ring power 2097152
count
take burst 2
