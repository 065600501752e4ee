# A ring of eight slots holds seven items.
ring power 8
put bulk a b c d e f g h
put burst a b c d e f g h
count
take bulk 3
take burst 9
