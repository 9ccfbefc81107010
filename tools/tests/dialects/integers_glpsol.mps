NAME int
ROWS
 N cost
 L c
COLUMNS
 M1 'MARKER' 'INTORG'
 x cost -2 c 1
 M2 'MARKER' 'INTEND'
 y cost -1 c 1
RHS
 RHS1 c 7.5
ENDATA
