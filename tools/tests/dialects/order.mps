* Sections in another order, the sense in other letters, infinities as words, and endless ranges and sides.
NAME ORDER
ROWS
 N COST
 L FIRST
 E SECOND
 E THIRD
 L FREE
COLUMNS
 X COST 1 FIRST 1
 X SECOND 1 THIRD 1
 Y COST 2 FIRST 1
 Y FREE 1
BOUNDS
 UP BND X Inf
 LO BND Y -infinity
RANGES
 RNG FIRST 1e30 SECOND inf
 RNG THIRD -1e30
RHS
 RHS FIRST 10 SECOND -2
 RHS THIRD 30 FREE 1e30
OBJSENSE
    Maximise
ENDATA
