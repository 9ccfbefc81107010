* Two presses for three parts. The bounds stand before the right hand sides.
NAME          PRESSES
ROWS
 N  COST
 G  LIDS
 G  RIMS
 G  RINGS
COLUMNS
    OLD       COST                90   LIDS               30
    OLD       RIMS                20   RINGS              10
    NEW       COST               120   LIDS               20
    NEW       RIMS                45   RINGS              40
BOUNDS
 UP BND       OLD                 40
 UP BND       NEW                 35
RHS
    RHS       LIDS              1100   RIMS              900
    RHS       RINGS              700
ENDATA
