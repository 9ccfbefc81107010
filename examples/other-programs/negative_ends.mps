* A lake's level, in metres from the middle one, at the ends of four months. What flows in is known; what is let out makes
* power, and what is wanting is bought. The level begins at 0.5, lies between -3 and 2, and is at most -1 at the end.
NAME          LAKE
ROWS
 N  BOUGHT
 E  WATER1
 E  WATER2
 E  WATER3
 E  WATER4
 E  POWER1
 E  POWER2
 E  POWER3
 E  POWER4
COLUMNS
    LEVEL0    WATER1              -1
    LEVEL1    WATER1               1   WATER2             -1
    LEVEL2    WATER2               1   WATER3             -1
    LEVEL3    WATER3               1   WATER4             -1
    LEVEL4    WATER4               1
    OUT1      WATER1               1   POWER1             12
    OUT2      WATER2               1   POWER2             12
    OUT3      WATER3               1   POWER3             12
    OUT4      WATER4               1   POWER4             12
    BUY1      BOUGHT              31   POWER1              1
    BUY2      BOUGHT              44   POWER2              1
    BUY3      BOUGHT            27.5   POWER3              1
    BUY4      BOUGHT              38   POWER4              1
RHS
    RHS       WATER1             0.4   WATER2           -0.2
    RHS       WATER3            -0.6   WATER4            1.1
    RHS       POWER1              20   POWER2             26
    RHS       POWER3              24   POWER4             18
BOUNDS
 FX BND       LEVEL0             0.5
 LO BND       LEVEL1              -3
 UP BND       LEVEL1               2
 LO BND       LEVEL2              -3
 UP BND       LEVEL2               2
 LO BND       LEVEL3              -3
 UP BND       LEVEL3               2
 UP BND       LEVEL4              -1
 UP BND       OUT1              1e30
 UP BND       BUY1                10
ENDATA
