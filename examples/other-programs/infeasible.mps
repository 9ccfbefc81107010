* Nurses for three shifts of a day. A nurse works two shifts that follow each other. Each shift wants so many, and there are
* 19 in all.
NAME          NURSES
ROWS
 N  PAY
 G  MORNING
 G  EVENING
 G  NIGHT
 L  ALL
COLUMNS
    EARLY     PAY                 21   MORNING             1
    EARLY     EVENING              1   ALL                 1
    LATE      PAY                 24   EVENING             1
    LATE      NIGHT                1   ALL                 1
    OVER      PAY                 26   NIGHT               1
    OVER      MORNING              1   ALL                 1
RHS
    RHS       MORNING             14   EVENING            16
    RHS       NIGHT               10   ALL                19
ENDATA
