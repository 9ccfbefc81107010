* Goods from three works to four towns. The works' tons are the sums of those of the towns in more than one way, so that a
* plan may have fewer lines in use than rows: the method then takes steps that do not move.
NAME          ROADS
ROWS
 N  COST
 E  FROMA
 E  FROMB
 E  FROMC
 E  TOP
 E  TOQ
 E  TOR
 E  TOS
COLUMNS
    AP        COST                 4   FROMA               1
    AP        TOP                  1
    AQ        COST                 4   FROMA               1
    AQ        TOQ                  1
    AR        COST                 7   FROMA               1
    AR        TOR                  1
    AS        COST                 7   FROMA               1
    AS        TOS                  1
    BP        COST                 5   FROMB               1
    BP        TOP                  1
    BQ        COST                 5   FROMB               1
    BQ        TOQ                  1
    BR        COST                 4   FROMB               1
    BR        TOR                  1
    BS        COST                 4   FROMB               1
    BS        TOS                  1
    CP        COST                 6   FROMC               1
    CP        TOP                  1
    CQ        COST                 6   FROMC               1
    CQ        TOQ                  1
    CR        COST                 5   FROMC               1
    CR        TOR                  1
    CS        COST                 5   FROMC               1
    CS        TOS                  1
RHS
    RHS       FROMA               20   FROMB              20
    RHS       FROMC               20   TOP                10
    RHS       TOQ                 10   TOR                20
    RHS       TOS                 20
ENDATA
