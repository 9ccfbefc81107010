* Which machines a shop rents, how many lots it makes of two parts, and how many hours it works over time, for the greatest
* profit. The rent of the hall, 40, is paid in any case: it stands in RHS with the sign that this program asks for.
NAME          SHOP
OBJSENSE
    MAX
ROWS
 N  PROFIT
 L  HOURS
 L  STEEL
 L  SETUPA
 L  SETUPB
COLUMNS
    M1        'MARKER'                 'INTORG'
    LOTSA     PROFIT              23   HOURS             2.5
    LOTSA     STEEL                7   SETUPA              1
    LOTSB     PROFIT              31   HOURS               4
    LOTSB     STEEL                6   SETUPB              1
    RENTA     PROFIT             -35   SETUPA            -12
    RENTB     PROFIT             -48   SETUPB             -9
    M1        'MARKER'                 'INTEND'
    OVERTIME  PROFIT            -6.5   HOURS              -1
RHS
    RHS       PROFIT              40   HOURS              38
    RHS       STEEL               95
BOUNDS
 UP BND       LOTSA               12
 UP BND       LOTSB                9
 BV BND       RENTA
 BV BND       RENTB
ENDATA
