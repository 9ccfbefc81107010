* A loan in two currencies. The rate of one has seven decimals.
NAME          LOAN
ROWS
 N  INTEREST
 G  EUROS
 L  SHARE
COLUMNS
    HOME      INTEREST         0.041   EUROS               1
    ABROAD    INTEREST         0.033   EUROS       0.8934173
    ABROAD    SHARE                1
RHS
    RHS       EUROS           250000   SHARE          120000
ENDATA
