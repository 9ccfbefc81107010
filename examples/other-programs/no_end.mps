* Two feeds for a herd. The last line has been lost.
NAME          FEED
ROWS
 N  COST
 G  ENERGY
 G  FIBRE
COLUMNS
    HAY       COST              0.12   ENERGY            8.5
    HAY       FIBRE              0.3
    MAIZE     COST              0.21   ENERGY           13.5
    MAIZE     FIBRE              0.1
RHS
    RHS       ENERGY             150   FIBRE             3.6
