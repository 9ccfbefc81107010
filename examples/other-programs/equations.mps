* A hundred kilograms of brass from five lots of scrap, at the least cost. Mass and copper are met exactly, lead is at most
* 1.5 kilograms. No column has a bound, so each goes from 0 to infinity.
NAME          BRASS
ROWS
 N  COST
 E  MASS
 E  COPPER
 L  LEAD
COLUMNS
    WIRE      COST              7.25   MASS               1.0
    WIRE      COPPER           0.995
    PIPES     COST              5.80   MASS               1.0
    PIPES     COPPER            0.86   LEAD             0.012
    TAPS      COST              4.10   MASS               1.0
    TAPS      COPPER            0.59   LEAD             0.028
    SHELLS    COST              4.75   MASS               1.0
    SHELLS    COPPER            0.70   LEAD             0.001
    ZINC      COST              2.60   MASS               1.0
    ZINC      LEAD             0.006
RHS
    RHS       MASS             100.0   COPPER            64.0
    RHS       LEAD               1.5
ENDATA
