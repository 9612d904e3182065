(* A reservoir of drinking water with two level transmitters of 4 to 20 mA, one for 8 metres and one for 6. The lower
   level counts; of a transmitter that is broken the other one's. The inflow opens below 2.5 m, and closes above 5 m or
   when both are broken. *)
FUNCTION METRES : REAL
  VAR_INPUT CURRENT : INT; FULL : REAL; END_VAR   (* microamperes; metres at 20 mA *)

         LD  CURRENT
         INT_TO_REAL
         SUB 4000.0
         DIV 16000.0
         MUL FULL
         MAX 0.0
         ST  METRES
END_FUNCTION

FUNCTION_BLOCK GAUGE
  VAR_INPUT  CURRENT : INT; FULL : REAL; END_VAR
  VAR_OUTPUT LEVEL : REAL; BROKEN : BOOL; END_VAR
  VAR        LOST : TON; END_VAR

         LD  CURRENT
         LT  3600
         ST  LOST.IN
         CAL LOST(PT := T#1s, Q => BROKEN)
         LD  LOST.IN
         RETC                          (* the level stays as it was *)
         LD  CURRENT
         METRES FULL
         ST  LEVEL
END_FUNCTION_BLOCK

FUNCTION_BLOCK BAND                    (* on below one value, off above another one *)
  VAR_INPUT  VALUE, BELOW, ABOVE : REAL; END_VAR
  VAR_OUTPUT Q : BOOL; END_VAR

         LD  VALUE
         LT  BELOW
         S   Q
         LD  VALUE
         GT  ABOVE
         R   Q
END_FUNCTION_BLOCK

PROGRAM reservoir
  VAR
    CURRENT_A AT %IW0   : INT;
    CURRENT_B AT %IW1   : INT;
    INFLOW    AT %QX0.0 : BOOL;
    LOW       AT %QX0.1 : BOOL;
    BROKEN    AT %QX0.2 : BOOL;
    DIFFER    AT %QX0.3 : BOOL;        (* by more than 30 cm, for ten seconds *)
    MM        AT %QW0   : INT;
    SHOWN     AT %QD2   : REAL;        (* metres *)
    A, B      : GAUGE;
    FILL, SCANTY : BAND;
    LEVEL     : REAL;
    APART     : TON;
  END_VAR

         CAL A(CURRENT := CURRENT_A, FULL := 8.0)
         CAL B(CURRENT := CURRENT_B, FULL := 6.0)
         LD  A.LEVEL
         MIN B.LEVEL
         ST  LEVEL
         LD  A.BROKEN
         SEL LEVEL, B.LEVEL
         ST  LEVEL
         LD  B.BROKEN
         SEL LEVEL, A.LEVEL
         ST  LEVEL
         ST  SHOWN
         MUL 1000.0
         REAL_TO_INT
         ST  MM
         CAL FILL(VALUE := LEVEL, BELOW := 2.5, ABOVE := 5.0)
         CAL SCANTY(VALUE := LEVEL, BELOW := 0.8, ABOVE := 1.0, Q => LOW)
         LD  A.BROKEN
         AND B.BROKEN
         NOT
         AND FILL.Q
         ST  INFLOW
         LD  A.BROKEN
         OR  B.BROKEN
         ST  BROKEN
         LD  A.LEVEL
         SUB B.LEVEL
         ABS
         GT  0.3
         ANDN BROKEN
         ST  APART.IN
         CAL APART(PT := T#10s, Q => DIFFER)
END_PROGRAM
