(* A cistern with a conical bottom, in metres and cubic metres. The transmitter is one of 4 to 20 mA and comes in
   microamperes; 4 mA is the tip of the cone and 20 mA 5 m above it. The pump fills from 1.2 m up to 4.5 m. A current
   that no transmitter gives stops it, since then nobody knows the depth.
   The outlet is a hole in the tip, so what flows out follows from the depth alone: AREA_OUT * SQRT(2 * g * depth).
   Shown are the depth in millimetres, the contents in tenths of a cubic metre, and what flows out in litres a minute.
   No input stops the program: a depth is never below 0, nor above 9 m. *)
VAR_GLOBAL
  CURRENT  AT %IW0   : INT;        (* microamperes *)
  PUMP     AT %QX0.0 : BOOL;
  TOO_LOW  AT %QX0.1 : BOOL;
  TOO_HIGH AT %QX0.2 : BOOL;
  BROKEN   AT %QX0.3 : BOOL;       (* the transmitter or its wire *)
  DEPTH_MM AT %QW0   : INT;
  CONTENTS AT %QW1   : INT;        (* tenths of a cubic metre *)
  OUTFLOW  AT %QW2   : INT;        (* litres a minute *)

  RANGE    : REAL := 5.0;          (* metres at 20 mA *)
  FILL_AT  : REAL := 1.2;          (* metres *)
  FULL_AT  : REAL := 4.5;
  LOW_AT   : REAL := 0.6;
  HIGH_AT  : REAL := 4.8;
  CONE     : REAL := 0.9;          (* height of the cone, metres *)
  AREA     : REAL := 3.1415927;    (* above the cone, square metres: 2 m across *)
  AREA_OUT : REAL := 5.0E-4;       (* square metres *)

  DEPTH    : REAL;                 (* metres *)
  VOLUME   : REAL;                 (* cubic metres *)
END_VAR

         LD  CURRENT
         INT_TO_REAL
         SUB 4000.0
         DIV 16000.0
         MUL RANGE
         MAX 0.0
         ST  DEPTH

         LD  DEPTH                 (* between the two limits the pump stays as it was *)
         LT  FILL_AT
         S   PUMP
         LD  DEPTH
         GT  FULL_AT
         R   PUMP
         LD  DEPTH
         LT  LOW_AT
         ST  TOO_LOW
         LD  DEPTH
         GT  HIGH_AT
         ST  TOO_HIGH
         LD  CURRENT
         LT  3600
         OR( CURRENT
         GT  21000
         )
         ST  BROKEN
         R   PUMP

         LD  DEPTH
         LT  CONE
         JMPC IN_CONE
         LD  DEPTH                 (* a cone holds a third of what a cylinder of its height does *)
         SUB( CONE
         MUL 2.0
         DIV 3.0
         )
         MUL AREA
         ST  VOLUME
         JMP SHOW
IN_CONE: LD  DEPTH                 (* at a share of its height the cone is as wide as that share *)
         DIV CONE
         ST  VOLUME
         MUL VOLUME
         MUL AREA
         MUL DEPTH
         DIV 3.0
         ST  VOLUME

SHOW:    LD  DEPTH
         MUL 1000.0
         REAL_TO_INT
         ST  DEPTH_MM
         LD  VOLUME
         MUL 10.0
         REAL_TO_INT
         ST  CONTENTS
         LD  DEPTH
         MUL 2.0
         MUL 9.81
         SQRT
         MUL AREA_OUT
         MUL 60000.0               (* cubic metres a second to litres a minute *)
         REAL_TO_INT
         ST  OUTFLOW
