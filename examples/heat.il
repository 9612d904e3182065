(* The heat meter of a house, as its registers are: flow and both temperatures are REALs of two registers each (in a file
   for plc field `as = "real"`), and the power, the energy and a duration go out in the same way. A client writes how
   much the house may take. If it takes more for half a minute, its valve is throttled until it takes less.
   What is below a watt hour is kept for the next scan, so that over any number of scans nothing is lost. The time from
   scan to scan is measured: any period will do.
   No input stops the program: each is brought within its limits first, and what is no number is read as 0.0, as if the
   meter stood still. *)
VAR_GLOBAL
  FLOW     AT %ID0   : REAL;       (* cubic metres an hour *)
  SUPPLY   AT %ID2   : REAL;       (* degrees *)
  BACK     AT %ID4   : REAL;       (* degrees *)
  AGREED   AT %ID6   : REAL;       (* kilowatts *)
  POWER    AT %QD0   : REAL;       (* kilowatts *)
  ENERGY   AT %QD2   : DINT;       (* watt hours, in nine digits *)
  OVER_FOR AT %QD4   : TIME;       (* how long it has taken more than was agreed, up to half a minute *)
  THROTTLE AT %QX0.0 : BOOL;
  NO_METER AT %QX0.1 : BOOL;       (* it sends no temperatures *)

  WARMTH   : REAL := 1.163;        (* kilowatt hours that a cubic metre of water gives for a degree *)
  SINCE    : TON;                  (* the time since the last scan *)
  OVER     : TON;
  COOLED   : REAL;                 (* degrees *)
  PART     : REAL;                 (* watt hours that aren't in ENERGY yet *)
  WHOLE    : DINT;
  COUNTED  : REAL;
END_VAR

         LD  BACK
         MAX 0.0
         MIN 200.0
         ST  COOLED
         LD  FLOW
         MAX 0.0
         MIN 100.0
         MUL( SUPPLY
         MAX 0.0
         MIN 200.0
         SUB COOLED
         )
         MUL WARMTH
         MAX 0.0                   (* water that comes back warmer counts for nothing *)
         ST  POWER

         CAL SINCE(IN := TRUE, PT := T#1h)
         LD  SINCE.ET
         TIME_TO_REAL
         MUL POWER
         DIV 3600.0                (* kilowatts by milliseconds are watt seconds *)
         ADD PART
         ST  PART
         TRUNC
         ST  WHOLE
         DINT_TO_REAL
         ST  COUNTED
         LD  PART
         SUB COUNTED
         ST  PART
         LD  ENERGY
         ADD WHOLE
         MOD 1000000000
         ST  ENERGY
         CAL SINCE(IN := FALSE)    (* and begins anew *)
         CAL SINCE(IN := TRUE)

         LD  POWER
         GT  AGREED
         ST  OVER.IN
         CAL OVER(PT := T#30s, Q => THROTTLE, ET => OVER_FOR)
         LD  SUPPLY
         EQ  0.0
         AND( BACK
         EQ  0.0
         )
         ST  NO_METER
