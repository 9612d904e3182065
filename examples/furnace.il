(* A furnace that is held at its set point by a PID controller. The transmitter tells the temperature and a client the
   set point, both in tenths of a degree; the heater takes its power in thousandths. The controller itself computes in
   degrees, per cent and seconds:
       power = GAIN * (error - RATE_TIME * slope of the temperature) + SUM
   where SUM grows by GAIN * error / RESET_TIME each second. It stands still while power is at 0 or 100 per cent, so that
   it doesn't run away while the furnace is heating up. The time from scan to scan is measured: any period will do.
   With AUTO off the power is what the client says at %IW2, and SUM is kept such that AUTO goes on from there, as far as
   a SUM from 0 to 100 per cent can do that. *)
VAR_GLOBAL
  MEASURED AT %IW0   : INT;        (* tenths of a degree *)
  WANTED   AT %IW1   : INT;        (* tenths of a degree *)
  BY_HAND  AT %IW2   : INT;        (* thousandths *)
  AUTO     AT %IX0.0 : BOOL;
  POWER    AT %QW0   : INT;        (* thousandths *)
  REACHED  AT %QX0.0 : BOOL;       (* within half a degree *)

  GAIN       : REAL := 4.0;        (* per cent a degree *)
  RESET_TIME : REAL := 20.0;       (* seconds *)
  RATE_TIME  : REAL := 3.0;        (* seconds *)

  SINCE   : TON;                   (* the time since the last scan *)
  SECONDS : REAL;
  DEGREES : REAL;
  BEFORE  : REAL;                  (* degrees at the last scan *)
  SLOPE   : REAL;                  (* degrees a second *)
  ERROR   : REAL;                  (* degrees below the set point *)
  SUM     : REAL;                  (* per cent *)
  ASKED   : REAL;                  (* per cent, before its limits *)
  GIVEN   : REAL;                  (* per cent *)
END_VAR

         CAL SINCE(IN := TRUE, PT := T#1h)
         LD  SINCE.ET
         TIME_TO_REAL
         DIV 1000.0
         ST  SECONDS
         CAL SINCE(IN := FALSE)    (* and begins anew *)
         CAL SINCE(IN := TRUE)

         LD  MEASURED
         INT_TO_REAL
         DIV 10.0
         ST  DEGREES
         LD  WANTED
         INT_TO_REAL
         DIV 10.0
         SUB DEGREES
         ST  ERROR
         ABS
         LE  0.5
         ST  REACHED

         LD  AUTO
         JMPC CONTROL
         LD  BY_HAND
         INT_TO_REAL
         DIV 10.0
         MAX 0.0
         MIN 100.0
         ST  GIVEN
         SUB( ERROR
         MUL GAIN
         )
         MAX 0.0
         MIN 100.0
         ST  SUM
         JMP DONE

CONTROL: LD  0.0                   (* no slope in the first scan, nor in one at the same moment *)
         ST  SLOPE
         LD  SECONDS
         EQ  0.0
         JMPC ADDED
         LD  DEGREES
         SUB BEFORE
         DIV SECONDS
         ST  SLOPE

ADDED:   LD  ERROR
         SUB( SLOPE
         MUL RATE_TIME
         )
         MUL GAIN
         ADD SUM
         ST  ASKED
         MAX 0.0
         MIN 100.0
         ST  GIVEN
         NE  ASKED                 (* at a limit *)
         JMPC DONE
         LD  ERROR
         MUL GAIN
         DIV RESET_TIME
         MUL SECONDS
         ADD SUM
         ST  SUM

DONE:    LD  DEGREES
         ST  BEFORE
         LD  GIVEN
         MUL 10.0
         REAL_TO_INT
         ST  POWER
